"""tools/fuzz: small C programs with each fault that it looks for, and the built program on two thousand inputs."""
import os
import random
import re
import shutil
import subprocess
import tempfile
import unittest
import unittest.mock

import support
from lib import grammar, program, random_programs
from lib.fuzzing import answers, beside, changes, commands, inputs, runner

# A program that takes each source: it has some of the commands, and no class. What stands for FAULT comes once words and text are read.
TAKING = r"""
#include <signal.h>
#include <stdio.h>
#include <stdlib.h>
#include <string.h>
#include <time.h>
#include <unistd.h>

static char text[300000];

static int is(const char *word, const char *other) { return strcmp(word, other) == 0; }

static int end(const char *lines, int status) {
    fputs(lines, stdout);
    fflush(stdout);
    return status;
}

int main(int count, char **words) {
    const char *command = count > 1 ? words[1] : "";
    for (int i = 1; i < count; i++)
        if (is(words[i], "run") || is(words[i], "paths") || is(words[i], "gen"))
            command = words[i];
    size_t size = is(command, "gen") ? 0 : fread(text, 1, sizeof text, stdin);
    FAULT;
    if (is(command, "check"))
        return end("0 classes\n", 0);
    if (is(command, "run") || is(command, "paths"))
        return end("1\n", 0);
    if (is(command, "gen"))
        return end("classes 3\nsteps 24\nlines 2\nlast 1\n", 0);
    return is(command, "layout") || is(command, "tables") ? end("", 0) : end("usage\n", 2);
}
"""

# for each fault the command that meets it, and what is told; the text has more than 20 bytes and is taken
FAULTS = {
    "raise(SIGSEGV)": ("check", "ended by signal 11"),
    "return end(\"\", 77)": ("check", "status 77 is none of those that are stated"),
    "fputs(\"assertion\", stderr)": ("check", "9 bytes on standard error: b'assertion'"),
    "return end(\"0 classes\", 0)": ("check", "status 0, but the last line has no end"),
    "return end(\"no classes\\n\", 0)": ("check", "status 0, but no line of check is like 'no classes'"),
    "return end(\"\", 6)": ("check", "status 6, but nothing failed, and there was memory"),
    "return end(\"\", 9)": ("check", "status 9, but all words are text"),
    "return end(\"refused E2 Syntax at 999999\\n\", 1)": ("check", "status 1, but the place 999999 is behind the text"),
    "return end(\"refused E2 Lex at 0\\n\", 1)": ("check", "status 1, but there is no rule 'refused E2 Lex at 0'"),
    "return end(\"1 classes\\nrefused E2 Syntax at 0\\n\", 1)": ("check", "status 1, but it is not the only line"),
    "return end(\"refused\\n\", 1)": ("check", "status 1, but the last line is 'refused'"),
    "return end(\"\", 5)": ("check", "status 5, but no last line was written"),
    "return end(\"limit L11\\n\", 5)": ("check", "status 5, but there is no rule 'limit L11'"),
    "return end(\"out of steps 5\\n\", 4)": ("run", "status 4, but the last line is 'out of steps 5', and the budget was 1000000"),
    "return end(\"undefined U1 NullUse line 9\\n\", 3)": ("paths", "status 3, but the text has no line 9"),
    "return end(is(command, \"run\") ? \"2\\n\" : \"3\\n\", 0)": ("run", "`run` and `paths` do not answer alike"),
    "if (is(command, \"layout\")) return end(\"refused E2 Syntax at 0\\n\", 1)": ("layout", "`check` takes the source, and this command answers 'refused E2 Syntax at 0'"),
    "if (is(command, \"check\")) return end(\"limit L4\\n\", 5)": ("tables", "`check` answers 'limit L4', and this command ''"),
    "if (time(NULL)) { struct timespec now; clock_gettime(CLOCK_MONOTONIC, &now); printf(\"%ld \", now.tv_nsec); return end(\"classes\\n\", 0); }": ("words", "the second answer differs from the first"),
    "char *block = malloc(50000); printf(\"%d \", block[40000]); return end(\"classes\\n\", 0)": ("words", "the second answer differs from the first"),
    "for (;;)": ("check", "no answer after 1 seconds of a processor"),
    "for (;;) pause()": ("check", "no answer after 1 seconds of a processor"),
    "usleep(1500000)": ("check", None),
}


@support.needs("gcc")
class Faults(unittest.TestCase):
    def setUp(self):
        self.top = tempfile.mkdtemp()
        self.addCleanup(shutil.rmtree, self.top)

    def built(self, fault):
        """The program with this fault."""
        source, built = os.path.join(self.top, "program.c"), os.path.join(self.top, "program")
        with open(source, "w", encoding="utf-8") as file:
            file.write(TAKING.replace("FAULT", fault))
        subprocess.run(["gcc", "-std=c11", "-D_GNU_SOURCE", "-w", "-o", built, source], check=True)
        return built

    def tried(self, fault, *words):
        """What the tool tells of a program with this fault."""
        return support.run("fuzz", *words, environment=dict(os.environ, TAGYMELUR=self.built(fault), TMPDIR=self.top))

    def told(self, fault, name):
        """What is told of the answer to one input of a command, or to words alone."""
        command = next((command for command in commands.COMMANDS if command.name == name), None)
        given = inputs.Input(command, (b"check" if name == "words" else name.encode(),), b"struct A { int x; };\n", "cases")
        with unittest.mock.patch.dict(os.environ, TAGYMELUR=self.built(fault)):
            judge = answers.Judge(1)
        wrong, _ = judge.fault(given)
        judge.runner.close()
        return wrong and wrong.sentence

    @unittest.mock.patch.object(runner, "MOST_IDLE", 3)
    def test_each_fault(self):
        for fault, (name, told) in FAULTS.items():
            self.assertEqual(self.told(fault, name), told, fault)

    def test_a_program_without_a_fault(self):
        done = self.tried("", "--inputs", "150", "--seed", "3")
        self.assertEqual((done.returncode, done.stderr), (0, ""), done.stdout)
        self.assertIn("this build has no `array`, `memptr`, `foreign`, `inspect`\n", done.stdout)
        self.assertRegex(done.stdout, r"(?m)^150 inputs of seed 3 from number 1 on, in \d+ seconds, \d+ of a processor, by .*: 0 faults$")
        counted = [int(row.split()[-1]) for row in re.findall(r"(?m)^(?:check|layout|tables|run|paths|gen|words by chance).* \d+$", done.stdout)]
        self.assertEqual(sum(counted), 150)
        self.assertGreaterEqual(len(counted), 6)
        kinds = [int(row.split()[-1]) for row in re.findall(rf"(?m)^(?:{'|'.join(inputs.SORTS)}) .* \d+$", done.stdout)]
        self.assertEqual(sum(kinds), 150 + counted[-1])  # `words` is the front of `words by chance`

    def test_an_alarm_after_the_end_of_a_run(self):
        """It rings when the process has ended, before and after its number is given back: nothing is stopped, and the answer is kept."""
        with unittest.mock.patch.dict(os.environ, TAGYMELUR=self.built("")):
            judge = answers.Judge(1)
        self.addCleanup(judge.runner.close)
        waitid, wait4 = os.waitid, os.wait4

        def ringing(wait):
            def waited(*given):
                result = wait(*given)
                judge.runner.ring(0, None)
                return result
            return waited

        with unittest.mock.patch.object(os, "waitid", ringing(waitid)), unittest.mock.patch.object(os, "wait4", ringing(wait4)):
            answer = judge.runner.answer([b"check"], b"struct A { int x; };")
        self.assertEqual((answer.text, answer.status), (b"0 classes\n", 0))

    def test_what_is_kept(self):
        fault, folder = "if (memchr(text, '~', size)) raise(SIGSEGV)", os.path.join(self.top, "found")
        done = self.tried(fault, "--inputs", "40", "--seed", "2", "--keep", folder)
        number, kept = re.search(r"seed 2, input (\d+), .* its text is (\S+)\.src,", done.stdout).groups()
        with open(f"{kept}.small.src", "rb") as small, open(f"{kept}.src", "rb") as whole, open(f"{kept}.words", "rb") as words:
            self.assertEqual(small.read(), b"~")
            self.assertIn(b"~", whole.read())
            self.assertTrue(words.read().endswith(b"\n"))
        again = self.tried(fault, "--inputs", "1", "--first", number, "--seed", "2", "--keep", folder)
        self.assertIn(f"seed 2, input {number}, ", again.stdout)

    def test_it_ends_after_ten(self):
        done = self.tried("if (size > 20) raise(SIGSEGV)", "--inputs", "100000", "--jobs", "1")
        self.assertEqual(done.returncode, 1)
        self.assertEqual(done.stdout.count("ended by signal 11"), 10)
        self.assertRegex(done.stdout, r"\d+ faults, which are enough\n$")


class Inputs(unittest.TestCase):
    def test_seed_and_number_decide(self):
        with unittest.mock.patch.object(inputs, "program_of", lambda name, answer: f"struct A {{ int x{name.replace('/', '_')}; }};"):
            made = lambda seed: [inputs.made(seed, number, commands.COMMANDS) for number in range(600)]
            self.assertEqual(made(1), made(1))
            self.assertNotEqual(made(1), made(2))
            self.assertEqual({one.sort for one in made(1)}, set(inputs.SORTS))
            self.assertEqual({one.command for one in made(1)}, {None, *commands.COMMANDS})
            self.assertLess(sorted(len(one.text) for one in made(1))[480], 2000)

    def test_one_token_is_exchanged(self):
        text, longest = "struct A { int xy; }; struct B : A { long y; };", max(map(len, ["template", *changes.NUMBERS])) + 2
        tokens = [token.text for token in grammar.tokens(text)]
        for seed in range(300):
            changed = changes.exchange(random.Random(seed), text)
            same = len(os.path.commonprefix([text, changed])) + len(os.path.commonprefix([text[::-1], changed[::-1]]))
            self.assertGreaterEqual(same, len(text) - max(map(len, tokens)), changed)
            self.assertLessEqual(len(changed), len(text) + longest, changed)

    def test_a_token_begins_where_a_word_does(self):
        found = {changes.near(random.Random(seed), "struct Abc::D->e", changes.TOKEN)[0] for seed in range(200)}
        self.assertEqual(found, {"struct", "Abc", "::", ":", "D", "->", ">", "e"})

    def test_every_form_of_a_worked_case_is_known(self):
        """The forms of lines, and of last lines, take each answer of the worked cases."""
        judge = answers.Judge()
        self.addCleanup(judge.runner.close)
        named = {command.name: command for command in commands.COMMANDS}
        for case in inputs.worked.cases():
            command = named.get("run --trace" if case.words[:1] == ("run",) and "--trace" in case.words else case.words[0] if case.words else "")
            given = inputs.Input(command, tuple(word.encode() for word in case.words), case.source.encode("latin-1"), "cases")
            if command and case.status not in (answers.READ_FAULT, answers.WRITE_FAULT):
                self.assertIsNone(judge.form(given, runner.Answer(case.text.encode("latin-1"), case.status, b"", 0)), case)

    def test_listings_and_dumps_of_worked_cases(self):
        self.assertGreater(len(inputs.listed()), 20)
        self.assertGreater(len(inputs.dumped()), 5)
        for text, _ in inputs.dumped():
            self.assertTrue(text.startswith("dump #") and text.endswith("\n"))


@support.needs("g++", "clang++")
class Beside(unittest.TestCase):
    def test_why_a_text_is_refused(self):
        for compiler in beside.COMPILERS:
            self.assertEqual(beside.refused_by(compiler, b"struct A { virtual void f() {} int x; }; int main() { A* a = new A; print(typeid(*a)); print(a->x); dump(a); print(dynamic_cast<void*>(a)); }"), "")
            self.assertRegex(beside.refused_by(compiler, b"struct A : B {};"), "class|declared")

    def test_the_smallest_source_of_each_row(self):
        rule, reason = ("E2 Syntax", "g++", ""), ("taken", "clang++", "unknown type name _")
        self.assertEqual(beside.differing({rule: 1, ("E2 Syntax", "inputs", ""): 1}, b"some"), {rule: b"some"})
        kept = beside.smallest({rule: b"longer", reason: b"first"}, {rule: b"short"}, {reason: b"later", rule: b"more than that"})
        self.assertEqual(kept, {rule: b"short", reason: b"first"})
        self.assertEqual(beside.sources(kept), b"// refused here by E2 Syntax, taken by g++\nshort\n\n// taken here, refused by clang++: unknown type name _\nfirst\n\n")

    @support.needs_program
    def test_what_is_kept_of_both_compilers(self):
        """Each kept source is taken, or refused, as its first line says."""
        with tempfile.TemporaryDirectory() as folder:
            done = support.run("fuzz", "--beside", "--inputs", "150", "--seed", "31", "--keep", folder)
            self.assertEqual((done.returncode, done.stderr), (0, ""), done.stdout)
            with open(os.path.join(folder, "31-beside.txt"), encoding="latin-1") as file:
                found = re.findall(r"^// (refused here by|taken here)(?: (\w+) \w+)?, (?:taken|refused) by ([gcl+an]+).*\n((?:(?!// ).*\n)*)", file.read(), re.M)
        self.assertGreater(len(found), 1)
        for here, rule, compiler, source in found:
            told, status = program.answer(["check"], source)
            self.assertEqual((status == 0, beside.refused_by(compiler, source.encode("latin-1")) == ""), (here == "taken here", here != "taken here"), source)
            self.assertTrue(here == "taken here" or told.startswith(f"refused {rule} "), told)


def examples(heading, column):
    """The rows of the first table behind a heading of docs/DECISIONS.md: the first cell, and the code of one."""
    with open(os.path.join(program.TOP, "docs", "DECISIONS.md"), encoding="utf-8") as file:
        text = file.read().split(heading, 1)[1]
    table = re.search(r"(?:^\|.*\n)+", text, re.M)[0].splitlines()[2:]
    return [(row.split(" | ")[0].strip("| "), row.split(" | ")[column].strip("` ")) for row in table]


@support.needs("g++", "clang++")
class Differences(unittest.TestCase):
    def test_what_compilers_take(self):
        found = examples("## Beside g++ and clang++", 1)
        self.assertGreater(len(found), 10)
        for rule, source in found:
            for compiler in beside.COMPILERS:
                self.assertEqual(beside.refused_by(compiler, source.encode()), "", source)
            if os.access(program.path(), os.X_OK):
                self.assertTrue(program.answer(["check"], source)[0].startswith(f"refused {rule} "), source)

    def test_what_clang_alone_takes(self):
        with open(os.path.join(program.TOP, "docs", "DECISIONS.md"), encoding="utf-8") as file:
            source, rule = re.search(r"taken by clang\+\+ alone.*?`(struct .*?)` is (E\d+) here", file.read()).groups()
        self.assertEqual([compiler for compiler in beside.COMPILERS if beside.refused_by(compiler, source.encode())], ["g++"])
        if os.access(program.path(), os.X_OK):
            self.assertTrue(program.answer(["check"], source)[0].startswith(f"refused {rule} "), source)

    def test_what_compilers_refuse(self):
        found = examples("The other way, what is taken here:", 1)
        self.assertGreater(len(found), 3)
        for who, source in found:
            refusing = [compiler for compiler in beside.COMPILERS if beside.refused_by(compiler, source.encode())]
            self.assertEqual(refusing, list(beside.COMPILERS) if who.startswith("both") else ["g++"], source)
            if os.access(program.path(), os.X_OK):
                self.assertEqual(program.answer(["check"], source)[1], 0, source)


@support.needs_program
class Built(unittest.TestCase):
    def test_two_thousand_inputs(self):
        """So many and no time, so that each machine tries the same ones."""
        done = support.run("fuzz", "--inputs", "2000", "--seed", "2026")
        self.assertEqual((done.returncode, done.stderr), (0, ""), done.stdout)
        self.assertEqual(int(re.search(r"(?m)^(\d+) inputs", done.stdout)[1]), 2000)

    def test_programs_are_made_of_the_seed(self):
        for name in ("1/7", "1/8", "1/9", "1/10"):
            self.assertEqual(inputs.program_of.__wrapped__(name, program.answer), inputs.program_of.__wrapped__(name, program.answer))
        self.assertNotEqual(random_programs.Maker("1/7").lines(3), random_programs.Maker("1/8").lines(3))


if __name__ == "__main__":
    unittest.main()
