"""tools/no-memory on small C programs: what passes, each way to fail, and what cannot be tried."""
import os
import re
import shutil
import stat
import subprocess
import tempfile
import unittest

import support
from lib import limits, program, run_shapes, shape_runs, shapes, worked

# Four allocations, one of each kind; no stream of the C library is used, since it would make more of them.
CAREFUL = r"""
#include <stdlib.h>
#include <string.h>
#include <unistd.h>

static void say(const char *text) { if (write(1, text, strlen(text)) < 0) exit(7); }
static void *sure(void *block) { if (block == NULL) { FAILED; } return block; }

int main(int count, char **words) {
    char *input = sure(malloc(100));
    ssize_t size = read(0, input, 99);
    input[size < 0 ? 0 : size] = 0;
    input = sure(realloc(input, 4000));
    char *more = sure(calloc(10, 10));
    void *aligned = NULL;
    if (posix_memalign(&aligned, 64, 64) != 0)
        sure(NULL);
    say("taken: ");
    say(count > 1 ? words[1] : "nothing");
    say(input);
    free(input);
    free(more);
    free(aligned);
    return 3;
}
"""

# The second block is one that the program can do without.
SPARING = r"""
#include <stdlib.h>
#include <unistd.h>

int main(void) {
    char *block = malloc(8), *other = malloc(8);
    if (block == NULL)
        return 8;
    free(other);
    return write(1, "5\n", 2) == 2 ? 0 : 7;
}
"""

# Fifty blocks, all of which it needs.
MANY = r"""
#include <stdlib.h>

int main(void) {
    int all = 0;
    for (int i = 0; i < 50; i++) {
        void *volatile block = malloc(9);
        all += block != NULL;
    }
    return all == 50 ? 0 : FAILED;
}
"""


@support.needs("gcc")
class NoMemory(unittest.TestCase):
    def setUp(self):
        self.top = tempfile.mkdtemp()
        self.addCleanup(shutil.rmtree, self.top)

    def compiled(self, text, *flags):
        source, program = os.path.join(self.top, "program.c"), os.path.join(self.top, "program")
        with open(source, "w", encoding="utf-8") as file:
            file.write(text)
        subprocess.run(["gcc", "-std=c11", "-D_GNU_SOURCE", *flags, "-o", program, source], check=True, stderr=subprocess.DEVNULL)
        return program

    def tried(self, program, *words):
        return support.run("no-memory", *words, text=" in\n", environment=dict(os.environ, TAGYMELUR=program))

    def failing(self, what, *words):
        """What is told of a program that does this where an allocation is refused."""
        done = self.tried(self.compiled(CAREFUL.replace("FAILED", what)), *words, "run")
        self.assertEqual((done.returncode, done.stderr), (1, ""))
        return done.stdout.splitlines()

    def test_each_allocation_is_refused(self):
        done = self.tried(self.compiled(CAREFUL.replace("FAILED", "exit(8)")), "run")
        self.assertEqual((done.returncode, done.stderr), (0, ""))
        self.assertEqual(done.stdout, "4 of 4 allocations refused: 4 times want of memory, 0 times the right text, 0 times neither\n")

    def test_some_of_them(self):
        program = self.compiled(CAREFUL.replace("FAILED", "exit(8)"))
        self.assertIn("3 of 4 allocations refused: 3 times", self.tried(program, "--first", "2", "run").stdout)
        self.assertIn("2 of 4 allocations refused: 2 times", self.tried(program, "--first", "2", "--every", "2", "--", "paths", "--steps", "9").stdout)

    def test_about_so_many(self):
        program = self.compiled(MANY.replace("FAILED", "8"))
        for words, told in [(["--about", "12"], "11"), (["--about", "12", "--jobs", "4"], "11"), (["--about", "1"], "2"), (["--about", "50"], "50"), (["--about", "400"], "50"), (["--all"], "50"), (["--all", "--jobs", "3"], "50")]:
            done = self.tried(program, *words, "run")
            self.assertEqual((done.returncode, done.stderr), (0, ""), words)
            self.assertEqual(done.stdout, f"{told} of 50 allocations refused: {told} times want of memory, 0 times the right text, 0 times neither\n", words)

    def test_about_so_many_has_the_first_ones_the_last_ones_and_others_between(self):
        told = self.tried(self.compiled(MANY.replace("FAILED", "6")), "--about", "8", "--jobs", "2", "run").stdout
        self.assertEqual([int(line.split()[1][:-1]) for line in told.splitlines()[:-1]], [1, 2, 14, 27, 40, 49, 50])

    def test_a_program_that_can_do_without(self):
        done = self.tried(self.compiled(SPARING), "run")
        self.assertEqual((done.returncode, done.stderr), (0, ""))
        self.assertEqual(done.stdout, "2 of 2 allocations refused: 1 times want of memory, 1 times the right text, 0 times neither\n")

    def test_each_wrong_answer(self):
        last = "4 of 4 allocations refused: 0 times want of memory, 0 times the right text, 4 times neither"
        for what, told in [
            ('say("5\\n"); exit(0)', "status 0 and another text"),
            ('say("part"); exit(8)', "status 8, but 4 bytes were written"),
            ("exit(6)", "status 6 and another text"),
            ('say("taken: run in\\n"); exit(0)', "status 0 and the right text"),
            ("abort()", "ended by signal 6"),
        ]:
            self.assertEqual(self.failing(what), [f"allocation {number}: {told}" for number in range(1, 5)] + [last])

    def test_over_shapes(self):
        """Each command on a shape, of a program that does well and of one that does not."""
        program = self.compiled(MANY.replace("FAILED", "8"))
        done = self.tried(program, "--shapes", "--only", "chain", "--part", "10", "--about", "4")
        self.assertEqual((done.returncode, done.stderr), (0, ""), done.stdout)
        lines = done.stdout.splitlines()
        self.assertEqual(len(lines), 7 + 3)  # it dumps nothing, so that `inspect` has no input
        self.assertRegex(lines[0], r"^chain: check: \d+ of 50 allocations refused: \d+ times want of memory, 0 times the right text, 0 times neither$")
        self.assertIn("chain: run --trace: ", done.stdout)
        done = self.tried(self.compiled(MANY.replace("FAILED", "1")), "--shapes", "--only", "loop", "--about", "4")
        self.assertEqual(done.returncode, 1)
        self.assertIn("loop: paths --steps 4000000: ", done.stdout)
        self.assertEqual(self.tried(program, "--shapes", "run").returncode, 2)

    def test_a_program_that_hangs(self):
        self.assertEqual(self.failing("for (;;) pause()", "--seconds", "1", "--first", "4")[0], "allocation 4: no answer after 1 seconds")

    def test_it_stops_after_ten(self):
        done = self.tried(self.compiled(MANY.replace("FAILED", "1")), "run")
        self.assertEqual(done.returncode, 1)
        self.assertEqual(len(done.stdout.splitlines()), 12)
        self.assertIn("10 wrong answers; no more allocations are refused\n", done.stdout)

    def test_what_cannot_be_tried(self):
        script = os.path.join(self.top, "script")
        with open(script, "w", encoding="utf-8") as file:
            file.write("#!/bin/sh\necho 5\n")
        os.chmod(script, stat.S_IRWXU)
        idle = self.compiled("int main(void) { return 0; }\n")
        for program, words, told in [(script, ["run"], "is no binary"), ("/nowhere/tagymelur", ["run"], "cannot be run"), (idle, ["run"], "could be refused"), (idle, [], "WORDS"), (idle, ["--every", "0", "run"], "no number above 0")]:
            done = self.tried(program, *words)
            self.assertEqual((done.returncode, done.stdout), (2, ""), words)
            self.assertIn(told, done.stderr)
            self.assertNotIn("Traceback", done.stderr)
        hungry = self.compiled("int main(void) { return 8; }\n")
        self.assertIn("ends with status 8 where no allocation is refused", self.tried(hungry, "run").stderr)

    @support.needs_program
    def test_the_program_itself(self):
        with open(os.path.join(support.TOOLS, "..", "examples", "diamond.cpp"), encoding="utf-8") as file:
            done = support.run("no-memory", "layout", "D", text=file.read())
        self.assertEqual((done.returncode, done.stderr), (0, ""), done.stdout)

    @support.needs_program
    def test_each_allocation_of_runs_with_virtual_bases(self):
        """All allocations of two runs that worked_cases counts the stores of: a stream that is ended, and a call by a construction table."""
        counted = [case for case in worked.cases() if case.words[:1] == ("counted",) and ("IosBase" in case.source or "virtual V { long c; }" in case.source)]
        self.assertGreaterEqual(len(counted), 2)
        for case in counted:
            done = support.run("no-memory", "--jobs", "2", "--", *case.words[2:], text=case.source)
            self.assertEqual((done.returncode, done.stderr), (0, ""), done.stdout)
            self.assertRegex(done.stdout, r"^(\d+) of \1 allocations refused: [1-9]\d* times want of memory, \d+ times the right text, 0 times neither\n$")

    @support.needs_program
    def test_each_command_on_each_shape(self):
        done = support.run("no-memory", "--shapes", "--part", "10", "--about", "4", "--jobs", "2")
        self.assertEqual((done.returncode, done.stderr), (0, ""), done.stdout)
        self.assertRegex(done.stdout, r"[1-9]\d{2,} of the chosen allocations refused: [1-9]\d* times want of memory, \d+ times the right text, 0 times neither\n$")

    @support.needs_program
    def test_listings_and_dumps_of_shapes_have_room(self):
        """A listing or a dump of a whole shape may be longer than an input can be: the shape is smaller there, and its listing is sound."""
        for shape, told in [("writes", r"\d+"), ("chain", "1"), ("empty-tower", "1"), ("parts", "1")]:
            found = {words[0]: (name, text) for name, words, text in shape_runs.rows(1, shape) if words[0] in ("foreign", "inspect")}
            self.assertEqual(set(found), {"foreign", "inspect"}, shape)
            for command, (name, text) in found.items():
                self.assertRegex(name, rf"^{shape}( --part \d+)?$")
                self.assertLessEqual(len(text), limits.SOURCE_BYTES, name)
                answer, status = program.answer([command], text)
                self.assertEqual(status, 0, (name, command, answer[-80:]))
                self.assertRegex(answer, r"^object 1 class \w+\n" if command == "inspect" else rf"^{told}\n$", (name, command))

    @support.needs_program
    def test_allocations_are_refused_behind_the_reading_of_a_listing_and_a_dump(self):
        done = support.run("no-memory", "--shapes", "--only", "chain", "--about", "8", "--jobs", "2")
        self.assertEqual((done.returncode, done.stderr), (0, ""), done.stdout)
        for command in ("foreign", "inspect"):
            total = re.search(rf"^chain --part \d+: {command}: \d+ of (\d+) allocations refused: \d+ times want of memory, \d+ times the right text, 0 times neither$", done.stdout, re.M)[1]
            self.assertGreater(int(total), 10_000)  # an input that is too long takes some thirty

    @support.needs_program
    def test_large_sources(self):
        """The tables of 500 classes, and a run with copies and dumps of objects with 60 subobjects."""
        for words, source in [(["tables"], shapes.pairs(2)), (["run", "--steps", "4000000"], run_shapes.dumps(10).source)]:
            done = support.run("no-memory", "--about", "60", "--jobs", "2", "--", *words, text=source)
            self.assertEqual((done.returncode, done.stderr), (0, ""), done.stdout)
            self.assertRegex(done.stdout, r"^[1-9]\d* of [1-9]\d{2,} allocations refused: [1-9]\d* times want of memory, \d+ times the right text, 0 times neither\n$")
