"""The examples of the pages are what the program answers: README.md, and those of docs/ that show a source with its answer."""
import os
import re
import shutil
import subprocess
import tempfile
import unittest

import support
from lib import layout_text, program


def page(*path):
    with open(os.path.join(program.TOP, *path), encoding="utf-8") as file:
        return file.read()


def example(name):
    return page("examples", name)


def blocks(text):
    """The indented blocks of a page, without their indent."""
    return [re.sub(r"^    ", "", found, flags=re.M) for found in re.findall(r"(?:^    .*\n)+", text, re.M)]


def block(text, start):
    """The block that begins so."""
    return next(found for found in blocks(text) if found.startswith(start))


def without_remarks(text):
    """The lines, each up to a gap of two blanks."""
    return [re.split(r"  +", line.rstrip())[0] for line in text.splitlines()]


def rows(text, heads):
    """The cells between backquotes of each row of the tables with these heads."""
    for head in heads:
        for line in text[text.index(head):].split("\n\n")[0].splitlines()[2:]:
            yield re.findall(r"`([^`]*)`", line)


@support.needs_program
class Readme(unittest.TestCase):
    text = page("README.md")

    def test_the_first_lines_to_try(self):
        tried = re.findall(r"^    \./tagymelur (\w+) +< examples/(\S+) +# prints (.*)$", self.text, re.M)
        self.assertEqual(len(tried), 4)
        for command, file, said in tried:
            text, status = program.answer([command], example(file))
            self.assertEqual(status, 0)
            if said != "the layout of each class":
                self.assertEqual(text.splitlines(), [said.split(",")[0]])

    def test_the_diamond_for_a_terminal(self):
        shown = block(self.text, "$ cat examples/diamond.cpp").splitlines(keepends=True)
        at = shown.index("$ tools/draw --text D < examples/diamond.cpp\n")
        self.assertEqual("".join(shown[1:at]), example("diamond.cpp"))
        self.assertEqual("".join(shown[at + 1:]), support.run("draw", "--text", "D", text=example("diamond.cpp")).stdout)

    def test_the_layout_beside_clang(self):
        left = [line[:56].rstrip() for line in block(self.text, "$ ./tagymelur layout D").splitlines()[1:]]
        self.assertEqual([line for line in left if line], program.text_of(["layout", "D"], example("diamond.cpp")).splitlines())

    def test_the_tables(self):
        told = program.text_of(["tables", "D"], example("diamond.cpp")).splitlines()
        lines = without_remarks(block(self.text, "$ ./tagymelur tables D"))[1:-1]
        self.assertEqual(lines, told[:len(lines)])

    def test_an_error(self):
        shown = block(self.text, "$ tools/explain check").splitlines(keepends=True)[1:]
        done = support.run("explain", "check", text=example("overriders.cpp"))
        self.assertEqual("".join(shown), done.stdout + done.stderr)

    def test_the_tools_are_named(self):
        named = set(re.findall(r"^\| `tools/(\S+)` \|", self.text, re.M))
        tools = {name for name in os.listdir(support.TOOLS) if os.path.isfile(os.path.join(support.TOOLS, name))}
        self.assertEqual(named, tools - {"definition-lines", "worked-cases"})


PAGES = ["README.md", *sorted(os.path.join("docs", name) for name in os.listdir(os.path.join(program.TOP, "docs")) if name.endswith(".md"))]
CLASS = re.compile(r"(?:struct|class) \w+(?: : [\w, ]+)? \{(?:[^{}]|\{[^{}]*\})*\};")


def commands(text):
    """Each command of a page that stands behind a `$`, with the lines that it is said to print."""
    for found in blocks(text):
        for one in re.split(r"^\$ ", found, flags=re.M)[1:]:
            command, _, shown = one.partition("\n")
            yield command, shown.splitlines()


def is_front(shown, told):
    """Whether the lines are those that are told, where `..` stands for any lines."""
    if not shown:
        return not told
    if shown[0].strip() == "..":
        return any(is_front(shown[1:], told[number:]) for number in range(len(told) + 1))
    return bool(told) and shown[0].rstrip() == told[0].rstrip() and is_front(shown[1:], told[1:])


@support.needs_program
@support.needs("sh")
class Commands(unittest.TestCase):
    """Each command of README and docs that is shown with what it prints."""

    def run_in_shell(self, command):
        script = command.replace("./tagymelur", f'"{program.path()}"')
        done = subprocess.run(["sh", "-c", script], cwd=program.TOP, stdout=subprocess.PIPE, stderr=subprocess.STDOUT, encoding="latin-1", env=dict(os.environ, TAGYMELUR=program.path()))
        return done.stdout.splitlines()

    def test_what_they_print(self):
        seen = {}
        for name in PAGES:
            for command, shown in commands(page(name)):
                if "  " not in command and not (name == "README.md" and command.startswith("./tagymelur tables")):  # blocks with two columns or remarks have tests of their own
                    told = seen.setdefault(command, self.run_in_shell(command))
                    self.assertTrue(is_front(shown, told), f"{name}: {command}: {told}")
        self.assertGreater(len(seen), 10)

    def test_the_questions_of_readme_are_answered(self):
        asked = re.findall(r"^\| [^|`]*(?:`\w+`[^|`]*)*\? \| `([^`]*)` \| \[(\w+\.md)\]", page("README.md"), re.M)
        self.assertEqual(len(asked), 10)
        known = {command for command, _ in commands(page("docs", "QUESTIONS.md"))}
        for command, target in asked:
            self.assertIn(command, known)
            self.assertTrue(os.path.exists(os.path.join(program.TOP, "docs", target)))

    def test_what_else_is_called_is_there(self):
        """Each option of a tool that a page names stands in the text of the tool."""
        texts = {}
        for name in PAGES:
            for tool, words in re.findall(r"tools/([a-z-]+)((?: [^\s`|<>]+)*)", page(name)):
                if os.path.isfile(os.path.join(support.TOOLS, tool)):
                    told = texts.setdefault(tool, page("tools", tool))
                    for option in re.findall(r"(?<=\s)--[a-z][a-z-]*", words.split(" -- ")[0]):
                        self.assertIn(option, told, f"{name}: tools/{tool}{words}")
        self.assertGreater(len(texts), 8)

    def test_the_links_lead_to_files(self):
        for name in PAGES:
            for target in re.findall(r"\]\(([^)#:]+)(?:#[^)]*)?\)", page(name)):
                self.assertTrue(os.path.exists(os.path.join(program.TOP, os.path.dirname(name), target)), f"{name}: {target}")


# what made the pictures whose command does not stand beside them
MADE_BY = {
    "diamond.svg": "tools/draw D < examples/diamond.cpp", "marked.svg": "tools/listing examples/sample.h -- --target=arm64-apple-ios | tools/draw --beside - Marked",
    "button.svg": "tools/from-cpp /usr/include/FL/Fl_Button.H --class Fl_Button | tools/draw Fl_Button",
}


class Pictures(unittest.TestCase):
    folder = os.path.join(program.TOP, "docs", "pictures")

    def shown(self):
        """The alternative text and the file of each picture that a page shows, by the page."""
        for name in PAGES:
            for told, target in re.findall(r"!\[([^\]]*)\]\(([^)]*)\)", page(name)):
                yield name, told, os.path.basename(target)

    def test_each_is_shown_and_told(self):
        self.assertEqual({file for _, _, file in self.shown()}, set(os.listdir(self.folder)))
        for name, told, file in self.shown():
            self.assertGreater(len(told.split()), 3, f"{name}: {file}")

    def test_a_picture_and_an_example_for_each_command(self):
        """The commands that have a page of their own."""
        pages = {name for name, _, _ in self.shown()}
        for command, name in re.findall(r"^\| `(\w+)[^|]*\| .*?\(\[\w+\.md\]\((docs/\w+\.md)\)\)", page("README.md"), re.M):
            if command != "gen":
                self.assertIn(name, pages)
                self.assertTrue(any(re.search(rf"\./tagymelur {command}\b", one) for one, _ in commands(page(name))), f"{name} has no example of {command}")

    @support.needs_program
    @support.needs("sh")
    def test_each_drawing_is_what_its_command_prints(self):
        drawings = {name for name in os.listdir(self.folder) if name.endswith(".svg")}
        shown = (found for name in PAGES for found in re.findall(r"^    (tools/draw .*) > (\w+\.svg)$", page(name), re.M))
        made_by = {file: command for command, file in shown if file in drawings} | MADE_BY
        self.assertEqual(set(made_by), drawings)
        for file, command in made_by.items():
            if ("listing" in command or "from-cpp" in command) and not shutil.which("clang++") or "/FL/" in command and not os.path.exists("/usr/include/FL/Fl_Button.H"):
                continue
            done = subprocess.run(["sh", "-c", command], cwd=program.TOP, capture_output=True, encoding="utf-8", env=dict(os.environ, TAGYMELUR=program.path()))
            self.assertEqual(done.stdout, page("docs", "pictures", file), f"{command}: {done.stderr}")


@support.needs_program
class Sources(unittest.TestCase):
    """The classes that pages show are taken, and have the sizes and words that the pages say."""

    def shown(self, name):
        """Each block of a page, with the classes that were shown last, as a source. A class that is shown again begins a new source."""
        text, source = page("docs", name), ""
        for block in re.findall(r"^```\n(.*?)^```|((?:^    .*\n)+)", text, re.S | re.M):
            block, source = "".join(block), source if not CLASS.search("".join(block)) else ""
            for part in block.split("\n\n"):
                for found in self.columns(part):
                    if {one.split()[1] for one in found} & {one.split()[1] for one in CLASS.findall(source)}:
                        source = ""
                    source = f"{source} {' '.join(found)}".strip()
                    yield source, part, bool(found)

    def columns(self, part):
        """The classes of a part; of two columns the left one is read first, and where both define one class, they are two sources."""
        left, right = [], []
        for one in CLASS.finditer(part):
            if ".." not in one[0]:
                (right if one.start() - part.rfind("\n", 0, one.start()) > 34 else left).append(one[0])
        alike = {one.split()[1] for one in left} & {one.split()[1] for one in right}
        return [left, right] if alike else [left + right]

    def test_they_are_taken(self):
        count = 0
        for name in ("LAYOUT.md", "TABLES.md", "COMPILERS.md", "OBJECTS.md"):
            for source, _, fresh in self.shown(name):
                if fresh:
                    answer, count = program.answer(["check"], source)[0].strip(), count + 1
                    said = answer == f"{len(CLASS.findall(source))} classes" or answer in page("docs", name) or answer.startswith("refused E24") and "Here C is refused" in page("docs", name)
                    self.assertTrue(said, f"{name}: {source}: {answer}")
        self.assertGreater(count, 15)

    def test_sizes(self):
        """Behind a class, or behind its row of bytes, stands `size N`."""
        count = 0
        for name in ("LAYOUT.md", "COMPILERS.md"):
            for source, part, _ in self.shown(name):
                said = re.findall(r"(?m)struct (\w+)(?:(?!struct)[^\n])*\};\s+size (\d+)", part) + re.findall(r"(?m)^ *(\w+) +0 .*\bsize (\d+)", part)
                layouts = layout_text.read(program.text_of(["layout"], source)) if said else {}
                for one, size in said:
                    self.assertEqual(layouts[one].size, int(size), f"{name}: {one} of {source}")
                    count += 1
        self.assertGreaterEqual(count, 8)

    def test_lines_of_bit_fields(self):
        """The lines of `layout` that stand beside a row of bits, and where the row has its borders."""
        count = 0
        for source, part, _ in self.shown("LAYOUT.md"):
            found = re.findall(r"(?m)\b(\d+ (?:bits \d+ \d+|field) [a-z ]+ \w+)$", part) if re.search(r" : \d", source) else []
            told = program.text_of(["layout"], source).splitlines() if found else []
            self.assertLessEqual(set(found), set(told), part)
            borders = re.findall(r" (\d+)\.([1-7])(?= |$)", part)
            lines = re.findall(r"(?m)^(\d+) bits (\d+) (\d+)", program.text_of(["layout"], source)) if borders else []
            edges = {8 * int(byte) + int(first) + more for byte, first, width in lines for more in (0, int(width))}
            self.assertLessEqual({8 * int(byte) + int(bit) for byte, bit in borders}, edges, part)
            count += len(found) + len(borders)
        self.assertGreaterEqual(count, 8)

    def test_words_of_tables(self):
        """Each word of a table in a block of TABLES is one of the tables of the classes before it."""
        count, word = 0, r"(-\d+  (?:vbase -?\d+ \w+|vcall -?\d+ [\w:]+|top -?\d+|typeinfo \w+)|\b0  func [\w:]+(?:  this -?\d+ vcall -?\d+)?)"
        for source, part, _ in self.shown("TABLES.md"):
            found = re.findall(word, part)
            told = set(program.text_of(["tables"], source).splitlines()) if found else set()
            for one in found:
                self.assertIn(re.sub(r"  +", " ", one), told)
                count += 1
        self.assertGreater(count, 10)


@support.needs_program
@support.needs("g++", "clang++")
class Mistakes(unittest.TestCase):
    """The six programs of COMPILERS.md, and what the compilers of its versions make of them."""

    def test_each_program(self):
        text = page("docs", "COMPILERS.md")
        text = text[text.index("## Mistakes that programs show"):]
        said = [[cell.strip() for cell in line.split("|")[1:-1]] for line in re.findall(r"^\| a .*$", text, re.M)]
        programs = [found for found in blocks(text) if "int main()" in found]
        self.assertEqual((len(said), len(programs)), (6, 6))
        for (_, right, *_), source in zip(said, programs):
            answer = program.text_of(["run"], source)
            self.assertEqual(re.sub(r"#\d+\+\d+", "#", answer).split(), right.split())
        versions = [subprocess.run([name, "-dumpversion"], stdout=subprocess.PIPE, encoding="utf-8").stdout for name in ("g++", "clang++")]
        if not versions[0].startswith("12") or not versions[1].startswith("14"):
            self.skipTest("g++ 12 and clang++ 14 are not here")
        with tempfile.TemporaryDirectory() as folder:
            for number, source in enumerate(programs):
                with open(os.path.join(folder, f"{number}.cpp"), "w", encoding="utf-8") as file:
                    file.write(source)
            done = support.run("cross-run", *[os.path.join(folder, f"{number}.cpp") for number in range(len(programs))])
        judges = done.stdout.rsplit("judges: ", 1)[1].strip().split(", ")
        for judge in judges:
            for number, cells in enumerate(said):
                claim = cells[1 + ["g++", "clang++", "clang++ with libc++abi"].index(judge) + 1]
                found = re.search(rf"{number}\.cpp: {re.escape(judge)} prints \[(.*?)\] where", done.stdout)
                if claim == "not taken":
                    self.assertIn("a name that one class hides is called ambiguous: 1", done.stdout)
                else:
                    self.assertEqual(" ".join(re.findall(r"'([^']*)'", found[1])) if found else cells[1], claim, f"{judge}, {cells[0]}")


@support.needs_program
class Pages(unittest.TestCase):
    def test_a_dump(self):
        text = page("docs", "RUNS.md")
        source = "\n".join(without_remarks(block(text, "struct X { char a; virtual void f() {} };")))
        self.assertEqual(program.text_of(["run"], source).splitlines(), without_remarks(block(text, "dump #1 Z 48")))
        self.assertEqual(program.answer(["paths"], source), program.answer(["run"], source))

    def test_a_dump_of_bit_fields(self):
        text = page("docs", "RUNS.md")
        shown = re.search(r"Of `(struct P \{.*?\};)`, where `a` was set to 5", text)[1]
        source = f"{shown} int main() {{ P* p = new P; p->a = 5; dump(p); }}"
        for machine in ("run", "paths"):
            self.assertEqual(program.text_of([machine], source), block(text, "dump #1 P 4"))

    def test_the_diamond_step_by_step(self):
        """Each row of the table of `step` tells what it says: the trace of so many steps has the cells up to there."""
        text = page("docs", "RUNS.md")
        source = block(text, "struct V { long v; virtual long f() { return 1; } };")
        told, count = [], 0
        for row in text[text.index("| Step | `step` goes by |"):].split("\n\n")[0].splitlines()[2:]:
            cells = [cell.strip(" `") for cell in row.split("|")]
            told += [cells[-2]] if cells[-2] else []
            count = int(cells[1])
            lines = program.answer(["run", "--trace", "--steps", str(count)], source)[0].splitlines()
            self.assertEqual([line for line in lines if not line.startswith("out of steps")], told, row)
        self.assertEqual(count, 20)
        self.assertEqual(program.answer(["run", "--steps", "19"], source)[1], 4)
        self.assertEqual(program.answer(["run", "--steps", "20"], source)[1], 0)
        pure = source.replace("{ return 2; }", "= 0;")
        self.assertEqual(program.answer(["run"], pure), ("undefined U6 PureCall line 2\n", 3))

    def test_a_dump_that_is_none(self):
        text, dumped = page("docs", "INSPECT.md"), example("dumped.txt")
        said, = re.findall(r"With `(\w+)` in place of `(\w+)` the answer is `(refused .*?)`, and so it is with `([\w-]+)`", text)
        short, proper, answer, mixed = said
        for value in (short, mixed):
            self.assertEqual(program.answer(["inspect"], dumped.replace(proper, value)), (f"{answer}\n", 1))

    def test_a_listing_that_overlaps(self):
        text, moved = page("docs", "FOREIGN.md"), example("moved.txt")
        line = re.search(r"With `(.*?)` in the fourth line", text)[1].split("\n")[0]
        lines = moved.splitlines()
        lines[3] = line
        self.assertEqual(program.answer(["foreign"], "\n".join(lines) + "\n"), ("refused F6 Overlap line 1\n", 1))
        self.assertIn("\nrefused F6 Overlap line 1\n", text)

    def test_the_generated_source(self):
        text = page("docs", "RUNS.md")
        source = block(text, "struct V { long v; virtual long f() { return 0; } };")
        self.assertEqual(program.text_of(["gen", "2"], ""), block(text, "classes 3"))
        self.assertEqual(program.answer(["run", "--steps", "24"], source), ("0\n1\n", 0))
        self.assertEqual(program.answer(["run", "--steps", "23"], source)[1], 4)

    def test_the_call_of_the_machine(self):
        source = block(page("docs", "MACHINE.md"), "struct A { int a; virtual int f()")
        self.assertEqual(program.answer(["run"], source), ("3\n", 0))

    def test_each_refusal_of_a_source(self):
        text = page("docs", "LANGUAGE.md")
        found = [cells for cells in rows(text, ["| Source | Answer |"]) if len(cells) == 2]
        self.assertGreaterEqual(len(found), 30)
        for source, said in found:
            self.assertEqual(program.answer(["check"], source)[0], f"{said}\n", source)
        for words in (["run"], ["paths"], ["layout", "B"]):
            self.assertEqual(program.answer(words, "struct A {};")[0], "refused E22 UnknownName at 12\n")

    def test_each_end_of_a_run(self):
        found = list(rows(page("docs", "LANGUAGE.md"), ["| Source | Last line |"]))
        self.assertEqual(len(found), 14)
        for source, said in found:
            for machine in ("run", "paths"):
                self.assertEqual(program.answer([machine], source)[0].splitlines()[-1], said, source)
