"""docs/CONSTRUCTION.md: its texts are the program's, and its virtual pointers those of a program that compilers make of the same classes."""
import os
import re
import subprocess
import tempfile
import unittest

import support
from lib import program

SOURCE = "examples/construction.cpp"
POINTERS = (0, 16, 40)


def read(*path):
    with open(os.path.join(program.TOP, *path), encoding="utf-8") as file:
        return file.read()


PAGE = read("docs", "CONSTRUCTION.md")


def rows(first_cell):
    """The rows of the table whose head begins with this cell, each a list of cells without backquotes."""
    lines = PAGE[PAGE.index(f"| {first_cell} |"):].split("\n\n")[0].splitlines()[2:]
    return [[cell.strip().replace("`", "") for cell in line.strip("|").split("|")] for line in lines]


def commands():
    """The words of each command of the page, and the text that stands below it."""
    for words, text in re.findall(r"^    \$ \./tagymelur (.*) < " + re.escape(SOURCE) + r"\n((?:    .*\n)+)", PAGE, re.M):
        yield words.split(), re.sub(r"^    ", "", text, flags=re.M)


def word_lines(cells, first):
    """The lines of a table's words, as the program prints them; `first` is the number of the first cell."""
    for number, cell in enumerate(cells, first):
        if cell and number == -1:
            yield f"{number} typeinfo {cell}"
        elif cell:
            yield f"{number} {'func ' if number >= 0 and '~' not in cell else ''}{cell}"


def groups():
    """The tables of each group of the page: name, how many words stand before and behind the address point, and all lines."""
    found, name = {}, ""
    for cells in rows("Group"):
        name = cells[0] or name
        before = sum(1 for cell in cells[2:6] if cell)
        behind = sum(1 for cell in cells[6:] if cell)
        found.setdefault(name, []).append((cells[1], before, behind, list(word_lines(cells[2:], -4))))
    return found


def point_in(group, place):
    """How many bytes behind the start of a group its address point for the pointer at a place lies."""
    words = 0
    for name, before, behind, _ in group:
        if int(name.split("@")[1]) == (place if len(group) > 1 else 0):
            return 8 * (words + before)
        words += before + behind
    raise AssertionError(f"no table for place {place}")


def told_pointers():
    """What the page says of the pointers in the bodies and in `main`, as tools/tests/construction.cc tells it."""
    names = {"V": "V", "D": "D", "B1": "B1@0 in D", "B2": "B2@16 in D"}
    for cells in rows("Step"):
        if len(cells) == 10 and ("body" in cells[1] or cells[1] == "p->f()"):
            yield " ".join("0" if cell == "." else f"{cell}+{point_in(groups()[names[cell]], place)}" for cell, place in zip(cells[7:], POINTERS))


class Construction(unittest.TestCase):
    def test_the_source_is_the_example(self):
        self.assertIn(f"```\n{read(*SOURCE.split('/'))}```\n", PAGE)

    def test_each_step_has_its_row(self):
        steps = [cells[0] for cells in rows("Step")]
        following = 2
        for step in steps:
            numbers = [int(number) for number in step.split(" to ")]
            self.assertEqual(numbers[0], following)
            following = numbers[-1] + 1
        self.assertEqual(following, 59)

    @support.needs_program
    def test_the_commands(self):
        found = list(commands())
        self.assertEqual([words[0] for words, _ in found], ["paths", "layout"])
        for words, text in found:
            self.assertEqual(program.answer(words, read(*SOURCE.split("/"))), (text, 0))

    @support.needs_program
    def test_the_run_has_so_many_steps(self):
        source = read(*SOURCE.split("/"))
        self.assertEqual(program.answer(["paths", "--steps", "58"], source)[1], 4)
        self.assertEqual(program.answer(["paths", "--steps", "59"], source)[1], 0)

    @support.needs_program
    def test_the_words_of_the_tables(self):
        source = read(*SOURCE.split("/"))
        told = program.text_of(["tables", "D"], source) + program.text_of(["tables", "V"], source)
        for name, tables in groups().items():
            text = "".join(f"table {table}\n" + "".join(f"{line}\n" for line in lines) for table, _, _, lines in tables)
            self.assertIn(f"group {name}\n{text}", told)
        listed = re.search(r"^    vtt D 7\n(?:    .*\n)+", PAGE, re.M)[0].splitlines()
        self.assertIn("".join(re.split(r"  +", line.strip())[0] + "\n" for line in listed), told)

    def compiled_pointers(self, compiler):
        """What a program tells that this compiler makes of the example."""
        with tempfile.TemporaryDirectory() as folder:
            object_file, built = os.path.join(folder, "classes.o"), os.path.join(folder, "construction")
            classes = "void print(int);\n" + read(*SOURCE.split("/"))
            subprocess.run([compiler, "-std=c++98", "-O0", "-w", "-x", "c++", "-c", "-o", object_file, "-"], input=classes, encoding="utf-8", check=True)
            subprocess.run([compiler, "-std=c++98", "-O0", "-w", "-o", built, os.path.join(support.TOOLS, "tests", "construction.cc"), object_file], check=True)
            return subprocess.run([built], stdout=subprocess.PIPE, encoding="utf-8", check=True).stdout.splitlines()

    def compare(self, compiler):
        numbers = next(text for words, text in commands() if words == ["paths"]).split()
        self.assertEqual(self.compiled_pointers(compiler), [f"{number} {pointers}" for number, pointers in zip(numbers, told_pointers(), strict=True)])

    @support.needs("g++")
    def test_the_pointers_of_gcc(self):
        self.compare("g++")

    @support.needs("clang++")
    def test_the_pointers_of_clang(self):
        self.compare("clang++")
