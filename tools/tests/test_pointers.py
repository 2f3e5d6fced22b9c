"""Where virtual pointers lead while objects are built and ended: the rule of the page against programs of g++, read by gdb."""
import os
import re
import subprocess
import sys
import tempfile
import unittest

import support
from lib import class_tables, layout_text, program, source, time_line


def one(name, bases="", members="long {}_;", more=""):
    """A class whose constructor and destructor print, so that the debugger stops in their bodies."""
    return f"struct {name}{' : ' + bases if bases else ''} {{ {members.format(name.lower())} {name}() {{ print(1); }} virtual void f() {{ print(2); }} {more} virtual ~{name}() {{ print(3); }} }};\n"


def run_of(name):
    return f"int main() {{ {name}* p = new {name}; p->f(); delete p; }}\n"


CASES = {
    "a chain": one("A") + one("B", "A") + one("C", "B", more="virtual void g() {}") + run_of("C"),
    "two bases": one("A") + one("B", more="virtual void g() {}") + one("C", "A, B") + run_of("C"),
    "a virtual base": one("V") + one("D", "virtual V") + run_of("D"),
    "a diamond": one("V") + one("L", "virtual V") + one("R", "virtual V", more="virtual void g() {}") + one("D", "L, R") + run_of("D"),
    "a virtual primary base": one("V", members="") + one("D", "virtual V") + one("E", "D") + run_of("E"),
    "a virtual base with a virtual base": one("W") + one("V", "virtual W") + one("D", "virtual V") + run_of("D"),
    "two virtual bases": one("V") + one("W") + one("A", "virtual V") + one("B", "virtual W") + one("C", "A, B") + run_of("C"),
    "bases of a virtual base": one("X") + one("Y", more="virtual void g() {}") + one("P", "X, Y") + one("Q", "virtual P") + run_of("Q"),
    "a diamond above a diamond": one("V") + one("L", "virtual V") + one("R", "virtual V") + one("D", "L, R") + one("E", "D, virtual V") + run_of("E"),
    "a member with a virtual base": one("V") + one("M", "virtual V") + one("A") + one("H", "A", "M m; long h;") + run_of("H"),
    "a base below two virtual bases": one("V") + one("A", "virtual V") + one("B", "virtual A") + one("C", "virtual A") + one("D", "B, C") + run_of("D"),
}


class OfPage:
    """What the page tells of a source: at each printed line the table of each place."""

    def __init__(self, text):
        self.tables = class_tables.read(program.text_of(["tables"], text))
        self.line = time_line.read(text, source.classes(text), layout_text.read(program.text_of(["layout"], text)), self.tables)
        self.by_text = {f"{table.name} of {group.name}": (group.name, table) for one in self.tables.values() for group in one.groups for table in group.tables}
        self.places = sorted({place for moment in self.line.moments for place in moment.pointers})

    def lines(self):
        pointers = {}
        for moment in self.line.moments:
            pointers.update(moment.pointers)
            if moment.sort == "printed":
                yield [moment.text] + [self.told(pointers.get(place, "")) for place in self.places]

    def told(self, text):
        if not text:
            return "0"
        group, table = self.by_text[text]
        inside = re.match(r"(\w+)@\d+ in (\w+)$", group)
        symbol = f"construction vtable for {inside[1]}-in-{inside[2]}" if inside else f"vtable for {group}"
        return "|".join([symbol, str(table.word(-2).value), "typeinfo for " + table.word(-1).names, *(f"{word.names}()" for word in table.words if word.number >= 0)])

    def entries(self):
        """For each place as many entries as the shortest of its tables has."""
        counts = {place: [] for place in self.places}
        for moment in self.line.moments:
            for place, text in moment.pointers.items():
                if text:
                    counts[place].append(sum(1 for word in self.by_text[text][1].words if word.number >= 0))
        return {place: min(found) for place, found in counts.items()}


def plain(cell):
    """A cell without the words for thunks, and without its destructors: g++ leaves these entries 0 in the tables for construction."""
    return re.sub(r"\|(\w+::~\w+\(\)|No symbol matches 0\.)", "|~", re.sub(r"(non-)?virtual thunk to ", "", cell))


def of_gdb(text, places):
    """What gdb reads in the program that g++ makes of a source."""
    with tempfile.TemporaryDirectory() as folder:
        built = os.path.join(folder, "built")
        unit = "void print(int number);\n" + text
        subprocess.run(["g++", "-std=gnu++98", "-O0", "-g", "-w", "-o", built, os.path.join(support.TOOLS, "tests", "pointers.cc"), "-x", "c++", "-"], input=unit, encoding="utf-8", check=True)
        words = {**os.environ, "PLACES": " ".join(f"{place}:{count}" for place, count in places.items())}
        done = subprocess.run(["gdb", "-q", "-batch", "-nx", "-x", os.path.join(support.TOOLS, "tests", "pointers_gdb.py"), built], stdout=subprocess.PIPE, stderr=subprocess.PIPE, encoding="utf-8", env=words, timeout=60)
    found = [line.split("\t")[1:] for line in done.stdout.splitlines() if line.startswith("at\t")]
    if not found:
        raise AssertionError(f"gdb tells nothing: {done.stdout} {done.stderr}")
    return [list(map(plain, line)) for line in found]


@support.needs_program
@support.needs("g++", "gdb")
class Pointers(unittest.TestCase):
    maxDiff = None

    @staticmethod
    def front(page, places):
        """What the page tells, with as many entries as are compared."""
        return [[line[0]] + [plain("|".join(cell.split("|")[:3 + places[place]])) for cell, place in zip(line[1:], page.places)] for line in page.lines()]

    def test_each_case(self):
        self.assertGreaterEqual(len(CASES), 10)
        for name, text in CASES.items():
            with self.subTest(name):
                page = OfPage(text)
                places = page.entries()
                front = self.front(page, places)
                self.assertGreater(len(front), 4)
                self.assertEqual(front, of_gdb(text, places))

    def test_a_wrong_rule_is_seen(self):
        text = CASES["a diamond"]
        page = OfPage(text)
        for moment in page.line.moments:
            moment.pointers = {place: led.replace("L@0 of L@0 in D", "L@0 of L") for place, led in moment.pointers.items()}
        places = page.entries()
        self.assertNotEqual(self.front(page, places), of_gdb(text, places))


if __name__ == "__main__":
    unittest.main(argv=sys.argv[:1])
