"""tools/read-dumps: its reader keeps the rules of docs/INSPECT.md, dumps come back byte for byte, and an answer that is another one is told."""
import os
import shutil
import stat
import tempfile
import unittest

import support
from lib import dump_programs, dump_reading, program

SOURCE = "struct X { char a; virtual void f() {} };\nstruct Y { int b; virtual void g() {} };\nstruct Z : X, Y { Z* next; short s[2]; };\nstruct P { bool b; int i : 3; unsigned u : 5; };\n"
DUMP = """dump #1 Z 48
0 vptr Z@0 of Z
8 -- char X::a
9 pad 7
16 vptr Y@16 of Z
24 02010000 int Y::b
28 pad 4
32 #1+0 Z* next
40 ---- short s[0]
42 0700 short s[1]
44 pad 4
"""
SEEN = "object 1 class Z\nX::a unset\nY::b 258\nnext #1+0\ns[0] unset\ns[1] 7\n"
BITS = "dump #2 P 4\n0 01 bool b\n1 bits 0 3 -4 int i\n1 bits 3 5 31 unsigned int u\n2 pad 2\n"
MAIN = "int main() { Z* z = new Z; z->b = 258; z->next = z; z->s[1] = 7; dump(z); print(3); }\n"
# a line of DUMP, counted from 1, what it becomes, and the line of the refusal; 0 where it is a dump still
LINES = [
    (1, "dump #0 Z 48", 1), (1, "dump #01 Z 48", 1), (1, "dump #4294967295 Z 48", 0), (1, "dump #4294967296 Z 48", 1), (1, "dump #1 Z 47", 1), (1, "dump #1 Z 048", 1), (1, "dump #1  Z 48", 1), (2, "0 vptr X@0 of Z", 2),
    (2, "0 vptr Z@0 of X", 2), (3, "8 ff char X::a", 0), (3, "8 FF char X::a", 3), (3, "8 f char X::a", 3), (3, "8 -f char X::a", 3), (3, "8 ffff char X::a", 3), (3, "8 ff char X::b", 3), (3, "8 ff bool X::a", 3), (4, "9 pad 6", 4),
    (6, "24 0201 int Y::b", 6), (6, "24 02--0000 int Y::b", 6), (6, "24 ffffffff int Y::b ", 6), (8, "32 null Z* next", 0), (8, "32 ---------------- Z* next", 0), (8, "32 -- Z* next", 8), (8, "32 #0+0 Z* next", 8),
    (8, "32 #1+4294967295 Z* next", 0), (8, "32 #1+4294967296 Z* next", 8), (8, "32 #1+00 Z* next", 8), (8, "32 #1-1 Z* next", 8), (8, "32 0000000000000000 Z* next", 8), (9, "42 0700 short s[1]", 9), (11, "44 pad 4\r", 11), (11, "", 11),
]


class Rules(unittest.TestCase):
    """The reader of the tool."""

    @classmethod
    def setUpClass(cls):
        if not os.access(program.path(), os.X_OK):
            raise unittest.SkipTest("the program is not built: ./tagymelur builds it")
        cls.reader = dump_reading.Reader(SOURCE)

    def expected(self, dump):
        return self.reader.expected(f"{dump}program\n{SOURCE}")

    def test_a_dump(self):
        self.assertEqual(self.expected(DUMP), (SEEN, 0))
        self.assertEqual(self.expected(BITS), ("object 2 class P\nb 1\ni -4\nu 31\n", 0))
        self.assertEqual((self.reader.written(SEEN), self.reader.written("object 2 class P\nb 1\ni -4\nu 31\n")), (DUMP, BITS))
        for answer in (SEEN.replace("Y::b", "b"), SEEN.replace("s[1] 7\n", ""), SEEN + "t 1\n", "", "object 1 class W\n"):
            self.assertIsNone(self.reader.written(answer))
        for value, number in (("ff", -1), ("80", -128), ("7f", 127)):
            self.assertEqual(self.expected(DUMP.replace("8 --", f"8 {value}"))[0], SEEN.replace("X::a unset", f"X::a {number}"))

    def test_each_line(self):
        for number, line, refused in LINES:
            lines = DUMP.splitlines()
            lines[number - 1] = line
            answer, status = self.expected("\n".join(lines) + "\n")
            self.assertEqual(status, 1 if refused else 0, line)
            self.assertTrue(not refused or answer == f"refused I2 Form line {refused}\n", f"{line}: {answer}")

    def test_numbers_of_bit_fields(self):
        for front, value, fits in (("3", "-5", False), ("3", "4", False), ("3", "3", True), ("3", "-0", False), ("3", "03", False), ("3", "--", True), ("5", "32", False), ("5", "-1", False), ("5", "0", True)):
            dump = BITS.replace("3 -4 int", f"3 {value} int") if front == "3" else BITS.replace("5 31 uns", f"5 {value} uns")
            self.assertEqual(self.expected(dump)[1], 0 if fits else 1, value)
        self.assertEqual(self.expected(BITS.replace("0 01 bool", "0 02 bool")), ("refused I2 Form line 2\n", 1))

    def test_lines_too_few_or_too_many(self):
        lines = DUMP.splitlines(keepends=True)
        for count in range(1, len(lines)):
            self.assertEqual(self.expected("".join(lines[:count])), (f"refused I2 Form line {count + 1}\n", 1))
        self.assertEqual(self.expected(""), ("refused I2 Form line 1\n", 1))
        self.assertEqual(self.expected(DUMP + "44 pad 4\n"), ("refused I2 Form line 12\n", 1))

    def test_classes_that_are_not_there(self):
        for head in ("dump #1 Q 8", "dump #0 Q 0", "dump #99999999999 Q 99999999999", "dump #1 int 4"):
            self.assertEqual(self.expected(head + "\n"), ("refused I1 UnknownClass line 1\n", 1), head)
        for head in ("dump #01 Q 8", "dump #1 Q 08", "dump #1 9 8", "dump 1 Q 8"):
            self.assertEqual(self.expected(head + "\n"), ("refused I2 Form line 1\n", 1), head)

    def test_no_line_program(self):
        self.assertEqual(self.reader.expected("dump #1 Z 48\n0 vptr"), ("refused I2 Form line 3\n", 1))
        self.assertEqual(self.reader.expected("dump #1 Z 48\n"), ("refused I2 Form line 2\n", 1))

    def test_what_the_reader_says_is_what_the_program_says(self):
        for number, line, _ in LINES:
            lines = DUMP.splitlines()
            lines[number - 1] = line
            whole = "\n".join(lines) + f"\nprogram\n{SOURCE}"
            self.assertEqual(program.answer(["inspect"], whole), self.reader.expected(whole), line)


@support.needs_program
class ReadDumps(unittest.TestCase):
    def setUp(self):
        self.folder = tempfile.mkdtemp()
        self.addCleanup(shutil.rmtree, self.folder)

    def write(self, name, text):
        path = os.path.join(self.folder, name)
        with open(path, "w", encoding="utf-8") as file:
            file.write(text)
        return path

    def test_a_program(self):
        done = support.run("read-dumps", "-", text=SOURCE + MAIN)
        self.assertEqual((done.returncode, done.stdout, done.stderr), (0, "1 programs with dumps, 1 dumps, 5 values\n0 differ\n", ""))

    def test_random_programs(self):
        done = support.run("read-dumps", "--random", "4", "--seed", "3")
        self.assertEqual((done.returncode, done.stderr), (0, ""), done.stdout)
        self.assertRegex(done.stdout, r"^4 programs with dumps, \d+ dumps, \d+ values\n0 differ\n$")

    def test_a_dump_cut_and_changed(self):
        small = self.write("small.cpp", "struct A { bool b; int i : 3; A* p; }; int main() { A* a = new A; a->b = true; a->p = a; dump(a); }\n")
        done = support.run("read-dumps", "--changed", "1", small)
        self.assertEqual((done.returncode, done.stderr), (0, ""), done.stdout)
        self.assertRegex(done.stdout, r"\n1 dumps cut and changed: \d{3} texts, [1-9]\d* of them dumps still\n0 differ\n$")

    @support.needs("sh")
    def test_answers_that_are_wrong(self):
        """A program that reads what is not set as 0, and one that takes any first line, are told of."""
        source = self.write("z.cpp", SOURCE + MAIN)
        for change, said in (("sed 's/unset/0/'", "inspect answers ['s[1] 7'] with status 0"), ("sed '1s/1/2/'", "inspect answers"), ("sed '$d'", "inspect answers ['s[0] unset']")):
            stand_in = self.write("stand-in", f'#!/bin/sh\nif [ "$1" = inspect ]; then "{program.path()}" "$@" | {change}; else exec "{program.path()}" "$@"; fi\n')
            os.chmod(stand_in, stat.S_IRWXU)
            done = support.run("read-dumps", source, environment=dict(os.environ, TAGYMELUR=stand_in))
            self.assertEqual(done.returncode, 1, done.stderr)
            self.assertIn(said, done.stdout)
            self.assertTrue(done.stdout.endswith("\n1 differ\n"), done.stdout)

    def test_the_random_programs_have_each_kind(self):
        """Among some programs there are unset leaves, bit-fields, arrays, pointers to objects, members of members and virtual pointers."""
        printed = "".join(program.answer(["run"], text)[0] for _, text in dump_programs.programs(7, 5))
        for shape in (r"\d+ (?:--)+ \w", r"\d+ bits \d \d+ -?\d+ ", r"\d+ bits \d \d+ -- ", r" \w+\[1\]\n", r"\d+ #\d+\+[1-9]", r"\d+ null ", r"[ :]m\d(?:\[\d\])?\.", r"\d+ vptr \w+@[1-9]", r" \*K\d"):
            self.assertRegex(printed, shape)

    def test_bad_input(self):
        for words, text, said in ((["-"], "struct A { A a; };", "refused E5"), (["/nowhere/x.cpp"], "", "cannot be read")):
            done = support.run("read-dumps", *words, text=text)
            self.assertEqual((done.returncode, done.stdout), (2, ""))
            self.assertIn(said, done.stderr)


if __name__ == "__main__":
    unittest.main()
