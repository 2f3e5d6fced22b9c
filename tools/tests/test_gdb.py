"""tools/gdb/tagymelur.py on a program that g++ built: under construction, complete, overwritten, in a core file, and without what it needs."""
import os
import re
import shutil
import stat
import subprocess
import sys
import tempfile
import unittest

import support
from lib import class_tables, dumps, layout_text, program

SCRIPT = os.path.join(support.TOOLS, "gdb", "tagymelur.py")
PROGRAM = os.path.join(program.TOP, "examples", "objects.cc")
COMPLETE = """dump #1 shapes_D 112
0 vptr shapes_D@0 of shapes_D
8 02010000 int shapes_B1::b1
12 01 bool shapes_B1::on
13 bits 0 5 -3 int shapes_B1::low
14 pad 2
16 bits 0 20 9 unsigned int shapes_B1::wide
19 pad 5
24 vptr shapes_B2@24 of shapes_D
32 0101 short shapes_B2::b2[0]
34 0101 short shapes_B2::b2[1]
36 0101 short shapes_B2::b2[2]
38 pad 2
40 #1+96 shapes_V* shapes_B2::seen
48 ffffffff int box.value
52 pad 4
56 #1+48 shapes_Box_int* box.next
64 01000000 unsigned int color
68 pad 4
72 #2+0 opaque* name
80 #1+0 shapes_D* self
88 null shapes_V* none
96 vptr shapes_V@96 of shapes_D
104 0700000000000000 long *shapes_V::v
program
"""


def has_inspect():
    return program.answer(["inspect"], "dump #1 A 1\n0 -- char c\nprogram\nstruct A { char c; };")[1] == 0


class Folder(unittest.TestCase):
    maxDiff = None

    @classmethod
    def setUpClass(cls):
        cls.folder = tempfile.mkdtemp()
        cls.addClassCleanup(shutil.rmtree, cls.folder)
        cls.built = cls.build("objects", "-g")

    @classmethod
    def build(cls, name, *flags):
        path = os.path.join(cls.folder, name)
        subprocess.run(["g++", "-std=gnu++98", "-O0", "-w", *flags, "-o", path, PROGRAM], check=True)
        return path

    def gdb(self, *commands, built=None, given=(), environment=None):
        """What gdb prints for commands, each alone; what came of the script and not of gdb itself."""
        words = ["gdb", "-q", "-batch", "-nx", "-ex", "set pagination off", "-ex", f"source {SCRIPT}"]
        for command in commands:
            words += ["-ex", command]
        done = subprocess.run([*words, built or self.built, *given], stdin=subprocess.DEVNULL, stdout=subprocess.PIPE, stderr=subprocess.STDOUT, encoding="utf-8", timeout=120,
                              env={**os.environ, **(environment or {})})
        self.assertNotIn("Traceback", done.stdout)
        self.assertNotIn("Python Exception", done.stdout)
        return done.stdout

    CONSTRUCTION = ["break stop", "run", "up"]
    WHOLE = [*CONSTRUCTION, "continue", "up"]
    OVERWRITTEN = [*WHOLE, "continue", "up"]


@support.needs_program
@support.needs("g++", "gdb", "c++filt")
class Objects(Folder):
    def test_a_complete_object(self):
        expressions = ["d", "*d", "v", "*v", "(shapes::B2&)*d", "d->self"]
        told = self.gdb(*self.WHOLE, *(f"tagymelur dump {expression}" for expression in expressions), "tagymelur vptr v")
        self.assertEqual(told.count(COMPLETE), len(expressions), told)
        self.assertRegex(told, r"// #1 is 0x[0-9a-f]+\n// #2 is 0x[0-9a-f]+\n")
        self.assertNotIn("virtual pointer at", told)
        self.assertIn("class shapes_D\n0 vptr shapes_D@0 of shapes_D: vtable for shapes::D\n24 vptr shapes_B2@24 of shapes_D: vtable for shapes::D\n96 vptr shapes_V@96 of shapes_D: vtable for shapes::D\n", told)
        self.assertNotIn("where the rules give", told)

    def test_an_object_without_virtual_functions(self):
        told = self.gdb(*self.WHOLE, "tagymelur dump plain", "tagymelur dump &d->box", "tagymelur vptr plain")
        self.assertIn("dump #1 shapes_Plain 8\n0 61 char c\n1 pad 3\n4 05000000 int i\nprogram\n", told)
        self.assertIn("dump #1 shapes_Box_int 16\n0 ffffffff int value\n4 pad 4\n8 #1+0 shapes_Box_int* next\nprogram\n", told)
        self.assertIn("it has no virtual pointer", told)

    def test_an_object_under_construction(self):
        """In the constructor of the B1 in a D: the D is told, and which of its pointers lead where."""
        told = self.gdb(*self.CONSTRUCTION, "tagymelur dump this", "tagymelur vptr this")
        self.assertIn("dump #1 shapes_D 112\n0 vptr shapes_D@0 of shapes_D\n8 02010000 int shapes_B1::b1\n", told)
        self.assertIn("leads to shapes_B1@0 of shapes_B1@0 in shapes_D: the shapes::B1 at 0 in the shapes::D is under construction, or it ends", told)
        self.assertIn("0 vptr shapes_B1@0 of shapes_B1@0 in shapes_D: construction vtable for shapes::B1-in-shapes::D\n", told)
        self.assertIn("96 vptr shapes_V@96 of shapes_B1@0 in shapes_D: construction vtable for shapes::B1-in-shapes::D\n", told)
        self.assertNotIn("where the rules give", told)

    def test_an_object_whose_pointers_were_overwritten(self):
        told = self.gdb(*self.OVERWRITTEN, "tagymelur vptr *d", "tagymelur dump *d")
        self.assertIn("the virtual pointer at 96 (shapes_V@96 of shapes_D) has the value 0x4141414141414141: it leads to no virtual table of this program: it was overwritten", told)
        self.assertRegex(told, r"the virtual pointer at 0 \(shapes_D@0 of shapes_D\) has the value 0x[0-9a-f]+: it leads into the vtable for shapes::D, and to no address point there: it was overwritten")
        self.assertIn("104 0700000000000000 long *shapes_V::v\n", told)

    def test_classes_without_a_name_of_their_own(self):
        text = """namespace { struct V { long v; V() : v(1) {} virtual ~V() {} }; struct X : V { struct { int a; private: char b; } in; union { int u; char k; }; X() { u = 3; in.a = 2; } operator int() const; int operator[](int) const; }; }
static void stop(void*) {}
template <class A, class B> struct Two { A a; B b; Two* operator->(); };
int main() { struct Local { int l; Local* n; } l = {4, &l}; X x; Two<Local*, Two<int, char> > t = {&l, {1, 2}}; const X& r = x; X some[2]; stop(&x); return l.l + r.u + (t.a == 0) + some[1].u; }
"""
        built = os.path.join(self.folder, "names")
        subprocess.run(["g++", "-O0", "-w", "-g", "-o", built, "-x", "c++", "-"], input=text, encoding="utf-8", check=True)
        told = self.gdb(*self.CONSTRUCTION, *(f"tagymelur dump {one}" for one in ("l", "t", "r", "some[1]", "some", "x.in")), built=built)
        for said in ("dump #1 Local 16\n0 04000000 int l\n4 pad 4\n8 #1+0 Local* n\nprogram\n", "0 #2+0 opaque* a\n8 01000000 int b.a\n12 02 char b.b\n13 pad 3\nprogram\n", "some is of the type (anonymous namespace)::X [2]",
                     "0 02000000 int a\n4 00 char b\n5 pad 3\nprogram\n"):
            self.assertIn(said, told)
        self.assertEqual(told.count("16 02000000 int in.a\n20 00 char in.b\n21 pad 3\n24 03000000 int unnamed\n28 pad 4\nprogram\n"), 2, told)

    def test_a_bool_that_is_none(self):
        told = self.gdb(*self.WHOLE, "tagymelur dump odd")
        self.assertIn("dump #1 shapes_Odd 1\n0 -- bool odd\nprogram\n", told)
        self.assertIn("// the bool odd at 0 has the byte 09, which is neither 0 nor 1", told)

    def test_a_core_file(self):
        core = os.path.join(self.folder, "core")
        self.gdb(*self.WHOLE, f"generate-core-file {core}", "kill")
        self.assertIn(COMPLETE, self.gdb("up", "tagymelur dump d", given=[core]))
        core = os.path.join(self.folder, "core.under")
        self.gdb(*self.CONSTRUCTION, f"generate-core-file {core}", "kill")
        told = self.gdb("up", "tagymelur vptr this", given=[core])
        self.assertIn("0 vptr shapes_B1@0 of shapes_B1@0 in shapes_D: construction vtable for shapes::B1-in-shapes::D\n", told)

    @support.needs("clang++")
    def test_the_classes_of_a_source(self):
        path = os.path.join(self.folder, "objects.src")
        with open(path, "w", encoding="utf-8") as file:
            file.write(support.run("from-cpp", PROGRAM).stdout)
        told = self.gdb(f"set tagymelur-source {path}", "show tagymelur-source", *self.WHOLE, "tagymelur dump d", "tagymelur vptr d")
        self.assertIn(COMPLETE.replace("opaque* name", "opaque* name"), told)
        self.assertIn(f"the classes are those of {path}", told)
        self.assertIn("24 vptr shapes_B2@24 of shapes_D: vtable for shapes::D\n", told)
        with open(path, "w", encoding="utf-8") as file:
            file.write("struct A { int x; };\n")
        self.assertIn("the source has no class for shapes::D", self.gdb(f"set tagymelur-source {path}", *self.WHOLE, "tagymelur dump d"))
        self.assertIn("tagymelur: ", self.gdb("set tagymelur-source /nowhere.src", *self.WHOLE, "tagymelur dump d"))

    def test_what_inspect_is_given(self):
        """A program that stands before the real one keeps what it is given, and answers."""
        seen, script = os.path.join(self.folder, "seen"), os.path.join(self.folder, "tagymelur")
        with open(script, "w", encoding="utf-8") as file:
            file.write(f'#!/bin/sh\nif [ "$1" = inspect ]; then cat > "{seen}"; echo "object 1 class shapes_D"; else exec "{program.path()}" "$@"; fi\n')
        os.chmod(script, os.stat(script).st_mode | stat.S_IXUSR)
        told = self.gdb(*self.WHOLE, "tagymelur inspect v", environment={"TAGYMELUR": script})
        self.assertIn("object 1 class shapes_D\n#1 is 0x", told)
        with open(seen, encoding="utf-8") as file:
            given = file.read()
        self.assertTrue(given.startswith(COMPLETE), given)
        self.assertEqual(program.answer(["check"], given[len(COMPLETE):])[1], 0)

    def test_inspect(self):
        if not has_inspect():
            self.assertIn("this build of Tagymelur has no command 'inspect'", self.gdb(*self.WHOLE, "tagymelur inspect v"))
            self.skipTest("the program has no command inspect yet")
        for commands, expression in ((self.WHOLE, "v"), (self.CONSTRUCTION, "this"), (self.OVERWRITTEN, "*d")):
            told = self.gdb(*commands, f"tagymelur inspect {expression}")
            self.assertIn("object 1 class shapes_D\nshapes_B1::b1 258\nshapes_B1::on 1\nshapes_B1::low -3\n", told)
            self.assertIn("\n*shapes_V::v 7\n", told)
        self.assertIn("odd unset", self.gdb(*self.WHOLE, "tagymelur inspect odd"))

    def test_a_layout_that_is_another(self):
        packed = self.build("packed", "-g", "-fpack-struct=2")
        told = self.gdb(*self.WHOLE, "tagymelur dump d", "tagymelur dump plain", built=packed)
        self.assertEqual(told.count("otherwise than its compiler did"), 2, told)

    def test_bad_expressions(self):
        told = self.gdb("tagymelur dump", "tagymelur dump nosuch", "tagymelur vptr d", *self.WHOLE, "tagymelur dump none", "tagymelur dump 3", "tagymelur dump (", "tagymelur dump *(shapes::D*)8", "tagymelur inspect nosuch", "tagymelur vptr main", "tagymelur nosuch d")
        for said in ("tagymelur dump needs an expression", 'No symbol "nosuch" in current context', "there is no process", "none is null", "is of the type int", "A syntax error in expression", "bytes at 0x8 cannot be read"):
            self.assertIn(said, told)

    def test_a_program_without_symbols_or_debug_information(self):
        bare = self.build("bare", "-g")
        subprocess.run(["strip", "-s", bare], check=True)
        self.assertRegex(self.gdb("tagymelur dump d", built=bare), "No symbol")
        told = self.gdb("break stop", "run", "up", "tagymelur dump this", built=self.build("plain"))
        self.assertRegex(told, "tagymelur: this: No symbol")

    def test_an_object_that_is_optimized_out(self):
        fast = os.path.join(self.folder, "fast")
        text = "struct P { int a; int b; }; extern \"C\" int puts(const char*);\nint main(int n, char**) { P p = {n, n + 1}; puts(\"\"); puts(\"\"); return 0; }\n"
        subprocess.run(["g++", "-O2", "-g", "-o", fast, "-x", "c++", "-"], input=text, encoding="utf-8", check=True)
        told = self.gdb("break puts", "run", "up", "tagymelur dump p", built=fast)
        self.assertRegex(told, "tagymelur: (p is optimized out here|p: value has been optimized out|p is of the type P, and no object)")

    def test_no_program(self):
        told = self.gdb(*self.WHOLE, "tagymelur dump d", environment={"TAGYMELUR": "/nowhere/tagymelur"})
        self.assertIn("tagymelur: /nowhere/tagymelur cannot be run", told)


@support.needs_program
class Dumps(unittest.TestCase):
    """The lines of a dump, as tools make them, are those that a run prints."""

    SOURCES = [
        "struct X { char a; virtual void f() {} };\nstruct Y { int b; virtual void g() {} };\nstruct Z : X, Y { Z* next; short s[2]; };\nint main() { Z* z = new Z; z->b = 258; z->next = z; z->s[1] = 7; dump(z); }\n",
        "struct V { long v; virtual void f() {} };\nstruct E {};\nstruct M : virtual V { int x : 3; bool b : 1; E e; };\nstruct D : M, virtual V { M m[2]; E e; char c : 7; long long w : 33; };\nint main() { D* d = new D; dump(d); }\n",
        "struct A { virtual void f() {} };\nstruct B : virtual A { int b; };\nstruct C : virtual A { int c; };\nstruct D : B, C { bool t[3]; D* p[2]; };\nint main() { D* d = new D; dump(d); }\n",
    ]

    def test_lines(self):
        for text in self.SOURCES:
            printed = program.text_of(["run"], text)
            layouts, tables = layout_text.read(program.text_of(["layout"], text)), class_tables.read(program.text_of(["tables"], text))
            head = re.match(r"dump #1 (\w+) (\d+)\n", printed)
            given = dict(self.value(line) for line in printed.splitlines()[1:])
            told = dumps.text(1, head[1], layouts[head[1]].size, dumps.leaves(layouts, tables, head[1]), lambda leaf: given[f"{leaf.place} {leaf.first}"])
            self.assertEqual(told, printed)

    @staticmethod
    def value(line):
        bits = re.match(r"(\d+) bits (\d+) \d+ (\S+) ", line)
        return (f"{bits[1]} {bits[2]}", bits[3]) if bits else (f"{line.split()[0]} 0", line.split()[1])

    def test_values(self):
        content = bytes([0x65, 0xff, 2, 0]) + (1 << 40).to_bytes(8, "little") + bytes(4)
        values = dumps.Values(content, 1 << 40)
        leaf = lambda place, size, kind, first=0, width=None: values.of(dumps.Leaf(place, size, kind, "x", first, width))
        self.assertEqual([leaf(0, 4, "int", 0, 3), leaf(0, 4, "unsigned int", 0, 3), leaf(0, 4, "int", 4, 12), leaf(0, 1, "bool", 0, 1), leaf(1, 2, "short")], ["-3", "5", "-10", "1", "ff02"])
        self.assertEqual([leaf(4, 8, "A*"), leaf(8, 8, "A*"), leaf(12, 4, "int")], ["#1+0", "#2+0", "00000000"])
        self.assertEqual((leaf(2, 1, "bool"), leaf(3, 1, "bool")), ("--", "00"))
        self.assertEqual((list(values.targets), len(values.odd)), ([256], 1))


if __name__ == "__main__":
    unittest.main(argv=sys.argv[:1])
