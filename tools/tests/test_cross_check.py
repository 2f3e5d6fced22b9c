"""tools/cross-check: agreement, planted differences, known differences, random hierarchies."""
import os
import re
import stat
import subprocess
import tempfile
import unittest

import support
from lib import compare, compiled_tables, compiled_types, compilers, cookies, layout_text, member_pointers, object_files, problem, program, random_source, source

EXAMPLES = os.path.join(program.TOP, "examples")
DIAMOND = os.path.join(EXAMPLES, "diamond.cpp")

# An empty base that does not lie at 0 keeps a class from being nearly empty; clang++ looks at the size alone.
BY_SIZE = "struct E {}; struct B1 : E {}; struct B2 : E {}; struct M : B1, B2 {}; struct X : M { virtual void f() {} }; struct D : virtual X { long d; };"

# B holds P, so that A has none of it, and the place 0 is free for the shared E; g++ takes it for taken.
LOST = "struct E {}; struct P : E { virtual void f() {} }; struct A : virtual P {}; struct B : virtual E, virtual P {}; struct D : virtual B, A {};"

# A thunk, a covariant result, a destructor and a pure function; the words are those of the ABI.
TABLED = "struct X { long a; virtual void x() {} }; struct A { long b; virtual A* clone() = 0; }; struct B : X, A { virtual B* clone() {} virtual ~B() {} };"
WORDS = """group X
table X@0
-2 top 0
-1 typeinfo X
0 func X::x
group A
table A@0
-2 top 0
-1 typeinfo A
0 pure A::clone
group B
table B@0
-2 top 0
-1 typeinfo B
0 func X::x
1 func B::clone
2 complete B::~B
3 deleting B::~B
table A@16
-2 top -16
-1 typeinfo B
0 func B::clone this -16 return 16
"""

# N lies once in an X, below the shared S; clang++ sets the flag of a repeated base all the same.
TYPED = "struct N { long n; }; struct S : N {}; struct A : virtual S {}; struct B : virtual S {}; struct X : A, B { virtual void f() {} };"
TYPES = """typeinfo N class
typeinfo S si N
typeinfo A vmi flags 0 bases 1
base S -6141
typeinfo B vmi flags 0 bases 1
base S -6141
typeinfo X vmi flags 2 bases 2
base A 2
base B 2050
"""


# Bit-fields in one unit, behind a char, behind a base's tail, and behind the same in an array; the layouts are those of the rules.
BITS = """struct P { int a : 3; int b : 5; char c; }; struct Q { Q() {} char c; int x : 25; short y : 9; };
struct S { S() {} int x : 25; }; struct R : S { int z : 2; private: bool t : 1; }; struct H { Q q[2]; unsigned k : 3; };
"""
BITS_LAYOUT = """class P size 4 align 4 dsize 4 nvsize 4 nvalign 4
primary none
0 bits 0 3 int a
0 bits 3 5 int b
1 field char c
class Q size 12 align 4 dsize 10 nvsize 10 nvalign 4
primary none
0 field char c
4 bits 0 25 int x
8 bits 0 9 short y
class S size 4 align 4 dsize 4 nvsize 4 nvalign 4
primary none
0 bits 0 25 int x
class R size 8 align 4 dsize 5 nvsize 5 nvalign 4
primary none
0 base S
4 bits 0 2 int z
4 bits 2 1 bool t
class H size 28 align 4 dsize 25 nvsize 25 nvalign 4
primary none
0 field Q[2] q
24 bits 0 3 unsigned int k
"""


def changed(folder, pattern, replacement):
    """Where a program answers as Tagymelur does, but for one text, and takes or refuses what its text says."""
    path = os.path.join(folder, "planted")
    with open(path, "w", encoding="utf-8") as file:
        file.write(f'#!/bin/sh\ntext=$("{program.path()}" "$@" | sed "s/{pattern}/{replacement}/")\n[ -z "$text" ] || printf "%s\\n" "$text"\ncase $text in refused*) exit 1;; esac\n')
    os.chmod(path, os.stat(path).st_mode | stat.S_IXUSR)
    return dict(os.environ, TAGYMELUR=path)


class Reading(unittest.TestCase):
    def test_a_layout(self):
        text = "class D size 56 align 8 dsize 56 nvsize 40 nvalign 8\nprimary virtual B1\n0 base B1\n40 base *V/W\n32 field unsigned long[3] d\n"
        one = layout_text.read(text)["D"]
        self.assertEqual((one.size, one.align, one.dsize, one.nvsize, one.nvalign, one.primary), (56, 8, 56, 40, 8, "virtual B1"))
        self.assertEqual([(base.place, base.names, base.shared) for base in one.bases], [(0, ["B1"], False), (40, ["V", "W"], True)])
        self.assertEqual([(member.place, member.type, member.length, member.name) for member in one.members], [(32, "unsigned long", 3, "d")])

    def test_a_source(self):
        found = source.classes("class A; // a comment\nstruct A : virtual private B, C { unsigned x[3]; virtual A* f(int p) = 0; A() : x(1) { this->y = 2; } private: ~A() { while (x) { } } A* a; }; long g; int main() { }")
        one = found["A"]
        self.assertEqual([(base.name, base.virtual, base.access) for base in one.bases], [("B", True, "private"), ("C", False, "public")])
        self.assertEqual([(part.type, part.name, part.length, part.access) for part in one.fields], [("unsigned int", "x", 3, "public"), ("A*", "a", None, "private")])
        self.assertEqual([(part.kind, part.name, part.virtual, part.pure) for part in one.functions], [("function", "f", True, True), ("constructor", "A", False, False), ("destructor", "~A", False, False)])


@support.needs("clang++", "g++")
class BitFields(unittest.TestCase):
    def setUp(self):
        self.classes = {"s": source.classes(BITS)}
        self.seen = compilers.by_clang(self.classes), compilers.by_gcc(self.classes)

    def found(self, text):
        """The words of each difference, by class and compiler."""
        return {(one.class_name, one.compiler): one.words for one in compare.differences("s", self.classes["s"], text, *self.seen)}

    def test_both_compilers_agree(self):
        self.assertEqual(self.found(BITS_LAYOUT), {})

    def test_planted_bits_are_found(self):
        for old, new, name, words in (
            ("0 bits 3 5 int b", "0 bits 4 5 int b", "P", "member b at the bits 4 to 8, {} the bits 3 to 7"),
            ("4 bits 0 25 int x", "1 bits 0 25 int x", "Q", "member x at the bits 8 to 32, {} the bits 32 to 56"),
            ("4 bits 0 2 int z", "3 bits 1 2 int z", "R", "member z at the bits 25 to 26, {} the bits 32 to 33"),
            ("4 bits 2 1 bool t", "4 field bool t", "R", "member t at 4, {} the bits 34 to 34"),
            ("24 bits 0 3 unsigned", "24 bits 0 4 unsigned", "H", "member k at the bits 192 to 195, {} the bits 192 to 194"),
        ):
            found = self.found(BITS_LAYOUT.replace(old, new))
            self.assertEqual(found, {(name, compiler): [words.format(compiler)] for compiler in ("clang++", "g++")}, old)

    def test_random_widths_are_those_of_the_types(self):
        chosen, seen = random_source.random.Random(2), set()
        for _ in range(3000):
            kind = chosen.choice(random_source.SCALARS)
            width = random_source.bit_width(chosen, kind)
            self.assertTrue(1 <= width <= (1 if kind == "bool" else 8 * layout_text.SIZES[kind]), (kind, width))
            seen.add((kind, width))
        self.assertTrue({("bool", 1), ("char", 1), ("char", 8), ("short", 16), ("int", 31), ("unsigned long", 64)} <= seen)


@support.needs("clang++", "g++")
@support.needs_program
class CrossCheck(unittest.TestCase):
    def test_agreement(self):
        done = support.run("cross-check", DIAMOND, os.path.join(EXAMPLES, "layout.cpp"))
        self.assertEqual(done.returncode, 0, done.stdout + done.stderr)
        self.assertIn("7 classes of 2 sources compared, 0 new differences", done.stdout)

    def test_planted_differences_are_found(self):
        plants = [("40 base \\*V", "48 base *V", "base \\*V at 48, clang\\+\\+ 40"), ("32 field long d", "24 field long d", "member d at 24, g\\+\\+ 32"), ("size 56 align 8 dsize 56", "size 64 align 8 dsize 56", "size 64, g\\+\\+ 56")]
        for pattern, replacement, said in plants:
            with tempfile.TemporaryDirectory() as folder:
                done = support.run("cross-check", DIAMOND, environment=changed(folder, pattern, replacement))
                self.assertEqual(done.returncode, 1, said)
                self.assertTrue(re.search(said, done.stdout), done.stdout)
                self.assertIn("D, clang++: a new difference", done.stdout)

    def test_a_known_difference_is_told_apart(self):
        done = support.run("cross-check", "-", text=BY_SIZE)
        self.assertEqual(done.returncode, 0, done.stdout)
        self.assertIn("clang++: 1 classes differ: clang++ takes a class for nearly empty by its size alone", done.stdout)
        done = support.run("cross-check", "-", text=LOST)
        self.assertEqual(done.returncode, 0, done.stdout)
        self.assertIn("g++: 1 classes differ: g++ keeps room for a primary base that lies elsewhere", done.stdout)

    def test_random_hierarchies(self):
        done = support.run("cross-check", "--random", "60", "--seed", "5")
        self.assertEqual(done.returncode, 0, done.stdout)
        self.assertGreaterEqual(int(re.search(r"(\d+) classes of", done.stdout)[1]), 60)
        again = support.run("cross-check", "--random", "60", "--seed", "5")
        self.assertEqual(done.stdout, again.stdout)

    def test_random_hierarchies_with_bit_fields(self):
        done = support.run("cross-check", "--random", "60", "--seed", "5", "--bit-fields")
        self.assertEqual(done.returncode, 0, done.stdout)
        self.assertGreaterEqual(int(re.search(r"(\d+) classes of", done.stdout)[1]), 60)
        texts = [text for _, text in random_source.sources(60, 5, 50)]
        self.assertGreater(sum(text.count(" : ") for text in texts), 60)

    def test_bad_input(self):
        for words, text, said in ((["-"], "struct A { int x;", "refused E2 Syntax at 17"), (["/nowhere"], "", "cannot be read"), ([], "", "give a source"), (["-", "--bit-fields"], "", "give --random N")):
            done = support.run("cross-check", *words, text=text)
            self.assertEqual(done.returncode, 2)
            self.assertIn(said, done.stderr)
            self.assertNotIn("Traceback", done.stderr)

    def test_an_empty_source(self):
        done = support.run("cross-check", "-", text="")
        self.assertEqual((done.returncode, done.stdout), (2, ""))
        self.assertIn("there is no class to compare", done.stderr)


@support.needs("clang++", "g++")
class Tables(unittest.TestCase):
    def test_words_of_tables(self):
        for compiler in ("clang++", "g++"):
            self.assertEqual(compiled_tables.differences(compiler, source.classes(TABLED), WORDS, set()), [])

    def test_planted_words_are_found(self):
        plants = [("this -16 return 16", "this -16", "word 8"), ("top -16", "top -8", "word 6"), ("pure A::clone", "func A::clone", "word 2"), ("1 func B::clone\n2 complete B::~B", "1 complete B::~B\n2 func B::clone", "word 3")]
        for old, new, said in plants:
            for compiler in ("clang++", "g++"):
                found = compiled_tables.differences(compiler, source.classes(TABLED), WORDS.replace(old, new), set())
                self.assertEqual(len(found), 1, old)
                self.assertEqual(found[0][2], "")
                self.assertIn(said, found[0][1][0])

    def test_type_information(self):
        for compiler in ("clang++", "g++"):
            found = compiled_tables.differences(compiler, source.classes(TYPED), TYPES, set())
            self.assertEqual([(name, reason) for name, _, reason in found], [("X", compiled_types.REPEATED)] if compiler == "clang++" else [], found)
            for old, new in [("X vmi flags 2", "X vmi flags 0"), ("base B 2050", "base B 2"), ("S si N", "S class"), ("N class", "N si S"), ("base S -6141", "base S -6143")]:
                found = compiled_tables.differences(compiler, source.classes(TYPED), TYPES.replace(old, new), set())
                self.assertIn("", [reason for _, _, reason in found], old)

    def test_symbols(self):
        for symbol, words in (("_ZThn16_N1B1gEv", "func B::g this -16"), ("_ZTv0_n24_N1D1fEv", "func D::f this 0 vcall -24"), ("_ZTcv0_n32_v8_n40_N1D5cloneEv", "func D::clone this 0 vcall -32 return vbase -40 8"),
                              ("_ZTch0_h16_N1B5cloneEv", "func B::clone return 16"), ("_ZN1DD0Ev", "deleting D::~D"), ("_ZTI12Long_name_12", "typeinfo Long_name_12"), ("__cxa_pure_virtual", "pure")):
            self.assertEqual(compiled_tables.plain(symbol), words)


POINTED = """struct X { long a; virtual void x() {} X() {} ~X() {} };
struct A { long b; int some[3]; A* self; private: char c; public: virtual A* clone() { return this; } int plain(int q, A* z) { return q; } };
struct B : X, A { int few : 3; virtual B* clone() { return this; } virtual ~B() {} };
struct C : virtual A { short s; };
struct L : A {}; struct R : A {}; struct T : L, R {}; struct P { B b; X more[2]; virtual void p() = 0; };
"""


@support.needs_program
@support.needs("clang++", "g++")
class Answers(unittest.TestCase):
    """Pointers to members and arrays with cookies."""

    def test_agreement(self):
        done = support.run("cross-check", "--member-pointers", "-", text=POINTED)
        self.assertEqual((done.returncode, done.stderr), (0, ""), done.stdout)
        self.assertRegex(done.stdout, r"^\d+ pointers to members of 8 classes of 1 sources compared, 13 refused, 0 new differences\n$")
        done = support.run("cross-check", "--cookies", "-", text=POINTED)
        self.assertEqual((done.returncode, done.stderr), (0, ""), done.stdout)
        self.assertEqual(done.stdout, "7 arrays of 8 classes of 1 sources compared, 2 with a cookie, 0 new differences\n")

    @support.needs_elftools
    def test_debug_information(self):
        done = support.run("cross-check", "--debug-information", "-", text=POINTED)
        self.assertEqual((done.returncode, done.stderr), (0, ""), done.stdout)
        self.assertEqual(done.stdout, "32 layouts of 8 classes of 1 sources compared, 0 left out, 0 new differences\n")
        with tempfile.TemporaryDirectory() as folder:
            done = support.run("cross-check", "--debug-information", "--only", "g++", "-", text=POINTED, environment=changed(folder, "16 base \\*A", "24 base *A"))
            self.assertEqual(done.returncode, 1, done.stdout)
            self.assertIn("16 base *A", done.stdout)
        done = support.run("cross-check", "--debug-information", "--random", "40", "--seed", "5")
        self.assertEqual(done.returncode, 0, done.stdout + done.stderr)

    def test_planted_differences_are_found(self):
        plants = [("--member-pointers", "adj 16", "adj 8"), ("--member-pointers", "virtual 9", "virtual 1"), ("--member-pointers", "data 8", "data 0"), ("--member-pointers", "refused M5 VirtualBase", "data 8"),
                  ("--member-pointers", "code A::plain", "code A::clone"), ("--cookies", "cookie 8", "cookie 16"), ("--cookies", "end 0 at 8", "end 1 at 8"), ("--cookies", "region", "region 8"), ("--cookies", "element 0 at 8", "element 0 at 0")]
        for word, pattern, replacement in plants:
            with tempfile.TemporaryDirectory() as folder:
                done = support.run("cross-check", word, "-", text=POINTED, environment=changed(folder, pattern, replacement))
                self.assertIn(done.returncode, (1, 2), f"{pattern}: {done.stdout}")
                self.assertTrue("a new difference" in done.stdout or "is not known here" in done.stderr, f"{pattern}: {done.stdout}{done.stderr}")
                self.assertNotIn("Traceback", done.stderr)

    def test_random_classes(self):
        for word in ("--member-pointers", "--cookies"):
            done = support.run("cross-check", word, "--random", "60", "--seed", "5", "--bit-fields")
            self.assertEqual(done.returncode, 0, done.stdout + done.stderr)
            self.assertGreater(int(done.stdout.split()[0]), 40)

    def test_bad_input(self):
        for words, text, said in ((["-", "--cookies"], "struct A { int x;", "refused E2 Syntax at 17"), (["-", "--member-pointers"], "", "no class to compare"), (["-", "--cookies", "--member-pointers"], "", "give one")):
            done = support.run("cross-check", *words, text=text)
            self.assertEqual((done.returncode, done.stdout), (2, ""))
            self.assertIn(said, done.stderr)


@support.needs_program
@support.needs_elftools
class Objects(unittest.TestCase):
    """The layouts of an object file of C++ beside those of the program: `--object`."""

    SOURCE = """struct V { long v; virtual void f(); };
void V::f() {}
template <class T> struct Of : virtual V { T t; Of* next; };
struct Gap { int a; int : 32; char c; };
struct Wide { int a; } __attribute__((aligned(16)));
union U { int i; char c[6]; };
Of<int> one; Gap gap; Wide wide; U u;
"""

    def compared(self, compiler, version):
        with tempfile.TemporaryDirectory() as folder:
            path = os.path.join(folder, "classes.o")
            flags = ["-femit-class-debug-always"] if compiler == "g++" else ["-fstandalone-debug"]
            subprocess.run([compiler, f"-gdwarf-{version}", "-fno-eliminate-unused-debug-types", *flags, "-c", "-x", "c++", "-o", path, "-"], input=self.SOURCE, encoding="utf-8", check=True)
            done = support.run("cross-check", "--show", "--object", path)
            return done, done.stdout.replace(path, "classes.o")

    @support.needs("g++", "clang++")
    def test_both_compilers(self):
        for compiler in ("g++", "clang++"):
            for version in (4, 5):
                done, told = self.compared(compiler, version)
                self.assertEqual((done.returncode, done.stderr), (0, ""), told)
                self.assertEqual(told.splitlines(), [
                    "Gap, classes.o: bit-fields without a name are not told, so that the class is said without them",
                    "  class Gap size 8 align 4 dsize 8 nvsize 8 nvalign 4", "  4 field char c", "  classes.o: class Gap size 12 align 4 dsize 12 nvsize 12 nvalign 4", "  classes.o: 8 field char c",
                    "Wide, classes.o: a class or member that is aligned above 8 has an alignment of 8 here", "  class Wide size 16 align 8 dsize 16 nvsize 16 nvalign 8",
                    "  classes.o: class Wide size 16 align 16 dsize 16 nvsize 16 nvalign 16",
                    "classes.o: 4 classes compared with all members, 1 by a stand-in of their size, 0 not told",
                    "1 classes differ: a class or member that is aligned above 8 has an alignment of 8 here", "1 classes differ: bit-fields without a name are not told, so that the class is said without them",
                    "1 object files, 0 new differences"])

    def test_a_difference_is_new_where_no_reason_is_known(self):
        head = lambda size, align: f"class X size {size} align {align} dsize {size} nvsize {size} nvalign {align}"
        plain = ["primary none", "0 field int a", "4 field int b"]
        for ours, theirs, known in (
            ([head(8, 4), *plain], [head(12, 4), "primary none", "0 field int a", "8 field int b"], object_files.UNNAMED), ([head(8, 4), *plain], [head(16, 4), *plain], object_files.UNNAMED),
            ([head(8, 4), *plain], [head(8, 4), "primary none", "4 field int a", "0 field int b"], ""), ([head(8, 4), *plain], [head(8, 8), *plain], ""), ([head(32, 8), *plain], [head(32, 16), *plain], object_files.ALIGNED),
            ([head(32, 8), *plain], [head(48, 16), *plain], ""), ([head(16, 8), "primary B", "0 base B"], [head(24, 8), "primary B", "0 base B"], ""), ([head(16, 8), "primary none", "0 field int a"], [head(24, 8), "primary none", "4 field int a"], object_files.UNNAMED),
            ([head(8, 4), *plain], [head(12, 4), "primary none", "4 field int a", "4 field int b"], ""),
        ):
            self.assertEqual(object_files.reason(ours, theirs), known, f"{ours} {theirs}")

    def test_bad_input(self):
        for words, said in ((["--object", "/nowhere/file.o"], "cannot be read"), (["--object", __file__], "is no object file"), (["--object", "x.o", "--random", "3"], "stands alone")):
            done = support.run("cross-check", *words)
            self.assertEqual((done.returncode, done.stdout), (2, ""))
            self.assertIn(said, done.stderr)
            self.assertNotIn("Traceback", done.stderr)


class Words(unittest.TestCase):
    def test_words_of_memptr(self):
        for answer, words in (("data 24\nbytes 1800000000000000\n", ["24"]), ("function virtual 1 adj 16\ncalls B::clone at 0\n", ["1", "16"]), ("function code A::plain adj 0\ncalls A::plain at 0\n", ["A::plain", "0"]),
                              ("function virtual 17 adj 0\npure A::f at 0\n", ["17", "0"]), ("data 24\nbytes 1900000000000000\n", ["24 in the bytes 1900000000000000"])):
            self.assertEqual(member_pointers.words_of(answer), words)
        with self.assertRaises(problem.Problem):
            member_pointers.words_of("data x\n")

    def test_words_of_assembly(self):
        text = "pointer_0:\n\t.zero\t8\npointer_1:\n\t.quad\t17\n\t.quad\t16                              # 0x10\nother:\n\t.quad\t3\npointer_12:\n\t.quad\t_ZN2s11A5plainEiPS0_\n\t.zero\t8\n"
        self.assertEqual(member_pointers.of_assembly(text), {0: ["0"], 1: ["17", "16"], 12: ["A::plain", "0"]})

    def test_words_of_arrays(self):
        answer = "region 24\ncookie 8\ncount 0200000000000000\nelement 0 at 8\nelement 1 at 16\nend 1 at 16\nend 0 at 8\n"
        self.assertEqual(cookies.words_of(answer, True), "region 24 cookie 8 count 2 element 0 at 8 element 1 at 16 end 1 at 16 end 0 at 8")
        self.assertNotIn("end", cookies.words_of(answer, False))
        self.assertEqual(cookies.once("end 1 at 16 end 1 at 16 end 0 at 8"), "end 1 at 16 end 0 at 8")


class MissingCompiler(unittest.TestCase):
    def test_a_missing_compiler(self):
        done = support.run("cross-check", DIAMOND, environment={"PATH": "/nowhere"})
        self.assertEqual(done.returncode, 2)
        self.assertIn("apt-get install clang", done.stderr)
