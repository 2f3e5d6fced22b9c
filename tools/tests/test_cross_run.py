"""tools/cross-run, with a stand-in for the program: what agrees, what differs, what is passed over, and bad input."""
import os
import re
import shutil
import stat
import subprocess
import tempfile
import unittest

import support
from lib import program, random_diamonds, random_programs

# Prints the comment in the first line of a source, a word a line; a source that begins otherwise is undefined.
STAND_IN = """#!/bin/sh
read -r how words
[ "$how" = // ] || { echo "undefined U5 Unset line 1"; exit 3; }
for word in $words; do echo "$word"; done
"""
PROGRAM = """struct A { int a; A() : a(3) { print(typeid(*this)); } virtual long f() { return 7; } };
struct B : A { virtual long f() { long r = this->a; return r; } };
int main() { A* p = new B; long r = p->f(); print(r); print(p); bool b = p == 0; print(b); }
"""


@support.needs("sh", "g++", "clang++")
class CrossRun(unittest.TestCase):
    def setUp(self):
        self.top = tempfile.mkdtemp()
        self.addCleanup(shutil.rmtree, self.top)
        stand_in = self.write("stand-in", STAND_IN)
        os.chmod(stand_in, stat.S_IRWXU)
        self.environment = dict(os.environ, TAGYMELUR=stand_in)

    def write(self, name, text):
        path = os.path.join(self.top, name)
        with open(path, "w", encoding="utf-8") as file:
            file.write(text)
        return path

    def compare(self, *words):
        return support.run("cross-run", *words, environment=self.environment)

    def test_a_program_that_agrees(self):
        done = self.compare(self.write("same.cpp", "// A 3 #1+0 0\n" + PROGRAM))
        self.assertEqual((done.stderr, done.returncode), ("", 0))
        self.assertRegex(done.stdout, r"^1 programs agree, 0 differ, 0 that a compiler does not take, 0 passed over; judges: g\+\+, clang\+\+(, clang\+\+ with libc\+\+abi)?\n$")

    def test_a_program_that_differs_in_one_line(self):
        done = self.compare(self.write("same.cpp", "// A 3 #1+0 0\n" + PROGRAM), self.write("other.cpp", "// A 7 #1+0 0\n" + PROGRAM))
        self.assertEqual(done.returncode, 1)
        self.assertIn("other.cpp: g++ prints ['A', '3', '#', '0'] where run prints ['A', '7', '#', '0']\n", done.stdout)
        self.assertIn("other.cpp: clang++ prints", done.stdout)
        self.assertIn("1 programs agree, 1 differ, 0 that a compiler does not take, 0 passed over; judges: ", done.stdout)

    def test_the_programs_that_are_kept(self):
        folder = os.path.join(self.top, "kept", "here")
        done = self.compare("--keep", folder, self.write("same.cpp", "// A 3 #1+0 0\n" + PROGRAM), self.write("other.cpp", "// A 7 #1+0 0\n" + PROGRAM))
        self.assertEqual((done.returncode, os.listdir(folder)), (1, ["s2.cpp"]))
        done = self.compare("--keep", self.write("file", ""), self.write("again.cpp", PROGRAM))
        self.assertEqual((done.returncode, done.stdout, done.stderr.count("\n")), (2, "", 1))

    def test_what_is_passed_over(self):
        dumping = self.write("dump.cpp", "// 1\nint main() { dump(p); }\n")
        undefined = self.write("undefined.cpp", PROGRAM)
        broken = self.write("broken.cpp", "// 1\nint main() { nothing(); }\n")
        done = self.compare(dumping, undefined, broken)
        self.assertEqual(done.returncode, 0)
        self.assertIn(f"passed over  {dumping}: it dumps an object\n", done.stdout)
        self.assertIn(f"passed over  {undefined}: undefined U5 Unset line 1\n", done.stdout)
        self.assertIn("not taken by g++: another reason: ", done.stdout)
        self.assertIn("0 programs agree, 0 differ, 2 that a compiler does not take, 2 passed over", done.stdout)
        done = self.compare(dumping)
        self.assertEqual(done.returncode, 2)
        self.assertIn("no program could be compared", done.stderr)

    @support.needs("c++filt")
    def test_a_program_that_differs_when_it_is_said_again(self):
        text = "struct K0 {\nvirtual long f0() {\nreturn 5;\n}\n};\nint main() {\nK0* v1 = new K0;\nlong v2 = v1->f0();\nprint(v2);\n}\n"
        done = self.compare("--nested", self.write("same.cpp", "// 5\n" + text), self.write("undefined.cpp", text))
        self.assertEqual((done.returncode, done.stderr), (1, ""))
        # the stand-in prints the first line of what is said
        self.assertRegex(done.stdout, r"same\.cpp: from-cpp --program prints \['read', 'by', .* where run prints \['5'\]\n")
        self.assertIn("0 programs agree, 1 differ, 0 that a compiler does not take, 1 passed over; judges: from-cpp --program\n", done.stdout)

    def test_the_reasons_of_gcc(self):
        private = "struct A { void f() {} }; struct B : private A {}; int main() { B* b = new B; "
        hidden = "struct A { int x; }; struct B { int x; }; struct D : virtual A, virtual B {}; struct E : virtual A, virtual B { int x; }; struct F : D, E {}; int main() { F* p = new F; "
        sources = [f"// 1\n{text} print(1); }}\n" for text in (private + "A* a = b;", private + "b->f();", hidden + "p->x = 1;")]
        done = self.compare(*[self.write(f"r{number}.cpp", text) for number, text in enumerate(sources)])
        for reason in ("a conversion or cast along a base that is not public", "a member of a base that is not public", "a name that one class hides is called ambiguous"):
            self.assertRegex(done.stdout, rf"(?m)^not taken by g\+\+: {reason}.*: 1$")

    def test_bad_words(self):
        done = self.compare()
        self.assertEqual((done.returncode, done.stdout), (2, ""))
        self.assertIn("name a source", done.stderr)
        self.assertIn("give --random N", self.compare("--bit-fields", self.write("a.cpp", PROGRAM)).stderr)
        self.assertIn("give --random N", self.compare("--diamonds", self.write("a.cpp", PROGRAM)).stderr)
        self.assertIn("without --bit-fields", self.compare("--random", "1", "--diamonds", "--bit-fields").stderr)
        done = self.compare(os.path.join(self.top, "missing.cpp"))
        self.assertEqual((done.returncode, done.stdout.count("\n")), (2, 0))
        self.assertNotIn("Traceback", done.stderr)


class RandomPrograms(unittest.TestCase):
    def test_lines_that_are_taken_out(self):
        lines = ["struct K0 {", "virtual long f0() {", "print(1);", "return 5;", "}", "};", "int main() {", "print(2);", "}"]
        self.assertEqual(random_programs.without(lines, 2), lines[:2] + lines[3:])
        self.assertEqual(random_programs.without(lines, 1), lines[:1] + lines[5:])
        self.assertEqual(random_programs.without(["struct K1 : K0 {", "};"], 0), ["struct K1 {", "};"])
        self.assertEqual(random_programs.without(lines, 6), [])

    def test_programs_with_bit_fields(self):
        maker = random_programs.Maker(4, bit_fields=70, dumps=True)
        maker.hidden = 4
        lines = [line for number in range(30) for line in maker.one(f"K{number}", ["K0"] if number else [])] + maker.main(["K0", "K1"])
        widths = [line for line in lines if re.fullmatch(r"(\w+ )+k\d+m\d : \d+;", line)]
        self.assertGreater(len(widths), 20)
        self.assertEqual({random_programs.name_of(line[:-1]) for line in widths}, {re.search(r"k\d+m\d", line)[0] for line in widths})
        for shape in (r"this->k\d+m\d = -?\d+;", r"long v\d+ = this->k\d+m\d;", r"K\d+\(\) : k\d+m\d\(-?\d+\).* \{", r"\*v\d+ = \*v\d+;", r"dump\(v\d+\);"):
            self.assertTrue([line for line in lines if re.fullmatch(shape, line)], shape)

    @support.needs_program
    @support.needs("g++", "clang++")
    def test_random_programs_with_bit_fields_agree(self):
        done = support.run("cross-run", "--random", "15", "--seed", "3", "--bit-fields")
        same, differing, refused, passed = map(int, re.findall(r"\d+", done.stdout.splitlines()[-1])[:4])
        self.assertEqual((same + differing + refused, passed, done.stderr), (15, 0, ""), done.stdout)
        self.assertEqual(self.new_differences(done.stdout), [])
        self.assertGreaterEqual(same, 9)
        self.assertGreater(sum(len(re.findall(r" : \d+;", text)) for _, text in random_programs.programs(5, 3, 70)), 10)

    @support.needs_program
    @support.needs("g++", "clang++")
    def test_random_programs_agree(self):
        done = support.run("cross-run", "--random", "20", "--seed", "3")
        same, differing, refused, passed = map(int, re.findall(r"\d+", done.stdout.splitlines()[-1])[:4])
        self.assertEqual((same + differing + refused, passed, done.stderr), (20, 0, ""), done.stdout)
        self.assertEqual(self.new_differences(done.stdout), [])
        self.assertGreaterEqual(same, 12)

    @support.needs_program
    @support.needs("g++", "clang++")
    def test_a_random_program_that_shows_a_mistake_of_clang(self):
        """The hint -2 of docs/COMPILERS.md: clang++ 14 with libstdc++ answers null, and the library libc++abi the object."""
        done = support.run("cross-run", "--random", "1", "--diamonds", "--seed", "6")
        self.assertEqual(self.new_differences(done.stdout), [])
        self.assertEqual(done.stderr, "")
        version = subprocess.run(["clang++", "-dumpversion"], stdout=subprocess.PIPE, encoding="utf-8").stdout
        if not version.startswith("14"):
            self.skipTest("clang++ 14 is not here")
        said = re.search(r"^differ  p1: clang\+\+ prints \[", done.stdout, re.M)
        self.assertTrue(said and done.returncode == 1, done.stdout)

    @support.needs_program
    def test_programs_of_diamonds(self):
        """Each class has the bases that it was made with, and the shapes are there: shared and private bases, ways up and casts from there."""
        maker = random_diamonds.Diamonds(2)
        lines = [line for _ in range(3) for line in maker.lines(7)]
        heads = [line for line in lines if line.startswith("struct ")]
        for shape in (r"virtual private K\d", r"(?<!virtual )private K\d", r"virtual K\d", r": K\d|, K\d"):
            self.assertTrue([line for line in heads if re.search(shape, line)], shape)
        self.assertTrue([line for line in lines if re.fullmatch(r"K\d\* v\d+ = \(K\d\*\)v\d+;", line)])
        self.assertEqual(program.answer(["check"], maker.classes)[1], 0)
        self.assertEqual([name for name in maker.direct if not re.search(rf"struct {name} (: |{{)", maker.classes)], [])

    def new_differences(self, text):
        """What differs by all judges of a library, or by clang++ with libc++abi: docs/COMPILERS.md knows no such mistake."""
        return [line for line in text.splitlines() if line.startswith("differ") and "clang++ with libc++abi prints" in line]


if __name__ == "__main__":
    unittest.main()
