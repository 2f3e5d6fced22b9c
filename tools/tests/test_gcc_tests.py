"""tools/gcc-tests on small tests in the form of gcc's, and tools/cross-run on programs that are said again."""
import os
import tempfile
import unittest
from unittest import mock

import support
from lib.saying import nested, source

PASSES = "// { dg-do run }\nextern \"C\" void abort();\nint n = 3;\nint main() { if (n != 3) abort(); return 0; }\n"
FAILS = PASSES.replace("n != 3", "n == 3")
STATUS = "// { dg-do run }\nint main() { return 7; }\n"
UNSAID = "// { dg-do run }\nint main() { throw 1; }\n"
UNDEFINED = "// { dg-do run }\nint main() { int *p = 0; return *p; }\n"
PRINTS = "// { dg-do run }\n// { dg-output \"one.*two\" }\nextern \"C\" int printf(const char *, ...);\nint main() { printf(\"one\\n\"); printf(\"two\\n\"); }\n"
OTHER = "// { dg-do run { target ilp32 } }\nint main() { return sizeof(long) != 4; }\n"
DIALECT = "// { dg-do run }\n// { dg-options \"-funsigned-bitfields\" }\nstruct S { int b : 1; };\nint main() { S s; s.b = 1; return s.b != 1; }\n"
COMPILED = "// { dg-do compile }\nint main() { return 1; }\n"
AGAIN = "struct K0 {\nvirtual long f0() {\nreturn NUMBER;\n}\n};\nint main() {\nK0* v1 = new K0;\nlong v2 = v1->f0();\nprint(v2);\n}\n"


@support.needs_program
@support.needs("clang++", "c++filt")
class GccTests(unittest.TestCase):
    def told(self, tests, *words):
        with tempfile.TemporaryDirectory() as folder:
            for name, text in tests.items():
                with open(os.path.join(folder, name), "w", encoding="utf-8") as file:
                    file.write(text)
            return support.run("gcc-tests", *words, folder)

    def test_what_came_of_each(self):
        tests = {"a.C": PASSES, "b.C": FAILS, "c.C": STATUS, "d.C": UNSAID, "e.C": UNDEFINED, "f.C": PRINTS, "g.C": PRINTS.replace("one.*two", "three"), "h.C": OTHER, "i.C": COMPILED, "j.C": DIALECT}
        done = self.told(tests)
        self.assertEqual(done.returncode, 1, done.stderr)
        words = {line[10:].split(":")[0]: line[:9].strip() for line in done.stdout.splitlines()[:-1]}
        self.assertEqual(words, {"a.C": "passes", "b.C": "differs", "c.C": "differs", "d.C": "not said", "e.C": "refused", "f.C": "passes", "g.C": "differs", "h.C": "not meant", "j.C": "not meant"})
        self.assertIn("j.C: it wants -funsigned-bitfields\n", done.stdout)
        self.assertIn("d.C: throw: the language has no exceptions\n", done.stdout)
        self.assertIn("c.C: it ends with status 7\n", done.stdout)
        self.assertTrue(done.stdout.splitlines()[-1].startswith("9 tests: "))

    def test_the_table(self):
        with tempfile.TemporaryDirectory() as folder:
            path = os.path.join(folder, "table.md")
            done = self.told({"a.C": PASSES, "d.C": UNSAID, "e.C": UNSAID}, "--table", path)
            self.assertEqual(done.returncode, 0)
            with open(path, encoding="utf-8") as file:
                self.assertEqual(file.read().splitlines()[2:], ["| passes |  | 1: a |", "| not said | throw: the language has no exceptions | 2: d e |"])

    def test_the_table_has_the_first_error_of_what_is_not_read(self):
        with tempfile.TemporaryDirectory() as folder:
            path = os.path.join(folder, "table.md")
            self.told({"a.C": "// { dg-do run }\n#include <vector>\nint main() {}\n", "b.C": "// { dg-do run }\nint main() { return x; }\n"}, "--table", path)
            with open(path, encoding="utf-8") as file:
                rows = sorted(file.read().splitlines()[2:])
        self.assertEqual(rows, [
            "| not read | the source is not taken with what is known of the library: error: use of undeclared identifier 'x' | 1: b |",
            "| not read | the source is not taken with what is known of the library: fatal error: 'vector' file not found | 1: a |",
        ])

    def test_one_test_by_its_name(self):
        with tempfile.TemporaryDirectory() as folder:
            path = os.path.join(folder, "a.C")
            with open(path, "w", encoding="utf-8") as file:
                file.write(PASSES)
            done = support.run("gcc-tests", path)
        self.assertEqual((done.returncode, done.stdout), (0, "passes    a.C\n1 tests: 1 passes\n"), done.stderr)

    def test_bad_words(self):
        for words in ([], ["/nowhere"], [support.TOOLS]):
            done = support.run("gcc-tests", *words)
            self.assertEqual((done.returncode, done.stdout), (2, ""))
            self.assertNotIn("Traceback", done.stderr)

    def test_the_standard(self):
        """A test is read by the standard that it names, or else by the lowest one that takes it."""
        lowest = "// { dg-do run }\nint main() { return __cplusplus == 199711L ? 0 : 1; }\n"
        later = "// { dg-do run }\nint main() { int *p = nullptr; return !p && __cplusplus == 201103L ? 0 : 1; }\n"
        named = "// { dg-do run { target c++14 } }\nint main() { return __cplusplus == 201402L ? 0 : 1; }\n"
        done = self.told({"a.C": lowest, "b.C": later, "c.C": named, "d.C": lowest.replace("run }", "run }\n// { dg-options \"-std=c++17\" }")})
        self.assertEqual([line[:9].strip() for line in done.stdout.splitlines()[:-1]], ["passes", "passes", "passes", "differs"], done.stdout)


class Nested(unittest.TestCase):
    def test_variables_are_written_where_they_are_used(self):
        lines = ["struct K0 {", "virtual long f0() {", "print(typeid(*this));", "return 5;", "}", "};", "int main() {", "K0* v1 = new K0;", "long v2 = v1->f0();", "print(v2);", "K0* v3 = v1;", "bool v3b = v3 != 0;", "if (v3b) {", "print(v3b);", "}", "}"]
        text = nested.Nesting("\n".join(lines)).text()
        self.assertIn('printf("K%d\\n", typeid(*this) == typeid(K0) ? 0 : -1);', text)
        self.assertIn('printf("%ld\\n", static_cast<long>(v1->f0()));', text)
        self.assertIn("if ((static_cast<K0 *>(v1) != 0)) {", text)
        self.assertNotIn("v2", text)

    @support.needs_program
    @support.needs("clang++", "c++filt")
    def test_a_program_said_again_prints_the_same(self):
        done = support.run("cross-run", "--random", "2", "--seed", "7", "--nested")
        self.assertEqual((done.returncode, done.stderr), (0, ""), done.stdout)
        self.assertEqual(done.stdout, "2 programs agree, 0 differ, 0 that a compiler does not take, 0 passed over; judges: from-cpp --program\n")

    @support.needs_program
    @support.needs("clang++", "c++filt")
    def test_programs_without_room_in_one_text_are_said_by_halves(self):
        programs = [(f"s{number}", AGAIN.replace("NUMBER", number)) for number in "567"]
        self.assertEqual(nested.each(programs, ["5\n", "6\n", "7\n"]), [("5\n", False), ("6\n", False), ("7\n", False)])
        self.assertEqual(nested.each(programs, ["5\n", "8\n", "7\n"]), [("5\n", False), ("6\n", False), ("7\n", False)])
        room = len(source.said(nested.together(programs[:1]), nested.FLAGS).text)
        with mock.patch.object(source, "LIMIT_BYTES", room):
            self.assertEqual(nested.each(programs, ["5\n", "6\n", "7\n"]), [("5\n", False), ("6\n", False), ("7\n", False)])
        with mock.patch.object(source, "LIMIT_BYTES", room - 1):
            self.assertEqual(nested.each(programs[:1], ["5\n"]), [(f"error: the program needs {room} bytes in the language, and {room - 1} are the most", True)])

    @support.needs_program
    @support.needs("clang++", "c++filt")
    def test_a_program_that_cannot_be_said_again(self):
        """A pointer that is printed: the way back has no words for it, and says so."""
        done = support.run("cross-run", "--nested", "-", text="struct K0 {\nlong m;\n};\nint main() {\nK0* v1 = new K0;\nprint(v1);\n}\n")
        self.assertEqual((done.returncode, done.stderr), (0, ""), done.stdout)
        self.assertIn("not taken by from-cpp --program: another reason: printf of %d: a value of the type ", done.stdout)
        self.assertIn("0 programs agree, 0 differ, 1 that a compiler does not take, 0 passed over", done.stdout)


if __name__ == "__main__":
    unittest.main()
