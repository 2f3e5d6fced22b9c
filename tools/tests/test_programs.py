"""tools/from-cpp --program and tools/run-cpp on small programs of C++, each with one construct, beside what both compilers' programs print."""
import glob
import html
import os
import re
import subprocess
import tempfile
import unittest

import support
from lib import clang, problem, program
from lib.saying import back, beside, runs, source

FOLDER = os.path.join(os.path.dirname(os.path.abspath(__file__)), "programs")
CASES = sorted(glob.glob(os.path.join(FOLDER, "*.cc")))
FLAGS = ["-std=gnu++98"]
ORDER = """#include <cstdio>
int g = 1; int f() { return puts("f"); }
struct T { T() {} ~T() { puts("end"); } };
struct A { A(int) { puts("A"); } A(int *p) { *p = 8; } A(const T &) {} }; struct G { int n; G() : n(g) {} G(int) { g++; } };
"""
HEADERS = "#include <cassert>\n#include <cstdio>\n#include <cstdlib>\n#include <iostream>\n#include <typeinfo>\n"
CPP11 = {"lambdas", "member_defaults"}
ALONE = {"statics", "names_of_ours", "ends", "asserts", "namespaces", "streams", "lambdas", "member_defaults"}  # they have objects outside of functions, end early, or name the outermost scope


def written(path):
    with open(path, encoding="utf-8") as file:
        return file.read()


def flags_of(path):
    return ["-std=gnu++11"] if name_of(path) in CPP11 else FLAGS


def name_of(path):
    return os.path.basename(path)[:-3]


def wanted(path):
    """What a program prints, and its status: the last line of the file beside it."""
    text, _, status = written(path[:-3] + ".txt").rpartition("status ")
    return text, int(status)


def together(paths):
    """The programs as one text, each in a namespace of its own, run by its number."""
    parts = [f"namespace n_{name_of(path)} {{\n{body_of(written(path))}\n}}\n" for path in paths]
    rows = "".join(f"    case {number}: return n_{name_of(path)}::run();\n" for number, path in enumerate(paths))
    return HEADERS + "".join(parts) + "int main(int, char **words) {\n    switch (std::atoi(words[1])) {\n" + rows + "    }\n    return 99;\n}\n"


def body_of(text):
    """A program without its includes, whose main is a function `run` that returns 0 at its end."""
    text = re.sub(r"^#include.*$", "", text, flags=re.M).rstrip()
    head, _, rest = text.rpartition("int main() {")
    return head + "int run() {" + rest[:-1] + "return 0; }"


def printed_together(compiler, paths):
    """What the programs print, built by a compiler as one."""

    def work(folder):
        program = os.path.join(folder, "programs")
        _, said, good = clang.call([compiler, "-w", "-O0", *FLAGS, "-x", "c++", "-", "-o", program], together(paths))
        if not good:
            raise AssertionError(said)
        done = [subprocess.run([program, str(number)], stdout=subprocess.PIPE, timeout=20) for number in range(len(paths))]
        return [(one.stdout.decode("latin-1"), one.returncode) for one in done]

    return clang.in_folder(work)


def said_of(path, flags=None):
    return source.said(clang.unit([path]), flags or flags_of(path))


@support.needs("clang++", "c++filt")
class Programs(unittest.TestCase):
    def test_there_are_forty_of_them(self):
        self.assertGreaterEqual(len(CASES), 40)

    @support.needs_program
    def test_both_machines_print_what_is_wanted(self):
        for path in CASES:
            said = said_of(path)
            for machine in ("run", "paths"):
                with self.subTest(name_of(path), machine=machine):
                    ran = runs.run(said, (machine,))
                    self.assertEqual((ran.output.text, ran.output.status), wanted(path), ran.why)

    @support.needs_program
    def test_operands_are_calculated_from_left_to_right(self):
        """C++ leaves the order open, and docs/PROGRAMS.md says which one is taken: what a later operand changes is read before."""
        text = """#include <cstdio>
int g = 1;
int f() { g = 5; return 0; }
int *place() { g = 7; return new int(0); }
struct K { int n; int with(int, int k) { return n + k; } };
int two(int a, int b) { return a * 10 + b; }
int main() {
    K one = {1}, other = {100}, *p = &one;
    printf("%d\\n", g + f()); g = 1; printf("%d\\n", two(g, f())); g = 1; printf("%d %d\\n", g, f());
    printf("%d\\n", p->with((p = &other) != 0, 2)); g = 1; *place() = g; printf("%d\\n", g);
    int *q = new int(3); g = 2; *q = g + (g = 4, 10); printf("%d\\n", *q);
}
"""
        self.assertEqual(printed(text), ["1", "10", "1 0", "3", "7", "12"])

    @support.needs("g++")
    def test_both_compilers_print_what_is_wanted(self):
        paths = [path for path in CASES if name_of(path) not in ALONE]
        for compiler in ("g++", "clang++"):
            for path, printed in zip(paths, printed_together(compiler, paths)):
                with self.subTest(name_of(path), compiler=compiler):
                    self.assertEqual(printed, wanted(path))
            for path in CASES:
                if name_of(path) in ALONE:
                    with self.subTest(name_of(path), compiler=compiler):
                        self.assertEqual(beside.built(compiler, [path], flags_of(path)), wanted(path))


def with_file(text, work):
    """What is found out about a text, as a file of its own."""

    def inside(folder):
        path = os.path.join(folder, "bad.cc")
        with open(path, "w", encoding="utf-8") as file:
            file.write(text)
        return work(path)

    return clang.in_folder(inside)


def refused(text, flags=None):
    """The sentence with which a text is refused."""

    def work(path):
        try:
            said_of(path, flags)
        except problem.Problem as error:
            return str(error)
        return ""

    return with_file(text, work)


def printed(text):
    """The lines that a text prints on both machines."""

    def work(path):
        said = said_of(path, FLAGS)
        ran = [runs.run(said, (machine,)) for machine in ("run", "paths")]
        return ran[0].why or ran[0].output.text.splitlines() if ran[0].printed == ran[1].printed else "the machines differ"

    return with_file(text, work)


@support.needs("clang++", "c++filt")
class Refusals(unittest.TestCase):
    def test_what_cannot_be_said_stops_with_its_place_and_reason(self):
        for text, place, word in (
            ("int main() {\n    throw 1;\n}\n", "2:5", "throw cannot be said: the language has no exceptions"),
            ("int main() {\n  again:\n    goto again;\n}\n", "2:3", "the language has no jumps"),
            ("int main() {\n    asm(\"nop\");\n}\n", "2:5", "inline assembly"),
            ("int main() { double d = 1.5; return d + 1 > 2; }\n", "1:", "floating-point"),
            ("int main() { double d = 1.5, e = d * 2; return (int)e; }\n", "1:34", "a calculation with floating-point numbers cannot be said"),
            ("int main() { double d = 1.5; return d == 1.5; }\n", "1:37", "a comparison of floating-point numbers cannot be said"),
            ("int f() { return 1; }\nint main() { int (*p)() = f; return p(); }\n", "2:", "a pointer or reference to a function"),
            ("union U { int a; long b; };\nint main() { U u; u.a = 1; return u.a; }\n", "1:1", "a union"),
            ("struct B { int low : 40; };\nint main() { B b; b.low = 1; return 0; }\n", "1:12", "the bit-field low cannot be said: its width is 40, and int has 32 bits"),
            ("struct B {\n    bool low : 2; };\nint main() { B b; b.low = 1; return 0; }\n", "2:5", "the bit-field low cannot be said: its width is 2, and bool has 1 bit"),
            ("struct B { int low : 4;\n    int : 3; };\nint main() { B b; b.low = 1; return 0; }\n", "2:5", "an unnamed bit-field cannot be said: each member has a name in the language"),
            ("struct B { int low : 4; int : 0; int high : 3; };\nint main() { B b; b.low = 1; return 0; }\n", "1:25", "an unnamed bit-field"),
            ("struct B { __int128 low : 3; };\nint main() { B b; b.low = 1; return 0; }\n", "1:12", "the bit-field low cannot be said: its type is the type __int128"),
            ("int main() { int a[3]; int *p = a; p++; return 0; }\n", "1:", "arithmetic on pointers"),
            ("struct A { virtual ~A() {} };\nint main() { A a; A &b = dynamic_cast<A &>(a); A &c = a; struct D : A {}; D &d = dynamic_cast<D &>(c); }\n", "2:", "dynamic_cast to a reference"),
            ("struct T { T *me; T(T *t) : me(t) {} };\nstruct H { T t; H() : t((T *)0), u(&t) {} T u; };\nint main() { H h; }\n", "2:", "under construction"),
            ("int f();\nint main() { return f(); }\n", "2:", "a call of f cannot be said: the function is not defined"),
            (ORDER + "struct B : A { A a; int b; A c; B() : A(1), a(2), b(f()), c(3) {} };\nint main() { B b; }\n", "5:53", "this initialiser of b cannot be said: it would be calculated before"),
            (ORDER + "struct B { A a; int b; A c; B() : a(2), b(++g), c(3) {} };\nint main() { B b; }\n", "5:43", "this initialiser of b cannot be said"),
            (ORDER + "struct B { A a, c; B() : a(&g), c(g) {} };\nint main() { B b; }\n", "5:33", "this argument of a base or member cannot be said: it would be calculated before"),
            (ORDER + "struct B { G a; A c; B() : c(++g) {} };\nint main() { B b; }\n", "5:28", "this argument of a base or member cannot be said"),
            (ORDER + "struct B { A a; B() : a(T()) {} };\nint main() { B b; }\n", "5:25", "a temporary object in an argument of a base or member cannot be said: it ends behind the constructor"),
            (ORDER + "int main() { G a[2] = {G(g), G(g)}; }\n", "5:30", "this argument of an element of an array cannot be said: it would be calculated before"),
            ("int main() { switch (1) { case 0: static int n = 1; case 1: return n; } }\n", "1:35", "a variable that is made between the labels of a switch"),
            ("int main() { switch (1) { case 0: do { case 1: return 0; } while (1); } }\n", "1:35", "labels in inner statements"),
            ("struct T { int n; T(int k) : n(k) {} };\nT made() { return T(1); }\nint main() { T a[2] = {T(2), made()}; }\n", "3:30", "what a function gives is an object of its own, and no element"),
            ("struct A { A() {} };\nstruct B { int n; A a[2][2]; B() : n(1) {} };\nstruct H : B { int m; H() : m(2) {} };\nint main() { H h; return h.m - 2; }\n", "2:30", "an object of the type A[2][2] cannot be said: an array of arrays"),
            ("#include <cstdio>\nint f() { return puts(\"f\"); }\nstruct A { A(int) { puts(\"A\"); } };\nstruct B : A { A a; B() : A(1), a(f()) {} };\nint main() { B b; }\n", "4:", "it would be calculated before"),
        ):
            with self.subTest(word):
                said = refused(text)
                self.assertIn(word, said)
                self.assertRegex(said, rf"bad\.cc:{re.escape(place)}")

    def test_texts_that_are_no_programs(self):
        self.assertIn("no main", refused("int f() { return 0; }\n"))
        self.assertIn("is not taken", refused("int main() { return x; }\n"))
        self.assertIn("'vector' file not found", refused("#include <vector>\nint main() {}\n"))

    @support.needs_program
    def test_a_program_above_a_limit_is_told_so_before_it_runs(self):
        lines = "".join(f"    a += b * {number};\n" for number in range(12000))
        self.assertIn("262144 are the most", refused(f"int main() {{\n    int a = 0, b = 1;\n{lines}    return a != 0;\n}}\n"))
        many = "".join(f"struct A{number} {{ int n; }};\nint f{number}() {{ A{number} a; a.n = 0; return a.n; }}\n" for number in range(1025))
        calls = "".join(f"    s += f{number}();\n" for number in range(1025))
        self.assertIn("classes in the language, and 1024 are the most", refused(f"{many}int main() {{\n    int s = 0;\n{calls}    return s;\n}}\n"))


@support.needs("clang++", "c++filt")
class RunCpp(unittest.TestCase):
    @support.needs_program
    def test_an_undefined_step_is_named_with_its_place(self):
        done = support.run("run-cpp", os.path.join(FOLDER, "..", "undefined.cc"))
        self.assertEqual((done.stdout, done.returncode), ("1\n", 3))
        self.assertRegex(done.stderr, r"undefined\.cc:5:5: undefined U2 Dangling\n")

    @support.needs_program
    @support.needs("g++")
    def test_each_undefined_step_is_named_and_sanitizers_see_what_the_page_says(self):
        page = written(os.path.join(program.TOP, "docs", "PROGRAMS.md"))
        rows = re.findall(r"^\| (U(\d+) \w+) \| (yes|no) \| (yes|no) \|", page, re.M)
        self.assertEqual([int(number) for _, number, _, _ in rows], list(range(1, 13)))
        for name, number, *seen in rows:
            path = os.path.join(FOLDER, "..", "undefined", f"u{number}.cc")
            with self.subTest(name):
                self.assertRegex(runs.run(said_of(path)).why, rf"u{number}\.cc:\d+:\d+: undefined {name}$")
                for compiler, word in zip(("g++", "clang++"), seen):
                    text, status, report = beside.reported(compiler, [path], ["-fsanitize=undefined,address"])
                    self.assertIsNotNone(text, status)
                    self.assertEqual(bool(report), word == "yes", report)

    @support.needs_program
    def test_an_index_and_a_division_are_named_where_they_stand(self):
        for text, place, word in (
            ("struct H { int m[2]; int get(int i) { return m[i]; } };\nint main() { H h; h.m[0] = 4; return h.get(0) + h.get(2); }\n", "1:39", "an index outside of the array"),
            ("int main() {\n    long a[3];\n    for (int i = 0; i <= 3; i++)\n        a[i] = i;\n}\n", "4:9", "an index outside of the array"),
            ("struct T { int n; T() : n(1) {} };\nint main() { T t[2]; int i = -1;\nreturn t[i].n; }\n", "3:1", "an index outside of the array"),
            ("int over(int a, int b) {\n  return a / b;\n}\nint main() { return over(6, 2) - 3 + over(1, 0); }\n", "2:3", "a division by zero"),
            ("int main() { unsigned a = 5, b = 5;\na %= b - 5; }\n", "2:1", "a division by zero"),
        ):
            with self.subTest(text):
                done = with_file(text, lambda path: support.run("run-cpp", path))
                self.assertEqual((done.stdout, done.returncode), ("", 3), done.stderr)
                self.assertRegex(done.stderr, rf"bad\.cc:{place}: undefined U1 NullUse \({word}\)\n")

    @support.needs_program
    def test_a_trace_has_the_names_of_the_program(self):
        done = support.run("run-cpp", "--trace", os.path.join(FOLDER, "constructor_parameters.cc"))
        self.assertEqual(done.returncode, 0, done.stderr)
        lines = [re.sub(r"#\d+", "#", line) for line in done.stdout.splitlines()]
        self.assertEqual(lines[:5], ["call main", "A 4", "built A #+0", "call B::id #+0", "B 3 2"])
        self.assertFalse([line for line in lines if "plan" in line or "_call" in line])

    def moments(self, path):
        """The lines and texts of the moments of a program's page."""
        done = support.run("run-cpp", "--page", path)
        self.assertEqual((done.returncode, done.stderr), (0, ""))
        rows = re.findall(r'<tr id="s1-moment-.*?</tr>', done.stdout)
        cells = [[html.unescape(re.sub(r"<[^>]+>", "", cell)) for cell in re.findall(r"<td.*?</td>", row)] for row in rows]
        return done.stdout, [(cell[1], cell[2]) for cell in cells]

    @support.needs_program
    def test_a_page_has_the_words_and_lines_of_the_program(self):
        """What C++ does while a Dog is built, in the lines of the user's file, with the object whose Animal is ready and building."""
        page, moments = self.moments(os.path.join(program.TOP, "examples", "dog.cpp"))
        self.assertEqual([text for _, text in moments[:9]], ["call main", "call twice(int)", "new Dog: object #4", "the bases of Dog come first", "the bases of Animal come first", "Animal is ready", "call Animal::speak #4+0", "...", "Animal is built"])
        self.assertEqual([(line, text) for line, text in moments if "speak" in text or text in ("...", "woof 8")], [("3", "call Animal::speak #4+0"), ("4", "..."), ("9", "call Dog::speak #4+0"), ("10", "woof 8")])
        self.assertEqual(moments[-1][0], "16")
        self.assertRegex(moments[-1][1], r"dog\.cpp:16:5: undefined U1 NullUse")
        self.assertIn("<code>    Dog(int a) : age(a) { speak(); }</code>", page)

    @support.needs_program
    def test_a_page_of_a_program_that_ends_itself(self):
        text = "#include <cstdio>\n#include <cstdlib>\nint main() {\n    printf(\"%d and %d\\n\", 1, 2);\n    puts(\"\");\n    exit(3);\n}\n"
        _, moments = with_file(text, self.moments)
        self.assertEqual(moments[:3], [("", "call main"), ("4", "1 and 2"), ("5", "an empty line")])
        self.assertEqual(moments[-1], ("", "the program ends with status 3"))
        self.assertFalse([text for _, text in moments if "exit" in text or "end" in text.split()], moments)

    @support.needs_program
    @support.needs("g++")
    def test_beside_the_compilers(self):
        done = support.run("run-cpp", "--beside", os.path.join(FOLDER, "comma.cc"))
        self.assertEqual((done.returncode, done.stderr), (0, "run-cpp: g++ prints the same\nrun-cpp: clang++ prints the same\n"))

    @support.needs_program
    def test_the_text_is_put_back_by_from_cpp(self):
        path = os.path.join(FOLDER, "printf_formats.cc")
        said = support.run("from-cpp", "--program", path)
        self.assertEqual(said.returncode, 0, said.stderr)
        ran = runs.run(said_of(path))
        self.assertRegex(said.stdout, r"\A// read by clang\+\+ \d.* by its default gnu\+\+\d\d\n")
        self.assertEqual(back.put_back(said.stdout, ran.printed).text, wanted(path)[0])
        given = support.run("from-cpp", "--program", path, "--", "-std=gnu++98")
        self.assertRegex(given.stdout, r"\A// read by clang\+\+ \d.* by gnu\+\+98, as the flags say\n")

    @support.needs_program
    def test_letters_beyond_ascii_are_printed_as_they_stand(self):
        text = "#include <cstdio>\n#include <iostream>\nint main() { puts(\"gr\u00fcn\"); printf(\"\u20ac %d\\n\", 5); std::cerr << \"\u00e4\" << std::endl; }\n"

        def work(path):
            said = support.run("from-cpp", "--program", path).stdout
            with open(path + ".src", "w", encoding="utf-8") as file:
                file.write(said)
            printed, _ = program.answer(["run"], said)
            return support.run("run-cpp", path), support.run("from-cpp", "--print", path + ".src", text=printed)

        for done in with_file(text, work):
            self.assertEqual((done.returncode, done.stdout, done.stderr), (0, "gr\u00fcn\n\u20ac 5\n", "\u00e4\n"))

    def test_output_that_is_of_no_run(self):
        source = '// read by clang++ 14.0.6 by gnu++98, as the flags say\n// #1+0 "sum %d\\n"\nint main() {}\n'
        with tempfile.NamedTemporaryFile("w", suffix=".src") as file:
            file.write(source)
            file.flush()
            for printed, status, text, aside in (
                ("#1+0\n3\n", 0, "sum 3\n", ""),
                ("4\n#1+0\nlimit L5\n", 1, "4\n", "limit L5\n"),
                ("#1+7\n", 1, "", "from-cpp: the lines are none of a run of this source"),
                ("#1+0\nmany\n", 1, "", "from-cpp: the lines are none of a run of this source"),
                ("#1+0\n", 1, "", "from-cpp: the lines are none of a run of this source"),
            ):
                done = support.run("from-cpp", "--print", file.name, text=printed)
                self.assertEqual((done.returncode, done.stdout), (status, text), done.stderr)
                self.assertTrue(done.stderr.startswith(aside) and "Traceback" not in done.stderr, done.stderr)
        done = support.run("from-cpp", "--print", __file__, text="1\n")
        self.assertEqual((done.returncode, done.stdout), (1, ""))
        self.assertIn("the file is none that tools/from-cpp --program gave", done.stderr)

    def test_a_standard_by_which_it_is_no_program(self):
        done = support.run("run-cpp", os.path.join(FOLDER, "lambdas.cc"), "--", "-std=gnu++98")
        self.assertEqual((done.returncode, done.stdout), (1, ""))
        self.assertIn("the source is not C++ by gnu++98, but by gnu++11", done.stderr)

    def test_bad_words(self):
        for words, status in (([], 2), (["/nowhere.cc"], 2), (["--page", "--trace", __file__], 2), ([os.path.join(FOLDER, "..", "broken.cc")], 1)):
            done = support.run("run-cpp", *words)
            self.assertEqual((done.returncode, done.stdout), (status, ""))
            self.assertNotIn("Traceback", done.stderr)


if __name__ == "__main__":
    unittest.main()
