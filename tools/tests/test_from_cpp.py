"""tools/from-cpp on small sources of C++: what it prints, and that the layouts are those of the classes of C++ themselves."""
import glob
import json
import os
import re
import tempfile
import unittest

import support
from lib import clang, compare, compilers, cpp_tree, layout_text, program, source

FOLDER = os.path.join(os.path.dirname(os.path.abspath(__file__)), "cpp")
CASES = sorted(glob.glob(os.path.join(FOLDER, "*.cpp")))
# Members that stand for bit-fields, and padding, are none of C++.
NOT_OF_CPP = re.compile(r"bits|padding|bytes")


def written(path):
    with open(path, encoding="utf-8") as file:
        return file.read()


def case(name):
    return os.path.join(FOLDER, name)


def original_names(text):
    """The name in C++ of each class that was restated: its own, or that of the comment before it."""
    return {ours: theirs or ours for theirs, ours in re.findall(r"(?:^// (\S.*)\n)?^(?:struct|class) (\w+)[^;\n]*\{", text, re.M) if ours != "opaque"}


def first_bits(seen, has_stand_in):
    """The first bit of each member of a class by clang. Where scalars stand for bit-fields, these are left out; so is what has no name and what takes no place."""
    fields = [(seen.bits.get(number, (8 * row[0],))[0], row[3], number in seen.bits) for number, row in enumerate(seen.rows) if row[2] == "field" and row[1] == 1]
    return [first for first, words, is_bit_field in fields if "[0]" not in words and not (is_bit_field and (has_stand_in or words.endswith(" ")))]


def from_text(text, *words, name="given.cpp"):
    """Runs the tool on a text of C++."""
    with tempfile.TemporaryDirectory() as folder:
        path = os.path.join(folder, name)
        with open(path, "w", encoding="utf-8") as file:
            file.write(text)
        return support.run("from-cpp", path, *words)


def numbers_by_clang(text, name, flags=()):
    """Size and alignment of a class by clang's own layout."""
    found = clang.layouts(text, [name], list(flags))
    one = {cpp_tree.spelled(key): value for key, value in found.items()}[cpp_tree.spelled(name)]
    return one.size, one.align


@support.needs("clang++", "c++filt")
class FromCpp(unittest.TestCase):
    def said(self, done):
        self.assertEqual(done.returncode, 0, done.stderr)
        return done.stdout

    def test_there_are_twenty_cases(self):
        self.assertGreaterEqual(len(CASES), 20)

    def test_what_is_printed(self):
        for path in CASES:
            with self.subTest(os.path.basename(path)):
                first, _, rest = self.said(support.run("from-cpp", path)).partition("\n")
                self.assertRegex(first, r"^// read by clang\+\+ \d.* by its default gnu\+\+\d\d$")
                self.assertEqual(rest, written(path[:-4] + ".src"))

    @support.needs_program
    def test_the_layouts_are_those_of_the_classes_of_cpp(self):
        for path in CASES:
            with self.subTest(os.path.basename(path)):
                self.compare_with_clang(path, written(path[:-4] + ".src"))

    def compare_with_clang(self, path, text):
        layouts = layout_text.read(program.text_of(["layout"], text))
        found = clang.layouts(written(path), [name for name in original_names(text).values() if "(unnamed" not in name], [])
        theirs = {cpp_tree.spelled(name): one for name, one in found.items()}
        for ours, name in original_names(text).items():
            if "(unnamed" in name:
                continue
            seen, one = theirs[cpp_tree.spelled(name)], layouts[ours]
            self.assertEqual((one.size, one.align), (seen.size, min(seen.align, 8)), ours)
            if re.search(rf"^struct {ours}\b.*// a stand-in", text, re.M):
                continue
            has_stand_in = any(member.name == "bits" for member in one.members)
            said = [8 * member.place + member.first for member in one.members if not NOT_OF_CPP.match(member.name) or member.name == "bytes"]
            self.assertEqual(said, first_bits(seen, has_stand_in), ours)
            bases = sorted(base.place for base in one.bases if len(base.names) == 1)
            self.assertEqual(bases, sorted(place for place, depth, sort, _ in seen.rows if depth == 1 and "base" in sort), ours)

    def test_a_stand_in_is_told_with_its_reason(self):
        done = support.run("from-cpp", case("stand_ins.cpp"))
        for line in ("a stand-in of its size: Word: it is a union", "a stand-in of its size: Packed: its member i lies at 1, where the rules put it at 4: packed",
                     "not as in C++: Wide: its alignment is said as 8 in place of 16, and the places are kept by padding"):
            self.assertIn(line + "\n", done.stderr)
        self.assertRegex(done.stderr, r"\n\d+ classes said, \d+ by a stand-in of their size, 0 left out\n$")

    def test_a_class_that_is_too_large_is_left_out(self):
        done = from_text("struct Large { char c[600000]; }; struct Fine { Large* large; };")
        self.assertIn("left out: Large: its size is 600000, and 500000 is the most that the program takes (L6)\n", done.stderr)
        self.assertIn("1 classes said, 1 left out\n", done.stderr)

    def test_a_large_array_has_few_elements(self):
        done = from_text("struct Path { long n; char text[200704]; }; struct Bytes { char c[70000]; };")
        self.assertIn("long text[4096];  // char[200704]\n", done.stdout)
        self.assertIn("left out: Bytes: it has more than 65536 scalars of its alignment", done.stderr)

    def test_each_drop_and_each_change_is_counted(self):
        done = from_text("""struct S {
            S(); S(int); static int count; static void make(); enum Color { red }; typedef int Number; friend struct F; template<class T> void take(T);
            void plain(); virtual void f(double); virtual void f(const char*, S); virtual bool operator==(int); float x; Color color; int& r; };""")
        self.assertIn("dropped: constructors, where one without parameters is there 1; enumerations 1; friends 1; function templates 1; functions that are not virtual 1; "
                      "static functions 1; static members 1; typedefs 1\n", done.stderr)
        self.assertIn("renamed: 2 virtual functions: f(char const*,S) is f_2, operator==(int) is operator_equal\n", done.stderr)
        self.assertIn("members of other types: enumerations 1; floating types 1; references 1\n", done.stderr)
        self.assertIn("types in signatures: classes by value, which are pointers here 1; floating types 1; pointers to what is no class here 1\n", done.stderr)
        self.assertIn("virtual void f_2(opaque* p1, S* p2) {}  // void f(const char *, S)\n", done.stdout)
        quiet = from_text("struct S { virtual void f(int); virtual void f(char); };", "--quiet")
        self.assertIn("renamed: 1 virtual functions\n", quiet.stderr)

    def test_a_result_of_the_library_overrides(self):
        text = "#include <string>\nstruct A { virtual std::string name(int); };\nstruct B : A { std::string name(int); };\n"
        said = self.said(from_text(text, "--class", "B"))
        self.assertEqual(len(re.findall(r"virtual std_basic_string_char\* name\(int p1\)|virtual opaque\* name\(int p1\)", said)), 2, said)

    def test_a_union_with_one_member_is_a_class_with_that_member(self):
        text = """struct NoPod { int a; char c; NoPod(); }; template<class T> union One { T t; One(); ~One(); }; union Bits { int n : 3; }; struct Empty {}; union OfEmpty { Empty e; };
            struct Holds { One<NoPod> n; One<long> l; Bits b; char last; }; struct Below : Holds { char behind; }; struct Both : Empty { OfEmpty e; };"""
        done = from_text(text)
        for name, theirs in (("One_NoPod", "One<NoPod>"), ("One_long", "One<long>"), ("Bits", "Bits"), ("OfEmpty", "OfEmpty"), ("Holds", "Holds"), ("Below", "Below"), ("Both", "Both")):
            ours = clang.layouts(done.stdout, [name], ["-std=gnu++98"])[name]
            self.assertEqual((ours.size, ours.align), numbers_by_clang(text, theirs), name)
        self.assertIn("struct One_long {  // a union with one member in C++", self.said(done))
        self.assertIn("  long t;\n", done.stdout)
        self.assertIn("9 classes said, 0 left out\n", done.stderr)

    def test_a_template_that_a_friend_declares_first(self):
        text = """namespace n { class User { template<unsigned> friend struct Late; int u; }; template<unsigned count = 1> struct Late { int at[count]; };
            struct Three : Late<3> { int t; }; struct One : Late<> { long t; }; }"""
        done = from_text(text)
        self.assertRegex(self.said(done), r"struct n_Three : public n_Late_3 \{\n  int t;")
        self.assertIn("5 classes said, 0 left out\n", done.stderr)
        for name, theirs in (("n_Three", "n::Three"), ("n_One", "n::One")):
            ours = clang.layouts(done.stdout, [name], ["-std=gnu++98"])[name]
            self.assertEqual((ours.size, ours.align), numbers_by_clang(text, theirs))

    def test_what_holds_a_stand_in_is_said_however_deep(self):
        text = """struct alignas(8) Wide {}; template<class T> struct Vec : T { int n[4]; }; struct V : Vec<Wide> {}; struct H1 { V v; }; struct H2 { H1 h; }; struct H3 { H2 h; int k; };"""
        done = from_text(text)
        self.assertIn("a stand-in of its size: Vec<Wide>: its size would be 24 in place of 16\n", done.stderr)
        self.assertIn("4 classes said, 2 by a stand-in of their size, 0 left out\n", done.stderr)
        ours = clang.layouts(self.said(done), ["H3"], ["-std=gnu++98"])["H3"]
        self.assertEqual((ours.size, ours.align), numbers_by_clang(text, "H3"))

    def test_the_standard_is_the_default_or_the_given_one(self):
        text = "struct Node { int id;\n#if __cplusplus >= 201103L\nlong extra;\n#endif\n};"
        self.assertIn("long extra;", self.said(from_text(text)))
        older = self.said(from_text(text, "--", "-std=gnu++98"))
        self.assertNotIn("extra", older)
        self.assertRegex(older, r"^// read by clang\+\+ \S+ by gnu\+\+98, as the flags say\n")

    def test_a_file_that_needs_another_standard_says_so(self):
        done = from_text("struct Node { int id; void f() { if (int i = 0; i == 0) {} } };\nnamespace a::b { struct C {}; }\ntemplate<auto n> struct T {}; struct U { T<3> t; };")
        default = clang.standard_by([])[0]
        if default in ("gnu++98", "gnu++11", "gnu++14"):
            self.assertEqual(done.returncode, 1)
            self.assertIn(f"is not C++ by {default}, but by gnu++17", done.stderr)
            self.assertIn("give -- -std=gnu++17", done.stderr)

    @unittest.skipUnless(clang.shutil.which("clang++") and clang.standard_by([])[0] == "gnu++14", "clang++'s own standard is another one")
    def test_a_class_of_a_later_standard_is_told(self):
        done = from_text("#include <filesystem>\n", "--class", "std::filesystem::path")
        self.assertEqual(done.returncode, 1)
        self.assertIn("no class std::filesystem::path is defined here by gnu++14, but by gnu++17 and gnu++20: give -- -std=gnu++17", done.stderr)

    def test_members_of_the_library(self):
        text = """#include <string>
            #include <memory>
            #include <functional>
            #include <atomic>
            #include <optional>
            #include <variant>
            struct All { std::string s; std::unique_ptr<int> u; std::shared_ptr<long> p; std::function<void(int)> f; std::atomic<bool> a; std::optional<double> o;
                std::variant<int, std::string> v; };
            class Below : public All { char c; virtual void f(); };"""
        flags = ["-std=gnu++17"]
        done = from_text(text, "--", *flags)
        self.assertRegex(self.said(done), r"class std_basic_string_char \{")
        self.assertIn(", 0 left out\n", done.stderr)
        for name in ("All", "Below"):
            self.assertRegex(done.stdout, rf"(?:struct|class) {name}( : public All)? {{\n")  # said, and no stand-in
            ours = clang.layouts(done.stdout, [name], ["-std=gnu++98"])[name]
            self.assertEqual((ours.size, ours.align), numbers_by_clang(text, name, flags))

    def test_one_class_and_what_it_needs(self):
        done = support.run("from-cpp", case("diamond.cpp"), "--class", "B2")
        self.assertEqual(re.findall(r"^struct (\w+)", done.stdout, re.M), ["V", "B2"])

    @support.needs_program
    def test_one_class_is_ready_for_a_run(self):
        done = support.run("from-cpp", case("covariant.cpp"), "--class", "B")
        text, status = program.answer(["run"], self.said(done))
        self.assertEqual(status, 0, text)
        self.assertTrue(text.startswith("dump #1 B "), text)
        pure = support.run("from-cpp", case("pure.cpp"), "--class", "Shape")
        self.assertIn("Shape is abstract", pure.stdout)
        self.assertEqual(program.answer(["run"], self.said(pure)), ("", 0))

    @support.needs_program
    def test_a_body_that_cannot_be_said_lets_a_call_run(self):
        text = "struct A { virtual int f(int); virtual bool g(); virtual A* h(); };"
        said = self.said(from_text(text)) + "int main() { A* a = new A; int n = a->f(3); bool b = a->g(); A* h = a->h(); print(n); print(b); print(h); }"
        self.assertEqual(program.answer(["run"], said), ("0\n0\nnull\n", 0))

    def test_a_name_without_its_namespace_is_proposed(self):
        done = from_text("namespace net { struct Session { struct Part {}; }; struct SessionList {}; }", "--class", "Session")
        self.assertEqual(done.returncode, 1)
        self.assertIn("no class Session is defined here, but net::Session is: give --class 'net::Session'", done.stderr)

    def test_second_names_of_namespaces_and_used_names(self):
        text = "namespace net_2 { struct Session { int id; }; template<class T> struct Box { T t; }; } namespace net = net_2; namespace own { using net::Session; } net::Box<int> one;"
        for name in ("net::Session", "own::Session", "net_2::Session"):
            self.assertIn("struct net_2_Session {\n  int id;\n};", self.said(from_text(text, "--class", name)))
        self.assertIn("struct net_2_Box_int {\n", self.said(from_text(text, "--class", "net::Box<int>")))
        self.assertIn("no class net::Nobody is defined here", from_text(text, "--class", "net::Nobody").stderr)

    def test_typedefs_and_specialisations_that_are_only_named_are_found(self):
        text = "#include <string>\nnamespace n { template<class T> struct Box { T t; long n; }; typedef Box<short> Small; }\nn::Box<char>* none;\n"
        self.assertIn("class std_basic_string_char {", self.said(from_text(text, "--class", "std::string")))
        self.assertIn("struct n_Box_short {\n  short t;\n  long n;\n};", self.said(from_text(text, "--class", "n::Small")))
        self.assertIn("struct n_Box_bool {\n  bool t;\n", self.said(from_text(text, "--class", "n::Box<bool>")))
        self.assertIn("struct n_Box_char {\n  char t;\n", self.said(from_text(text)))

    def test_a_template_of_which_there_is_no_class_is_told(self):
        text = "namespace n { template<class T> struct Stack { T t; }; template<class T, int N> struct Fixed { T t[N]; }; template<class T> struct Used { T t; }; } struct Hidden; struct A { n::Used<int> u; Hidden* h; };"
        done = from_text(text)
        self.assertIn("class templates 2: n::Stack, n::Fixed, of which the source makes no class: --class 'n::Stack<int>' makes one\n", done.stderr)
        self.assertIn("class templates 2\n", from_text(text, "--quiet").stderr)
        done = from_text("template<class T> struct Stack { T t; };")
        self.assertEqual(done.returncode, 1)
        self.assertIn("the files define no class, but class templates: Stack, of which the source makes no class: --class 'Stack<int>' makes one", done.stderr)
        for name, said in (("Stack", "n::Stack is a class template: give its arguments, as --class 'n::Stack<int>'"), ("n::Fixed", "n::Fixed is a class template"), ("Hidden", "Hidden is declared here and not defined")):
            self.assertIn(said, from_text(text, "--class", name).stderr)

    def test_a_short_name_is_shown_where_all_that_it_leaves_out_is_default(self):
        text = """namespace n { template<long a, long b = 1> struct Ratio {}; template<class T> struct Less {}; template<class T, class R = Ratio<1, 1>, class L = Less<T> > struct Time { T t; };
            typedef Time<int> Seconds; }
            struct A { n::Time<int, n::Ratio<1, 1000> > milli; n::Seconds second; virtual void f(n::Time<int, n::Ratio<1, 1000> >*, n::Time<n::Time<n::Seconds> >*); }; struct B { n::Time<n::Time<n::Time<int> > > t; };"""
        said = self.said(from_text(text))
        self.assertIn("// n::Time<int, n::Ratio<1, 1000>>\n", said)
        self.assertIn("// n::Time<int>\n", said)
        self.assertIn("virtual void f(n_Time_int_n_Ratio_1_1000* p1, n_Time_n_Time_n_Time_int* p2) {}", said)
        self.assertEqual(len(re.findall(r"^// n::Time<int", said, re.M)), 2)

    def test_more_than_the_program_takes_is_told(self):
        text = "".join(f"struct S{number} {{ int x; }};\n" for number in range(1025))
        done = from_text(text)
        self.assertIn("too much for one source: 1025 classes, where 1024 are the most (L2): --class NAME gives one class and what it needs\n", done.stderr)
        self.assertNotIn("too much", from_text(text, "--class", "S7").stderr)
        held = text + "struct All { " + " ".join(f"S{number} s{number};" for number in range(1000)) + " };" + "struct More { " + " ".join(f"S{number} s{number};" for number in range(1000, 1025)) + " All all; };"
        self.assertIn("the most (L2): that is what these classes need\n", from_text(held, "--class", "More").stderr)

    def test_the_flags_of_a_project(self):
        with tempfile.TemporaryDirectory() as folder:
            for name, text in (("include/part.h", "struct Part { long n; };"), ("src/tree.h", '#include "part.h"\nstruct Tree { Part part; int id;\n#ifdef WIDE\nlong wide;\n#endif\n};'),
                               ("src/tree.cpp", '#include "tree.h"\n'), ("src/other.cpp", '#include "tree.h"\n')):
                os.makedirs(os.path.dirname(os.path.join(folder, name)), exist_ok=True)
                with open(os.path.join(folder, name), "w", encoding="utf-8") as file:
                    file.write(text)
            commands = os.path.join(folder, "compile_commands.json")
            entries = [{"directory": folder, "file": "src/other.cpp", "command": "c++ -c -o o.o src/other.cpp"},
                       {"directory": folder, "file": "src/tree.cpp", "command": "c++ -I include -DWIDE -std=gnu++11 -Werror -c -o tree.o src/tree.cpp"}]
            with open(commands, "w", encoding="utf-8") as file:
                json.dump(entries, file)
            done = support.run("from-cpp", os.path.join(folder, "src", "tree.h"), "--compile-commands", commands)
            self.assertIn("long wide;", self.said(done))
            self.assertRegex(done.stdout, r"^// read by clang\+\+ \S+ by gnu\+\+11, as compile_commands.json says\n")
            for wrong in ("{}", "[", '[{"file": "a"}]', "[]"):
                with open(commands, "w", encoding="utf-8") as file:
                    file.write(wrong)
                done = support.run("from-cpp", os.path.join(folder, "src", "tree.h"), "--compile-commands", commands)
                self.assertEqual(done.returncode, 1, wrong)
                self.assertIn("compile_commands.json that your build writes", done.stderr)
                self.assertNotIn("Traceback", done.stderr)

    @support.needs_program
    def test_the_streams_of_the_library(self):
        path = os.path.join(FOLDER, "..", "streams.cc")
        done = support.run("from-cpp", path, "--class", "std::basic_iostream<char>", "--class", "std::basic_streambuf<char>")
        self.assertIn("classes said, 0 left out", done.stderr)
        classes = source.classes(self.said(done))
        stream = classes["std_basic_iostream_char"]
        self.assertEqual([base.name for base in stream.bases], ["std_basic_istream_char", "std_basic_ostream_char"])
        self.assertTrue(classes["std_basic_istream_char"].bases[0].virtual)
        texts = {"s": program.text_of(["layout"], done.stdout)}
        self.assertEqual(compare.differences("s", classes, texts["s"], compilers.by_clang({"s": classes}), None), [])

    def test_bad_input(self):
        for words, said in (
            (["/nowhere.h"], "cannot be read"),
            ([FOLDER], "cannot be read"),
            ([CASES[0], "--class", "Nobody"], "no class Nobody is defined here"),
            ([os.path.join(FOLDER, "..", "broken.cc")], "clang++ does not take the source"),
            ([os.devnull], "define no class"),
            ([support.run.__code__.co_filename], "clang++ does not take the source"),
            ([CASES[0], "--compile-commands", "/nowhere.json"], "cannot be read"),
            ([], "usage"),
            ([CASES[0], "--nothing"], "usage"),
        ):
            done = support.run("from-cpp", *words)
            self.assertIn(done.returncode, (1, 2), words)
            self.assertIn(said, done.stderr)
            self.assertNotIn("Traceback", done.stderr)

    @unittest.skipUnless(os.path.exists("/dev/full"), "there is no /dev/full")
    def test_an_output_that_cannot_be_written(self):
        with open("/dev/full", "w", encoding="utf-8") as full:
            done = support.subprocess.run([support.sys.executable, os.path.join(support.TOOLS, "from-cpp"), CASES[0]], stdout=full, stderr=support.subprocess.PIPE, encoding="utf-8")
        self.assertEqual(done.returncode, 2)
        self.assertIn("from-cpp: standard output cannot be used: No space left on device\n", done.stderr)
        self.assertNotIn("Traceback", done.stderr)

    def test_a_missing_compiler(self):
        done = support.run("from-cpp", CASES[0], environment={"PATH": "/nowhere"})
        self.assertEqual(done.returncode, 2)
        self.assertIn("apt-get install clang", done.stderr)


if __name__ == "__main__":
    unittest.main()
