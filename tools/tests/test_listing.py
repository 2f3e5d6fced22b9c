"""tools/listing: the plain target against the program, other targets and flags, debug information of both compilers, bad files; tools/draw --beside."""
import os
import re
import shutil
import subprocess
import tempfile
import unittest

import leaves
import support
from lib import layout_text, listing, program, random_programs, source

FOLDER = os.path.join(support.TOOLS, "tests", "cpp")
CLASSES = """
struct E {};
struct V { long v; virtual void f() {} };
struct A { int a; char c; A() {} };
struct B : A, virtual V { char d; int x : 5; int y : 30; virtual void g() {} };
struct I { virtual void i() {} };
struct J : virtual I { int j; };
struct K : virtual I { int k; };
struct L : J, K { int l; };
namespace ns {
template <class T> struct Box { T t; Box* next; virtual ~Box() {} };
typedef struct { int q; } Named;
class W : public virtual V, private Box<int> { protected: Named n; static int s; enum Co { R, G } co; public: W(int); };
struct X : W, E { X(); long double wide; double grid[2][3]; const char* name; void (*call)(int); };
X::X() : W(3) {}
W::W(int) {}
}
struct __attribute__((packed)) P { char c; int i; short s : 9; };
E e; V v; A a; B b; P p; J j; L l; ns::X x;
"""
ONE = "struct P { char c; int i; };\n"


def classes(whole):
    """The lines of each class of a listing."""
    front, _ = listing.parted(whole)
    return {lines[0].split()[1]: lines for lines in (part.splitlines() for part in re.split(r"(?m)^(?=class )", front) if part)}


class Folder(unittest.TestCase):
    maxDiff = None

    def setUp(self):
        self.folder = tempfile.mkdtemp()
        self.addCleanup(shutil.rmtree, self.folder)

    def file(self, name, text):
        path = os.path.join(self.folder, name)
        with open(path, "w", encoding="utf-8") as file:
            file.write(text)
        return path

    def listed(self, *words):
        done = support.run("listing", *words)
        self.assertEqual(done.returncode, 0, done.stderr)
        self.assertNotIn("Traceback", done.stderr)
        return done.stdout

    def refused(self, status, said, *words):
        done = support.run("listing", *words)
        self.assertEqual((done.returncode, done.stdout), (status, ""), done.stderr)
        self.assertIn(said, done.stderr)
        self.assertNotIn("Traceback", done.stderr)

    def built(self, text, compiler, *flags, name="made.o"):
        path = os.path.join(self.folder, name)
        subprocess.run([compiler, "-w", *flags, "-o", path, "-x", "c++", "-"], input=text, encoding="utf-8", check=True)
        return path


@support.needs("clang++")
class Listing(Folder):
    @support.needs_program
    def test_the_plain_target_is_the_layout_of_the_program(self):
        cases = [os.path.join(FOLDER, name) for name in sorted(os.listdir(FOLDER)) if name.endswith(".cpp")]
        for path in [*cases, self.file("classes.cpp", CLASSES.replace("__attribute__((packed))", "").replace("long double wide;", ""))]:
            done = support.run("from-cpp", path)
            if "not as in C++" in done.stderr or done.returncode:
                continue
            front, text = listing.parted(self.listed(path))
            with self.subTest(path):
                self.assertEqual(front, program.text_of(["layout"], text))
                self.assertIn("int main() {", text)

    def test_a_packed_class_keeps_its_members(self):
        whole = self.listed(self.file("packed.h", "struct __attribute__((packed)) P { char c; int i; };"))
        self.assertTrue(whole.startswith("class P size 5 align 1 dsize 5 nvsize 5 nvalign 1\nprimary none\n0 field char c\n1 field int i\nprogram\n"), whole)
        self.assertIn("struct P {\n  char c;\n  int i;\n};\n", whole)

    def test_targets_and_flags(self):
        path = self.file("one.h", "struct A { int a : 3; char c; long long b : 40; };\nstruct B { A a; long double d; };\nstruct T { T(); int i; char c; };\nstruct U : T { char d; };\n")
        plain, packed = classes(self.listed(path)), classes(self.listed(path, "--", "-fpack-struct=4"))
        self.assertIn("16 field long[2] d", plain["B"])
        self.assertEqual(packed["B"][0], "class B size 24 align 4 dsize 24 nvsize 24 nvalign 4")
        self.assertIn("8 field long d", [line.replace("16 field long d", "8 field long d") for line in classes(self.listed(path, "--", "--target=arm64-apple-ios"))["B"]])
        self.assertIn("8 bits 0 40 long long b", classes(self.listed(path, "--", "-mms-bitfields"))["A"])
        self.assertIn("5 field char d", classes(self.listed(path, "--", "--target=aarch64-linux-gnu"))["U"])
        done = support.run("listing", path, "--", "--target=powerpc64-linux-gnu")
        self.assertIn("counts the bits of a byte from the highest one", done.stderr)

    def test_what_is_not_lp64(self):
        path = self.file("one.h", ONE)
        for target, said in (("i686-linux-gnu", "a pointer has 4 bytes"), ("x86_64-pc-windows-msvc", "a long 4"), ("nonsense", "clang++ does not take the flags")):
            self.refused(1, said, path, "--", f"--target={target}")

    def test_a_source_of_the_workbench(self):
        text = "struct V { long v; virtual void f() {} };\nstruct E {};\nstruct D : virtual V, E { int x : 3; char c; };\nint main() { D* d = new D; print(d); }\n"
        whole = self.listed("--source", self.file("one.src", text))
        self.assertTrue(whole.endswith("program\n" + text))
        self.assertEqual(classes(whole)["D"], ["class D size 32 align 8 dsize 32 nvsize 10 nvalign 8", "primary none", "16 base *V", "0 base E", "8 bits 0 3 int x", "9 field char c"])
        self.assertIn("class D size 28 align 4", self.listed("--source", self.file("one.src", text), "--", "-fpack-struct=4"))

    def test_a_layout_by_chance(self):
        """No leaf of one meets another, all lie inside, and a seed gives one layout. Virtual pointers are those of the layout's own primary bases."""
        text = "struct E {};\nstruct V : E { long v; int low : 3; bool b : 1; virtual void f() {} };\nstruct B : virtual V { short s[3]; E e; long long wide : 40; };\nstruct C : virtual V, E { char c; B b; };\n"
        text += "struct N { N() {} virtual void n() {} int n_; };\nstruct D : N, B, C { E some[2]; int last; };\nint main() { }\n"
        path, seen = self.file("one.src", text), set()
        for seed in range(40):
            whole = self.listed("--source", path, "--chance", str(seed))
            self.assertTrue(whole.endswith("program\n" + text))
            front, seen = listing.parted(whole)[0], seen | {whole}
            layouts = layout_text.read(front)
            for name, layout in layouts.items():
                taken = {}
                for leaf in leaves.of_class(source.classes(text), layouts, name):
                    self.assertTrue(0 <= leaf.place and leaf.end <= layout.size, f"{seed} {name} {leaf}")
                    for bit in leaves.bits(leaf):
                        self.assertNotIn(bit, taken, f"{seed} {name} {leaf} {taken.get(bit)}")
                        taken[bit] = leaf
        self.assertEqual(len(seen), 40)
        self.assertEqual(self.listed("--source", path, "--chance", "3"), self.listed("--source", path, "--chance", "3"))
        self.refused(2, "usage", "--chance", "3", path)
        self.refused(2, "usage", "--source", path, "--chance", "x")

    def test_bad_words(self):
        path = self.file("one.h", ONE)
        for words in ([], ["--object"], ["--object", path, "--source"], ["--object", path, "--", "-O2"], ["--source", path, path], ["--source", path, "--all"], [path, "--nothing"]):
            self.refused(2, "usage", *words)
        self.refused(2, "cannot be read", "/nowhere.h")
        self.refused(1, "no class Q is defined here", path, "--class", "Q")
        self.refused(1, "clang++ does not take the source", self.file("bad.h", "struct {"))
        self.refused(1, "the source has no class", "--source", self.file("none.src", "int main() { }"))


@support.needs("clang++", "g++", "c++filt", "strip")
@support.needs_elftools
class DebugInformation(Folder):
    def test_both_compilers_and_versions_tell_what_clang_lists(self):
        wanted = classes(self.listed(self.file("classes.cpp", CLASSES)))
        self.assertGreaterEqual(len(wanted), 14)
        for compiler in ("g++", "clang++"):
            for flags in (["-gdwarf-4"], ["-gdwarf-5"], ["-g", "-gz"], ["-g", "-O2"]):
                with self.subTest(f"{compiler} {flags}"):
                    self.assertEqual(classes(self.listed("--object", self.built(CLASSES, compiler, "-c", *flags), "--all")), wanted)

    def test_programs(self):
        wanted = classes(self.listed(self.file("classes.cpp", CLASSES)))
        for flags in (["-fPIE", "-pie"], ["-fno-PIC", "-no-pie"]):
            made = self.built(CLASSES + "int main() {}\n", "g++", "-g", *flags, name="made")
            found = classes(self.listed("--object", made, "--all"))
            self.assertEqual({name: lines for name, lines in found.items() if name in wanted}, wanted)

    def test_a_target_and_flags(self):
        path = self.file("classes.cpp", CLASSES)
        wanted = classes(self.listed(path, "--", "--target=aarch64-linux-gnu"))
        self.assertEqual(classes(self.listed("--object", self.built(CLASSES, "clang++", "-c", "-g", "--target=aarch64-linux-gnu"), "--all")), wanted)
        text = "struct A { char c; long x; };\nstruct B : A { char d; int y; short z; };\nB b;\n"
        wanted = classes(self.listed(self.file("two.h", text), "--", "-fpack-struct=4"))
        self.assertEqual(classes(self.listed("--object", self.built(text, "g++", "-c", "-g", "-fpack-struct=4"), "--all")), wanted)

    def test_without_a_virtual_table(self):
        """Where one place fits, it is told; else the class is left out, with the reason."""
        text = "struct V { long v; virtual ~V(); };\nstruct B : virtual V { int b; virtual ~B(); };\nstruct W { W(); char w[24]; };\nstruct C : virtual V, virtual W { virtual ~C(); };\nint f(C* c, B* b) { return b->b + c->w[1]; }\n"
        made = self.built(text, "g++", "-c", "-g", "-femit-class-debug-always")
        done = support.run("listing", "--object", made, "--all")
        self.assertEqual(done.returncode, 0, done.stderr)
        self.assertIn("16 base *V", classes(done.stdout)["B"])
        self.assertNotIn("C", classes(done.stdout))
        self.assertIn("left out: C: where its virtual base V lies stands in the virtual table of the class", done.stderr)

    def test_classes_by_name_and_by_file(self):
        header = self.file("shapes.h", "struct Circle { int r; };\n")
        made = self.built(f'#include "{header}"\nstruct Other {{ Circle c; char k; }};\nOther o;\n', "g++", "-c", "-g")
        self.assertEqual(list(classes(self.listed("--object", made, header))), ["Circle"])
        self.assertEqual(list(classes(self.listed("--object", made, "--class", "Other"))), ["Circle", "Other"])
        self.refused(1, "has no class Square", "--object", made, "--class", "Square")
        self.refused(1, "has no class of these files", "--object", made, self.file("none.h", ""))

    def test_bad_files(self):
        text = "struct A { int x; }; A a;\n"
        self.refused(1, "has no debug information; compile it with -g", "--object", self.built(text, "g++", "-c"))
        self.refused(1, "is no object file of ELF", "--object", self.file("text.o", "no object"))
        self.refused(1, "is no object file of ELF", "--object", self.file("empty.o", ""))
        self.refused(2, "cannot be read", "--object", "/nowhere.o")
        self.refused(2, "cannot be read", "--object", self.folder)
        self.refused(1, "is of another architecture", "--object", self.built(text, "clang++", "-c", "-g", "--target=i686-linux-gnu"))
        self.refused(1, "is of another architecture", "--object", self.built(text, "clang++", "-c", "-g", "--target=riscv64-linux-gnu"))
        self.refused(1, "without -gsplit-dwarf", "--object", self.built(text, "g++", "-c", "-g", "-gsplit-dwarf"))
        self.refused(1, "without -fdebug-types-section", "--object", self.built(text, "g++", "-c", "-g", "-fdebug-types-section"))
        self.refused(1, "DWARF 3", "--object", self.built(text, "g++", "-c", "-gdwarf-3"))
        made = self.built(text, "g++", "-c", "-g")
        with open(made, "rb") as file:
            content = file.read()
        for length in range(0, len(content), max(1, len(content) // 8)):  # cut, and with bytes that are changed
            for bad in (content[:length], content[:length] + b"\xff" * 16 + content[length + 16:]):
                with open(made, "wb") as file:
                    file.write(bad)
                done = support.run("listing", "--object", made, "--all")
                self.assertIn(done.returncode, (0, 1), done.stderr)
                self.assertNotIn("Traceback", done.stderr)

    @support.needs_program
    @unittest.skipUnless(os.path.isdir("/usr/include/FL"), "the headers of FLTK are missing: apt-get install libfltk1.3-dev")
    def test_the_classes_of_fltk(self):
        made = self.built('#include <FL/Fl_File_Chooser.H>\n#include <FL/Fl_Tree.H>\n', "g++", "-c", "-g", "-fno-eliminate-unused-debug-types", "-femit-class-debug-always")
        front, text = listing.parted(self.listed("--object", made, "--all", "--quiet"))
        self.assertGreater(front.count("class "), 60)
        # the one known difference: an alignment above 8 is said as 8, and the listing has it as it is
        self.assertEqual(re.sub(r"align 16\b", "align 8", front), program.text_of(["layout"], text))


def has_foreign():
    return program.answer(["foreign"], "program\nint main() { }\n") == ("", 0)


@support.needs_program
@support.needs("clang++")
class Foreign(Folder):
    """What `foreign` says of listings."""

    def setUp(self):
        super().setUp()
        if not has_foreign():
            self.skipTest("the program has no command foreign yet")

    def test_a_packed_class_and_another_target(self):
        examples = os.path.join(program.TOP, "examples")
        self.assertEqual(program.answer(["foreign"], self.listed(os.path.join(examples, "packet.h"))), ("refused F4 Align line 1\n", 1))
        text, status = program.answer(["foreign"], self.listed(os.path.join(examples, "sample.h"), "--class", "Marked", "--", "--target=arm64-apple-ios"))
        self.assertEqual((text, status), ("dump #1 Marked 12\n0 -------- int Sample::at\n4 -- char Sample::kind\n5 pad 3\n8 -- char mark\n9 pad 3\n", 0))

    def test_programs_print_the_same(self):
        compared = 0
        for seed in range(12):
            text = random_programs.Maker(seed, bit_fields=40 * (seed % 2)).program(5)
            printed, status = program.answer(["run"], text)
            if not text or status or "#" in printed:
                continue
            for flags in (["--target=arm64-apple-ios"], ["-mms-bitfields"], ["-fclang-abi-compat=4.0"]):
                self.assertEqual(program.answer(["foreign"], self.listed("--source", self.file("one.src", text), "--", *flags)), (printed, 0), f"{seed} {flags}")
                compared += 1
        self.assertGreater(compared, 8)

    def test_programs_over_layouts_by_chance(self):
        compared = 0
        for seed in range(30):
            text = random_programs.Maker(seed, bit_fields=40 * (seed % 2)).program(5)
            printed, status = program.answer(["run"], text)
            if text and status == 0:
                told, ended = program.answer(["foreign"], self.listed("--source", self.file("one.src", text), "--chance", str(seed)))
                self.assertEqual((re.sub(r"(#\d+)\+\d+", r"\1", told), ended), (re.sub(r"(#\d+)\+\d+", r"\1", printed), 0), seed)
                compared += 1
        self.assertGreater(compared, 8)

    @support.needs("g++")
    @support.needs_elftools
    def test_the_layouts_of_objects_are_sound(self):
        made = self.built(CLASSES.replace("struct __attribute__((packed)) P", "struct P"), "g++", "-c", "-g")
        self.assertEqual(program.answer(["foreign"], self.listed("--object", made, "--all"))[1], 0)


@support.needs_program
class BesideTest(Folder):
    SOURCE = "struct B { char b; };\nstruct P : B { char c; int i; short s : 9; };\nint main() { }\n"
    LISTED = "class B size 1 align 1 dsize 1 nvsize 1 nvalign 1\nprimary none\n0 field char b\nclass P size 8 align 1 dsize 8 nvsize 8 nvalign 1\nprimary none\n0 base B\n1 field char c\n2 field int i\n6 bits 0 9 short s\n"

    def drawn(self, text, *words):
        return support.run("draw", "--beside", self.file("packed.listing", text), *words)

    def test_text(self):
        done = self.drawn(self.LISTED + "program\n" + self.SOURCE, "P", "--text")
        self.assertEqual((done.returncode, done.stderr), (0, ""))
        self.assertIn("by the rules: P: size 12, align 4", done.stdout)
        self.assertIn("by packed.listing: P: size 8, align 1", done.stdout)
        self.assertIn("  int i: 4 -> 2\n  short s : 9: 8 -> 6\n", done.stdout)
        self.assertNotIn("char c: ", done.stdout)
        self.assertIn("nothing lies elsewhere", self.drawn(self.LISTED + "program\n" + self.SOURCE, "B", "--text").stdout)

    def test_picture(self):
        done = self.drawn(self.LISTED + "program\n" + self.SOURCE, "P")
        self.assertEqual((done.returncode, done.stderr), (0, ""))
        self.assertEqual(done.stdout.count('stroke="#c0392b"'), 4)
        self.assertIn("int i: 4 bytes at 2; by the rules at 4", done.stdout)
        self.assertIn("int i: 4 -&gt; 2", done.stdout)
        done = self.drawn(self.LISTED + "program\n" + self.SOURCE, "--folder", os.path.join(self.folder, "made"))
        self.assertEqual(sorted(os.listdir(os.path.join(self.folder, "made"))), ["B.beside.svg", "P.beside.svg"], done.stderr)

    def test_layouts_that_are_not_sound(self):
        for old, new in (("2 field int i", "1 field int i"), ("2 field int i", "30 field int i"), ("class P size 8", "class P size 0"), ("0 base B", "5 base B"), ("1 field char c", "0 field char c")):
            for words in (["P"], ["P", "--text"]):
                done = self.drawn(self.LISTED.replace(old, new) + "program\n" + self.SOURCE, *words)
                self.assertEqual((done.returncode, done.stderr), (0, ""), new)

    def test_bad_listings(self):
        for text, said in ((self.LISTED, "no line 'program'"), ("program\n" + self.SOURCE, "the class B"), (self.LISTED.replace("int i", "int j") + "program\n" + self.SOURCE, "the class P"),
                           ("words\nprogram\n" + self.SOURCE, "none of a layout"), (self.LISTED + "program\nstruct", "not taken"), (self.LISTED.replace("size 8", "size 99999999999999999999") + "program\n" + self.SOURCE, "a number above 1048576"), ("", "no line 'program'")):
            done = self.drawn(text)
            self.assertEqual((done.returncode, done.stdout), (1, ""), text)
            self.assertIn(said, done.stderr)
        self.assertEqual(support.run("draw", "--beside", "/nowhere").returncode, 2)
        self.assertIn("usage", self.drawn("", "P", "source.src").stderr)
        self.assertIn("usage", self.drawn("", "--tables").stderr)


if __name__ == "__main__":
    unittest.main()
