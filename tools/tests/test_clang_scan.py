"""The scanner of clang's tree finds what the whole tree has, wherever the blocks that it reads are cut."""
import io
import json
import os
import subprocess
import tempfile
import unittest

import support
from lib import clang_scan, clang_tree, cpp_tree, problem

HEADER = """#define MEMBER(type, name) type name; \\
  type of_##name() { return name; }
namespace part { template<class T, int n = 3> struct Array { T at[n]; enum { size = n }; ~Array(); }; enum class Sort : short { one = 1, two }; }
"""
SOURCE = """#include "part.h"
namespace { struct { int x : 3; int : 0; long y; } unnamed; }
typedef struct { part::Array<char> a; part::Sort sort; } Named;
template<class U> union Either { U u; char c[sizeof(U)]; };
struct Base { virtual void f(int) = 0; virtual ~Base(); private: static int s; friend struct Named2; };
class Shape : public virtual Base, private part::Array<long, 2> {
  MEMBER(int, width)
  MEMBER(Either<short>, either)
  int local() { struct Inner { int i; }; const char* text = "  }\\n  \\"kind\\": \\"FieldDecl\\""; return text[0] + sizeof(Inner); }
  void f(int) override {}
  struct __attribute__((packed)) Packed { char c; int i; } packed;
};
template<class T> struct First { template<class V> friend struct Late; };
First<int> first;
template<class V> struct Late { V v; };
struct Last { Late<Shape> late; };
"""


class Cut:
    """A stream that gives at most so many bytes at once."""

    def __init__(self, text, most):
        self.stream, self.most = io.BytesIO(text), most

    def read1(self, _):
        return self.stream.read(self.most)


def told(names):
    """All that the names of a source have, but for what is found by the order of sets."""
    return [repr(names.order), names.enums, names.typedefs, names.constants, names.templates, sorted(names.declared), {name: one.name for name, one in names.records.items()}]


@support.needs("clang++")
class Scan(unittest.TestCase):
    def setUp(self):
        self.folder = tempfile.TemporaryDirectory()
        self.addCleanup(self.folder.cleanup)
        with open(os.path.join(self.folder.name, "part.h"), "w", encoding="utf-8") as file:
            file.write(HEADER)
        self.flags = ["-std=c++17", "-I", self.folder.name]

    def tree(self):
        done = subprocess.run(["clang++", "-x", "c++", "-w", "-fsyntax-only", "-Xclang", "-ast-dump=json", *self.flags, "-"], input=SOURCE.encode(), stdout=subprocess.PIPE, check=True)
        return done.stdout

    def test_the_names_are_those_of_the_whole_tree(self):
        whole = {"inner": list(clang_tree.declarations(SOURCE, self.flags, whole=True))}
        expected = cpp_tree.read_tree(whole).names
        self.assertIn("Late<Shape>", expected.records)
        self.assertEqual(told(cpp_tree.read(SOURCE, self.flags)), told(expected))

    def test_a_place_in_a_macro_and_in_a_header(self):
        records = cpp_tree.read(SOURCE, self.flags).records
        self.assertEqual((records["Shape"].file, records["Shape"].line), ("<stdin>", 6))
        self.assertEqual((records["Late<Shape>"].file, records["Late<Shape>"].line), ("<stdin>", 15))
        self.assertEqual((records["part::Array<long,2>"].file, records["part::Array<long,2>"].line), (os.path.join(self.folder.name, "part.h"), 3))

    def test_blocks_that_are_cut_anywhere(self):
        text = self.tree()
        expected = list(clang_scan.Scanner(io.BytesIO(text)).declarations())
        self.assertGreater(len(expected), 10)
        for most in (7, 61, 500, 4096, 40009):
            self.assertEqual(json.dumps(list(clang_scan.Scanner(Cut(text, most)).declarations())), json.dumps(expected), most)

    def test_a_tree_that_ends_too_early(self):
        text = self.tree()
        for end in (len(text) // 3, len(text) // 2):
            with self.assertRaises(problem.Problem):
                list(clang_scan.Scanner(io.BytesIO(text[:end])).declarations())
        self.assertEqual(list(clang_scan.Scanner(io.BytesIO(b"")).declarations()), [])


if __name__ == "__main__":
    unittest.main()
