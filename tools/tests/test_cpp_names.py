"""The names of C++ that tools/draw, tools/padding and tools/explain take for classes that tools/from-cpp renamed."""
import unittest

import support

SOURCE = """// sf::Shape
struct sf_Shape {
  virtual ~sf_Shape() {}
  int a;
};

// sf::Pair<int, long>
struct sf_Pair_int_long {
  char c;
  long u;
};

// twice::Named
struct One { char c; };
// twice::Named
struct Two { int i; };
"""


@support.needs_program
class CppNames(unittest.TestCase):
    def test_a_class_by_its_name_of_cpp(self):
        for name, own in (("sf::Shape", "sf_Shape"), ("sf::Pair<int, long>", "sf_Pair_int_long"), ("sf::Pair<int,long>", "sf_Pair_int_long")):
            for words in (["draw", "--text"], ["padding"]):
                done = support.run(*words, name, text=SOURCE)
                self.assertEqual((done.stderr, done.returncode), ("", 0))
                self.assertTrue(done.stdout.startswith(f"{own}: size 16, align 8"), done.stdout)
                self.assertEqual(done.stdout, support.run(*words, own, text=SOURCE).stdout)
            done = support.run("explain", "layout", name, text=SOURCE)
            self.assertEqual((done.stderr, done.returncode), ("", 0))
            self.assertTrue(done.stdout.startswith(f"class {own} size 16 align 8"), done.stdout)

    def test_a_name_of_no_class_or_of_two(self):
        for name in ("sf::Nothing", "twice::Named"):
            done = support.run("padding", name, text=SOURCE)
            self.assertEqual((done.stdout, done.returncode), ("", 1))
            self.assertIn(f"no class {name} is in the source; it has sf_Shape, ", done.stderr)
            done = support.run("explain", "layout", name, text=SOURCE)
            self.assertEqual(done.returncode, 1)
            self.assertIn(f"no class {name}; it has sf_Shape, ", done.stderr)


if __name__ == "__main__":
    unittest.main()
