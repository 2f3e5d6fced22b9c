"""tools/definition-lines: what a clause reaches, over crates that are written here and counted by hand."""
import os
import re
import tempfile
import unittest

import support
from lib import problem, program, reached

LOW = """-- A comment.
use Rattle.std.specs.Prelude.{ℕ}

-- two lines
abbrev pub half : ℕ → ℕ
half n = n / 2

-- three lines, one of them by a field
pub record Pair : Type 0 where
  pub one : ℕ
  pub other : ℕ

abbrev pub not_cited : ℕ
not_cited = 0

infixl 10 ◌>>=◌
abbrev pub ◌>>=◌ : ℕ → ℕ → ℕ
a >>= b = a
"""
HIGH = """use Rattle.low.specs.Lib.{half as divided,
  Pair, ◌>>=◌}
use Rattle.low.specs.declared.lib.Thing.{Thing}

mutual
  pub data Even : ℕ → Type 0 where
    none : Even 0
    -- a comment
    more : (n : ℕ) → Odd n → Even (divided n)

  pub data Odd : ℕ → Type 0 where
    next : (n : ℕ) → Even n → Odd n

abbrev pub sum : Pair → ℕ
sum p = p.one

abbrev pub bound : Thing → ℕ
bound x = x >>= x
"""
CODE = """ghost use Rattle.high.specs.Lib.{Even as IsEven, sum, bound};

pub fn call(n: u32) -> u32
    requires few { bound n }
    // A comment on Odd.
    ensures even { IsEven result }
    ensures all { sum result ≡ 0 }
{
    n
}
"""


class Reached(unittest.TestCase):
    def setUp(self):
        self.folder = tempfile.TemporaryDirectory()
        self.addCleanup(self.folder.cleanup)
        for path, text in (("low/specs/Lib.antt", LOW), ("high/specs/Lib.antt", HIGH), ("high/src/lib.rt", CODE)):
            path = os.path.join(self.folder.name, path)
            os.makedirs(os.path.dirname(path), exist_ok=True)
            with open(path, "w", encoding="utf-8") as file:
                file.write(text)

    def lines(self, clause):
        return dict(reached.of_call(self.folder.name, "high", "call", clause))

    def test_two_that_cite_each_other(self):
        self.assertEqual(self.lines("even"), {"high": 5, "low": 2})

    def test_a_record_is_reached_by_its_name(self):
        self.assertEqual(self.lines("all"), {"high": 2, "low": 3})

    def test_a_sign_between_its_arguments(self):
        self.assertEqual(self.lines("few"), {"high": 2, "low": 2})

    def test_all_clauses(self):
        self.assertEqual(self.lines(None), {"high": 9, "low": 7})

    def test_what_is_not_there(self):
        for crate, call, clause in (("high", "call", "odd"), ("high", "cal", None), ("low", "call", None), ("none", "call", None)):
            with self.assertRaises(problem.Problem):
                reached.of_call(self.folder.name, crate, call, clause)


class Tool(unittest.TestCase):
    def last(self, *words):
        done = support.run("definition-lines", *words)
        self.assertEqual((done.returncode, done.stderr), (0, ""))
        return done.stdout.splitlines()[-1].split()

    def test_the_headline(self):
        """A clause reaches no more than all clauses do, and those no more than all lines of specs/."""
        one, all_of_call, believed = (int(self.last(*words)[number]) for words, number in (
            (["--call", "cxxabi_cmd::run_cxxabi", "--clause", "answered"], -1), (["--call", "cxxabi_cmd::run_cxxabi"], -1), ([], 1)))
        self.assertTrue(1000 < one < all_of_call < believed, (one, all_of_call, believed))

    def test_bad_words(self):
        for words in (["--clause", "answered"], ["--call", "nothing"], ["--call", "cxxabi_cmd::run_cxxabi", "--clause", "nothing"], ["more"]):
            done = support.run("definition-lines", *words)
            self.assertEqual(done.returncode, 2, words)
            self.assertNotIn("Traceback", done.stderr)
            self.assertTrue(done.stderr.strip(), words)

    def test_the_figures_of_the_page(self):
        """PROOFS tells the lines that `answered` and all clauses reach, by the hundred, and in how many crates."""
        with open(os.path.join(program.TOP, "docs", "PROOFS.md"), encoding="utf-8") as file:
            said = re.findall(r"^\| (?:`answered`|all clauses) \| about ([\d,]+) \| (\d+) \|$", file.read(), re.M)
        self.assertEqual(len(said), 2)
        for (lines, crates), words in zip(said, (["--clause", "answered"], [])):
            _, counted, _, count = self.last("--call", "cxxabi_cmd::run_cxxabi", *words)
            self.assertAlmostEqual(int(lines.replace(",", "")), int(count), delta=200)
            self.assertAlmostEqual(int(crates), int(counted), delta=2)


if __name__ == "__main__":
    unittest.main()
