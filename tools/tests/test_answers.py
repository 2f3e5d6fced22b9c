"""docs/ANSWERS.md: each call, clause and edit that it names stands, and no field of its tables is empty."""
import glob
import os
import re
import unittest

import support  # noqa: F401 (it puts lib on the path)
from lib import program

PAGE = os.path.join(program.TOP, "docs", "ANSWERS.md")
CRATES = os.path.join(program.TOP, "crates")


def contracts(crate):
    """The contracts of the functions of a crate by their names: all clauses before the bodies."""
    found = {}
    for path in glob.glob(os.path.join(CRATES, crate, "src", "*.rt")):
        with open(path, encoding="utf-8") as file:
            text = file.read()
        for name, head in re.findall(r"\bfn (\w+)\b(.*?)(?=^\s*\{\}?$|;$)", text, re.S | re.M):
            found.setdefault(name, []).append(head)
    return found


class Answers(unittest.TestCase):
    def setUp(self):
        with open(PAGE, encoding="utf-8") as file:
            self.text = file.read()
        self.rows = [[cell.strip() for cell in line.strip("|").split("|")] for line in self.text.splitlines() if line.startswith("|") and not line.startswith("|---")]

    def test_no_field_is_empty(self):
        self.assertGreater(len(self.rows), 40)
        for row in self.rows:
            self.assertEqual(len(row), 5, row)
            self.assertTrue(all(row), row)

    def test_each_call_and_clause_stands(self):
        for row in self.rows:
            for word in re.findall(r"`([\w:]+)`", row[3]):
                if "::" in word:
                    crate, call = word.split("::")
                    heads = contracts(crate).get(call, [])
                    self.assertTrue(any("ensures " in head for head in heads), word)
                else:
                    self.assertTrue(any(f"ensures {word} " in head for head in heads), f"{crate}::{call} {word}")
            self.assertTrue(row[3] == "Clause" or "::" in row[3], row)

    def test_each_edit_stands(self):
        edits = re.findall(r"`(\w+)/(\w+)`", self.text)
        self.assertGreater(len(edits), 20)
        for crate, edit in edits:
            if crate != "tools":
                self.assertTrue(os.path.isfile(os.path.join(CRATES, crate, "must-fail", f"{edit}.edit")), f"{crate}/{edit}")


if __name__ == "__main__":
    unittest.main()
