"""Definitions and contracts: a name stands in one crate, and a clause is short enough to be read aloud."""
import glob
import os
import re
import unittest

import support  # noqa: F401 (it puts lib on the path)
from lib import program

CRATES = os.path.join(program.TOP, "crates")
DEFINED = r"^(?:unfoldable |abbrev )?pub (?:abbrev |record |data )?(\S+?)(?= (?::|\(|\{))"
LONGEST = 300


def crate_of(path):
    return os.path.relpath(path, CRATES).split(os.sep)[0]


def texts(pattern):
    for path in sorted(glob.glob(os.path.join(CRATES, "*", pattern), recursive=True)):
        with open(path, encoding="utf-8") as file:
            yield path, file.read()


def clauses(text):
    """The clauses of contracts, each with its keyword, on one line."""
    for found in re.finditer(r"^ *(?:requires|ensures)\b[^{\n]*\{", text, re.M):
        depth, end = 1, found.end()
        while depth:
            depth += {"{": 1, "}": -1}.get(text[end], 0)
            end += 1
        yield " ".join(text[found.start():end].split())


class Definitions(unittest.TestCase):
    def test_a_name_stands_in_one_crate(self):
        owners = {}
        for path, text in texts(os.path.join("specs", "**", "*.antt")):
            for name in re.findall(DEFINED, text, re.M):
                owners.setdefault(name, set()).add(crate_of(path))
        self.assertGreater(len(owners), 4000)
        several = {name: sorted(crates) for name, crates in owners.items() if len(crates) > 1}
        self.assertEqual(several, {})

    def test_clauses_are_short(self):
        lengths = [(len(clause), path) for path, text in texts(os.path.join("src", "**", "*.rt")) for clause in clauses(text)]
        self.assertGreater(len(lengths), 4000)
        self.assertLessEqual(max(lengths)[0], LONGEST, max(lengths)[1])


if __name__ == "__main__":
    unittest.main()
