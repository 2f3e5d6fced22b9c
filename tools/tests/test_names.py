"""README and docs name what is there: each crate, each `crate::item`, which is public, and each file."""
import glob
import os
import re
import unittest

import support  # noqa: F401 (it puts lib on the path)
from lib import program

PAGES = [os.path.join(program.TOP, "README.md"), *sorted(glob.glob(os.path.join(program.TOP, "docs", "*.md")))]
CRATES = os.path.join(program.TOP, "crates")
PUBLIC = r"\bpub (?:unsafe |const |extern \"C\" )*(?:fn|struct|enum|trait|type|const) (\w+)"
USED = r"\bpub use [^;]*;"
TRAIT = r"^pub trait \w+.*?^\}"
DEFINED = r"^(?:abbrev |unfoldable )?pub (?:record |data )?(\w+)"
PATH = r"(?:crates|docs|tools|examples|library|python)/[\w./-]*\w"


def files(crate, *pattern):
    """The texts of some files of a crate."""
    for path in glob.glob(os.path.join(CRATES, crate, *pattern), recursive=True):
        with open(path, encoding="utf-8") as file:
            yield file.read()


def items(crate):
    """What a crate offers: its public items, those of its traits, and its definitions."""
    found = set()
    for text in files(crate, "src", "**", "*.rt"):
        found.update(re.findall(PUBLIC, text))
        for used in re.findall(USED, text):
            found.update(re.findall(r"\w+", used))
        for body in re.findall(TRAIT, text, re.S | re.M):
            found.update(re.findall(r"^    (?:final )?fn (\w+)", body, re.M))
    for text in files(crate, "specs", "**", "*.antt"):
        found.update(re.findall(DEFINED, text, re.M))
    return found


def words(path):
    """What stands between backquotes on a page, with the number of its line."""
    with open(path, encoding="utf-8") as file:
        for number, line in enumerate(file, 1):
            for word in re.findall(r"`([^`]+)`", line):
                yield number, word


class Names(unittest.TestCase):
    def test_each_item_is_there_and_public(self):
        offered, count = {}, 0
        for page in PAGES:
            for number, word in words(page):
                for crate, item in re.findall(r"\b([a-z]\w*)::(\w+)", word):
                    if os.path.isdir(os.path.join(CRATES, crate)):
                        self.assertIn(item, offered.setdefault(crate, items(crate)), f"{page}, line {number}: {word}")
                        count += 1
        self.assertGreater(count, 150)

    def test_each_file_is_there(self):
        count = 0
        for page in PAGES:
            for number, word in words(page):
                for path in re.findall(rf"(?<![\w/]){PATH}", word):
                    if "CRATE" not in path and "NAME" not in path and "/out/" not in path:
                        there = any(os.path.exists(os.path.join(program.TOP, path + end)) for end in ("", ".antt"))
                        self.assertTrue(there, f"{page}, line {number}: {path}")
                        count += 1
        self.assertGreater(count, 50)

    def test_the_table_of_crates(self):
        """It stands on one page, with each crate once."""
        tables = []
        for page in PAGES:
            with open(page, encoding="utf-8") as file:
                tables += re.findall(r"^\| Crate \|.*\n\|[-|]+\n((?:\|.*\n)+)", file.read(), re.M)
        self.assertEqual(len(tables), 1)
        self.assertEqual(sorted(re.findall(r"^\| (\w+) \|", tables[0], re.M)), sorted(os.listdir(CRATES)))

    def test_each_crate_is_drawn(self):
        with open(os.path.join(program.TOP, "docs", "ARCHITECTURE.md"), encoding="utf-8") as file:
            drawn = " ".join(re.findall(r"^```\n(.*?)^```", file.read(), re.S | re.M))
        for crate in os.listdir(CRATES):
            self.assertTrue(crate == "foundation" or re.search(rf"\b{crate}\b", drawn), crate)


if __name__ == "__main__":
    unittest.main()
