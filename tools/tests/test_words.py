"""Each tool tells what it does by --help, and bad words in a sentence."""
import os
import unittest

import support

NAMES = sorted(name for name in os.listdir(support.TOOLS) if os.path.isfile(os.path.join(support.TOOLS, name)))


class Words(unittest.TestCase):
    def test_help(self):
        self.assertGreaterEqual(len(NAMES), 10)
        for name in NAMES:
            done = support.run(name, "--help")
            self.assertEqual((done.returncode, done.stderr), (0, ""), name)
            self.assertTrue(done.stdout.startswith(f"usage: tools/{name} "), done.stdout)

    def test_bad_words(self):
        for name in NAMES:
            done = support.run(name, "--no-such-word")
            self.assertEqual((done.returncode, done.stdout), (2, ""), name)
            self.assertIn("usage: ", done.stderr)
            self.assertNotIn("Traceback", done.stderr)

    def test_files_that_are_not_there(self):
        for name in ("cross-check", "same-runs", "worked-cases", "from-cpp"):
            done = support.run(name, "/nowhere/file")
            self.assertEqual((done.returncode, done.stdout), (2, ""), name)
            self.assertIn("/nowhere/file cannot be read", done.stderr)
            self.assertNotIn("Traceback", done.stderr)

    def test_lists_of_cases(self):
        for text in ("", "{", "3", "[1]"):
            done = support.run("worked-cases", "-", text=text)
            self.assertEqual((done.returncode, done.stdout), (1, ""), text)
            self.assertIn("has no list of cases", done.stderr)

    def test_the_lines_of_definitions(self):
        done = support.run("definition-lines")
        self.assertEqual((done.returncode, done.stderr), (0, ""))
        lines = [line.split() for line in done.stdout.splitlines()[1:]]
        known = {line[0]: int(line[1]) for line in lines if len(line) == 3 and line[1].isdecimal()}
        self.assertGreater(known["cxx_text"], 0)
        self.assertEqual(known["all"], sum(count for name, count in known.items() if name != "all"))
