"""tools/same-runs, with a stand-in for the program: what agrees, each way to differ, and bad input."""
import os
import shutil
import stat
import tempfile
import unittest

import support
from lib import program

# The first word of a source says what the machine `run` does of its own; `paths` always prints 5 and 7.
STAND_IN = """#!/bin/sh
read -r how rest
[ -z "$3" ] || echo "budget $3"
if [ "$how" = undefined ]; then
    echo 5
    echo "undefined U5 Unset line 4"
    exit 3
fi
if [ "$1" = run ]; then
    case $how in
        other) echo 5; echo 8; exit 0;;
        short) echo 5; exit 0;;
        long) echo 5; echo 7; echo 9; exit 0;;
        status) echo 5; echo 7; exit 4;;
        crash) echo 5; kill -9 $$;;
        memory) exit 8;;
        usage) echo usage; exit 2;;
        slow) exec sleep 60;;
    esac
fi
echo 5
echo 7
"""


@support.needs("sh")
class SameRuns(unittest.TestCase):
    def setUp(self):
        self.top = tempfile.mkdtemp()
        self.addCleanup(shutil.rmtree, self.top)
        stand_in = self.write("stand-in", STAND_IN)
        os.chmod(stand_in, stat.S_IRWXU)
        self.environment = dict(os.environ, TAGYMELUR=stand_in)

    def write(self, name, text):
        path = os.path.join(self.top, name)
        os.makedirs(os.path.dirname(path), exist_ok=True)
        with open(path, "w", encoding="utf-8") as file:
            file.write(text)
        return path

    def compare(self, *words):
        return support.run("same-runs", *words, environment=self.environment)

    def difference(self, how, *words):
        """What is said of a source of this kind, without its path."""
        path = self.write(f"{how}.cpp", f"{how}\n")
        done = self.compare(*words, path)
        self.assertEqual((done.returncode, done.stderr), (1, ""))
        first, last = done.stdout.splitlines()
        self.assertEqual(last, "1 sources, 1 differ")
        self.assertTrue(first.startswith(f"differ  {path}: "), first)
        return first[len(f"differ  {path}: "):]

    def test_a_folder_that_agrees(self):
        first, second = self.write("sources/a.cpp", "same\n"), self.write("sources/deep/b.src", "undefined\n")
        self.write("sources/notes.txt", "other\n")
        done = self.compare(os.path.join(self.top, "sources"))
        self.assertEqual((done.returncode, done.stderr), (0, ""))
        self.assertEqual(done.stdout, f"same    {first}: status 0, 2 lines\nsame    {second}: status 3, 2 lines\n2 sources, 0 differ\n")

    def test_one_of_several_differs(self):
        self.write("sources/a.cpp", "same\n")
        self.write("sources/b.cpp", "other\n")
        self.write("sources/c.cpp", "same\n")
        folder = os.path.join(self.top, "sources")
        done = self.compare(folder)
        self.assertEqual(done.returncode, 1)
        self.assertEqual([line.split()[0] for line in done.stdout.splitlines()], ["same", "differ", "same", "3"])
        self.assertEqual([line.split()[0] for line in self.compare("--quiet", folder).stdout.splitlines()], ["differ", "3"])

    def test_each_way_to_differ(self):
        self.assertEqual(self.difference("other"), "line 2: run has '8\\n', paths has '7\\n'")
        self.assertEqual(self.difference("short"), "line 2: run has ended, paths has '7\\n'")
        self.assertEqual(self.difference("long"), "line 3: run has '9\\n', paths has ended")
        self.assertEqual(self.difference("status"), "run ended with status 4, paths with 0")
        self.assertEqual(self.difference("crash"), "run was ended by signal 9")
        self.assertEqual(self.difference("memory"), "run gave no answer: status 8")
        self.assertEqual(self.difference("slow", "--seconds", "1"), "run took more than 1 seconds")

    def test_the_budget_goes_to_both(self):
        path = self.write("a.cpp", "same\n")
        self.assertIn("status 0, 3 lines", self.compare("--steps", "100", path).stdout)

    def test_a_source_on_standard_input(self):
        done = support.run("same-runs", "-", text="same\n", environment=self.environment)
        self.assertEqual(done.stdout, "same    -: status 0, 2 lines\n1 sources, 0 differ\n")

    def test_bad_input(self):
        empty = os.path.join(self.top, "empty")
        os.mkdir(empty)
        for words, status in [([empty], 2), ([os.path.join(self.top, "nowhere.cpp")], 2), ([self.write("usage.cpp", "usage\n")], 2), ([], 2), (["--steps", "0", empty], 2), (["--steps", "4000001", empty], 2), (["--seconds", "x", empty], 2)]:
            done = self.compare(*words)
            self.assertEqual(done.returncode, status, words)
            self.assertNotIn("Traceback", done.stderr)
            self.assertTrue(done.stderr)

    def test_the_program_that_is_not_there(self):
        self.environment["TAGYMELUR"] = "/nowhere/tagymelur"
        done = self.compare(self.write("a.cpp", "same\n"))
        self.assertEqual(done.returncode, 2)
        self.assertIn("cannot be run", done.stderr)

    def test_the_sources_that_are_kept(self):
        folder = os.path.join(self.top, "kept")
        done = self.compare("--keep", folder, self.write("a.cpp", "same\n"), self.write("b.cpp", "other\n"))
        self.assertEqual((done.returncode, os.listdir(folder)), (1, ["2.cpp"]))

    @support.needs_program
    def test_random_programs_with_bit_fields(self):
        done = support.run("same-runs", "--random", "10", "--seed", "2")
        self.assertEqual((done.returncode, done.stderr), (0, ""), done.stdout)
        self.assertTrue(done.stdout.endswith("\n10 sources, 0 differ\n"), done.stdout)

    @support.needs_program
    def test_the_program_on_the_small_example(self):
        done = support.run("same-runs", os.path.join(program.TOP, "examples", "first.cpp"))
        self.assertEqual(done.returncode, 0, done.stdout + done.stderr)
