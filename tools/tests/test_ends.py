"""Each tool ends clearly: whatever it is given, a sentence and the stated status, and never a traceback."""
import errno
import os
import re
import shutil
import subprocess
import sys
import tempfile
import unittest

import support
from lib import program

SOURCE = "struct A { char c; int i; virtual void f() {} };\nint main() { print(1); }\n"
# what is C++ too, and a test for gcc-tests
CPP = "// { dg-do run }\n#include <cstdio>\nstruct A { int x; };\nint main() { puts(\"1\"); }\n"
NO_SOURCE = "Dear reader,\n\tthis is no source: \"at all\" # \x01\n"
# for each tool the words that take a source, where {} is its file, or nothing where it comes on standard input
TAKING = {
    "as-json": ["layout", "--source", "{}"], "cross-check": ["{}"], "cross-run": ["{}"], "draw": ["A", "{}"], "explain": ["check"], "from-cpp": ["{}"], "gcc-tests": ["{}"], "listing": ["{}"],
    "no-memory": ["--about", "2", "check"], "other-layouts": ["{}"], "padding": ["A", "{}"], "page": ["{}"], "read-dumps": ["{}"], "run-cpp": ["{}"], "same-runs": ["{}"], "worked-cases": ["{}"],
}
WITHOUT = {"large-source": [], "timings": ["--list"], "definition-lines": [], "package": ["made"], "c-library": ["made"], "fuzz": ["--inputs", "2"], "stack": ["--under", "8000"], "over-sources": ["byte_code", "--only", "", "--show"]}  # these take none, and these words do well
NO_WORDS = {
    "as-json": 2, "c-library": 2, "cross-check": 2, "cross-run": 2, "definition-lines": 0, "draw": 1, "explain": 2, "from-cpp": 2, "gcc-tests": 2, "large-source": 0, "listing": 2, "no-memory": 2, "other-layouts": 2, "over-sources": 2, "package": 2, "padding": 1,
    "page": 1, "read-dumps": 2, "run-cpp": 2, "same-runs": 2, "worked-cases": 2,
}
ODD = {
    "as-json": [["nosuch"], ["run", "A"], ["layout", "--steps", "3"], ["run", "--steps", "0"], ["run", "--steps", "9" * 30]], "c-library": [["--built"], ["made", "--built", "/nowhere/library"], ["made", "more"]],
    "package": [["made", "--version", "new"], ["made", "--library", "/nowhere"], ["/dev/null/x"]], "page": [["--nothing"]],
    "stack": [["--under", "0"], ["--under", "8", "--all"], ["more"]], "fuzz": [["--minutes", "0"], ["--minutes", "nan"], ["--inputs", "0"], ["--minutes", "1", "--inputs", "1"], ["--seed", "x"], ["--keep", "/dev/null/x", "--inputs", "1"], ["more"]],
    "cross-check": [["--random", "-5"], ["--random", "0"], ["--random", "x"], ["--only", "cc"], ["--cookies", "--member-pointers", "{}"], ["--object", "/nowhere/file.o"], ["--object", "{}"], ["--object", "{}", "--only", "g++"]], "cross-run": [["--random", "-5"], ["--seed", "x"], ["--keep"]],
    "definition-lines": [["more"]], "draw": [["A", "B", "C"], ["--folder"], ["--nothing"], ["--beside"], ["--beside", "{}", "--tables"], ["--beside", "/nowhere/file"], ["--array", "A@0"], ["--array", "A@4097"], ["--array", "A@3", "--member", "A::c"], ["--member", "A"], ["--dump", "/nowhere/file"], ["--dump", "{}", "A"], ["--array", "A@3", "--folder", "x"]], "explain": [["--code", "E99"], ["--code", ""]],
    "from-cpp": [["--class"], ["--program", "--print", "{}"], ["--print", "{}", "{}"], ["--program", "--all", "{}"]], "gcc-tests": [["--jobs", "0", "{}"], ["--jobs", "x", "{}"], ["--table"]],
    "run-cpp": [["--nothing", "{}"], ["--trace"]], "large-source": [["nosuch"], ["chain", "99"], ["chain", "1", "2"]], "listing": [["--object"], ["--source", "{}", "{}"], ["--object", "{}", "--source"], ["--object", "/nowhere/file.o"], ["{}", "--nothing"], ["{}", "--chance", "1"]], "no-memory": [["nosuch"], ["--every", "0", "check"], ["--jobs", "-1", "check"]],
    "other-layouts": [["--random", "0"], ["--nothing"], ["--seed", "x", "{}"]], "padding": [["A", "B", "C"]], "read-dumps": [["--random", "0"], ["--changed", "x", "{}"], ["--nothing"], ["--keep", "/dev/null/x", "{}"]], "same-runs": [["--steps", "0", "x"], ["--seconds", "-1", "x"]], "over-sources": [["nosuch", "--only", ""], ["byte_code"], ["byte_code", "--only"]], "timings": [["--only", "nosuch"], ["--runs", "0"]], "worked-cases": [["--nothing"]],
}
# the status where a source is empty or is none of the language; each other tool has 1. A program that asks for no memory there, or
# whose allocations cannot be counted, is told by no-memory with status 2
EMPTY = {"as-json": 0, "cross-check": 2, "cross-run": 2, "explain": 0, "gcc-tests": 2, "no-memory": (0, 2), "other-layouts": 0, "read-dumps": 2, "same-runs": 0}
WRONG = {"cross-check": 2, "cross-run": 2, "gcc-tests": 2, "no-memory": (0, 2), "other-layouts": 2, "read-dumps": 2, "same-runs": 0}
COMPILERS = {"c-library": ["made"], "cross-check": ["{}"], "cross-run": ["{}"], "from-cpp": ["{}"], "fuzz": ["--beside", "--inputs", "1"], "gcc-tests": ["{}"], "listing": ["{}"], "no-memory": ["check"], "run-cpp": ["{}"], "timings": ["--only", "compilers"]}
OF_CPP = {"from-cpp", "gcc-tests", "listing", "run-cpp"}
NAMES = sorted(name for name in os.listdir(support.TOOLS) if os.path.isfile(os.path.join(support.TOOLS, name)))


class Faults(unittest.TestCase):
    def test_what_the_system_refuses_is_not_told_as_a_full_disk(self):
        """As where processes may not share memory: the fault names no file, and no stream has it."""
        for number, said in ((errno.EACCES, "what the tool needs of the system cannot be used: Permission denied"), (errno.ENOSPC, "standard output cannot be used: No space left on device")):
            text = f"import sys; sys.path.insert(0, {support.TOOLS!r}); from lib import problem\ndef main(words): raise OSError({number}, {os.strerror(number)!r})\nproblem.run('tool', main, [])"
            done = subprocess.run([sys.executable, "-c", text], capture_output=True, encoding="utf-8")
            self.assertEqual((done.returncode, done.stderr), (2, f"tool: {said}\n"))


@support.needs_program
@support.needs("g++", "clang++", "gcc", "sh")
class Ends(unittest.TestCase):
    def setUp(self):
        self.folder = tempfile.mkdtemp()
        self.addCleanup(shutil.rmtree, self.folder)

    def write(self, name, text):
        path = os.path.join(self.folder, name)
        with open(path, "w", encoding="latin-1") as file:
            file.write(text)
        return path

    def proper(self, name):
        """A file that a tool takes."""
        return self.write("source.cpp", CPP) if name in OF_CPP else self.write("source.src", SOURCE)

    def end(self, name, words, status, file="", sink=None, **environment):
        """Runs a tool, whose words take a file; the file comes on standard input too."""
        command = [sys.executable, os.path.join(support.TOOLS, name), *(word.replace("{}", file) for word in words)]
        given = open(file or os.devnull, "rb")
        with given, open(sink or os.devnull, "w", encoding="utf-8") as out:
            done = subprocess.run(command, stdin=given, stdout=out if sink else subprocess.PIPE, stderr=subprocess.PIPE, encoding="utf-8", env=dict(os.environ, **environment), cwd=self.folder, timeout=120)
        what = f"{name} {words} {file} {sink} {environment.keys()}: {done.stderr}"
        self.assertIn(done.returncode, status if isinstance(status, tuple) else (status,), what)
        self.assertNotIn("Traceback", done.stderr, what)
        self.assertNotIn("Exception", done.stderr, what)
        if done.returncode == 2 or done.returncode and name not in ("explain", "as-json"):  # these tell it in their answer
            self.assertRegex(done.stderr, rf"(?m)^(tools/)?{name}: \S.*\S$|^usage|^The words", what)
        return done.stderr

    def test_each_tool_is_listed(self):
        self.assertEqual(sorted([*TAKING, *WITHOUT]), NAMES)
        self.assertEqual(sorted(ODD), NAMES)

    def test_no_words(self):
        for name, status in NO_WORDS.items():
            self.end(name, [], status)

    def test_odd_words(self):
        for name, some in ODD.items():
            for words in some:
                self.end(name, words, 2, self.write("source.src", SOURCE))

    def test_an_empty_file(self):
        for name, words in TAKING.items():
            self.end(name, words, EMPTY.get(name, 1), self.write("empty.src", ""))

    def test_a_file_that_is_no_source(self):
        for name, words in TAKING.items():
            self.end(name, words, WRONG.get(name, 1), self.write("letter.src", NO_SOURCE))

    def test_a_missing_file_or_a_folder(self):
        for name, words in TAKING.items():
            if "{}" in words:
                for place in ("/nowhere/file.src", self.folder):
                    told = self.end(name, [word.replace("{}", place) for word in words], 2)
                    self.assertIn(place, told)

    def test_standard_input_that_is_a_folder_or_closed(self):
        for name, words in TAKING.items():
            tool = os.path.join(support.TOOLS, name)
            for line in ('"$@" < /', '"$@" <&-'):
                done = subprocess.run(["sh", "-c", line, "sh", tool, *(word.replace("{}", "-") for word in words)], stdout=subprocess.PIPE, stderr=subprocess.PIPE, encoding="utf-8", cwd=self.folder)
                self.assertEqual((done.returncode, done.stdout), (2, ""), f"{name} {line}: {done.stderr}")
                self.assertRegex(done.stderr, rf"^{name}: .*\n$")

    def test_no_compiler(self):
        source = self.write("source.src", SOURCE)
        for name, words in COMPILERS.items():
            self.assertIn("apt-get install" if name != "no-memory" else "gcc is missing", self.end(name, words, 2, source, PATH=self.folder))

    def test_no_program(self):
        for name, words in {**TAKING, "timings": ["--only", "run"], "package": ["made"], "fuzz": ["--inputs", "1"], "stack": []}.items():
            if name not in ("worked-cases", "from-cpp", "listing"):
                self.assertIn("/nowhere/tagymelur", self.end(name, words, 2, self.proper(name), TAGYMELUR="/nowhere/tagymelur"))

    def test_an_output_that_cannot_be_written(self):
        source = self.write("source.src", SOURCE)
        for name, words in {**TAKING, **WITHOUT}.items():
            if name not in ("worked-cases", "stack"):  # the second runs all shapes before it writes
                self.end(name, words, 2, self.proper(name), sink="/dev/full")
        self.end("from-cpp", ["--program", "{}"], 2, self.proper("from-cpp"), sink="/dev/full")
        self.end("gcc-tests", ["--table", "/dev/null/x", "{}"], 2, self.proper("gcc-tests"))
        for words in (["A", "{}", "--folder", "/dev/null/x"], ["A", "{}", "--folder", source]):
            self.end("draw", words, 2, source)
        self.end("cross-run", ["{}", "--keep", "/dev/null/x"], 2, source)

    def test_a_program_that_is_not_built(self):
        """No tool builds it: in a copy without the program the tool says how it is built."""
        top = os.path.join(self.folder, "copy")
        shutil.copytree(support.TOOLS, os.path.join(top, "tools"), ignore=shutil.ignore_patterns("tests", "__pycache__"))
        os.symlink(os.path.join(program.TOP, "docs"), os.path.join(top, "docs"))
        with open(os.path.join(top, "tagymelur"), "w", encoding="utf-8") as script:
            script.write("#!/bin/sh\ntouch started\n")
        os.chmod(os.path.join(top, "tagymelur"), 0o755)
        environment = {key: value for key, value in os.environ.items() if key != "TAGYMELUR"}
        for name in ("draw", "padding", "page"):
            done = subprocess.run([os.path.join(top, "tools", name)], input=SOURCE, capture_output=True, encoding="utf-8", env=environment, cwd=top)
            self.assertEqual((done.returncode, done.stdout), (2, ""))
            self.assertIn("the program is not built; ./tagymelur check < examples/diamond.cpp proves and builds it", done.stderr)
        self.assertFalse(os.path.exists(os.path.join(top, "started")))

    @support.needs("gdb")
    def test_the_script_of_gdb(self):
        """It tells in a sentence what is missing, and gdb goes on; the options are those of a session that shows what Python says."""
        script = os.path.join(support.TOOLS, "gdb", "tagymelur.py")
        built = os.path.join(self.folder, "built")
        subprocess.run(["g++", "-g", "-o", built, "-x", "c++", "-"], input="struct A { int x; } a; int main() {}", encoding="utf-8", check=True)
        stopped = ["break main", "run"]
        given = [(built, ["tagymelur", "tagymelur nosuch a", "tagymelur inspect", "tagymelur vptr 3", "tagymelur dump main", "tagymelur dump"], "tagymelur dump needs an expression"),
                 (built, ["set tagymelur-source /nowhere.src", *stopped, "tagymelur dump a"], "tagymelur: /nowhere.src cannot be read"),
                 (built, [f"set tagymelur-source {self.folder}", *stopped, "tagymelur dump a"], f"tagymelur: {self.folder} cannot be read"),
                 (built, [f"set tagymelur-source {self.write('empty.src', '')}", *stopped, "tagymelur dump a"], "has no class; give a source that tools/from-cpp made"),
                 (built, [f"set tagymelur-source {self.write('letter.src', NO_SOURCE)}", *stopped, "tagymelur vptr a"], "tagymelur: the source cannot be read here"),
                 (built, [*stopped, "python import os; os.environ['TAGYMELUR'] = '/nowhere/tagymelur'", "tagymelur inspect a"], "tagymelur: /nowhere/tagymelur"),
                 *((file, ["tagymelur dump a"], "tagymelur: a: No symbol table is loaded") for file in (self.folder, "/nowhere/built", self.write("letter", NO_SOURCE)))]
        for file, commands, said in given:
            words = [part for command in ["set python print-stack full", f"source {script}", *commands, "echo went on\\n"] for part in ("-ex", command)]
            done = subprocess.run(["gdb", "-q", "-batch", "-nx", *words, file], stdin=subprocess.DEVNULL, stdout=subprocess.PIPE, stderr=subprocess.PIPE, encoding="utf-8", timeout=120)
            self.assertNotIn("Traceback", done.stdout + done.stderr, commands)
            self.assertIn("went on\n", done.stdout, commands)
            self.assertRegex(done.stderr, rf"(?m){re.escape(said)}", commands)


if __name__ == "__main__":
    unittest.main()
