"""docs/ERRORS.md and tools/explain: each example is run."""
import os
import re
import subprocess
import unittest

import support
from lib import error_pages, program


def read(*path):
    with open(os.path.join(program.TOP, "crates", *path), encoding="utf-8") as file:
        return file.read()


class Explain(unittest.TestCase):
    @support.needs_program
    def test_each_example_meets_its_answer_or_does_not(self):
        for code, entry in error_pages.entries().items():
            self.assertEqual({example.meets for example in entry.examples}, {True, False}, f"{code} wants one example of each kind")
            for example in entry.examples:
                text = example.text
                if example.language == "sh":
                    text = subprocess.run(["sh", "-c", text], cwd=program.TOP, stdout=subprocess.PIPE, check=True).stdout.decode()
                # what one machine answers, the other one does too
                for words in [["run"], ["paths"]] if example.words == ["paths"] else [example.words]:
                    self.judge(code, entry, example, words, text)

    def judge(self, code, entry, example, words, text):
        answer, status = program.answer(words, text)
        wanted = {"E": f"refused {code} {entry.name} at ", "U": f"undefined {code} {entry.name} line ", "L": f"limit {code}\n"}.get(code[0], f"refused {code} {entry.name}")
        last = answer.splitlines(keepends=True)[-1] if answer else ""
        if example.meets:
            self.assertTrue(last.startswith(wanted), f"{code}: {last!r}")
        else:
            self.assertEqual(status, 0, f"{code}: {last!r}")

    def test_each_rule_and_limit_of_the_program_has_an_entry(self):
        stops, steps = read("cxx_hierarchy", "src", "stop.rt"), read("path_rules", "specs", "Rules.antt")
        wanted = {f"E{number}": name for name, number in re.findall(r"Rule::(\w+) => (\d+),", stops)}
        limits = set(re.findall(r"^    (L\d+),$", stops, re.M))
        wanted |= {f"U{number}": name for name, number in re.findall(r"^undefined_no (\w+) = (\d+)", steps, re.M)}
        statuses = read("cxxabi_cmd", "specs", "Statuses.antt")
        wanted |= dict(re.findall(r'^name_of_input ([MAFI]\d) = codes "(\w+)"', statuses, re.M))
        found = error_pages.entries()
        self.assertEqual({code: entry.name for code, entry in found.items() if code[0] != "L"}, wanted)
        self.assertEqual({code for code in found if code[0] == "L"}, limits)

    @support.needs_program
    def test_the_line_has_a_caret_at_the_place(self):
        done = support.run("explain", "check", text="struct A {\n  int x;\n  B b;\n};\n")
        self.assertEqual(done.returncode, 1)
        self.assertEqual(done.stdout, "refused E3 UnknownClass at 22\n")
        self.assertIn("line 3, column 3:\n    3 |   B b;\n      |   ^\nE3 UnknownClass: ", done.stderr)
        self.assertIn("Section: ISO C++03 9.1", done.stderr)

    @support.needs_program
    def test_widths_that_no_type_has(self):
        for field, place in (("int a : 0", 19), ("int a : 33", 19), ("char a : 9", 20), ("short a : 17", 21), ("long a : 65", 20), ("bool a : 2", 20), ("unsigned a : 4294967297", 24)):
            done = support.run("explain", "check", text=f"struct A {{ {field}; }};\n")
            self.assertEqual((done.returncode, done.stdout), (1, f"refused E23 BadWidth at {place}\n"), field)
            self.assertIn(f"line 1, column {place + 1}:\n    1 | struct A {{ {field}; }};\n      | {' ' * place}^\nE23 BadWidth: The width of this bit-field is 0, or more than the bits of its type", done.stderr)
            self.assertIn("Section: ISO C++03 9.6\n", done.stderr)

    @support.needs_program
    def test_a_line_of_a_run(self):
        done = support.run("explain", "--", "run", text="struct P { int x; };\nint main() {\n  P* p = new P;\n  int y = p->x;\n}\n")
        self.assertEqual(done.returncode, 3)
        self.assertIn("    4 |   int y = p->x;\n      |   ^\nU5 Unset: ", done.stderr)

    @support.needs_program
    def test_a_success_is_not_explained(self):
        done = support.run("explain", "check", text="")
        self.assertEqual((done.returncode, done.stdout, done.stderr), (0, "0 classes\n", ""))

    def test_an_entry_without_a_source(self):
        done = support.run("explain", "--code", "l4")
        self.assertEqual(done.returncode, 0)
        self.assertTrue(done.stdout.startswith("L4: The length of an array is 0"))

    def test_bad_words(self):
        for words in ([], ["--code", "E99"]):
            done = support.run("explain", *words)
            self.assertIn(done.returncode, (1, 2))
            self.assertNotIn("Traceback", done.stderr)
            self.assertTrue(done.stderr)

    def test_the_program_that_is_not_there(self):
        environment = dict(os.environ, TAGYMELUR="/nowhere/tagymelur")
        done = support.run("explain", "check", text="", environment=environment)
        self.assertEqual(done.returncode, 2)
        self.assertIn("cannot be run", done.stderr)
