"""Each limit at the number and one past it, by each command that can meet it; the small ones are worked cases too."""
import unittest

import support
from lib import limits, program

LATER = {"array": "array {}@1", "memptr": "memptr {}::a"}  # commands that some builds do not have


@support.needs_program
class Limits(unittest.TestCase):
    def answered(self, words, source, text, status):
        given = program.answer(list(words), source)
        self.assertEqual(given[1], status, (words, source[:200], given[0][-100:]))
        self.assertTrue(given[0] == text, (words, source[:200], given[0][-100:]))

    def test_each_limit_of_a_source(self):
        for made in limits.ROWS:
            row = made()
            with self.subTest(row.what):
                for case in row.answers():
                    self.answered(*case)

    def test_white_space_alone(self):
        self.answered(["check"], " " * limits.SOURCE_BYTES, "0 classes\n", 0)
        for word in ("check", "layout", "tables", "run", "paths"):
            self.answered([word], " " * (limits.SOURCE_BYTES + 1), "limit L1\n", 5)
        for word in ("run", "paths"):
            self.answered([word], " " * limits.SOURCE_BYTES, f"refused E22 UnknownName at {limits.SOURCE_BYTES}\n", 1)
        for word in ("layout", "tables"):
            self.answered([word], " " * limits.SOURCE_BYTES, "", 0)

    def test_each_limit_of_a_run(self):
        for case in limits.run_answers():
            self.answered(*case)

    def test_the_text_of_a_run(self):
        for case in limits.long_runs():
            self.answered(*case)

    def test_the_text_of_layouts_and_tables(self):
        for case in limits.long_texts():
            self.answered(*case)

    def test_a_name(self):
        for word in ("check", "layout", "tables", "run", "paths"):
            self.answered([word], f"struct {'a' * 256} {{}}; {limits.MAIN}", "refused E2 Syntax at 262\n", 1)
        self.answered(["check"], f"struct {'a' * 255} {{}}; {limits.MAIN}", "1 classes\n", 0)
        self.answered(["layout", "a" * 255], f"struct {'a' * 255} {{}};", limits.plain_layout("a" * 255, 1, 1), 0)
        self.answered(["layout", "a" * 256], f"struct {'a' * 255} {{}};", "refused E22 UnknownName at 266\n", 1)

    def test_commands_that_come_later(self):
        """They meet the limits of a source as all commands do."""
        for word, form in LATER.items():
            if program.answer(form.format("A").split(), "struct A { int a; };")[1] == 2:
                continue
            for made in limits.ROWS:
                row = made()
                self.answered(form.format(row.listed[0]).split(), row.past, f"limit {row.limit}\n", 5)


class Sources(unittest.TestCase):
    def test_texts_come_up_to_the_limit(self):
        for made in (limits.long_layout, limits.long_tables):
            for more in (0, 1):
                source, text = made(more)
                self.assertEqual(len(text), limits.TEXT_BYTES + more)
                self.assertLess(len(source), limits.SOURCE_BYTES)

    def test_each_limit_of_a_source_is_there(self):
        self.assertEqual({made().limit for made in limits.ROWS}, {f"L{number}" for number in range(1, 8)})


if __name__ == "__main__":
    unittest.main()
