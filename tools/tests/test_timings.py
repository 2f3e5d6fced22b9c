"""tools/timings, with a stand-in for the program: the tables, what is wrong with an answer, and what is missing."""
import os
import shutil
import subprocess
import tempfile
import unittest

import support
from lib import bounds, interpreters, timed, timing_rows

# It reads its source, prints its command and says how it ends: `run` well, `gen` by a limit, `layout` by the one that some texts meet,
# and `paths` by the limit of a source that is known, with 60 MB in use for arrays, or never.
STAND_IN = r"""
#include <stdio.h>
#include <string.h>
#include <unistd.h>

char room[60 << 20];

int main(int count, char **words) {
    char part[4096], first[14] = "";
    for (int n; (n = read(0, part, sizeof part)) > 0;) if (n > 13 && first[0] == 0) memcpy(first, part, 13);
    if (strcmp(words[1], "gen") == 0) { puts("limit L8"); return 5; }
    if (strcmp(words[1], "layout") == 0) { puts("limit L9"); return 5; }
    if (strcmp(words[1], "tables") == 0) { printf("%d\n", (int)getpid()); return 0; }
    if (strcmp(words[1], "paths") == 0 && strcmp(first, "struct A { bo") == 0) { memset(room, 1, sizeof room); puts("limit L8"); return 5; }
    if (strcmp(words[1], "paths") == 0 && strcmp(first, "struct C0 {};") == 0) { puts("limit L10"); return 5; }
    if (strcmp(words[1], "paths") == 0) { pause(); }
    for (int n = 0; strcmp(words[1], "check") == 0 && n < 1000; n++) puts("line");
    puts(words[1]);
    return 0;
}
"""


@support.needs("gcc")
class Timings(unittest.TestCase):
    @classmethod
    def setUpClass(cls):
        cls.top = tempfile.mkdtemp()
        cls.addClassCleanup(shutil.rmtree, cls.top)
        cls.program = os.path.join(cls.top, "program")
        subprocess.run(["gcc", "-O1", "-w", "-x", "c", "-o", cls.program, "-"], input=STAND_IN, encoding="utf-8", check=True)

    def timings(self, *words, **more):
        return support.run("timings", "--runs", "2", *words, environment=dict(os.environ, TAGYMELUR=self.program, **more))

    def cells(self, done, name):
        """The cells of the line of a row."""
        return next([cell.strip() for cell in line.strip("|").split("|")] for line in done.stdout.splitlines() if f"`{name}`" in line)

    def test_a_row_of_a_run(self):
        done = self.timings("--only", "run-calls")
        self.assertEqual((done.returncode, done.stderr), (0, ""))
        cells = self.cells(done, "run-calls")
        self.assertEqual((len(cells), cells[5]), (9, "3,300,009"))
        self.assertEqual([float(cell) >= 0 for cell in cells[2:5]], [True, True, True])
        self.assertIn("2 runs", done.stdout)

    def test_a_row_with_a_text(self):
        done = self.timings("--only", "check-chain")
        self.assertEqual((done.returncode, done.stderr), (0, ""))
        self.assertEqual(self.cells(done, "chain")[1:3], ["35,534", "5,006"])

    def test_a_limit_that_may_come(self):
        done = self.timings("--only", "layout-chain")
        self.assertEqual((done.returncode, done.stderr), (0, ""))
        self.assertEqual(self.cells(done, "chain")[2], "`limit L9`")

    def test_the_room_that_a_run_may_take(self):
        done = self.timings("--only", "paths-deep-members")
        self.assertEqual((done.returncode, done.stderr), (0, ""))
        self.assertEqual(self.cells(done, "deep-members")[2], "`limit L10`")
        done = self.timings("--only", "paths-large-arrays")
        self.assertEqual(done.returncode, 1)
        self.assertRegex(done.stderr, r"wrong: paths-large-arrays has 6\d MB in use; at most 50 are wanted\n")

    def test_answers_that_must_not_come(self):
        for row, told in [("layout-pairs", "layout-pairs at 1/4 ended with status 5: limit L9"), ("gen", "gen at 1/1 ended with status 5: limit L8"), ("paths-loop", "paths-loop at 1/1 took more than 1 seconds")]:
            done = self.timings("--seconds", "1", "--only", row)
            self.assertEqual(done.returncode, 1, row)
            self.assertIn(f"wrong: {told}\n", done.stderr)
        done = self.timings("--only", "tables-parts")
        self.assertEqual(done.returncode, 1)
        self.assertIn("does not answer alike twice", done.stderr)

    def test_what_is_wanted_of_the_loop(self):
        done = self.timings("--only", "run-loop")
        self.assertRegex(done.stdout, r"steps of the loop a second; at least 4,000,000 are wanted: holds\n")

    def test_the_memory_of_a_process(self):
        found = timed.once(["head", "-c", "3000000", "/dev/zero"], b"", 60)
        self.assertEqual((found.status, found.size, len(found.end)), (0, 3_000_000, timed.KEPT))
        self.assertGreater(found.kilobytes, 0)
        self.assertEqual(timed.once(["cat"], b"some text\nlast", 60).last_line(), "last")
        with self.assertRaises(timed.TooSlow):
            timed.once(["sleep", "60"], b"", 0.1)

    def test_what_is_missing(self):
        script = os.path.join(self.top, "script")
        with open(script, "w", encoding="utf-8") as file:
            file.write("#!/bin/sh\n")
        for words, environment, told in [
            ([], {"TAGYMELUR": "/nowhere/tagymelur"}, "cannot be run"), (["--only", "gen"], {"TAGYMELUR": script}, "is no binary"), (["--only", "compilers"], {"PATH": "/nowhere"}, "apt-get install clang"),
            (["--only", "nothing"], {}, "no row and no group nothing"), (["--runs", "0"], {}, "no number above 0"), (["--runs"], {}, "expected one argument"),
        ]:
            done = self.timings(*words, **environment) if "TAGYMELUR" not in environment else support.run("timings", *words, environment=dict(os.environ, **environment))
            self.assertEqual(done.returncode, 2, words)
            self.assertIn(told, done.stderr)
            self.assertNotIn("Traceback", done.stderr)

    def test_the_names(self):
        done = self.timings("--list")
        self.assertEqual(done.returncode, 0)
        names = [line.split()[-1] for line in done.stdout.splitlines()]
        self.assertEqual(len(names), len(set(names)))
        self.assertTrue({"run-loop", "paths-loop", "run-shared-thunks", "run-casts", "run-shared-news", "gen", "run-text", "run-dump", "tables-construction-chain", "whole-program", "compilers"} <= set(names))

    def test_bounds_of_a_program_that_never_ends(self):
        """`paths` never ends here: what needs it has no figure, and all others have one."""
        done = support.run("timings", "--runs", "1", "--seconds", "1", "--only", "bounds", environment=dict(os.environ, TAGYMELUR=self.program))
        self.assertEqual(done.returncode, 1)
        self.assertIn("wrong: paths-copies at 1/1 took more than 1 seconds\n", done.stderr)
        self.assertEqual(self.cells(done, "paths-copies")[2], "-")
        self.assertRegex(self.cells(done, "check-silent-chain")[2], r"seconds$")
        self.assertEqual(sum(line.startswith("| `") for line in done.stdout.splitlines()), len(bounds.BOUNDS))

    @support.needs_program
    def test_the_program_itself(self):
        done = support.run("timings", "--runs", "1", "--only", "gen", "--only", "run-dump")
        self.assertEqual((done.returncode, done.stderr), (0, ""), done.stdout)


class Seen:
    """A look at rows whose times and memory are given."""

    def __init__(self, seconds, kilobytes):
        self.seconds, self.kilobytes = seconds, kilobytes

    def __call__(self, name, part):
        return timed.Timed(0, b"", b"", 0, self.seconds[name] / part, 0.0, self.kilobytes[name] // part, 0)

    def turns(self, name, part):
        return 1200 // part


class Bounds(unittest.TestCase):
    def found(self, row, what, look):
        return next(bound for bound in bounds.BOUNDS if bound.row == row and bound.what.startswith(what)).found(look)

    def test_what_is_found(self):
        seconds = {"run-casts": 0.6, "run-calls": 0.2, "run-cross-casts": 1.2, "check-silent-chain": 0.5, "run-small-news": 1.0}
        look = Seen(seconds, {name: 1200 for name in seconds})
        self.assertAlmostEqual(self.found("run-casts", "a turn", look), 3.0)
        self.assertAlmostEqual(self.found("run-cross-casts", "a turn", look), 1000.0)
        self.assertAlmostEqual(self.found("check-silent-chain", "the whole", look), 0.5)
        self.assertAlmostEqual(self.found("check-silent-chain", "in use", look), 1200 / 1024)
        self.assertAlmostEqual(self.found("run-small-news", "what", look), 1024.0)

    def test_a_third_may_be_missed(self):
        self.assertEqual([bounds.holds(found, 1.0) for found in (0.5, 1.0, 1.5, 1.51)], [True, True, True, False])

    def test_each_bound_has_its_rows(self):
        names = {row.name for row in timing_rows.rows()}
        self.assertTrue(all(name in names for bound in bounds.BOUNDS for name, _ in bound.needs))


if __name__ == "__main__":
    unittest.main()
