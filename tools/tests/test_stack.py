"""tools/stack: the shapes that it tries, what is found by halving, and that it tells what does not do."""
import os
import shutil
import subprocess
import tempfile
import unittest
import unittest.mock

import support
from lib import deep, program, stack
from lib.fuzzing import commands

# A program that needs some 512 kB of stack
NEEDY = r"""
#include <string.h>
#include <unistd.h>

int main(void) {
    volatile char room[512 * 1024];
    memset((void *)room, 1, sizeof room);
    return write(1, "right\n", 5 + room[0]) == 6 ? 0 : 7;
}
"""


class Shapes(unittest.TestCase):
    def test_each_command_has_a_deep_shape(self):
        tried = {row.words[0] for row in deep.rows()}
        self.assertEqual(tried, {command.name.split()[0] for command in commands.COMMANDS})

    def test_what_is_given_fits_into_a_source(self):
        for row in deep.over_more_than_a_source():
            self.assertLessEqual(len(row.source), 262_144, row.what)


@support.needs("gcc", "sh")
class Halving(unittest.TestCase):
    def setUp(self):
        folder = tempfile.mkdtemp()
        self.addCleanup(shutil.rmtree, folder)
        self.built = os.path.join(folder, "needy")
        subprocess.run(["gcc", "-std=c11", "-o", self.built, "-x", "c", "-"], input=NEEDY, encoding="utf-8", check=True)

    def test_what_is_needed(self):
        with unittest.mock.patch.dict(os.environ, TAGYMELUR=self.built):
            needed = stack.least(["run"], "")
            self.assertGreater(needed, 512)
            self.assertLess(needed, 768)
            self.assertEqual(stack.answer(["run"], "", needed + 4 * stack.PAGE), (b"right\n", 0))
            self.assertLess(stack.answer(["run"], "", needed - 4 * stack.PAGE).status, 0)

    def test_what_does_not_do(self):
        done = support.run("stack", "--under", "256", environment=dict(os.environ, TAGYMELUR=self.built))
        self.assertEqual((done.returncode, done.stderr), (1, ""))
        self.assertIn("check, 64 blocks: status -11 with 256 kB\n", done.stdout)
        self.assertTrue(done.stdout.endswith(f"{len(deep.rows())} runs with 256 kB of stack, {len(deep.rows())} of them do not do\n"))


@support.needs_program
class Depth(unittest.TestCase):
    def test_each_command_does_with_288_kb(self):
        """A run that needs more is ended by a signal. The system begins a stack at a place by chance, so that one of five goes counts; what the environment says lies on it too."""
        few = {"PATH": os.environ.get("PATH", os.defpath), "TAGYMELUR": os.path.abspath(program.path())}
        with unittest.mock.patch.dict(os.environ, few, clear=True):
            ended = [f"{row.name()}, {row.what}" for row in deep.rows() if all(stack.answer(row.words, row.source, 288).status < 0 for _ in range(5))]
        self.assertEqual(ended, [])


if __name__ == "__main__":
    unittest.main()
