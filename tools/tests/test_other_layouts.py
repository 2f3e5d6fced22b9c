"""tools/other-layouts: programs print over layouts by chance what they print over that of the ABI, and a difference is told."""
import os
import stat
import tempfile
import unittest

import support

SOURCE = "struct A { char a; int b : 3; virtual void f() {} }; struct B : virtual A { long d[3]; }; int main() { B* c = new B; c->a = 5; char x = c->a; print(x); }\n"


class OtherLayouts(unittest.TestCase):
    @support.needs_program
    def test_random_programs(self):
        done = support.run("other-layouts", "--random", "10", "--seed", "5")
        self.assertEqual((done.returncode, done.stdout, done.stderr), (0, "10 sources, 0 differ\n", ""))

    @support.needs_program
    def test_a_source(self):
        done = support.run("other-layouts", "-", text=SOURCE)
        self.assertEqual((done.returncode, done.stdout, done.stderr), (0, "1 sources, 0 differ\n", ""))

    @support.needs("sh")
    def test_a_difference(self):
        """A program that prints something else over a listing is told of."""
        with tempfile.TemporaryDirectory() as folder:
            stand_in = os.path.join(folder, "stand-in")
            with open(stand_in, "w", encoding="utf-8") as file:
                file.write('#!/bin/sh\ncat > /dev/null\necho "$1"\n')
            os.chmod(stand_in, stat.S_IRWXU)
            done = support.run("other-layouts", "-", text=SOURCE, environment=dict(os.environ, TAGYMELUR=stand_in))
        self.assertEqual((done.returncode, done.stdout), (1, "differ  -\n1 sources, 1 differ\n"))


if __name__ == "__main__":
    unittest.main()
