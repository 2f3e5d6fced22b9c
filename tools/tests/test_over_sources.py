"""tools/over-sources: which words it hands to `rattle check`."""
import os
import shlex
import tempfile
import unittest

import support
from lib import program


@support.needs("rt")
class OverSources(unittest.TestCase):
    def shown(self, *words):
        done = support.run("over-sources", *words, "--show")
        self.assertEqual((done.returncode, done.stderr), (0, ""))
        return shlex.split(done.stdout)

    def given(self, words, flag):
        return [words[place + 1].split("=")[0] for place, word in enumerate(words) if word == flag]

    def test_each_crate_below_it_once(self):
        words = self.shown("byte_laws", "--only", "")
        libraries = [name.split(":")[0] for name in self.given(words, "--lib")]
        self.assertEqual(sorted(libraries), ["abi_dyncast", "byte_code", "byte_machine", "byte_memory", "byte_shadow", "foundation"])
        self.assertLess(libraries.index("byte_memory"), libraries.index("byte_machine"))
        self.assertEqual(sorted(self.given(words, "--extern")), ["byteorder", "indexmap", "std", "thiserror"])
        self.assertEqual(self.given(words, "--only"), [""])

    def test_a_library_that_is_built(self):
        with tempfile.TemporaryDirectory() as folder:
            os.mkdir(os.path.join(folder, "foundation.rlib"))
            words = self.shown("cxx_text", "--libraries", folder, "--only", "a", "--only", "b", "--allow-holes")
        self.assertEqual(self.given(words, "--lib"), [])
        self.assertIn(f"foundation={folder}/foundation.rlib", words)
        self.assertEqual((self.given(words, "--only"), words[-1]), (["a", "b"], "--allow-holes"))

    def test_the_root_of_a_program(self):
        self.assertIn(os.path.join(program.TOP, "crates", "tagymelur", "src", "main.rt"), self.shown("tagymelur", "--only", ""))

    def test_bad_words(self):
        for words in (["no_such_crate", "--only", ""], ["cxx_text"], ["--only", ""]):
            done = support.run("over-sources", *words)
            self.assertEqual(done.returncode, 2, words)
            self.assertNotIn("Traceback", done.stderr)


if __name__ == "__main__":
    unittest.main()
