"""The library for C: the two examples of library/, statuses and buffers, and how long a call takes."""
import ctypes
import importlib.util
import os
import statistics
import subprocess
import tempfile
import time
import unittest

import support
from lib import program

BUILT = os.environ.get("TAGYMELUR_LIBRARY") or os.path.join(program.TOP, "crates", "tagymelur_c", "out", "libtagymelur_c.a")
MOST_SECONDS = 0.001 * 5  # a call is a millisecond on a quiet machine; a busy one has five times as long here


def example(name):
    with open(os.path.join(program.TOP, "examples", name), "rb") as file:
        return file.read()


def of_library(name):
    return os.path.join(program.TOP, "library", name)


@unittest.skipUnless(os.path.isfile(BUILT), "the library is not built: (cd crates/tagymelur_c && rt lib) builds it")
@support.needs_program
@support.needs("cc", "ar", "rt")
class Library(unittest.TestCase):
    @classmethod
    def setUpClass(cls):
        cls.room = tempfile.TemporaryDirectory()
        cls.addClassCleanup(cls.room.cleanup)
        done = support.run("c-library", cls.room.name, "--built", BUILT)
        if done.returncode:
            raise AssertionError(done.stderr)
        cls.archive, cls.shared = done.stdout.splitlines()
        found = importlib.util.spec_from_file_location("example", of_library("example.py"))
        cls.example = importlib.util.module_from_spec(found)
        found.loader.exec_module(cls.example)
        cls.library = ctypes.CDLL(cls.shared)

    def answer(self, words, source):
        text, status = self.example.answer(self.library, words, source)
        return text.decode("latin-1"), status

    def test_the_example_in_c(self):
        built = os.path.join(self.room.name, "example")
        subprocess.run(["cc", "-Wall", "-Werror", of_library("example.c"), f"-I{os.path.dirname(of_library('x'))}", self.archive, "-o", built], check=True)
        for name in ("diamond.cpp", "overriders.cpp"):
            done = subprocess.run([built], input=example(name), stdout=subprocess.PIPE)
            self.assertEqual((done.stdout.decode("latin-1"), done.returncode), program.answer(["layout"], example(name).decode("latin-1")))

    def test_the_example_in_python(self):
        words = ["python3", of_library("example.py"), self.shared]
        done = subprocess.run([*words, "layout", "D"], input=example("diamond.cpp"), stdout=subprocess.PIPE)
        self.assertEqual((done.returncode, done.stdout.splitlines()[0]), (0, b"class D size 56 align 8 dsize 56 nvsize 40 nvalign 8"))
        self.assertEqual(subprocess.run(words[:2], stderr=subprocess.DEVNULL).returncode, 1)

    def test_each_command_says_what_the_program_says(self):
        for words, name in ((["check"], "first.cpp"), (["tables"], "covariant.cpp"), (["run", "--trace"], "construction.cpp"), (["paths"], "destructor.cpp"), (["run"], "delete.cpp"),
                            (["check"], "overriders.cpp"), (["array", "D@3"], "diamond.cpp"), (["memptr", "V::f"], "diamond.cpp"), (["nothing"], "first.cpp"), (["run", "--steps", "3"], "construction.cpp")):
            self.assertEqual(self.answer(words, example(name)), program.answer(words, example(name).decode("latin-1")), words)

    def test_a_buffer_that_is_too_small(self):
        whole, _ = self.answer(["layout"], example("diamond.cpp"))
        written, text = ctypes.c_size_t(), ctypes.create_string_buffer(10)
        call = self.library.tagymelur_answer
        call.restype = ctypes.c_uint8
        source = example("diamond.cpp")
        self.assertEqual(call(b"layout\0", ctypes.c_size_t(7), source, ctypes.c_size_t(len(source)), text, ctypes.c_size_t(10), ctypes.byref(written)), 7)
        self.assertLessEqual(written.value, 10)
        self.assertTrue(whole.startswith(text.raw[:written.value].decode("latin-1")))
        self.assertEqual(call(b"\xff\0", ctypes.c_size_t(2), b"", ctypes.c_size_t(0), text, ctypes.c_size_t(10), ctypes.byref(written)), 9)

    def test_how_long_a_call_takes(self):
        source, times = example("diamond.cpp"), []
        for _ in range(50):
            start = time.perf_counter()
            self.example.answer(self.library, ["layout"], source)
            times.append(time.perf_counter() - start)
        self.assertLess(statistics.median(times), MOST_SECONDS)


if __name__ == "__main__":
    unittest.main()
