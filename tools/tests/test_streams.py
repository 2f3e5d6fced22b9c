"""The program on a source that cannot be read and on a sink that cannot be written: status 6 and nothing, status 7 and a front of the text.

No signal ends it, and it writes nothing to standard error, whatever its streams do."""
import errno
import os
import subprocess
import tempfile
import unittest

import support
from lib import program, shapes

READ_FAULT, WRITE_FAULT, USAGE = 6, 7, 2

# Fails one read of standard input or one write to standard output; the numbers of the calls count from 1. Else each call takes no
# more than so many bytes, where that is said.
FAILING = r"""
#define _GNU_SOURCE
#include <errno.h>
#include <stdlib.h>
#include <sys/syscall.h>
#include <sys/uio.h>
#include <unistd.h>

static int number_in(const char *name) {
    const char *number = getenv(name);
    return number == NULL ? 0 : atoi(number);
}

static int is_due(const char *name) {
    static int reads, writes;
    int *count = name[8] == 'R' ? &reads : &writes;
    return number_in(name) != 0 && ++*count == number_in(name);
}

static size_t shortened(size_t size) {
    size_t most = number_in("MOST_BYTES");
    return most != 0 && size > most ? most : size;
}

static int fail(void) { errno = number_in("FAILING_ERROR"); return -1; }

ssize_t read(int file, void *into, size_t size) {
    if (file == 0 && is_due("FAILING_READ")) return fail();
    return syscall(SYS_read, file, into, file == 0 ? shortened(size) : size);
}

ssize_t write(int file, const void *from, size_t size) {
    if (file == 1 && is_due("FAILING_WRITE")) return fail();
    return syscall(SYS_write, file, from, file == 1 ? shortened(size) : size);
}

ssize_t writev(int file, const struct iovec *parts, int count) {
    if (file == 1 && is_due("FAILING_WRITE")) return fail();
    if (file == 1 && count > 0 && number_in("MOST_BYTES")) return syscall(SYS_write, file, parts[0].iov_base, shortened(parts[0].iov_len));
    return syscall(SYS_writev, file, parts, count);
}
"""

SOURCE = "struct A { int x; virtual void f() { print(2); } };\nint main() { A* p = new A; p->f(); print(1); dump(p); }\n"
DUMP = "dump #1 A 16\n0 vptr A@0 of A\n8 -------- int A::x\n12 pad 4\n"
READING = [["check"], ["layout"], ["layout", "A"], ["tables"], ["run"], ["run", "--trace"], ["run", "--steps", "1"], ["paths"]]
LATER = [["array", "A@2"], ["memptr", "A::x"], ["foreign"], ["inspect"]]  # some builds do not have them
WITHOUT_A_SOURCE = [["gen", "2"], ["nothing"], []]


def answer(words, given, environment=None):
    """What the program answers to bytes on standard input; nothing may stand on standard error."""
    done = subprocess.run([program.path(), *words], input=given, stdout=subprocess.PIPE, stderr=subprocess.PIPE, env=environment)
    assert done.stderr == b"", done.stderr
    return done.returncode, done.stdout


def commands():
    """The commands that read a source, with those of this build alone among the later ones."""
    return READING + [words for words in LATER if answer(words, b"")[0] != USAGE]


@support.needs_program
class Streams(unittest.TestCase):
    def setUp(self):
        folder = tempfile.TemporaryDirectory()
        self.addCleanup(folder.cleanup)
        self.source = os.path.join(folder.name, "source")
        with open(self.source, "w", encoding="utf-8") as file:
            file.write(SOURCE)
        self.folder = folder.name

    def run_in_shell(self, line, words):
        """The status, the text and what stands on standard error of a line of the shell, in which "$@" is the program with its words."""
        done = subprocess.run(["sh", "-c", line, "sh", program.path(), *words], stdin=subprocess.DEVNULL, stdout=subprocess.PIPE, stderr=subprocess.PIPE, cwd=self.folder)
        return done.returncode, done.stdout, done.stderr

    def test_a_source_that_cannot_be_read(self):
        for words in commands():
            for source in ("< .", "<&-", "0> written"):
                self.assertEqual(self.run_in_shell(f'"$@" {source}', words), (READ_FAULT, b"", b""), f"{words} {source}")

    def test_words_that_read_no_source(self):
        for words, status, text in ((["nothing"], USAGE, b"usage\n"), ([], USAGE, b"usage\n"), (["gen", "2"], 0, b"classes 3\nsteps 24\nlines 2\nlast 1\n")):
            for source in ("< .", "<&-"):
                self.assertEqual(self.run_in_shell(f'"$@" {source}', words), (status, text, b""), words)

    def test_a_sink_that_is_full_or_closed(self):
        for words in commands() + WITHOUT_A_SOURCE:
            for sink in ("> /dev/full", ">&-", "1< source"):
                self.assertEqual(self.run_in_shell(f'"$@" < source {sink}', words), (WRITE_FAULT, b"", b""), f"{words} {sink}")

    def test_a_text_of_no_byte_is_written_wherever(self):
        for sink in ("> /dev/full", ">&-"):
            self.assertEqual(self.run_in_shell(f'"$@" < /dev/null {sink}', ["layout"]), (0, b"", b""))

    def test_no_stream_at_all(self):
        self.assertEqual(self.run_in_shell('"$@" <&- >&- 2>&-', ["check"])[0], READ_FAULT)
        self.assertEqual(self.run_in_shell('"$@" < source >&- 2>&-', ["check"])[0], WRITE_FAULT)
        self.assertEqual(self.run_in_shell('"$@" < source 2>&-', ["check"]), (0, b"1 classes\n", b""))

    def test_a_pipe_that_is_closed(self):
        """As before `| head -1`: with a long text, of which one line is read, and with each command, of which none is."""
        process = subprocess.Popen([program.path(), "layout"], stdin=subprocess.PIPE, stdout=subprocess.PIPE, stderr=subprocess.PIPE)
        process.stdin.write(shapes.empty_tower(2).encode())
        process.stdin.close()
        self.assertEqual(process.stdout.readline(), b"class E0 size 1 align 1 dsize 1 nvsize 1 nvalign 1\n")
        process.stdout.close()
        self.assertEqual((process.stderr.read(), process.wait()), (b"", WRITE_FAULT))
        process.stderr.close()
        for words in commands() + WITHOUT_A_SOURCE:
            reading, writing = os.pipe()
            os.close(reading)
            with open(self.source, "rb") as source:
                done = subprocess.run([program.path(), *words], stdin=source, stdout=writing, stderr=subprocess.PIPE)
            os.close(writing)
            self.assertEqual((done.returncode, done.stderr), (WRITE_FAULT, b""), words)

    def test_a_pipeline(self):
        for words in (["layout"], ["run"]):
            done = self.run_in_shell('"$@" < source | head -n 1 > first; cat first', words)
            self.assertEqual((done[0], done[1].count(b"\n"), done[2]), (0, 1, b""), words)


@support.needs("gcc")
@support.needs_program
class EachCall(unittest.TestCase):
    def setUp(self):
        folder = tempfile.TemporaryDirectory()
        self.addCleanup(folder.cleanup)
        self.library = os.path.join(folder.name, "failing.so")
        subprocess.run(["gcc", "-O2", "-shared", "-fPIC", "-x", "c", "-o", self.library, "-"], input=FAILING, encoding="utf-8", check=True)

    def with_library(self, **variables):
        return dict(os.environ, LD_PRELOAD=self.library, **{name: str(value) for name, value in variables.items()})

    def failing(self, variable, words, source, error=errno.EIO):
        """The answers where the first call fails, then where the second one does, and so on, up to the first that is right."""
        right = answer(words, source)
        answers = []
        while True:
            given = answer(words, source, self.with_library(FAILING_ERROR=error, **{variable: len(answers) + 1}))
            if given == right:
                return answers, right[1]
            answers.append(given)

    def test_each_read(self):
        source = shapes.statements(1).encode("latin-1")
        for error in (errno.EIO, errno.EINTR, errno.EAGAIN):
            answers, _ = self.failing("FAILING_READ", ["check"], source, error)
            self.assertGreaterEqual(len(answers), 2)
            self.assertEqual(set(answers), {(READ_FAULT, b"")})

    def test_each_read_of_each_command(self):
        for words in commands():
            answers, _ = self.failing("FAILING_READ", words, SOURCE.encode())
            self.assertGreaterEqual(len(answers), 2, words)
            self.assertEqual(set(answers), {(READ_FAULT, b"")}, words)

    def test_each_write(self):
        source = shapes.empty_tower(2).encode("latin-1")
        for error in (errno.EIO, errno.ENOSPC, errno.EINTR, errno.EPIPE):
            answers, text = self.failing("FAILING_WRITE", ["layout"], source, error)
            self.assertGreaterEqual(len(answers), 1)
            for status, front in answers:
                self.assertEqual(status, WRITE_FAULT)
                self.assertTrue(text.startswith(front) and len(front) < len(text))

    def test_each_write_of_each_command(self):
        for words in commands() + WITHOUT_A_SOURCE:
            answers, text = self.failing("FAILING_WRITE", words, SOURCE.encode())
            self.assertGreaterEqual(len(answers), 1, words)
            for status, front in answers:
                self.assertEqual(status, WRITE_FAULT, words)
                self.assertTrue(text.startswith(front) and len(front) < len(text), words)

    def test_short_reads_and_writes(self):
        given = {"foreign": answer(["layout"], SOURCE.encode())[1] + b"program\n" + SOURCE.encode(), "inspect": f"{DUMP}program\n{SOURCE}".encode()}
        for words in commands() + WITHOUT_A_SOURCE:
            source = given.get(words[0] if words else "", SOURCE.encode())
            right = answer(words, source)
            for most in (1, 2, 7):
                self.assertEqual(answer(words, source, self.with_library(MOST_BYTES=most)), right, f"{words} {most}")

    def test_a_write_that_fails_behind_short_ones(self):
        right = answer(["run"], SOURCE.encode())[1]
        for number in (1, 2, 5):
            given = answer(["run"], SOURCE.encode(), self.with_library(MOST_BYTES=3, FAILING_WRITE=number, FAILING_ERROR=errno.ENOSPC))
            self.assertEqual(given, (WRITE_FAULT, right[:3 * (number - 1)]))


if __name__ == "__main__":
    unittest.main()
