"""./tagymelur with a stand-in for the command `rt`: what it tells, that it builds once, and what it says where a proof fails."""
import functools
import os
import pty
import shutil
import signal
import stat
import subprocess
import tempfile
import time
import unittest

import support
from lib import program

STAND_IN = """#!/bin/sh
[ "$1" = ci ] || { echo rt 1; exit; }
echo "$*: $(ls crates | tr '\\n' ' ')$(cat crates.txt | wc -l) $(find . -name '*.edit' -o -name out)" >> "$RT_CALLS"
printf '== foundation\\nlogic=proved\\nrt: foundation proved\\nrt: b is kept: an earlier run proved it\\nrt: c: trying its must-fail edits (1)\\n'
[ "${RT_STATUS:-0}" = 0 ] || exit 1
if [ -n "${RT_SLEEPS:-}" ]; then sleep 300 & echo $! > "$RT_SLEEPS"; wait; fi
mkdir -p crates/tagymelur/out && printf '#!/bin/sh\\necho ran "$@"\\ncat\\n' > crates/tagymelur/out/tagymelur && chmod +x crates/tagymelur/out/tagymelur
"""
CRATES = """# the four crates of the program, and one beside it
foundation:
b: foundation
c: b
elsewhere: c
tagymelur: c
"""


def is_running(number):
    """Whether a process runs; one that ended and is not yet asked for its status does not."""
    try:
        with open(f"/proc/{number}/stat", encoding="utf-8") as file:
            return file.read().rsplit(")", 1)[1].split()[0] != "Z"
    except OSError:
        return False


@support.needs("bash", "awk", "tar")
class Build(unittest.TestCase):
    def setUp(self):
        self.top = tempfile.mkdtemp()
        self.addCleanup(shutil.rmtree, self.top)
        for folder in ("bin", *["crates/" + name for name in ("b/must-fail", "c/out", "elsewhere", "foundation", "tagymelur")]):
            os.makedirs(os.path.join(self.top, folder))
        shutil.copy(os.path.join(program.TOP, "tagymelur"), self.top)
        self.write("crates.txt", CRATES)
        self.write("HANDLES", "Handles allowed: none.\n")
        self.write("crates/b/must-fail/wrong.edit", "")
        self.write("bin/rt", STAND_IN)
        os.chmod(os.path.join(self.top, "bin/rt"), stat.S_IRWXU)
        self.calls = os.path.join(self.top, "calls")

    def write(self, name, text):
        with open(os.path.join(self.top, name), "w", encoding="utf-8") as file:
            file.write(text)

    def environment(self, **more):
        """With the stand-in on the path, and a cache of its own."""
        return {**os.environ, "PATH": os.path.join(self.top, "bin") + os.pathsep + os.environ["PATH"], "RT_CALLS": self.calls, "XDG_CACHE_HOME": os.path.join(self.top, "cache"), **more}

    def run_script(self, *words, status="0", top=None):
        environment = self.environment(RT_STATUS=status)
        return subprocess.run([os.path.join(top or self.top, "tagymelur"), *words], input="text\n", capture_output=True, encoding="utf-8", env=environment)

    def test_it_tells_how_far_it_is_and_builds_once(self):
        done = self.run_script("check")
        self.assertEqual((done.returncode, done.stdout), (0, "ran check\ntext\n"), done.stderr)
        self.assertRegex(done.stderr, r"1 of 4 crates after \d+ min \d+ s: foundation proved\n")
        self.assertRegex(done.stderr, r"2 of 4 crates after \d+ min \d+ s: b is kept\n")
        self.assertNotIn("3 of 4", done.stderr)
        again = self.run_script("layout", "D")
        self.assertEqual((again.returncode, again.stdout, again.stderr), (0, "ran layout D\ntext\n", ""))
        self.assertEqual(self.builds(), [["ci:", "b", "c", "foundation", "tagymelur", "4"]])

    def builds(self):
        """The calls of `rt` that built."""
        with open(self.calls, encoding="utf-8") as file:
            return [line.split() for line in file.read().splitlines() if line.startswith("ci")]

    def test_a_built_program_serves_other_checkouts_and_touched_files(self):
        self.run_script("check")
        with tempfile.TemporaryDirectory() as room:
            other = os.path.join(room, "other")
            shutil.copytree(self.top, other, ignore=shutil.ignore_patterns("out", "cache", "bin", "calls"))
            done = self.run_script("check", top=other)
            self.assertEqual((done.returncode, done.stdout, done.stderr), (0, "ran check\ntext\n", ""))
            self.assertEqual(len(self.builds()), 1)
            os.makedirs(os.path.join(other, "crates/b/src"))
            with open(os.path.join(other, "crates/b/src/lib.rt"), "w", encoding="utf-8") as file:
                file.write("// another source\n")
            os.utime(os.path.join(other, "crates/b/src/lib.rt"), (time.time() + 5, time.time() + 5))
            self.assertIn("proving and building", self.run_script("check", top=other).stderr)
            self.assertEqual(len(self.builds()), 2)

    def copied(self, room):
        """Another checkout of the same sources."""
        other = os.path.join(room, "other")
        shutil.copytree(self.top, other, ignore=shutil.ignore_patterns("out", "cache", "bin", "calls"))
        return other

    def put(self, name, text):
        """A file of the checkout that may be run."""
        os.makedirs(os.path.join(self.top, os.path.dirname(name)), exist_ok=True)
        self.write(name, text)
        os.chmod(os.path.join(self.top, name), stat.S_IRWXU)

    def test_what_rt_built_serves_other_checkouts_too(self):
        """The program came by a build of `rt ci` alone: the first call keeps it."""
        for name in ("foundation", "b", "c"):
            os.makedirs(os.path.join(self.top, "crates", name, "out", "rlib", name + ".rlib"))
        self.put("crates/tagymelur/out/tagymelur", '#!/bin/sh\necho ran "$@"\ncat\n')
        self.assertEqual((self.run_script("check").stderr, self.run_script("check").stderr), ("", ""))
        with tempfile.TemporaryDirectory() as room:
            done = self.run_script("check", top=self.copied(room))
            self.assertEqual((done.returncode, done.stdout, done.stderr), (0, "ran check\ntext\n", ""))
        self.assertFalse(os.path.exists(self.calls))

    def test_a_program_from_elsewhere_is_not_kept(self):
        """It stands where a built one would, and what rt makes of the crates below does not."""
        self.put("crates/tagymelur/out/tagymelur", '#!/bin/sh\necho ran "$@"\ncat\n')
        self.assertEqual(self.run_script("check").stderr, "")
        self.assertFalse(os.path.exists(os.path.join(self.top, "cache")))
        with tempfile.TemporaryDirectory() as room:
            self.assertIn("proving and building", self.run_script("check", top=self.copied(room)).stderr)

    def test_what_the_program_is_made_of_and_the_log_count(self):
        self.run_script("check")
        with tempfile.TemporaryDirectory() as room:
            other = self.copied(room)
            self.run_script("check", top=other)
            with open(os.path.join(self.top, "crates/tagymelur/out/build.log"), encoding="utf-8") as log, open(os.path.join(other, "crates/tagymelur/out/build.log"), encoding="utf-8") as copied:
                self.assertEqual(log.read(), copied.read())
        with tempfile.TemporaryDirectory() as room:
            other = self.copied(room)
            with open(os.path.join(other, "HANDLES"), "w", encoding="utf-8") as file:
                file.write("Handles allowed: another.\n")
            self.assertIn("proving and building", self.run_script("check", top=other).stderr)

    def test_a_cache_that_cannot_be_written(self):
        self.write("cache", "no folder")
        done = self.run_script("check")
        self.assertEqual((done.returncode, done.stdout), (0, "ran check\ntext\n"))
        self.assertEqual(done.stderr.count("could not be kept"), 1)
        self.assertEqual(self.run_script("check").stderr, "")

    def test_a_build_that_is_stopped_ends_what_it_started(self):
        for number in (signal.SIGTERM, signal.SIGINT, signal.SIGHUP):
            sleeper = os.path.join(self.top, f"sleeper{number}")
            environment = self.environment(RT_SLEEPS=sleeper)
            script = subprocess.Popen([os.path.join(self.top, "tagymelur"), "check"], stdin=subprocess.DEVNULL, stdout=subprocess.PIPE, stderr=subprocess.PIPE, env=environment, encoding="utf-8",
                                      preexec_fn=functools.partial(signal.signal, number, signal.SIG_DFL))  # else what runs the tests may have it ignored
            self.wait_for(lambda: os.path.exists(sleeper) and os.path.getsize(sleeper) > 0)
            with open(sleeper, encoding="utf-8") as file:
                started = int(file.read())
            script.send_signal(number)
            text, told = script.communicate(timeout=60)
            self.assertEqual((script.returncode, text), (128 + number, ""))
            self.assertIn("the build was stopped", told)
            self.wait_for(lambda: not is_running(started))

    def wait_for(self, holds):
        for _ in range(1200):
            if holds():
                return
            time.sleep(0.05)
        self.fail("it did not come to it in a minute")

    def test_a_failed_proof(self):
        done = self.run_script("check", status="1")
        self.assertEqual((done.returncode, done.stdout), (70, ""))
        self.assertIn("the program could not be built; the whole log is", done.stderr)

    def at_a_terminal(self, *words, program, text=""):
        """What the script writes to standard output and to a terminal, for a program that is there."""
        os.makedirs(os.path.join(self.top, "crates/tagymelur/out"), exist_ok=True)
        self.write("crates/tagymelur/out/tagymelur", program)
        os.chmod(os.path.join(self.top, "crates/tagymelur/out/tagymelur"), stat.S_IRWXU)
        os.utime(os.path.join(self.top, "crates/tagymelur/out/tagymelur"), (4e9, 4e9))
        master, terminal = pty.openpty()
        done = subprocess.run([os.path.join(self.top, "tagymelur"), *words], input=text, stdout=subprocess.PIPE, stderr=terminal, env=self.environment(), encoding="utf-8")
        os.set_blocking(master, False)
        try:
            told = os.read(master, 65536).decode()
        except BlockingIOError:
            told = ""
        os.close(master)
        os.close(terminal)
        return done.returncode, done.stdout, told.replace("\r\n", "\n")

    def test_what_is_told_at_a_terminal(self):
        usage = "#!/bin/sh\necho usage\nexit 2\n"
        for words in ([], ["--help"]):
            status, text, told = self.at_a_terminal(*words, program=usage)
            self.assertEqual((status, text), (2, "usage\n"))
            self.assertIn("The source comes on standard input", told)
            for command in ("check", "layout", "tables", "run", "paths", "gen N"):
                self.assertIn(f"\n  {command} ", told)
        sentences = set()
        for number in (6, 7, 8, 9):
            status, text, told = self.at_a_terminal("check", program=f"#!/bin/sh\nexit {number}\n")
            self.assertEqual((status, text), (number, ""))
            self.assertRegex(told, r"^tagymelur: .*\n$")
            sentences.add(told)
        self.assertEqual(len(sentences), 4)
        self.assertEqual(self.at_a_terminal("check", program="#!/bin/sh\ncat\nexit 1\n", text="refused\n"), (1, "refused\n", ""))
        self.assertEqual(self.run_script("check").stderr, "")

    @support.needs_program
    def test_the_program_itself_at_a_terminal(self):
        self.assertEqual(self.at_a_terminal("check", program=f'#!/bin/sh\nexec "{program.path()}" "$@" < /\n'), (6, "", "tagymelur: the source could not be read from standard input; give a file: < FILE\n"))
        status, text, told = self.at_a_terminal("--help", program=f'#!/bin/sh\nexec "{program.path()}" "$@"\n')
        self.assertEqual((status, text), (2, "usage\n"))
        self.assertIn("layout [CLASS]", told)

    def test_changed_sources_are_built_again(self):
        self.run_script("check")
        self.write("crates/tagymelur/main.rt", "")
        os.utime(os.path.join(self.top, "crates/tagymelur/main.rt"), (4e9, 4e9))
        self.assertIn("proving and building", self.run_script("check").stderr)
