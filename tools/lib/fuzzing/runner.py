"""Starts the program again and again. Its three streams are files in memory, so that no time goes into pipes or into a disk."""
import os
import signal
from collections import namedtuple

from .. import program

TICKS = os.sysconf("SC_CLK_TCK")
LEFT_ALONE = [int(signal.SIGPIPE), int(signal.SIGXFSZ)]  # Python does not take these, and the program does
MOST_IDLE = 12  # a run that has no processor for so many times its seconds waits for what does not come, and is stopped

# What the program sees of the environment: what tells the system how to load a program. A start takes longer with more of it.
LOADING = ("LD_", "GLIBC_")
OTHER_MEMORY = {"MALLOC_PERTURB_": "165"}  # the C library fills memory that it gives, and that it gets back

Answer = namedtuple("Answer", "text status errors seconds")


class Runner:
    """Runs the program on words and a text, one run after another. A process has one Runner at a time, since it has one alarm."""

    def __init__(self, seconds):
        self.seconds, self.text, self.path = seconds, None, program.path()
        self.given, self.told, self.errors = (os.memfd_create(name) for name in ("given", "told", "errors"))
        self.streams = [(os.POSIX_SPAWN_DUP2, file, number) for number, file in enumerate((self.given, self.told, self.errors))]
        self.variables = {name: value for name, value in os.environ.items() if name.startswith(LOADING)}
        self.process = None
        signal.signal(signal.SIGALRM, self.ring)

    def answer(self, words, text, more={}):
        """What the program answers, with these variables besides; None where it has to be stopped."""
        if text is not self.text:
            os.ftruncate(self.given, 0)
            os.pwrite(self.given, text, 0)
            self.text = text
        os.lseek(self.given, 0, os.SEEK_SET)
        for file in (self.told, self.errors):
            os.ftruncate(file, 0)
            os.lseek(file, 0, os.SEEK_SET)
        status, used = self.waited(self.started(words, {**self.variables, **more}))
        code = os.waitstatus_to_exitcode(status)
        if self.is_stopped and code == -signal.SIGKILL:
            return None
        return Answer(written(self.told), code, written(self.errors), used.ru_utime + used.ru_stime)

    def started(self, words, variables):
        """The number of a process that runs the program."""
        try:
            return os.posix_spawn(self.path, [self.path, *words], variables, file_actions=self.streams, setsigdef=LEFT_ALONE)
        except OSError as error:
            raise program.missing(error) from None

    def waited(self, process):
        """The status of a process when it ended, and what it used. Its number is given back when no alarm can ring for it any more."""
        self.process, self.had, self.idle, self.is_stopped = process, 0, 0, False
        signal.setitimer(signal.ITIMER_REAL, self.seconds, self.seconds)
        os.waitid(os.P_PID, process, os.WEXITED | os.WNOWAIT)
        signal.setitimer(signal.ITIMER_REAL, 0)
        self.process = None
        _, status, used = os.wait4(process, 0)
        return status, used

    def ring(self, number, frame):
        """Stops a process that had its seconds of a processor, or that waits. Where others have the processors, it goes on."""
        if self.process is None:
            return
        had = processor_seconds(self.process)
        self.idle = self.idle + 1 if had == self.had else 0
        self.had = had
        if had >= self.seconds or self.idle == MOST_IDLE:
            self.is_stopped = True
            os.kill(self.process, signal.SIGKILL)

    def plain(self, words, text):
        """The text and the status for words and a source, as `program.answer` gives them; a run that is stopped has no text."""
        answer = self.answer(words, text.encode("latin-1", "replace"))
        return (answer.text.decode("latin-1"), answer.status) if answer else ("", -signal.SIGKILL)

    def close(self):
        for file in (self.given, self.told, self.errors):
            os.close(file)


def written(file):
    """All that was written into a file."""
    size = os.fstat(file).st_size
    return os.pread(file, size, 0) if size else b""


def processor_seconds(process):
    """How long a process had a processor until now."""
    with open(f"/proc/{process}/stat", encoding="latin-1") as file:
        fields = file.read().rsplit(")", 1)[1].split()
    return (int(fields[11]) + int(fields[12])) / TICKS
