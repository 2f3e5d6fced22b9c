"""Runs a command on an input, and takes its processor seconds, its seconds by the clock and its memory."""
import os
import subprocess
import tempfile
import time
from dataclasses import dataclass

from .problem import Problem

KEPT = 4096  # how many bytes of the front and of the end of an output are kept


@dataclass
class Timed:
    """The best of some runs; `kilobytes` is the most memory that one of them had in use, `size` the bytes of the output.

    A new process counts as its own what this one had in use when it was begun, so that no less can be seen: `unseen`.
    """

    status: int
    front: bytes
    end: bytes
    size: int
    processor: float
    clock: float
    kilobytes: int
    unseen: int

    def last_line(self):
        lines = self.end.decode("latin-1").splitlines()
        return lines[-1] if lines else ""


class TooSlow(Exception):
    """A run took more seconds than it may."""


def once(command, source, seconds, folder=None):
    """One run; the input comes from a file and the output goes to one, so that no time is spent in this process."""
    with tempfile.TemporaryFile() as given, tempfile.TemporaryFile() as told:
        given.write(source)
        given.seek(0)
        start = time.monotonic()
        try:
            process = subprocess.Popen(command, stdin=given, stdout=told, stderr=subprocess.DEVNULL, cwd=folder)
        except OSError as error:
            raise Problem(f"{command[0]} cannot be run: {error.strerror}", 2) from None
        status, used = ended(process, start + seconds)
        clock = time.monotonic() - start
        size = told.seek(0, os.SEEK_END)
        told.seek(0)
        front = told.read(KEPT)
        told.seek(max(0, size - KEPT))
        return Timed(status, front, told.read(), size, used.ru_utime + used.ru_stime, clock, used.ru_maxrss, own_kilobytes())


def own_kilobytes():
    """The most memory that this program had in use; `getrusage` counts that of the process that began it, too."""
    with open("/proc/self/status", encoding="ascii") as status:
        return next(int(line.split()[1]) for line in status if line.startswith("VmHWM:"))


def ended(process, last):
    """Waits for the end of a process; one that goes on after the moment `last` is stopped."""
    wait = 0.0005
    while True:
        found, status, used = os.wait4(process.pid, os.WNOHANG)
        if found:
            process.returncode = os.waitstatus_to_exitcode(status)
            return process.returncode, used
        if time.monotonic() > last:
            process.kill()
            process.wait()
            raise TooSlow
        time.sleep(wait)
        wait = min(wait * 1.1, 0.01)


def best(command, source, runs, seconds):
    """The best of so many runs, which must all answer alike; runs end early where they take long."""
    found = once(command, source, seconds)
    for _ in range(runs - 1):
        one = once(command, source, seconds)
        if (one.status, one.size, one.end) != (found.status, found.size, found.end):
            raise Problem(f"{' '.join(command)} does not answer alike twice")
        found.processor, found.clock = min(found.processor, one.processor), min(found.clock, one.clock)
        found.kilobytes, found.unseen = max(found.kilobytes, one.kilobytes), max(found.unseen, one.unseen)
    return found
