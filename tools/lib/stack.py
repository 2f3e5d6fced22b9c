"""Runs the program with a stack of so many kB."""
import subprocess
from collections import namedtuple

from . import program
from .problem import Problem

USUAL = 8192  # kB, as a shell gives it
PAGE = 4
SECONDS = 120
TIMES = 3  # the system begins a stack at a place by chance, so that a page more or less may be needed

Answer = namedtuple("Answer", "text status")


def answer(words, source, kilobytes):
    """What the program answers with a stack of so many kB; its status is -11 where that does not do."""
    line = 'ulimit -S -s "$1" && shift && exec "$@"'
    try:
        done = subprocess.run(["sh", "-c", line, "sh", str(kilobytes), program.path(), *words], input=source.encode("latin-1"), stdout=subprocess.PIPE, stderr=subprocess.DEVNULL, timeout=SECONDS)
    except OSError as error:
        raise program.missing(error) from None
    except subprocess.TimeoutExpired:
        raise Problem(f"'{' '.join(words)}' takes more than {SECONDS} seconds", 2) from None
    return Answer(done.stdout, done.returncode)


def least(words, source, most=USUAL):
    """The fewest kB, by pages, with which the answer is that of a usual stack, found by halving; it may be up to `most`."""
    right, low, high = answer(words, source, USUAL), 0, most // PAGE
    while low + 1 < high:
        middle = (low + high) // 2
        if all(answer(words, source, middle * PAGE) == right for _ in range(TIMES)):
            high = middle
        else:
            low = middle
    return high * PAGE
