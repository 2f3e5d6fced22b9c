"""Reads the worked cases of the repository: words, a source, and the text and the status that are wanted."""
import functools
import os
from dataclasses import dataclass

from .problem import Problem
from .program import TOP

CASES = os.path.join(TOP, "crates", "worked_cases", "stdin")


@dataclass(frozen=True)
class Case:
    """One case; texts are Latin-1. The numbers are those of the call of the source and of the sink that fail, 0 for none."""

    words: tuple
    source: str
    text: str
    status: int
    failing_read: int
    failing_write: int


@functools.cache
def cases():
    """All cases in their order."""
    try:
        with open(CASES, "rb") as file:
            rest = file.read().decode("latin-1")
    except OSError as error:
        raise Problem(f"{CASES} cannot be read: {error.strerror}; run this tool inside the repository", 2) from None
    found = []
    while rest:
        case, rest = _first(rest)
        found.append(case)
    return found


def _first(text):
    """The case that stands at the front, and what is behind it."""
    head, rest = text.split("\n", 1)
    numbers, words = head.split(" ")[:5], head.split(" ")[5:]
    status, read, write, source_length, text_length = map(int, numbers)
    end = source_length + 1 + text_length
    case = Case(tuple(words), rest[:source_length], rest[source_length + 1:end], status, read, write)
    return case, rest[end + 1:]
