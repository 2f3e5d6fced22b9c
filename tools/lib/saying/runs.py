"""A program of C++ said and run: its output, how it ended, and the place in the user's file where a run was refused."""
import os
import re

from .. import clang, problem, program
from . import back, source

STEPS = "4000000"
WORDS = {"division": "a division by zero", "end": "the end of the program", "index": "an index outside of the array"}


class Ran:
    """One run: what the program wrote, and `why` it did not come to its end, with the user's place; empty where it did."""

    def __init__(self, said, printed, status):
        self.said, self.printed, self.run_status = said, printed, status
        self.output, self.note = back.put_back(said.text, printed), ""
        self.why = "" if self.output.status is not None else self.reason()

    def reason(self):
        """The run's last line, with the line of the source as a place in the user's file."""
        last = self.output.last
        line = re.search(r"line (\d+)$", last)
        byte = re.search(r"refused E\d+ \w+ at (\d+)$", last)
        number = int(line[1]) if line else self.said.text.encode("latin-1", "replace")[:int(byte[1])].count(b"\n") + 1 if byte else 0
        if not number:
            return last
        self.note = note = WORDS.get(self.said.notes.get(number, ""), "")
        place = self.said.places[number - 1] if number <= len(self.said.places) else None
        where = f"{os.path.relpath(place[0])}:{place[1]}:{place[2]}: " if place and place[0] else ""
        words = re.sub(r" (line|at) \d+$", "", last)
        return f"{where}{words}{' (' + note + ')' if note else ''}"


def say(files, flags, placed=False):
    """The source that says these files; one that is `placed` refuses an index and a division where they stand."""
    for file in files:
        problem.read_text(file)
    return source.said(clang.unit(files), flags, placed=placed)


def with_place(ran, files, flags):
    """A run that was refused for an index or a division, once more, with the place of that step; the run itself where it has no such step, or no room for it."""
    if not ran.note:
        return ran
    try:
        again = run(say(files, flags, placed=True))
    except problem.Problem:
        return ran
    return again if again.note == ran.note else ran


def run(said, words=("run",), seconds=None):
    """Runs a said program by one of the machines."""
    printed, status = program.answer([words[0], "--steps", STEPS, *words[1:]], said.text, seconds)
    return Ran(said, printed, status)
