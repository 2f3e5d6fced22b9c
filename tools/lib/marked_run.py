"""Runs a source with a mark before each statement, so that each line of a trace is told with the statement that made it.

A mark is a `print` of a number of its own on the same line, which changes nothing else of a run but the count of its steps and the length of
its text. What is left without the marks has to be what the source itself prints, up to the end of the shorter text.
"""
import re
from dataclasses import dataclass

from . import program, statements

FIRST_MARK = 1_000_000_000
MOST_STEPS = 4_000_000


@dataclass
class Told:
    """Sort: step for a mark, where `text` is empty; else call, built, ending, printed or last, with the line of the text."""

    sort: str
    text: str
    statement: object


def marked(text, bodies):
    """The source with its marks."""
    parts, at = [], 0
    for one in bodies.statements:
        place = one.at + (1 if one.kind == "begin" else 0)
        parts += [text[at:place], f" print({FIRST_MARK + one.number}); "]
        at = place
    return "".join(parts) + text[at:]


class NoMarks(Exception):
    """The source cannot be run with marks; the sentence says why."""


def run(text, steps=None):
    """The bodies of a source, and all that its run tells, with the statements. The run itself has the default budget, or so many steps."""
    words = ["run", "--trace"] if steps is None else ["run", "--trace", "--steps", str(steps)]
    plain, status = program.answer(words, text)
    if status not in (0, 3, 4, 5):
        raise NoMarks(f"the program answers {plain.strip() or status}")
    bodies = statements.read(text)
    if any(FIRST_MARK <= int(number) <= FIRST_MARK + len(bodies.statements) for number in re.findall(r"\d{10,}", text)):
        raise NoMarks("the source has a number that a mark would have")
    answer, _ = program.answer(["run", "--trace", "--steps", str(MOST_STEPS)], marked(text, bodies))
    told = list(_told(answer.splitlines(), bodies.statements))
    return bodies, _agreed(told, plain.splitlines(), status)


def _agreed(told, lines, status):
    """What is told up to the last line of the run without marks, whose end is its own."""
    kept, at = [], 0
    for one in told:
        if one.sort == "last" or (one.text and at == len(lines) - (status != 0)):
            break
        if one.text:
            if one.text != lines[at]:
                raise NoMarks("the run with marks tells something else")
            at += 1
        kept.append(one)
    if at < len(lines) - (status != 0):
        raise NoMarks(f"the run is too long to be told with the lines of the source: its marks spend {MOST_STEPS:,} steps, or fill the text")
    if status:
        kept.append(Told("last", lines[-1], kept[-1].statement if kept else None))
    return kept


def _told(lines, known):
    """The lines with their statements. A statement that prints has its own line behind its mark, and a dump has several."""
    last = None
    owes = False
    for line in lines:
        number = int(line) - FIRST_MARK if line.isdecimal() else -1
        if 0 <= number < len(known) and not owes:
            last = known[number]
            owes = last.kind == "print"
            yield Told("step", "", last)
            continue
        sort = line.split(" ", 1)[0]
        if re.match(r"(undefined U\d+ \w+ line \d+|limit L\d+|out of steps \d+)$", line):
            sort = "last"
        elif not re.match(r"(call \w+::~?\w+|built \w+|ending \w+) #\d+\+\d+$", line):
            sort, owes = "printed", False
        yield Told(sort, line, last)
