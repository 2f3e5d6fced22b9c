"""What the program answers, as typed values: the lines of a run, the events of a trace, and how it ended."""
import re
from dataclasses import dataclass, field

from . import error_pages, program

KINDS = {0: "done", 1: "refused", 2: "usage", 3: "undefined", 4: "out of steps", 5: "limit"}


@dataclass
class End:
    """How the program ended. `at` is a byte from 0; line and column count from 1; None where an end has no such thing.

    Bytes and lines are those of the source; the line of a rule of listings and dumps (F, I) is one of the text before it.
    """

    kind: str
    status: int
    rule: object = None
    name: object = None
    at: object = None
    line: object = None
    column: object = None
    sentence: object = None
    section: object = None


@dataclass
class Event:
    """A line of a trace: call, built and ending name a function or class, an object and a place in it; printed has its text."""

    kind: str
    text: str
    name: object = None
    object: object = None
    place: object = None
    line: object = None


@dataclass
class Run:
    """The lines that `main` printed; with a trace also all its events in their order."""

    lines: list
    end: End
    events: list = field(default_factory=list)


def place_of(source, at):
    """The line and the column of a byte, both from 1."""
    front = source[:at]
    return front.count("\n") + 1, at - front.rfind("\n")


def ask(words, text):
    """What the program says to words and its input, without the line that tells the end, and the end."""
    answer, status = program.answer(words, text)
    lines = answer.splitlines()
    if status == 0:
        return answer, End("done", 0)
    last = lines[-1] if lines and status in KINDS else ""
    end = end_of(last, status, source_of(words, text))
    return "".join(f"{line}\n" for line in (lines[:-1] if last else lines)), end


def joined(before, source):
    """The input of `foreign` and `inspect`: a listing or a dump, a line `program`, and the source."""
    return before + ("" if before.endswith("\n") or not before else "\n") + "program\n" + source


def source_of(words, text):
    """The part of an input that is the source, in which places count."""
    found = re.search(r"^program(?:\n|\Z)", text, re.M) if words[:1] in (["foreign"], ["inspect"]) else None
    return text[found.end():] if found else text


def end_of(last, status, source):
    """The end that a last line tells, with the sentence of docs/ERRORS.md."""
    end = End(KINDS.get(status, "failed"), status, sentence=program.STATUSES.get(status))
    refused = re.match(r"refused ([EMAFI]\d+) (\w+)(?: at (\d+)| line (\d+))?$", last)
    undefined, limit = re.match(r"undefined (U\d+) (\w+) line (\d+)$", last), re.match(r"limit (L\d+)$", last)
    if refused:
        end.rule, end.name, end.line = refused[1], refused[2], _number(refused[4])
        if refused[3]:
            end.at = int(refused[3])
            end.line, end.column = place_of(source, end.at)
    elif undefined:
        end.rule, end.name, end.line = undefined[1], undefined[2], int(undefined[3])
    elif limit:
        end.rule = limit[1]
    elif status == 2:
        end.sentence = "the words are no command of this build"
    elif status == 4:
        end.sentence = f"the budget was spent: {last}"
    entry = error_pages.entries().get(end.rule)
    if entry is not None:
        end.sentence, end.section = entry.sentence, entry.section
    return end


def _number(text):
    return None if text is None else int(text)


def event_of(text):
    """A line of a trace."""
    found = re.match(r"(call|built|ending) (\S+) #(\d+)\+(\d+)$", text)
    if found:
        return Event(found[1], text, found[2], int(found[3]), int(found[4]))
    return Event("printed", text)


def run(text, machine="run", steps=None, trace=False):
    """A run on one of the machines, `run` or `paths`, or on `foreign` over a listing before the source; however it ended."""
    words = [machine] + ([] if steps is None else ["--steps", str(steps)]) + (["--trace"] if trace else [])
    answer, end = ask(words, text)
    events = [event_of(line) for line in answer.splitlines()]
    lines = [event.text for event in events if event.kind == "printed"] if trace else answer.splitlines()
    return Run(lines, end, events if trace else [])
