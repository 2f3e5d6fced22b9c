"""Runs the program on an input, and says what is wrong with its answer, if anything is."""
import re
from collections import namedtuple

from .. import error_pages, problem, program
from . import commands, runner

DONE, REFUSED, USAGE, UNDEFINED, OUT_OF_STEPS, LIMIT, READ_FAULT, WRITE_FAULT, NO_MEMORY, NO_WORDS = range(10)
ENDED = (UNDEFINED, OUT_OF_STEPS, LIMIT)  # a run may have told lines before it ended so
BUDGET = 1_000_000
LOOKED_AT = 200  # so many lines at each end of a long text

# the last lines of each status; a rule has a place or a line where its kind has one
LAST_LINES = {status: [re.compile(form) for form in forms] for status, forms in {
    REFUSED: [r"refused (?P<code>E\d+) (?P<name>\w+) at (?P<at>\d+)", r"refused (?P<code>[FI]\d+) (?P<name>\w+) line (?P<line>\d+)", r"refused (?P<code>[AM]\d+) (?P<name>\w+)"],
    USAGE: ["usage"],
    UNDEFINED: [r"undefined (?P<code>U\d+) (?P<name>\w+) line (?P<line>\d+)"],
    OUT_OF_STEPS: [r"out of steps (?P<steps>\d+)"],
    LIMIT: [r"limit (?P<code>L\d+)"],
}.items()}
LATER_RULES = "AFIM"  # docs/ERRORS.md may not have them yet; a line behind the text counts for these

Fault = namedtuple("Fault", "sort sentence")


class Judge:
    """Asks the program for its answer to an input, twice, and for what must go with it."""

    def __init__(self, seconds=5):
        self.runner = runner.Runner(seconds)
        self.names = {entry.code: entry.name for entry in error_pages.entries().values()}

    def fault(self, given):
        """The fault of an input, None where there is none, and its answer."""
        answer = self.runner.answer(given.words, given.text)
        wrong = self.alone(given, answer) or self.again(given, answer)
        if wrong or given.command is None or answer.status == NO_WORDS:
            return wrong, answer
        return self.beside(given, answer), answer

    def alone(self, given, answer):
        """What is wrong with an answer by itself."""
        if answer is None:
            return Fault("slow", f"no answer after {self.runner.seconds} seconds of a processor")
        if answer.status < 0:
            return Fault("signal", f"ended by signal {-answer.status}")
        if answer.status not in range(10):
            return Fault("status", f"status {answer.status} is none of those that are stated")
        if answer.errors:
            return Fault("errors", f"{len(answer.errors)} bytes on standard error: {answer.errors[:80]!r}")
        if answer.seconds > self.runner.seconds:
            return Fault("slow", f"it took {answer.seconds:.1f} processor seconds")
        wrong = self.form(given, answer)
        return wrong and Fault(f"form of status {answer.status}", f"status {answer.status}, but {wrong}")

    def form(self, given, answer):
        """What is wrong with the text of an answer by its status."""
        lines = answer.text.decode("latin-1").split("\n")
        if lines.pop() != "":
            return "the last line has no end"
        if answer.status in (READ_FAULT, WRITE_FAULT, NO_MEMORY):
            return "nothing failed, and there was memory"
        if answer.status == NO_WORDS:
            return "all words are text" if all(is_text(word) for word in given.words) else "something was written" if lines else None
        if answer.status == DONE:
            return self.unfit(given, lines)
        wrong = "no last line was written" if not lines else self.unlike(given, answer.status, lines.pop())
        if not wrong and lines and answer.status not in ENDED:
            return "it is not the only line"
        return wrong or self.unfit(given, lines)

    def unlike(self, given, status, line):
        """What is wrong with a last line."""
        found = next(filter(None, (form.fullmatch(line) for form in LAST_LINES[status])), None)
        if not found:
            return f"the last line is {line[:80]!r}"
        said = {name: found.groupdict().get(name) or "" for name in ("code", "name", "at", "line", "steps")}
        if said["code"] and self.names.get(said["code"], said["name"] if said["code"][0] in LATER_RULES else None) != said["name"]:
            return f"there is no rule {line[:80]!r}"
        if said["at"] and int(said["at"]) > len(given.text):
            return f"the place {said['at']} is behind the text"
        behind = given.text.count(b"\n") + (2 if said["code"][:1] in LATER_RULES else 1)
        if said["line"] and not 1 <= int(said["line"]) <= behind:
            return f"the text has no line {said['line']}"
        if said["steps"] and given.command and int(said["steps"]) != budget(given.words):
            return f"the last line is {line!r}, and the budget was {budget(given.words)}"
        return None

    def unfit(self, given, lines):
        """What is wrong with the lines of an output."""
        if given.command is None:
            return None
        some = lines if len(lines) <= 2 * LOOKED_AT else lines[:LOOKED_AT] + lines[-LOOKED_AT:]
        wrong = next((line for line in some if not given.command.form.fullmatch(line)), None)
        return wrong if wrong is None else f"no line of {given.command.name} is like {wrong[:80]!r}"

    def again(self, given, answer):
        """Whether a second run answers otherwise, in which the C library fills the memory that it gives."""
        second = self.runner.answer(given.words, given.text, runner.OTHER_MEMORY)
        if second is None or (second.text, second.status, second.errors) != (answer.text, answer.status, answer.errors):
            return Fault("twice", "the second answer differs from the first")
        return None

    def beside(self, given, answer):
        """What is wrong with an answer beside those of other commands on the same source."""
        if given.command.takes != commands.SOURCE or given.command.name == "check":
            return None
        checked = self.runner.answer([b"check"], given.text)
        if checked is None:
            return Fault("slow", "`check` gives no answer")
        return self.verdict(given, answer, checked) or (self.machines(given, answer) if checked.status == DONE else None)

    def verdict(self, given, answer, checked):
        """Whether a command refuses what `check` refuses, and nothing else."""
        if checked.status != DONE:
            alike = (checked.text, checked.status) == (answer.text, answer.status)
            return None if alike else Fault("verdict", f"`check` answers {last_line(checked)!r}, and this command {last_line(answer)!r}")
        late = [f"refused E22 UnknownName at {len(given.text)}", "limit L8", "limit L9", "limit L10"]
        if answer.status in (REFUSED, LIMIT) and last_line(answer) not in late and not re.match(f"refused [{LATER_RULES}]", last_line(answer)):
            return Fault("verdict", f"`check` takes the source, and this command answers {last_line(answer)!r}")
        return None

    def machines(self, given, answer):
        """Whether the other machine answers otherwise, where a source is run; without a trace, which one of them has alone."""
        other = {"run": b"paths", "paths": b"run"}.get(given.command.name)
        if other is None:
            return None
        second = self.runner.answer(tuple(other if word in (b"run", b"paths") else word for word in given.words), given.text)
        if second is None or (second.text, second.status) != (answer.text, answer.status):
            return Fault("machines", "`run` and `paths` do not answer alike")
        return None


def is_text(word):
    """Whether a word of the command line is text, as the program takes it."""
    try:
        word.decode("utf-8")
    except UnicodeDecodeError:
        return False
    return True


def budget(words):
    """How many steps the words of a command give."""
    return int(words[words.index(b"--steps") + 1]) if b"--steps" in words else BUDGET


def last_line(answer):
    """The last line of an answer as text."""
    lines = answer.text.decode("latin-1").splitlines()
    return lines[-1][:80] if lines else ""


def known(judge):
    """The commands that the program has: one that answers `usage` to words of its own is missing."""
    asked = {"gen": [b"gen", b"1"], "array": [b"array", b"A@1"], "memptr": [b"memptr", b"A::x"]}
    found = []
    for command in commands.COMMANDS:
        answer = judge.runner.answer(asked.get(command.name, command.name.encode().split()), b"struct A { int x; };")
        if answer is None or answer.status < 0:
            raise problem.Problem(f"{program.path()} does not answer `{command.name}` at all", 2)
        found += [command] if answer.status != USAGE else []
    if not found:
        raise problem.Problem(f"{program.path()} has none of the commands", 2)
    return found
