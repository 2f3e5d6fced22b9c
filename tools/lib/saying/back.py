"""Puts the texts of a program back into what a run printed, by the table of templates that the source has as comments."""
import itertools
import json
import re

from ..clang import FIRST
from ..problem import Problem
from .printing import HOLE, WIDTHS

ROW = re.compile(r"^// #1\+(\d+) (?:(abort|exit|assert|aside)\b ?)?(.*)$", re.M)
MARK = re.compile(r"#1\+(\d+)")
ENDS = re.compile(r"(?:undefined|out of steps|limit|refused) ?.*")


class Output:
    """What a program wrote: `text` to its output, `aside` to its errors, `status` as it ended, or None where it did not end by itself; `last` is the run's last line."""

    def __init__(self):
        self.text, self.aside, self.status, self.last = "", "", 0, ""
        self.ended = False


def table(source):
    """The templates of a source by their numbers: what kind of row it is, and its text."""
    if not source.startswith(FIRST):
        raise Problem(f"the file is none that tools/from-cpp --program gave, which begins with '{FIRST.strip()}'")
    try:
        return {int(number): (kind or "text", json.loads(text) if text else "") for number, kind, text in ROW.findall(source)}
    except ValueError:
        raise Problem("a comment of the file is no text as tools/from-cpp --program writes it") from None


def integer(value, hole):
    """A number as a conversion of `printf` takes it."""
    bits = WIDTHS[hole[4] or ""]
    value &= (1 << bits) - 1
    return value - (1 << bits) if hole[5] in "di" and value >> (bits - 1) else value


def one_hole(hole, word, rows):
    """The text for one hole of a template."""
    front = "%" + hole[1] + hole[2] + ("." + hole[3] if hole[3] else "")
    if hole[5] == "c":
        return (front + "c") % chr(int(word) & 255)
    if hole[5] == "s":
        mark = MARK.fullmatch(word)
        text = "(null)" if word == "null" else rows[int(mark[1])][1].replace("%%", "%") if mark else word
        return (front + "s") % text
    return (front + hole[5].replace("u", "d")) % integer(int(word), hole)


def put_back(source, printed):
    """The output of a program, by its source and the lines of a run."""
    rows, out = table(source), Output()
    lines = iter(printed.splitlines())
    for line in lines:
        mark = MARK.fullmatch(line)
        if ENDS.fullmatch(line):
            out.last = line
        elif mark is None:
            out.text += line + "\n"
        else:
            filled_in(rows, int(mark[1]), lines, out)
    if out.last and out.status == 0 and not out.ended:
        out.status = None
    return out


def holes(rows, number):
    """How many lines behind the number of a template fill its holes."""
    kind, text = rows[number]
    return 1 if kind == "exit" else sum(hole[5] != "%" for hole in HOLE.finditer(text)) if kind in ("text", "aside") else 0


def filled_in(rows, number, lines, out):
    """Writes the text of a number with what fills its holes, which are the lines behind it; nothing where the run ends before them."""
    try:
        kind, text = rows[number]
        words = list(itertools.islice(lines, holes(rows, number)))
        out.last = next((word for word in words if ENDS.fullmatch(word)), "")
        if not out.last:
            template(rows, kind, text, iter(words), out)
    except (KeyError, ValueError, StopIteration):
        raise Problem("the lines are none of a run of this source; give both from one program: ./tagymelur run < FILE | tools/from-cpp --print FILE") from None


def template(rows, kind, text, lines, out):
    if kind in ("abort", "assert"):
        out.status, out.ended = 134, True
        out.aside += f"Assertion `{text}' failed.\n" if kind == "assert" else ""
    elif kind == "exit":
        out.status, out.ended = int(next(lines)) & 255, True
    else:
        filled = HOLE.sub(lambda hole: "%" if hole[5] == "%" else one_hole(hole, next(lines), rows), text)
        if kind == "aside":
            out.aside += filled
        else:
            out.text += filled


