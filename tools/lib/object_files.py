"""The layouts that the debug information of an object file tells of the classes of C++, beside those that the program gives what is said of them."""
import re
from dataclasses import dataclass, field

from . import class_text, debug_information, listing, program, restate, source
from .compare import Difference

PIECE = 300  # so many classes at a time, with what they need: a source has at most 1,024 (L2)
ALIGNED = "a class or member that is aligned above 8 has an alignment of 8 here"
UNNAMED = "bit-fields without a name are not told, so that the class is said without them"


@dataclass
class Compared:
    """What came of the classes of an object file, by their names in C++."""

    said: set = field(default_factory=set)
    by_size: set = field(default_factory=set)  # by a stand-in of their size
    missing: dict = field(default_factory=dict)
    differences: list = field(default_factory=list)


def of_object(path):
    """Compares all classes of an object file."""
    found, compared = debug_information.read(path), Compared()
    restating, order = restate.Restating(found.names, anywhere=True), found.names.order
    for first in range(0, len(order), PIECE):
        _piece(path, restating, order[first:first + PIECE], compared)
    compared.missing = {record.name: record.missing for record in order if record.missing}
    return compared


def _piece(path, restating, records, compared):
    """Compares some classes and what they need, but for those that were compared before."""
    restated = class_text.write(restating, restating.closure(records))
    classes = source.classes(restated.text)
    numbers = listing.Said(restating, restated).of_classes(classes)
    layouts = {text.split()[1]: text.splitlines() for text in re.split(r"(?m)^(?=class )", program.text_of(["layout"], restated.text))[1:]}
    for record in restated.records:
        if record.name in compared.said | compared.by_size:
            continue
        name = restated.names[record.name]
        (compared.said if restating.level(record)[0] == restate.SAID else compared.by_size).add(record.name)
        ours, theirs = layouts[name], listing.class_text(classes, classes[name], numbers[name]).splitlines()
        if ours != theirs:
            words = [line for line in ours if line not in theirs] + [f"{path}: {line}" for line in theirs if line not in ours]
            compared.differences.append(Difference(path, record.name, path, words, reason(ours, theirs)))


def reason(ours, theirs):
    """Why the lines of a class differ, where it is known, else an empty text."""
    numbers, theirs_numbers = (re.findall(r" (\d+)", lines[0]) for lines in (ours, theirs))  # size, align, dsize, nvsize, nvalign
    if int(theirs_numbers[1]) > 8:
        return ALIGNED if (numbers[0], numbers[2:4], ours[1:]) == (theirs_numbers[0], theirs_numbers[2:4], theirs[1:]) else ""
    if numbers[1] != theirs_numbers[1] or any(" base " in line for line in ours) or [line.split(" ", 1)[1] for line in ours[1:]] != [line.split(" ", 1)[1] for line in theirs[1:]]:
        return ""
    gaps = [int(there.split()[0]) - int(here.split()[0]) for here, there in zip(ours[2:], theirs[2:])] + [int(theirs_numbers[0]) - int(numbers[0])]
    return UNNAMED if all(0 <= before <= behind for before, behind in zip([0, *gaps], gaps)) and gaps[-1] > 0 else ""
