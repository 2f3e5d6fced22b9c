"""Reads the texts of `array`, `memptr` and `inspect`."""
import re
from dataclasses import dataclass, field

from .problem import Problem


@dataclass
class Element:
    """An element of an array by its number from 0, and its place in the region."""

    number: int
    place: int


@dataclass
class Array:
    """What `new C[n]` makes: the bytes of its region and of its cookie, the number in the cookie, and the elements as they are built and ended."""

    region: int
    cookie: int
    count: object = None
    elements: list = field(default_factory=list)
    ended: list = field(default_factory=list)


@dataclass
class MemberPointer:
    """A pointer to a member. That to a field has `place` and `bytes`, the lowest first.

    That to a function has the first word `entry` where it is virtual, `code` where it is not, and `adj`. A call through it on a whole object
    runs `calls` with the subobject at `this`; where `is_pure`, there is nothing to run.
    """

    sort: str
    place: object = None
    bytes: object = None
    entry: object = None
    code: object = None
    adj: object = None
    calls: object = None
    this: object = None
    is_pure: bool = False


@dataclass
class Field:
    """What a dump says of a field. Sort: unset, number, null, or pointer, which has the number of an object and a place in it."""

    name: str
    sort: str
    value: object = None
    object: object = None
    place: object = None


@dataclass
class Dump:
    """The object of a dump, its class, and its fields in the order of the dump."""

    number: int
    class_name: str
    fields: list = field(default_factory=list)


def _matched(pattern, text):
    found = re.fullmatch(pattern, text)
    if found is None:
        raise Problem(f"the program's answer has a text that is not known here: {text!r}")
    return found


def array(text):
    head = _matched(r"region (\d+)\ncookie (\d+)\n(?:count ([0-9a-f]{16})\n)?((?:element \d+ at \d+\n)*)((?:end \d+ at \d+\n)*)", text)
    built, ended = ([Element(int(number), int(place)) for number, place in re.findall(r"(\d+) at (\d+)", lines)] for lines in head.groups()[3:])
    return Array(int(head[1]), int(head[2]), int.from_bytes(bytes.fromhex(head[3]), "little") if head[3] else None, built, ended)


def member_pointer(text):
    if text.startswith("data "):
        found = _matched(r"data (\d+)\nbytes ([0-9a-f]{16})\n", text)
        return MemberPointer("data", int(found[1]), found[2])
    found = _matched(r"function (?:virtual (\d+)|code (\S+)) adj (-?\d+)\n(calls|pure) (\S+) at (\d+)\n", text)
    entry = None if found[1] is None else int(found[1])
    return MemberPointer("function", entry=entry, code=found[2], adj=int(found[3]), calls=found[5], this=int(found[6]), is_pure=found[4] == "pure")


def dump(text):
    head, *lines = text.splitlines() or [""]
    found = _matched(r"object (\d+) class (\S+)", head)
    return Dump(int(found[1]), found[2], [_field(line) for line in lines])


def _field(line):
    found = _matched(r"(\S+) (?:(unset|null)|(-?\d+)|#(\d+)\+(\d+))", line)
    if found[2]:
        return Field(found[1], found[2])
    if found[3]:
        return Field(found[1], "number", int(found[3]))
    return Field(found[1], "pointer", None, int(found[4]), int(found[5]))
