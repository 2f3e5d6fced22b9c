"""Reads the whole text of `tables`: for each class its groups of tables, its VTT and its type information."""
import re
from dataclasses import dataclass, field

from .problem import Problem


@dataclass
class Word:
    """A word of a table. `value` is that of a vbase, vcall or top word; `names` is the class or function that it names.

    `this` and `vcall` are what a thunk adds to `this`, `result_vbase` and `result` what it adds to a result; None where nothing is added.
    """

    number: int
    sort: str
    text: str
    names: str = ""
    value: object = None
    this: object = None
    vcall: object = None
    result_vbase: object = None
    result: object = None

    @property
    def is_thunk(self):
        return self.this is not None or self.result is not None


@dataclass
class Table:
    """A table, by the class of the subobject that it belongs to and that one's place; the words from low to high."""

    owner: str
    place: int
    words: list = field(default_factory=list)

    @property
    def name(self):
        return f"{self.owner}@{self.place}"

    def word(self, number):
        return next((word for word in self.words if word.number == number), None)


@dataclass
class Group:
    """The tables of a view, as `D`, or `B1@0 in D` while the B1 is built or ends."""

    name: str
    tables: list = field(default_factory=list)


@dataclass
class VttWord:
    number: int
    table: str
    group: str


@dataclass
class InfoBase:
    name: str
    offset_flags: int


@dataclass
class TypeInfo:
    """The record of a class: sort is class, si or vmi; the one base of si has no number of its own."""

    name: str
    sort: str
    flags: object = None
    bases: list = field(default_factory=list)


@dataclass
class ClassTables:
    name: str
    groups: list = field(default_factory=list)
    vtt: list = field(default_factory=list)
    info: object = None

    def group(self, name):
        return next((group for group in self.groups if group.name == name), None)


OFFSET = re.compile(r"(vbase|vcall) (-?\d+) (\S+)$")
ENTRY = re.compile(r"(func|complete|deleting) (\S+)(?: this (-?\d+)(?: vcall (-?\d+))?)?(?: return (?:vbase (-?\d+) )?(-?\d+))?$")


def read(text):
    """The tables of each class, by name, in the order of the text. Each class ends with its type information."""
    reader = _Reader(text)
    while reader.lines:
        one = reader.one_class()
        reader.found[one.name] = one
    return reader.found


class _Reader:
    def __init__(self, text):
        self.lines = text.splitlines()[::-1]
        self.found = {}

    def ahead(self):
        return self.lines[-1] if self.lines else ""

    def take(self, pattern):
        found = re.match(pattern + "$", self.ahead())
        if found is None:
            raise Problem(f"the program's tables have a line that is not known here: {self.ahead()!r}")
        self.lines.pop()
        return found

    def one_class(self):
        one = ClassTables("")
        while self.ahead().startswith(("group ", "vtt ")):
            if self.ahead().startswith("vtt "):
                for _ in range(int(self.take(r"vtt \w+ (\d+)")[1])):
                    word = self.take(r"(\d+) (\w+@\d+) of (.+)")
                    one.vtt.append(VttWord(int(word[1]), word[2], word[3]))
            else:
                one.groups.append(self.group())
        one.info = self.type_info()
        one.name = one.info.name
        return one

    def group(self):
        group = Group(self.take(r"group (.+)")[1])
        while self.ahead().startswith("table "):
            head = self.take(r"table (\w+)@(\d+)")
            table = Table(head[1], int(head[2]))
            while re.match(r"-?\d+ ", self.ahead()):
                line = self.take(r"(-?\d+) (.+)")
                table.words.append(word_of(int(line[1]), line[2]))
            group.tables.append(table)
        return group

    def type_info(self):
        head = self.take(r"typeinfo (\w+) (?:(class)|(si) (\w+)|(vmi) flags (\d+) bases (\d+))")
        if head[2]:
            return TypeInfo(head[1], "class")
        if head[3]:
            return TypeInfo(head[1], "si", None, [InfoBase(head[4], 2)])
        bases = [self.take(r"base (\w+) (-?\d+)") for _ in range(int(head[7]))]
        return TypeInfo(head[1], "vmi", int(head[6]), [InfoBase(base[1], int(base[2])) for base in bases])


def _number(text):
    return None if text is None else int(text)


def word_of(number, text):
    """A word, from its number and its text."""
    offset, entry = OFFSET.match(text), ENTRY.match(text)
    if offset:
        return Word(number, offset[1], text, offset[3], int(offset[2]))
    if entry:
        return Word(number, entry[1], text, entry[2], None, *map(_number, entry.groups()[2:]))
    sort, _, rest = text.partition(" ")
    if sort == "top":
        return Word(number, sort, text, "", int(rest))
    if sort in ("typeinfo", "pure", "unused"):
        return Word(number, sort, text, rest)
    raise Problem(f"the program's tables have a word that is not known here: {text!r}")
