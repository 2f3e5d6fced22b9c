"""Reads the text of `layout`."""
import re
from dataclasses import dataclass, field

from .problem import Problem


@dataclass
class Base:
    """A base subobject: its place in bytes, and the names of its path; a shared one begins at a virtual base."""

    place: int
    names: list
    shared: bool

    @property
    def text(self):
        return ("*" if self.shared else "") + "/".join(self.names)

    @property
    def class_name(self):
        return self.names[-1]


@dataclass
class Member:
    """A data member that the class itself declares; a length stands for an array. A bit-field has a width, and a first bit in its byte."""

    place: int
    type: str
    length: object
    name: str
    first: int = 0
    width: object = None

    @property
    def is_object(self):
        return self.type not in SIZES and not self.type.endswith("*")

    @property
    def shown_type(self):
        return self.type if self.length is None else f"{self.type}[{self.length}]"

    @property
    def told(self):
        """The member with its type, as it is declared."""
        return f"{self.shown_type} {self.name}" + ("" if self.width is None else f" : {self.width}")

    @property
    def start(self):
        """Where its value begins, in bytes; that of a bit-field in eighths."""
        return self.place if self.width is None else self.place + self.first / 8


@dataclass
class Layout:
    """The layout of one class; all numbers are bytes. `primary` is none, a name, or 'virtual' and a name."""

    name: str
    size: int
    align: int
    dsize: int
    nvsize: int
    nvalign: int
    primary: str = "none"
    bases: list = field(default_factory=list)
    members: list = field(default_factory=list)

    @property
    def title(self):
        """What stands over a picture of the class."""
        return f"{self.name}: size {self.size}, align {self.align}, dsize {self.dsize}, nvsize {self.nvsize}, primary {self.primary}"

    @property
    def virtual_primary(self):
        """The name of the primary base where it is virtual, else nothing."""
        return self.primary[len("virtual "):] if self.primary.startswith("virtual ") else ""


SIZES = {
    "bool": 1, "char": 1, "signed char": 1, "unsigned char": 1, "short": 2, "unsigned short": 2, "int": 4, "unsigned int": 4,
    "long": 8, "unsigned long": 8, "long long": 8, "unsigned long long": 8,
}
HEAD = re.compile(r"class (\w+) size (\d+) align (\d+) dsize (\d+) nvsize (\d+) nvalign (\d+)$")
FIELD = re.compile(r"(\d+) field (.+?)(?:\[(\d+)\])? (\w+)$")
BITS = re.compile(r"(\d+) bits (\d+) (\d+) (.+) (\w+)$")
BASE = re.compile(r"(\d+) base (\*?)([\w/]+)$")


def read(text):
    """The layouts of a text, by class name, in its order."""
    layouts, current = {}, None
    for line in text.splitlines():
        head = HEAD.match(line)
        if head:
            current = Layout(head[1], *map(int, head.groups()[1:]))
            layouts[current.name] = current
        elif current is None or not _read_line(current, line):
            raise Problem(f"the program's layout has a line that is not known here: {line!r}")
    return layouts


def _read_line(layout, line):
    base, member, bits = BASE.match(line), FIELD.match(line), BITS.match(line)
    if line.startswith("primary "):
        layout.primary = line[len("primary "):]
    elif base:
        layout.bases.append(Base(int(base[1]), base[3].split("/"), bool(base[2])))
    elif member:
        layout.members.append(Member(int(member[1]), member[2], int(member[3]) if member[3] else None, member[4]))
    elif bits:
        layout.members.append(Member(int(bits[1]), bits[4], None, bits[5], int(bits[2]), int(bits[3])))
    else:
        return False
    return True


def member_size(layouts, member):
    """The bytes of a member, its elements together; those of a bit-field in eighths."""
    if member.width is not None:
        return member.width / 8
    if member.type.endswith("*"):
        one = 8
    else:
        one = SIZES[member.type] if member.type in SIZES else layouts[member.type].size
    return one * (1 if member.length is None else member.length)
