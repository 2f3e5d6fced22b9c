"""What a C++ type is in a body: a number, a pointer to a class, a text, an object, an array, or nothing that can be said.

A pointer to a number, or to a pointer, points to a *box*: a class with this one member `v`. A reference is a pointer.
"""
import re
from dataclasses import dataclass

from .. import cpp_types

BITS = {
    "bool": 1, "char": 8, "signed char": 8, "unsigned char": 8, "short": 16, "unsigned short": 16, "int": 32, "unsigned int": 32, "unsigned": 32, "long": 64,
    "unsigned long": 64, "long long": 64, "unsigned long long": 64,
}


@dataclass
class Shape:
    """sort: number, pointer, text, object, array, void or unsayable. `word` is our type, or the reason; `inner` what an array has or a pointer points to."""

    sort: str
    word: str = ""
    record: object = None
    inner: object = None
    length: int = 0
    floating: bool = False

    @property
    def bits(self):
        return BITS[self.word]

    @property
    def signed(self):
        return self.word in ("char", "signed char", "short", "int", "long", "long long")


class Shapes:
    """The shapes of types. `namer` gives the names of classes, boxes and texts in our language."""

    def __init__(self, names, namer):
        self.types = cpp_types.Types(names)
        self.namer = namer
        self.known = {}

    def of(self, text, record=None):
        """The shape of a type, as the members of a class name it where one is given."""
        key = (text, record.name if record else "")
        if key not in self.known:
            types = self.types.inside(record) if record else self.types
            if not record:
                types.around = [""]
            text = text.replace("(lambda at ", "(unnamed at ")  # its class has no other name
            self.known[key] = self.read(cpp_types.without_qualifiers(text), text, types)
        return self.known[key]

    def read(self, text, whole, types):
        text = text.strip()
        outer = re.sub(r"<[^<>]*>", "", re.sub(r"<[^<>]*>", "", re.sub(r"<[^<>]*>", "", text)))
        reference = re.fullmatch(r"(.*)\((?:\*|&)\)((?:\[\d+\])+)", outer)
        if reference:
            return self.pointer(self.read(reference[1] + reference[2], whole, types))
        if "(" in outer and "(unnamed" not in outer and "(anonymous" not in outer or "::*" in outer:
            return Shape("unsayable", "a pointer to a member" if "::*" in outer else "a pointer or reference to a function")
        array = re.fullmatch(r"(.*?)\[(\d*)\]((?:\[\d+\])*)", text)
        if array:
            return self.array(self.read(array[1] + array[3], whole, types), int(array[2] or 0))
        if text.endswith("&"):
            return self.pointer(self.read(text.rstrip("& "), whole, types))
        if text.endswith("*"):
            target = text[:-1].strip()
            if target in ("char", "signed char", "unsigned char") and re.search(r"\bconst\b", whole):
                return Shape("text", self.namer.text() + "*")
            return self.pointer(self.read(target, whole, types))
        return self.plain(text, types)

    def pointer(self, target):
        """A pointer or reference to a shape."""
        if target.sort in ("unsayable", "void"):
            return Shape("unsayable", target.word if target.sort == "unsayable" else "void*")
        if target.sort == "object":
            return Shape("pointer", self.namer.record(target.record) + "*", target.record, target)
        if target.sort == "array":
            return Shape("unsayable", "a pointer or reference to an array")
        return Shape("pointer", self.namer.box(target.word) + "*", None, target)

    def array(self, element, length):
        if element.sort in ("unsayable", "void"):
            return element
        if element.sort == "array":
            return Shape("unsayable", "an array of arrays")
        if length > 4096:
            return Shape("unsayable", f"an array of {length} elements, where 4,096 are the most")
        return Shape("array", inner=element, length=length)

    def plain(self, name, types):
        kind = types.kind(name)
        if kind.sort == "void":
            return Shape("void", "void")
        if kind.sort == "object":
            return Shape("object", record=kind.record)
        if kind.sort == "scalar" and kind.length is None:
            return Shape("number", kind.word, floating=kind.note in ("float", "double"))
        if kind.sort == "pointer":
            return Shape("unsayable", f"the type {name}")
        return Shape("unsayable", kind.word or f"the type {name}")


def wrapped(value, shape):
    """A number as a type keeps it."""
    if shape.word == "bool":
        return int(value != 0)
    value &= (1 << shape.bits) - 1
    return value - (1 << shape.bits) if shape.signed and value >> (shape.bits - 1) else value
