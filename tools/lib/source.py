"""Reads the class definitions of a source of this workbench, without the bodies of functions."""
import re
from dataclasses import dataclass, field

from .problem import Problem

TOKEN = re.compile(r"\s+|//[^\n]*|/\*.*?\*/|(?P<token>\w+|::|==|!=|->|<=|[^\s\w])", re.S)
SCALAR_WORDS = {"bool", "char", "short", "int", "long", "signed", "unsigned"}
ACCESS = {"public", "protected", "private"}


@dataclass
class Base:
    name: str
    virtual: bool
    access: str


@dataclass
class Field:
    """A data member; a length stands for an array, and a width for a bit-field."""

    type: str
    name: str
    length: object
    access: str
    width: object = None


@dataclass
class Function:
    """A member function; kind is 'function', 'constructor' or 'destructor'."""

    kind: str
    virtual: bool
    result: str
    name: str
    parameters: list
    pure: bool
    access: str


@dataclass
class Class:
    tag: str
    name: str
    bases: list = field(default_factory=list)
    parts: list = field(default_factory=list)

    @property
    def fields(self):
        return [part for part in self.parts if isinstance(part, Field)]

    @property
    def functions(self):
        return [part for part in self.parts if isinstance(part, Function)]


def classes(text):
    """The classes of a source that the program takes, by name, in source order."""
    reader = _Reader(text)
    found = {}
    while reader.ahead():
        one = reader.item()
        if one is not None:
            found[one.name] = one
    return found


class _Reader:
    def __init__(self, text):
        self.tokens = [match["token"] for match in TOKEN.finditer(text) if match["token"]]
        self.at = 0

    def ahead(self, steps=0):
        return self.tokens[self.at + steps] if self.at + steps < len(self.tokens) else ""

    def take(self, wanted=None):
        token = self.ahead()
        if not token or wanted not in (None, token):
            raise Problem(f"the source cannot be read here: {token or 'its end'!r} stands where {wanted or 'more'!r} is needed")
        self.at += 1
        return token

    def skip(self, wanted):
        if self.ahead() == wanted:
            self.at += 1
            return True
        return False

    def block(self):
        """Passes over a block, with the blocks inside."""
        self.take("{")
        depth = 1
        while depth:
            depth += {"{": 1, "}": -1}.get(self.take(), 0)

    def item(self):
        if self.ahead() in ("struct", "class"):
            return self.class_or_forward()
        while self.ahead() not in ("{", ";"):
            self.take()
        self.block() if self.ahead() == "{" else self.take()
        return None

    def class_or_forward(self):
        one = Class(self.take(), self.take())
        if self.skip(";"):
            return None
        default = "public" if one.tag == "struct" else "private"
        if self.skip(":"):
            one.bases.append(self.base(default))
            while self.skip(","):
                one.bases.append(self.base(default))
        self.take("{")
        access = default
        while not self.skip("}"):
            if self.ahead() in ACCESS and self.ahead(1) == ":":
                access = self.take()
                self.take(":")
            else:
                one.parts.append(self.part(one.name, access))
        self.take(";")
        return one

    def base(self, access):
        virtual = False
        while self.ahead() == "virtual" or self.ahead() in ACCESS:
            word = self.take()
            virtual, access = (True, access) if word == "virtual" else (virtual, word)
        return Base(self.take(), virtual, access)

    def type(self):
        words = [self.take()]
        while words[0] in SCALAR_WORDS and self.ahead() in SCALAR_WORDS:
            words.append(self.take())
        star = "*" if self.skip("*") else ""
        return plain_type(" ".join(words)) + star

    def part(self, owner, access):
        virtual = self.skip("virtual")
        if self.skip("~"):
            return self.function("destructor", virtual, "", "~" + self.take(), access)
        if self.ahead() == owner and self.ahead(1) == "(":
            return self.function("constructor", False, "", self.take(), access)
        kind, name = self.type(), self.take()
        if self.ahead() == "(":
            return self.function("function", virtual, kind, name, access)
        length, width = None, None
        if self.skip("["):
            length = int(self.take())
            self.take("]")
        elif self.skip(":"):
            width = int(self.take())
        self.take(";")
        return Field(kind, name, length, access, width)

    def function(self, kind, virtual, result, name, access):
        self.take("(")
        parameters = []
        while not self.skip(")"):
            self.skip(",")
            parameters.append((self.type(), self.take()))
        pure = self.skip("=")
        if pure:
            self.take("0")
            self.take(";")
        else:
            while self.ahead() != "{":
                self.take()
            self.block()
        return Function(kind, virtual, result, name, parameters, pure, access)


def plain_type(words):
    """One spelling for each scalar: `unsigned` is `unsigned int`."""
    return "unsigned int" if words == "unsigned" else words


def dynamic_classes(found):
    """The names of the classes that have a virtual pointer."""
    names = set()
    for one in found.values():
        own = any(function.virtual for function in one.functions)
        if own or any(base.virtual or base.name in names for base in one.bases):
            names.add(one.name)
    return names


def empty_classes(found):
    """The names of the classes without data: no member, no virtual pointer, and bases that are all empty."""
    names, dynamic = set(), dynamic_classes(found)
    for one in found.values():
        if not one.fields and one.name not in dynamic and all(base.name in names for base in one.bases):
            names.add(one.name)
    return names
