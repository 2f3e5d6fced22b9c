"""What clang says of the target that flags name: its sizes, and whether it is one of LP64."""
import re

from . import clang
from .cpp_types import OTHER, WIDE
from .problem import Problem

MACRO = re.compile(r"#define (\w+) (.*)")
WORDS = {1: "unsigned char", 2: "unsigned short", 4: "int"}


class Target:
    """The macros by which clang describes a target; a problem where it is not one of LP64."""

    def __init__(self, flags):
        output, said, good = clang.call(["clang++", "-x", "c++", *flags, "-dM", "-E", "-"], "")
        if not good:
            raise Problem("clang++ does not take the flags. It says:\n  " + "\n  ".join([line for line in said.splitlines() if "error" in line][:3] or said.splitlines()[-1:]))
        self.macros = dict(match.groups() for match in map(MACRO.match, output.splitlines()) if match)
        pointer, long = self.number("__SIZEOF_POINTER__"), self.number("__SIZEOF_LONG__")
        if (pointer, long) != (8, 8):
            raise Problem(f"this target is not LP64: a pointer has {pointer} bytes and a long {long}, where the layouts of this workbench have 8 and 8; give another --target")
        if "-fshort-enums" in flags:
            raise Problem("by -fshort-enums an enumeration has other sizes than those by which the classes are said; leave it out")

    def number(self, name):
        return int(self.macros.get(name, "0"))

    @property
    def is_big_endian(self):
        return self.macros.get("__BYTE_ORDER__") == "__ORDER_BIG_ENDIAN__"

    def set_types(self, types):
        """Tells the types of a source the sizes that differ from target to target."""
        size = self.number("__SIZEOF_LONG_DOUBLE__")
        types.wide = {**WIDE, "long double": (size, size), "_Complex long double": (2 * size, size)}
        types.other = {**OTHER, "wchar_t": WORDS.get(self.number("__SIZEOF_WCHAR_T__"), "int")}
