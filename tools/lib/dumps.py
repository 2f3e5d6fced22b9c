"""The text of a dump (docs/RUNS.md): the leaves of an object by the program's layout and tables, with what bytes say of each."""
from dataclasses import dataclass

from .layout_text import SIZES


@dataclass
class Leaf:
    """A number, a pointer or a virtual pointer of an object. A bit-field has a width, and a first bit in the byte at its place.

    Of a virtual pointer `table` is the text of the table to which it leads in a complete object, `whole` the class of the complete object that
    has it, and `start` where that begins."""

    place: int
    size: int
    type: str = ""
    text: str = ""
    first: int = 0
    width: object = None
    table: str = ""
    whole: str = ""
    start: int = 0

    @property
    def is_pointer(self):
        return self.type.endswith("*")

    @property
    def end(self):
        """The first byte that holds no bit of it."""
        return self.place + (self.size if self.width is None else (self.first + self.width + 7) // 8)


def leaves(layouts, tables, name):
    """The leaves of an object of a class in the order of a dump."""
    return sorted(_leaves(layouts, tables, name, 0, ""), key=lambda leaf: (leaf.place, leaf.first))


def _leaves(layouts, tables, name, start, front):
    group = tables[name].group(name)
    for table in group.tables if group else []:
        yield Leaf(start + table.place, 8, table=f"{table.name} of {name}", whole=name, start=start)
    for owner, path, at in [(name, "", 0)] + [(base.class_name, base.text + "::", base.place) for base in layouts[name].bases]:
        for member in layouts[owner].members:
            place, text = start + at + member.place, front + path + member.name
            size = 8 if member.type.endswith("*") else SIZES[member.type] if member.type in SIZES else layouts[member.type].size
            for number in range(1 if member.length is None else member.length):
                told = text if member.length is None else f"{text}[{number}]"
                if member.is_object:
                    yield from _leaves(layouts, tables, member.type, place + number * size, told + ".")
                else:
                    yield Leaf(place + number * size, size, member.type, told, member.first, member.width)


def text(number, name, size, found, value_of):
    """The lines of a dump; `value_of` gives the text of a leaf's value."""
    lines, at = [f"dump #{number} {name} {size}"], 0
    for leaf in found:
        if leaf.place > at:
            lines.append(f"{at} pad {leaf.place - at}")
        at = max(at, leaf.end)
        if leaf.table:
            lines.append(f"{leaf.place} vptr {leaf.table}")
        elif leaf.width is not None:
            lines.append(f"{leaf.place} bits {leaf.first} {leaf.width} {value_of(leaf)} {leaf.type} {leaf.text}")
        else:
            lines.append(f"{leaf.place} {value_of(leaf)} {leaf.type} {leaf.text}")
    if at < size:
        lines.append(f"{at} pad {size - at}")
    return "".join(line + "\n" for line in lines)


def bits_of(leaf, content):
    """The number in a bit-field, by the bytes of the object, the low one first; that of a signed type is two's complement."""
    raw = int.from_bytes(content[leaf.place:leaf.end], "little") >> leaf.first & (1 << leaf.width) - 1
    is_signed = not leaf.type.startswith("unsigned") and leaf.type != "bool"
    return raw - (1 << leaf.width) if is_signed and raw >> leaf.width - 1 else raw


class Values:
    """The values of leaves by the bytes of an object. A pointer into the object is `#1` and the place in it; any other has a number of its own."""

    def __init__(self, content, start, endian="little"):
        self.content, self.start, self.endian = content, start, endian
        self.targets = {}  # the number of each address that lies elsewhere
        self.odd = []      # what no value of the language can be, in words

    def of(self, leaf):
        if leaf.width is not None:
            return str(bits_of(leaf, self.content))
        found = self.content[leaf.place:leaf.end]
        if leaf.is_pointer:
            return self.pointer(int.from_bytes(found, self.endian))
        if leaf.type == "bool" and found[0] > 1:
            self.odd.append(f"the bool {leaf.text} at {leaf.place} has the byte {found.hex()}, which is neither 0 nor 1: it is told as one that is not set")
            return "--"
        return found.hex()

    def pointer(self, address):
        if address == 0:
            return "null"
        if 0 <= address - self.start < len(self.content):
            return f"#1+{address - self.start}"
        number = self.targets.setdefault(address, len(self.targets) + 2)
        return f"#{number}+0"
