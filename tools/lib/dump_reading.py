"""What `inspect` has to answer to a text, by the rules of docs/INSPECT.md, and how a dump is written again from its answer."""
import re

from . import class_tables, dumps, layout_text, listing, program
from .layout_text import SIZES

HEAD = re.compile(r"dump #(0|[1-9][0-9]*) ([A-Za-z_][A-Za-z0-9_]*) (0|[1-9][0-9]*)")
DUMP = re.compile(r"^dump #.*\n(?:[0-9]+ .*\n)*", re.M)  # no other line of a run has a number and a blank
NUMBER = re.compile(r"-?[1-9][0-9]*|0")
POINTER = re.compile(r"#([1-9][0-9]*)\+(0|[1-9][0-9]*)")
GREATEST = 4_294_967_295


class Reader:
    """Reads the dumps of the classes of one source."""

    def __init__(self, source):
        self.layouts = layout_text.read(program.text_of(["layout"], source))
        self.tables = class_tables.read(program.text_of(["tables"], source))

    def leaves(self, name):
        return dumps.leaves(self.layouts, self.tables, name)

    def expected(self, whole):
        """The text and the status of `inspect` for its whole input, whose source is the one of this reader."""
        lines = whole.split("\n")
        if listing.PROGRAM not in lines:
            return _form(len(lines) + (lines[-1] != ""))
        lines = lines[:lines.index(listing.PROGRAM)]
        head = HEAD.fullmatch(lines[0]) if lines else None
        if head and head[2] not in self.layouts:
            return "refused I1 UnknownClass line 1\n", 1
        if not head or int(head[3]) != self.layouts[head[2]].size or not 1 <= int(head[1]) <= GREATEST:
            return _form(1)
        return self.body(lines, head[1], head[2])

    def body(self, lines, number, name):
        """The answer to the lines of a dump whose first line fits."""
        told, wanted = [f"object {number} class {name}"], self.wanted(name)
        for at, line in enumerate(lines[1:]):
            said = read_line(line, wanted[at]) if at < len(wanted) else None
            if said is None:
                return _form(at + 2)
            told += [f"{wanted[at].text} {said}"] if said else []
        if len(lines) - 1 < len(wanted):
            return _form(len(lines) + 1)
        return "".join(line + "\n" for line in told), 0

    def wanted(self, name):
        """What each line behind the first has to be: a text, or a leaf."""
        found = self.leaves(name)
        marked = dumps.text(1, name, self.layouts[name].size, found, lambda leaf: "value").splitlines()[1:]
        waiting = [leaf for leaf in found if not leaf.table]
        return [line if re.fullmatch(r"[0-9]+ (?:pad [0-9]+|vptr .*)", line) else waiting.pop(0) for line in marked]

    def written(self, answer):
        """The dump that has the values of an answer; None where its lines are not those of the leaves."""
        lines = answer.splitlines()
        head = re.fullmatch(r"object ([0-9]+) class (\w+)", lines[0]) if lines else None
        if not head or head[2] not in self.layouts:
            return None
        found = self.leaves(head[2])
        named = [leaf for leaf in found if not leaf.table]
        if [line.rpartition(" ")[0] for line in lines[1:]] != [leaf.text for leaf in named]:
            return None
        values = {id(leaf): shown(leaf, line.rpartition(" ")[2]) for leaf, line in zip(named, lines[1:])}
        return dumps.text(int(head[1]), head[2], self.layouts[head[2]].size, found, lambda leaf: values[id(leaf)])


def _form(line):
    return f"refused I2 Form line {line}\n", 1


def dumps_of(text):
    """The dumps in the output of a run."""
    return DUMP.findall(text)


def read_line(line, wanted):
    """The value of a line where a leaf is wanted; an empty text where a pad or a virtual pointer is, and stands there; None where the line does not fit."""
    if isinstance(wanted, str):
        return "" if line == wanted else None
    bits = f"bits {wanted.first} {wanted.width} " if wanted.width is not None else ""
    front, behind = f"{wanted.place} {bits}", f" {wanted.type} {wanted.text}"
    if not (line.startswith(front) and line.endswith(behind) and len(line) > len(front) + len(behind)):
        return None
    return value_of(wanted, line[len(front):-len(behind)])


def value_of(leaf, text):
    """The value that a text is for a leaf, None where it is none."""
    if text == ("--" if leaf.width is not None else "--" * leaf.size):
        return "unset"
    if leaf.is_pointer:
        place = POINTER.fullmatch(text)
        return text if text == "null" or place and max(int(place[1]), int(place[2])) <= GREATEST else None
    if leaf.width is None:
        if not re.fullmatch(f"[0-9a-f]{{{2 * leaf.size}}}", text):
            return None
        number = int.from_bytes(bytes.fromhex(text), "little")
        number -= (1 << 8 * leaf.size) if is_signed(leaf) and number >> 8 * leaf.size - 1 else 0
    elif NUMBER.fullmatch(text):
        number = int(text)
    else:
        return None
    least, most = bounds(leaf)
    return str(number) if least <= number <= most else None


def shown(leaf, value):
    """The text of a value in a dump."""
    if value == "unset":
        return "--" if leaf.width is not None else "--" * leaf.size
    if leaf.is_pointer or leaf.width is not None:
        return value
    return (int(value) % (1 << 8 * leaf.size)).to_bytes(leaf.size, "little").hex()


def is_signed(leaf):
    return leaf.type != "bool" and not leaf.type.startswith("unsigned")


def bounds(leaf):
    """The least and the greatest number of a leaf."""
    width = 1 if leaf.type == "bool" else 8 * SIZES[leaf.type] if leaf.width is None else leaf.width
    return (-(1 << width - 1), (1 << width - 1) - 1) if is_signed(leaf) else (0, (1 << width) - 1)
