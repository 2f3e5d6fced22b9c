"""The bytes of an object that no number and no pointer takes: each hole with what lies before it and behind it."""
import re
from dataclasses import dataclass


@dataclass
class Leaf:
    """A number, a pointer, an array of these, or a virtual pointer, with its place in the whole object."""

    place: int
    size: int
    name: str

    @property
    def end(self):
        return self.place + self.size


@dataclass
class Hole:
    """Bytes without a leaf. `count` holes are alike: those of the elements of arrays; the first of them is told."""

    place: int
    size: int
    before: str
    behind: str
    count: int = 1

    @property
    def total(self):
        return self.size * self.count


def leaves(objects, name):
    """The leaves of an object of a class, in the order of their places."""
    return sorted(_leaves(objects.whole(name), ""), key=lambda leaf: leaf.place)


def _leaves(part, front):
    """The leaves below a part; `front` is the way to it through members."""
    found = []
    for inner in part.parts:
        if inner.sort == "virtual pointer":
            found.append(Leaf(inner.place, inner.size, f"the {inner.told}{' in ' + front[:-1] if front else ''}"))
        elif inner.sort == "member":
            found.append(Leaf(inner.place, inner.size, front + inner.name))
        elif inner.sort == "object" and not any(below.sort == "element" for below in inner.parts):
            found += _leaves(inner, f"{front}{inner.name}.")
        elif inner.sort == "object":
            found += _elements(inner, front)
        elif not inner.is_padding and not inner.is_mark:
            found += _leaves(inner, front)
    return found


def _elements(array, front):
    """The leaves of all elements of an array: those of the first one, moved on."""
    element = array.parts[0]
    first = _leaves(element, f"{front}{element.name}.")
    found = []
    for number in range(array.size // element.size):
        name = f"{front}{array.name}[{number}]"
        found += [Leaf(leaf.place + number * element.size, leaf.size, leaf.name.replace(f"{front}{element.name}", name, 1)) for leaf in first]
    return found


def holes(objects, name):
    """The holes of an object of a class; those between like leaves of elements are counted together."""
    size, at, before, found = objects.layouts[name].size, 0, "the start", {}
    ends = [(leaf.place, leaf.end, leaf.name) for leaf in leaves(objects, name)] + [(size, size, "the end")]
    for start, end, behind in ends:
        if start > at:
            key = (start - at, re.sub(r"\[\d+\]", "[]", before), re.sub(r"\[\d+\]", "[]", behind))
            hole = found.setdefault(key, Hole(at, start - at, before, behind, 0))
            hole.count += 1
        at, before = end, behind
    return list(found.values())


def taken(objects, name):
    """How many bytes the leaves of a class take."""
    return sum(leaf.size for leaf in leaves(objects, name))

