"""An object as a tree of parts: bases, members, virtual pointers and padding, each with its place and bytes.

No two boxes of the tree cross: one holds the other, or they lie apart. An empty base takes no bytes and may lie over anything,
so it is a mark of size 0. What no other part takes is padding.
"""
import sys
from dataclasses import dataclass, field

from . import amounts, cpp_names, layout_text, program, source
from .problem import Problem

DEEPEST = 40_000  # calls inside each other: members inside members, at most 1,024 classes


@dataclass
class Part:
    """sort: whole, base, shared base, held base, empty base, member, object, element, repeat, cookie, virtual pointer, padding or tail padding.

    Place and size are in bytes; those of a bit-field, and of padding beside one, have eighths. `name` is what a picture writes into the
    box, and `told` what the part is, in words.
    """

    sort: str
    place: int
    size: int
    name: str
    told: str
    parts: list = field(default_factory=list)
    note: str = ""  # why the part is marked in a picture: where it lies in the layout that this one is drawn beside, or what leads to it

    @property
    def end(self):
        return self.place + self.size

    @property
    def is_mark(self):
        return self.sort == "empty base"

    @property
    def is_padding(self):
        return self.sort in ("padding", "tail padding")

    @property
    def tip(self):
        """What the part is, with its bytes."""
        behind = f"; {self.note}" if self.note else ""
        if self.is_mark:
            return f"{self.told}: no bytes, at {self.place}{behind}"
        return f"{self.told}: {amounts.size_text(self.size)} at {amounts.place_text(self.place)}{behind}"

    def all(self):
        """This part and all below it, each before its own parts."""
        waiting = [self]
        while waiting:
            one = waiting.pop()
            yield one
            waiting += reversed(one.parts)


class Objects:
    """The parts of the classes of a source, by its layouts."""

    def __init__(self, text, layout_words):
        sys.setrecursionlimit(max(sys.getrecursionlimit(), DEEPEST))
        self.text = text
        self.classes = source.classes(text)
        self.layouts = layout_text.read(layout_words)
        self.dynamic = source.dynamic_classes(self.classes)
        self.empty = source.empty_classes(self.classes)

    @classmethod
    def of_text(cls, text):
        """Those of a source, which the program lays out."""
        objects = cls(text, program.text_of(["layout"], text))
        if not objects.layouts:
            raise Problem("the source has no class; give one that defines a class")
        return objects

    def named(self, name):
        """The names of the classes that a tool is asked for: one, which may be named as C++ does, or all where there is no name."""
        name = name and cpp_names.ours(self.text, name)
        if name and name not in self.layouts:
            raise Problem(f"no class {name} is in the source; it has {', '.join(list(self.layouts)[:8])}{' and others' if len(self.layouts) > 8 else ''}")
        return [name] if name else list(self.layouts)

    def whole(self, name, place=0):
        """The object of a class, with its parts at their places in it moved by `place`."""
        layout = self.layouts[name]
        whole = Part("whole", place, layout.size, name, f"object of {name}")
        holders = self.holders(name)
        subobjects = _Subobjects(self, name, holders, place)
        whole.parts = subobjects.inside(name, [], False)
        for base in layout.bases:
            if base.shared and len(base.names) == 1 and base.names[0] not in holders.values():
                whole.parts.append(subobjects.base(base, "shared base"))
        self.pad(whole, layout.dsize + place)
        return whole

    def holders(self, name):
        """Which subobject holds which virtual base: the first in preorder whose primary base it is."""
        layout, held = self.layouts[name], {}
        paths = [((False,), name)] + [((base.shared, *base.names), base.class_name) for base in layout.bases]
        for path, class_name in paths:
            virtual = self.layouts[class_name].virtual_primary
            if virtual and virtual not in held.values():
                held[path] = virtual
        return held

    def member(self, member, start):
        """A member of a subobject that begins at `start`; of an array of classes the first element stands for all."""
        size = layout_text.member_size(self.layouts, member)
        part = Part("member", start + member.start, size, member.name, member.told)
        if not member.is_object:
            return part
        part.sort = "object"
        if member.length is None:
            part.parts = self.whole(member.type, part.place).parts
            return part
        one = self.layouts[member.type].size
        first = Part("element", part.place, one, f"{member.name}[0]", f"{member.type} {member.name}[0]", self.whole(member.type, part.place).parts)
        part.parts = [first]
        if member.length > 1:
            last = member.length - 1
            rest = f"{member.name}[1]" if last == 1 else f"{member.name}[1] to {member.name}[{last}]"
            part.parts.append(Part("repeat", first.end, size - one, rest, f"{member.type} {rest}, {'' if last == 1 else 'each '}as {member.name}[0]"))
        return part

    def pad(self, part, data_end):
        """Adds what no box of it takes: padding, and tail padding behind the end of the data."""
        at, found = part.place, []
        for inner in sorted((one for one in part.parts if not one.is_mark), key=lambda one: one.place):
            found += self.padding(part, at, inner.place, data_end)
            at = max(at, inner.end)  # in a layout from elsewhere two boxes may overlap
        part.parts += found + self.padding(part, at, part.end, data_end)
        part.parts.sort(key=lambda one: (one.place, one.is_mark))

    def padding(self, part, start, end, data_end):
        """What lies between two boxes; where it begins amid the last byte of the data, the bits up to that byte's end are a part of their own."""
        found, borders = [], [start, data_end, end] if part.sort == "whole" and start < data_end < end else [start, end]
        for first, last in zip(borders, borders[1:]):
            if first < last:
                sort, name = ("tail padding", "tail") if part.sort == "whole" and first >= data_end else ("padding", "pad")
                found.append(Part(sort, first, last - first, name, f"{sort} of {part.name}"))
        return found


class _Subobjects:
    """The parts of the base subobjects of one object: a base has its own bases, virtual pointer and members inside."""

    def __init__(self, objects, name, holders, place):
        self.objects, self.holders, self.place = objects, holders, place
        self.bases = {(base.shared, *base.names): base for base in objects.layouts[name].bases}

    def inside(self, name, names, shared):
        """The parts of the subobject with this path, which is of this class."""
        objects, key = self.objects, (shared, *names)
        start = self.place + (self.bases[key].place if names else 0)
        own, held = objects.layouts[name], self.holders.get(key)
        found = [self.base(self.bases[(*key, base.name)], "base") for base in objects.classes[name].bases if not base.virtual]
        if held:
            found.append(self.base(self.bases[True, held], "held base"))
        if name in objects.dynamic and (own.primary == "none" or (own.virtual_primary and not held)):
            found.append(Part("virtual pointer", start, 8, "vptr", f"virtual pointer of {name}"))
        return found + [objects.member(member, start) for member in own.members]

    def base(self, base, sort):
        name = base.class_name
        shown = ("*" if sort != "base" else "") + name
        part = Part(sort, self.place + base.place, self.objects.layouts[name].nvsize, shown, f"{sort} {name}")
        if name in self.objects.empty:
            part.sort, part.size, part.told = "empty base", 0, f"empty {part.told}"
        part.parts = self.inside(name, base.names, base.shared)
        if not part.is_mark:
            self.objects.pad(part, part.end)
        return part
