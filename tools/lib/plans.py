"""The order in which an object is built and ended: a plan of events, each of one subobject.

The rules are those of docs/RUNS.md (ISO C++03 12.6.2 p5, 12.4 p6). A member of class type is a complete object of its own, with
subobjects and virtual pointers of its own; so is each element of an array of such members.
"""
from dataclasses import dataclass, field


@dataclass
class Subobject:
    """`place` counts from the start of the heap object. `whole` is the complete object that it belongs to."""

    number: int
    whole: object
    class_name: str
    names: list
    shared: bool
    place: int

    @property
    def path(self):
        return ("*" if self.shared else "") + "/".join(self.names)

    @property
    def text(self):
        inside = self.whole.path
        return " ".join(filter(None, [self.path or self.class_name, f"in the member {inside}" if inside else ""]))


@dataclass
class CompleteObject:
    """An object, or a member of class type in one: its subobjects by path, and the objects inside by subobject, in the order of members."""

    class_name: str
    place: int
    path: str
    parts: dict = field(default_factory=dict)
    inside: dict = field(default_factory=dict)


class Objects:
    """Makes objects and plans from the classes of a source and their layouts."""

    def __init__(self, classes, layouts):
        self.classes = classes
        self.layouts = layouts

    def object_of(self, name):
        """A heap object of a class, and all subobjects in it by number."""
        found = []
        return self._object(name, 0, "", found), found

    def _object(self, name, place, path, found):
        one = CompleteObject(name, place, path)
        whole = [("", name, [], False, 0)]
        for text, class_name, names, shared, at in whole + [(base.text, base.class_name, base.names, base.shared, base.place) for base in self.layouts[name].bases]:
            one.parts[text] = Subobject(len(found), one, class_name, names, shared, place + at)
            found.append(one.parts[text])
        for text, part in list(one.parts.items()):
            one.inside[text] = list(self._members(part, path, found))
        return one

    def _members(self, part, path, found):
        for member in self.layouts[part.class_name].members:
            if member.is_object:
                front = ".".join(filter(None, [path, (part.path + "::" if part.path else "") + member.name]))
                for index in range(member.length or 1):
                    at = part.place + member.place + index * self.layouts[member.type].size
                    yield self._object(member.type, at, front + ("" if member.length is None else f"[{index}]"), found)

    def virtual_bases(self, name):
        """The virtual bases of a class in the order in which they are built."""
        found = []
        for base in self.classes[name].bases:
            found += [one for one in self.virtual_bases(base.name) if one not in found]
            if base.virtual and base.name not in found:
                found.append(base.name)
        return found

    def direct(self, part):
        """The direct non-virtual bases of a subobject."""
        for base in self.classes[part.class_name].bases:
            if not base.virtual:
                yield part.whole.parts[("*" if part.shared else "") + "/".join([*part.names, base.name])]

    def built(self, one):
        """The events that build an object: begin, ready and done, each with its subobject."""
        yield from self._built(one.parts[""], [one.parts["*" + name] for name in self.virtual_bases(one.class_name)])

    def _built(self, part, virtual=()):
        yield "begin", part
        for base in [*virtual, *self.direct(part)]:
            yield from self._built(base)
        yield "ready", part
        for inner in part.whole.inside[part.path]:
            yield from self.built(inner)
        yield "done", part

    def ended(self, one):
        """The events that end it: ending, bases and end."""
        yield from self._ended(one.parts[""], [one.parts["*" + name] for name in self.virtual_bases(one.class_name)])

    def _ended(self, part, virtual=()):
        yield "ending", part
        for inner in reversed(part.whole.inside[part.path]):
            yield from self.ended(inner)
        yield "bases", part
        for base in reversed([*virtual, *self.direct(part)]):
            yield from self._ended(base)
        yield "end", part
