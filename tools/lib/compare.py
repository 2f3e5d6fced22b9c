"""Compares the program's layouts with those of the compilers, and tells known differences from new ones."""
from dataclasses import dataclass

from . import compiled_tables, layout_text, program, source

EMPTY_BY_SIZE = "clang++ takes a class for nearly empty by its size alone"
LOST_PRIMARY = "g++ keeps room for a primary base that lies elsewhere"


@dataclass
class Difference:
    """What differs in one class, and the known reason; an empty reason is a new difference."""

    source: str
    class_name: str
    compiler: str
    words: list
    known: str


def path_of(base):
    return ("*" if base.shared else "") + "/".join(base.names)


def with_clang(layout, seen):
    """What clang says otherwise, in words."""
    keys = ("size", "align", "dsize", "nvsize", "nvalign")
    words = [f"{key} {getattr(layout, key)}, clang++ {getattr(seen, key)}" for key in keys if getattr(layout, key) != getattr(seen, key)]
    ours = {path_of(base): base.place for base in layout.bases}
    words += [f"base {name} at {place}, clang++ {seen.bases.get(name, 'nowhere')}" for name, place in ours.items() if seen.bases.get(name) != place]
    words += [f"base {name} is clang++'s alone" for name in seen.bases if name not in ours]
    if layout.primary != seen.primary:
        words.append(f"primary {layout.primary}, clang++ {seen.primary}")
    return words + _members(layout, seen, "clang++")


def with_gcc(layout, seen, empty):
    """What g++ says otherwise, in words. Its size of an empty class as a base is left out: for a POD it is 0, and nothing lies there."""
    words = [f"{key} {getattr(layout, key)}, g++ {getattr(seen, key)}" for key in ("size", "align", "nvalign") if getattr(layout, key) != getattr(seen, key)]
    if not empty and layout.nvsize != seen.nvsize:
        words.append(f"nvsize {layout.nvsize}, g++ {seen.nvsize}")
    ours = [(base.class_name, base.place) for base in layout.bases]
    theirs = [(name, place) for name, place, _ in seen.preorder]
    if [name for name, _ in ours] != [name for name, _ in theirs]:
        words.append(f"bases {' '.join(name for name, _ in ours)}, g++ {' '.join(name for name, _ in theirs)}")
    else:
        words += [f"base {path_of(base)} at {base.place}, g++ {place}" for base, (_, place) in zip(layout.bases, theirs) if base.place != place]
    return words + _members(layout, seen, "g++")


def _members(layout, seen, compiler):
    apart = [(one, seen.members.get(one.name, "nowhere")) for one in layout.members if seen.members.get(one.name) != _own_spot(one)]
    return [f"member {one.name} at {_shown(_own_spot(one))}, {compiler} {_shown(spot)}" for one, spot in apart]


def _own_spot(member):
    """Where a member lies: its first byte, or the first and the last bit of a bit-field from the start of the class."""
    first = 8 * member.place + member.first
    return member.place if member.width is None else (first, first + member.width - 1)


def _shown(spot):
    return f"the bits {spot[0]} to {spot[1]}" if isinstance(spot, tuple) else spot


class Known:
    """Which known difference a source's hierarchy can bring to a class."""

    def __init__(self, classes, layouts, gcc):
        self.classes, self.layouts, self.gcc = classes, layouts, gcc
        self.dynamic = source.dynamic_classes(classes)
        self.below = {}

    def related(self, name):
        """The class with all its bases and the classes of its members, at every depth."""
        if name not in self.below:
            one = self.classes[name]
            near = [base.name for base in one.bases] + [part.type for part in one.fields if part.type in self.classes]
            self.below[name] = {name}.union(*(self.related(other) for other in near))
        return self.below[name]

    def only_size(self, name):
        """Whether the class is nearly empty by its size alone: a virtual pointer and no member, with an empty base elsewhere than at 0."""
        layout = self.layouts[name]
        empties = [base for base in layout.bases if base.place and self.is_empty(base.class_name)]
        return name in self.dynamic and not self.has_data(name) and layout.nvsize == 8 and bool(empties)

    def has_data(self, name):
        one = self.classes[name]
        return bool(one.fields) or any(self.has_data(base.name) for base in one.bases if not base.virtual)

    def is_empty(self, name):
        return name not in self.dynamic and not self.has_data(name)

    def reason(self, compiler, name):
        """The known reason of a difference, or an empty text."""
        related = self.related(name)
        if compiler == "clang++" and any(self.only_size(one) for one in related):
            return EMPTY_BY_SIZE
        if compiler == "g++" and any(self.gcc[one].lost for one in related):
            return LOST_PRIMARY
        return ""


def differences(name, classes, text, by_clang, by_gcc):
    """The differences of one source; by_clang and by_gcc may be None where a compiler is not asked."""
    layouts = layout_text.read(text)
    known = Known(classes, layouts, {one: by_gcc[name, one] for one in classes} if by_gcc else {})
    found = []
    for one, layout in layouts.items():
        of_clang = with_clang(layout, by_clang[name, one]) if by_clang else []
        of_gcc = with_gcc(layout, by_gcc[name, one], known.is_empty(one)) if by_gcc else []
        for compiler, words in (("clang++", of_clang), ("g++", of_gcc)):
            if words:
                found.append(Difference(name, one, compiler, words, known.reason(compiler, one)))
    return found


def table_differences(name, classes, text, by_clang, by_gcc):
    """The differences in the words of tables of one source."""
    words = program.text_of(["tables"], text)
    lost = classes_with_lost_primaries(classes, layout_text.read(program.text_of(["layout"], text)))
    found = []
    for compiler, seen in (("clang++", by_clang), ("g++", by_gcc)):
        if seen:
            found += [Difference(name, one, compiler, said, known) for one, said, known in compiled_tables.differences(compiler, classes, words, lost)]
    return found


def classes_with_lost_primaries(classes, layouts):
    """The classes in whose objects a subobject's virtual primary base is held by another subobject."""
    found = set()
    for name, layout in layouts.items():
        primaries = [layouts[one].primary for one in [name] + [base.class_name for base in layout.bases]]
        shared = [primary for primary in primaries if primary.startswith("virtual ")]
        if len(shared) != len(set(shared)):
            found.add(name)
    return found
