"""Listings: the text of `layout` with the numbers of a compiler, the line `program`, and the source of the classes.

The numbers of a class are a `compilers.Seen`: its bases are places by their paths, as `*V/B`, its members bytes, or the first and the last bit.
"""
from . import compilers, restate, source
from .problem import Problem

PROGRAM = "program"
MOST = 1_048_576  # the greatest number of a listing


def base_paths(name, bases_of):
    """The base subobjects of a class in the order of `layout`, depth first: path, class, the path that it lies in, and whether it is shared.

    `bases_of` gives the direct bases of a class: class and whether it is virtual, in their order."""
    found, seen = [], set()

    def visit(one, path):
        for base, is_virtual in bases_of(one):
            if is_virtual and base in seen:
                continue
            if is_virtual:
                seen.add(base)
            inner = "*" + base if is_virtual else f"{path}/{base}" if path else base
            found.append((inner, base, path, is_virtual))
            visit(base, inner)

    visit(name, "")
    return found


def text(classes, seen):
    """The text of all classes of a source, by their numbers."""
    return "".join(class_text(classes, one, seen[one.name]) for one in classes.values())


def class_text(classes, one, numbers):
    """The lines of one class."""
    head = f"class {one.name} size {numbers.size} align {numbers.align} dsize {numbers.dsize} nvsize {numbers.nvsize} nvalign {numbers.nvalign}"
    lines = [head, f"primary {numbers.primary}"]
    for path, _, _, _ in base_paths(one.name, lambda name: [(base.name, base.virtual) for base in classes[name].bases]):
        if path not in numbers.bases:
            raise Problem(f"the compiler tells no place of the base {path} of {one.name}")
        lines.append(f"{numbers.bases[path]} base {path}")
    for field in one.fields:
        if field.name not in numbers.members:
            raise Problem(f"the compiler tells no place of the member {field.name} of {one.name}")
        lines.append(field_line(field, numbers.members[field.name]))
    return "\n".join(lines) + "\n"


def field_line(field, place):
    """The line of a member, at a byte, or with its first and last bit."""
    if field.width is not None:
        return f"{place[0] // 8} bits {place[0] % 8} {field.width} {field.type} {field.name}"
    length = "" if field.length is None else f"[{field.length}]"
    return f"{place} field {field.type}{length} {field.name}"


def with_program(listed, source):
    """The input of `foreign`."""
    return f"{listed}{PROGRAM}\n{source}"


def parted(whole, name="the listing"):
    """The listing and the source of the input of `foreign`."""
    lines = whole.split("\n")
    if PROGRAM not in lines:
        raise Problem(f"{name} has no line '{PROGRAM}', behind which its source stands; tools/listing makes such files")
    at = lines.index(PROGRAM)
    return "".join(line + "\n" for line in lines[:at]), "\n".join(lines[at + 1:])


class Said:
    """The numbers of the classes of a C++ source, as they are said, from the layouts that a compiler gives the classes of C++."""

    def __init__(self, restating, restated):
        self.restating, self.names = restating, restated.names
        self.by_name = {restated.names[record.name]: record for record in restated.records}
        self.known = {}

    def of_classes(self, classes):
        """The numbers of each class of the text. What pointers lead to where it is no class has those of an empty class."""
        return {name: self.numbers(name) if name in self.by_name else compilers.Seen(1, 1, 1, 1, 1, {}) for name in classes}

    def numbers(self, name):
        if name not in self.known:
            self.known[name] = self.found(name, self.by_name[name])
        return self.known[name]

    def found(self, name, record):
        layout = record.layout
        seen = compilers.Seen(layout.size, layout.align, layout.nvsize, layout.nvalign, layout.dsize, {})
        if self.restating.level(record)[0] != restate.SAID:
            seen.members = {piece.said: piece.place for piece in record.stand_in}
        else:
            self.places(seen, name, record)
        if layout.is_empty:
            self.empty(seen, name, record)
        return seen

    def direct(self, name):
        """The direct bases of a class that is said, by the names in the text, with their records of C++."""
        record = self.by_name[name]
        if self.restating.level(record)[0] != restate.SAID:
            return []
        types = self.restating.types
        return [(self.names[types.inside(record).kind(base.type).record.name], base) for base in record.bases]

    def places(self, seen, name, record):
        """The places of bases and members, and the primary base."""
        shared = self.shared_places(record)
        for path, base, around, is_virtual in base_paths(name, lambda one: [(other, base.virtual) for other, base in self.direct(one)]):
            if is_virtual:
                seen.bases[path] = shared.get(base)
                continue
            owner = around.split("/")[-1].lstrip("*") if around else name
            start = seen.bases[around] if around else 0
            seen.bases[path] = start + next(one.place for other, one in self.direct(owner) if other == base and not one.virtual)
        lost = next((path for path, place in seen.bases.items() if place is None), None)
        if lost:
            raise Problem(f"the compiler tells no place of the base {lost} of {name}")
        seen.primary = self.primary(record)
        for pieces in [*self.restating.plan(record).by_member.values(), self.restating.plan(record).behind]:
            seen.members.update({piece.said: piece.place if piece.width is None else piece.bits for piece in pieces})

    def row_name(self, record, words):
        """The name in the text of the class that a row of a layout is about."""
        kind = self.restating.types.inside(record).kind(words[:words.rindex(" (")])
        return self.names.get(kind.record.name) if kind.record else None

    def shared_places(self, record):
        """The places of the virtual bases of a complete object."""
        return {self.row_name(record, words): place for place, depth, sort, words in record.layout.rows if depth == 1 and "virtual base" in sort}

    def primary(self, record):
        """What the line of the primary base says."""
        for sort, front in (("primary base", ""), ("primary virtual base", "virtual ")):
            found = next((words for _, depth, one, words in record.layout.rows if depth == 1 and one == sort), None)
            if found is not None:
                return front + str(self.row_name(record, found))
        return "none"

    def empty(self, seen, name, record):
        """Of an empty class compilers write 0 or 1 for two numbers in ways of their own; nothing lies there, and these are those of the rules."""
        is_pod = record.is_pod and not record.bases
        ends = [seen.bases[base] + self.numbers(base).size for base, _ in self.direct(name)]
        seen.dsize, seen.nvsize = (seen.size, seen.size) if is_pod else (0, max(ends, default=0))


def of_source(classes, name, seen):
    """The numbers of a class of a source of this workbench, as clang gives them; of an empty class by the rules, as above."""
    numbers = seen[name]
    if name in source.empty_classes(classes):
        one = classes[name]
        is_pod = not one.bases and not any(part.kind != "function" for part in one.functions)
        ends = [numbers.bases[base.name] + seen[base.name].size for base in one.bases]
        numbers.dsize, numbers.nvsize = (numbers.size, numbers.size) if is_pod else (0, max(ends, default=0))
    return numbers
