"""Layouts of classes from debug information, which tells a size, the places of members and of bases, and how a virtual base is found.

The other numbers follow from these by what they are: the data of a class end where its last component ends, its alignment is that of
its components. The place of a virtual base is read from the words of the virtual table; where the file has no such table, it is the
one place that fits the size, or is not known.
"""
import re
from dataclasses import dataclass

from .clang import RecordLayout
from .cpp_tree import spelled
from .cpp_types import Types


DECLARED = "g++ tells it by -femit-class-debug-always, clang++ by -fstandalone-debug"


@dataclass
class Told:
    """What debug information says of a class itself: the size, an alignment where the source gives one, and whether it has a virtual pointer of its own."""

    size: int
    align: object = None
    has_pointer: bool = False


class Unknown(Exception):
    """Something that the debug information does not tell, in words."""


def lay_out(names, tables):
    """Gives each class its layout, or the reason why it has none. `tables` are the words of virtual tables by the names of classes."""
    deducing = _Deducing(names, {spelled(name): words for name, words in tables.items()})
    for record in names.order:
        deducing.layout(record)


class _Deducing:
    def __init__(self, names, tables):
        self.types, self.tables = Types(names), tables
        self.done = {}

    def layout(self, record):
        """The layout of a class, with the layouts of its bases and members made before."""
        if record.name not in self.done:
            self.done[record.name] = None
            try:
                self.done[record.name] = self.found(record)
            except Unknown as why:
                record.missing = str(why)
            record.layout = self.done[record.name]
        return record.layout

    def class_of(self, record, text):
        kind = self.types.inside(record).kind(text)
        if kind.sort == "object" and self.layout(kind.record) is None:
            raise Unknown(f"{kind.record.name} in it has no layout: {kind.record.missing or 'it holds itself'}")
        return kind.record if kind.sort == "object" else None

    def found(self, record):
        bases = [self.class_of(record, base.type) for base in record.bases]
        for base, one in zip(record.bases, bases):
            if one is None:
                raise Unknown(f"its base {base.type} is only declared in the debug information: {DECLARED}")
        for member in record.members:
            held = self.class_of(record, member.type)
            member.inside = [f"{one.type} {one.name}" for one in held.members] if held else []
            if held is None and self.types.inside(record).kind(member.type).sort == "unknown":
                raise Unknown(f"the type of its member {member.name} is only declared in the debug information: {DECLARED}")
        record.is_pod = _is_pod(record, self.types)
        record.is_abstract = bool(self.pure(record))
        layout = RecordLayout(f"{record.tag} {record.name}", record.debug.size)
        shared = self.shared(record)
        layout.is_empty = not record.members and not record.debug.has_pointer and not shared and all(one.layout.is_empty for one in bases) and not self.is_dynamic(record)
        self.numbers(layout, record, bases, shared)
        self.rows(layout, record, bases, shared)
        return layout

    def is_dynamic(self, record):
        bases = [self.types.inside(record).kind(base.type).record for base in record.bases]
        return record.debug.has_pointer or any(base.virtual for base in record.bases) or any(method.virtual for method in [*record.methods, *filter(None, [record.destructor])]) or any(map(self.is_dynamic, bases))

    def pure(self, record):
        """The pure functions of a class that none of its own overrides, by name and parameters."""
        found = set()
        for base in record.bases:
            found |= self.pure(self.types.inside(record).kind(base.type).record)
        key = lambda method: (method.name if not method.name.startswith("~") else "~", tuple(method.parameters), method.type.endswith("const"))
        own = [*record.methods, *filter(None, [record.destructor])]
        return (found - {key(method) for method in own if not method.pure}) | {key(method) for method in own if method.pure}

    # Virtual bases.

    def virtual_bases(self, record):
        """The virtual bases of a class in preorder."""
        found = []
        for base in record.bases:
            one = self.types.inside(record).kind(base.type).record
            if base.virtual and one not in found:
                found.append(one)
            found += [other for other in self.virtual_bases(one) if other not in found]
        return found

    def edges(self, record, start, shared, seen):
        """The subobjects of a complete object as far as their places are known: place, class, and the direct base of it."""
        for base in record.bases:
            one = self.types.inside(record).kind(base.type).record
            yield start, record, base, one
            if not base.virtual:
                yield from self.edges(one, start + base.place, shared, seen)
            elif one.name in shared and one.name not in seen:
                seen.add(one.name)
                yield from self.edges(one, shared[one.name], shared, seen)

    def shared(self, record):
        """The place of each virtual base of a complete object, by its class."""
        wanted, shared = self.virtual_bases(record), {}
        table, grown = self.tables.get(spelled(record.name)), True
        while grown and len(shared) < len(wanted):
            grown = False
            for start, _, base, one in list(self.edges(record, 0, shared, set())):
                if base.virtual and one.name not in shared:
                    offset = _word(table, start, base.word) if table else None
                    if offset is not None:
                        shared[one.name], grown = start + offset, True
        missing = [one for one in wanted if one.name not in shared]
        if missing:
            self.by_size(record, missing, shared)
        return shared

    def by_size(self, record, missing, shared):
        """The place of the one virtual base that no table tells: that of the first subobject whose primary base it is, or else the one place that the size leaves."""
        one = missing[0]
        if len(self.virtual_bases(record)) == 1:
            own_pointer = record.debug.has_pointer or self.non_virtual_primary(record)
            if self.is_dynamic(one) and not own_pointer:
                shared[one.name] = 0  # the virtual pointer of the class is that of this base
                return
            holder = next((start + base.place for start, _, base, other in self.edges(record, 0, shared, set()) if not base.virtual and self.virtual_primary(other) == one.name), None)
            fitting = [holder] if holder is not None else self.fitting(record, one)
            if len(fitting) == 1:
                shared[one.name] = fitting[0]
                return
        raise Unknown(f"where its virtual base {one.name} lies stands in the virtual table of the class, which this file does not have; let the source make an object of it")

    def fitting(self, record, one):
        """The places behind the rest of a class at which a virtual base has room."""
        end, width, step = self.end(record), one.layout.nvsize, max(one.layout.nvalign, 1)
        return list(range(-(-end // step) * step, record.debug.size - width + 1, step)) if width else []

    def non_virtual_primary(self, record):
        """The direct base whose virtual pointer the class has."""
        if record.debug.has_pointer:
            return None
        bases = [(base, self.types.inside(record).kind(base.type).record) for base in record.bases]
        return next((one for base, one in bases if not base.virtual and base.place == 0 and self.is_dynamic(one)), None)

    def primary(self, record, shared):
        """The primary base and whether it is virtual."""
        if record.debug.has_pointer or not self.is_dynamic(record):
            return None, False
        one = self.non_virtual_primary(record)
        if one is not None:
            return one, False
        near = [base for base in self.virtual_bases(record) if shared[base.name] == 0 and self.is_dynamic(base)]
        others = {self.virtual_primary(other) for other in self.all_bases(record)}
        return next((base for base in near if base.name not in others), near[0] if near else None), True

    def virtual_primary(self, record):
        row = next((row for row in record.layout.rows if row[1] == 1 and row[2] == "primary virtual base"), None)
        return spelled(row[3][:row[3].rindex(" (")]) if row else None

    def all_bases(self, record):
        for base in record.bases:
            one = self.types.inside(record).kind(base.type).record
            yield one
            yield from self.all_bases(one)

    # The numbers.

    def parts(self, record):
        """The non-empty bases that are not virtual and the members: place, end and alignment of each."""
        types = self.types.inside(record)
        found = [(0, 8, 8)] if record.debug.has_pointer or (self.is_dynamic(record) and not self.non_virtual_primary(record)) else []
        for base in record.bases:
            one = types.kind(base.type).record
            if not base.virtual and not one.layout.is_empty:
                found.append((base.place, base.place + one.layout.nvsize, one.layout.nvalign))
        for member in record.members:
            kind = self.types.inside(record).kind(member.type)
            size, align = self.types.size(kind), self.types.align(kind)
            if member.is_bit_field:
                found.append((0, member.bits[1] // 8 + 1, align))
            elif not (kind.sort == "object" and kind.record.layout.is_empty and member.attribute):
                found.append((member.place, member.place + size * kind.count, max(align, 1)))
        return found

    def end(self, record):
        return max((end for _, end, _ in self.parts(record)), default=0)

    def numbers(self, layout, record, bases, shared):
        size, parts = record.debug.size, self.parts(record)
        empty = [(base.place, one) for base, one in zip(record.bases, bases) if not base.virtual and one.layout.is_empty]
        others = [(shared[one.name], one) for one in self.virtual_bases(record)]
        aligns = [(place, align) for place, _, align in parts] + [(place, one.layout.nvalign) for place, one in empty]
        layout.nvalign = _alignment(aligns, 0 if others else size, None if others else record.debug.align)
        layout.align = _alignment(aligns + [(place, one.layout.nvalign) for place, one in others], size, record.debug.align)
        layout.nvalign = min(layout.nvalign, layout.align)
        if record.is_pod:
            layout.dsize = layout.nvsize = size
            return
        end = self.end(record)
        layout.nvsize = max([end, *(place + one.layout.size for place, one in empty)])
        layout.dsize = max([end, *(place + one.layout.nvsize for place, one in others if not one.layout.is_empty)])

    def rows(self, layout, record, bases, shared):
        """The rows of a layout as clang writes them, of the class's own components."""
        primary, is_virtual = self.primary(record, shared)
        if record.debug.has_pointer:
            layout.rows.append((0, 1, "virtual pointer", f"({record.name} vtable pointer)"))
        elif self.is_dynamic(record) and primary is None:
            raise Unknown("the debug information tells no virtual pointer of it and no base that has one at its start")
        for base, one in zip(record.bases, bases):
            if not base.virtual:
                sort = "primary base" if one is primary and not is_virtual else "base"
                layout.rows.append((base.place, 1, sort, f"{one.name} ({sort})"))
        for member in record.members:
            if member.bits:
                layout.bits[len(layout.rows)] = member.bits
            layout.rows.append((member.place, 1, "field", f"{member.type} {member.name}"))
        for one in self.virtual_bases(record):
            sort = "primary virtual base" if one is primary and is_virtual else "virtual base"
            layout.rows.append((shared[one.name], 1, sort, f"{one.name} ({sort})"))
        for base, one in zip(record.bases, bases):
            if base.virtual:
                base.place = shared[one.name]


def _alignment(parts, size, told):
    """The alignment of a class: that of its components, or, where their places or the size are no multiples of it, the greatest that fits."""
    if told:
        return told
    align = max([1, *(one for _, one in parts)])
    while align > 1 and (size % align or any(place % min(one, align) for place, one in parts)):
        align //= 2
    return align


def _word(table, start, distance):
    """The word at a distance before the address point of the table that belongs to a place; the words before the point name the type and that place."""
    if distance is None:
        return None
    for number, word in enumerate(table):
        if isinstance(word, str) and word.startswith("_ZTI") and number and table[number - 1] == -start:
            at = number + 1 - distance // 8
            return table[at] if at >= 0 and isinstance(table[at], int) else None
    return None


def _is_pod(record, types):
    """Whether a class is a POD by C++03, as far as the debug information tells."""
    functions = [*record.methods, *filter(None, [record.destructor])]
    if record.bases or record.constructors or record.destructor or any(method.virtual or method.name == "operator=" for method in functions):
        return False
    if any(member.access != "public" or re.search(r"&\s*$", member.type) for member in record.members):
        return False
    kinds = [types.inside(record).kind(member.type) for member in record.members]
    return all(kind.record.is_pod for kind in kinds if kind.sort == "object")
