"""Which members a class has when it is said: each at its place in C++, or the reason why that cannot be."""
from dataclasses import replace

from . import bit_places, stand_ins
from .stand_ins import MOST_ALIGN, MOST_ELEMENTS, Piece

UNION = "unnamed unions"


class Misplaced(Exception):
    """A member or a class that the rules of the language lay out in another way, with the words that say how."""


def effective_align(record):
    """The alignment that a class has when it is said."""
    return min(record.layout.align, MOST_ALIGN)


class Plan:
    """The pieces of one class. `changes` has the way in which each piece is another type; `unlike` what of the layout is not kept.

    With `anywhere` the places need not be those of the rules: each member keeps its type and lies where the layout has it.
    """

    def __init__(self, record, types, is_empty, left_out, anywhere=False):
        self.record, self.types, self.is_empty, self.left_out, self.anywhere = record, types, is_empty, left_out, anywhere
        self.by_member, self.changes, self.unlike = {}, {}, ""
        self.pos, self.align = self.start()
        self.bit = 0  # the bit behind the last bit-field that was said
        self.members()
        self.tail()

    def start(self):
        """Where the members begin, and the alignment that bases and the virtual pointer bring."""
        end, align = 0, 1
        for place, depth, sort, _ in self.record.layout.rows:
            if depth == 1 and sort == "virtual pointer":
                end, align = max(end, 8), 8
        for base in self.record.bases:
            one = self.types.kind(base.type).record
            align = max(align, effective_align(one))
            if base.virtual:
                align = 8
            elif not self.is_empty(one):
                end = max(end, base.place + one.layout.nvsize)
        return end, align

    def limit(self, index):
        """The first byte behind a member that belongs to another one, or to a virtual base."""
        layout, members = self.record.layout, self.record.members
        bases = [row[0] for row in layout.rows if row[1] == 1 and "virtual base" in row[2] and row[0] >= self.pos]
        end = min([layout.size, *bases]) if bases else layout.size
        return next((one.place for one in members[index:] if one.place is not None and one.place >= self.pos and not one.is_bit_field), end)

    def members(self):
        members, index = self.record.members, 0
        wide = self.needs_wide([one for one in members if not one.is_bit_field])
        wide_by_attribute = self.needs_wide([one for one in members if not one.is_bit_field or one.name])
        self.aligned = next((one for one in members if wide_by_attribute and one.attribute and not one.is_bit_field and self.can_be_aligned(one)), None)
        while index < len(members):
            member = members[index]
            index += 1
            if member.is_bit_field:
                run = [member]
                while index < len(members) and members[index].is_bit_field:
                    run.append(members[index])
                    index += 1
                self.bit_fields(run, self.limit(index), wide)
            else:
                self.by_member[id(member)] = self.member(member, self.limit(index))

    def can_be_aligned(self, member):
        """Whether scalars of the alignment of the class can take the bytes of a member."""
        kind, align = self.types.kind(member.type), effective_align(self.record)
        return kind.sort != "object" and member.place % align == 0 and self.types.size(kind) * kind.count % align == 0

    def needs_wide(self, members):
        """Whether the alignment of the class is that of none of these members and no base."""
        return max([self.align, *(self.types.align(self.types.kind(one.type)) for one in members)]) < effective_align(self.record)

    def bit_fields(self, run, limit, is_wide):
        """The pieces of a run of bit-fields: bit-fields where the rules can put them as the compiler does, else scalars over their bytes."""
        found = (self.bits_anywhere(run) if self.anywhere and not self.needs_filler(run) else None) or self.said_bits(run)
        said = found or (self.bits_anywhere(run) if self.anywhere else None)
        if said is not None:
            self.by_member.update(said)
            return
        sized = [(one, self.types.size(self.types.kind(one.type))) for one in run]
        found = stand_ins.bits(sized, self.pos, limit, is_wide)
        for piece in found:
            self.put(piece, stand_ins.width(piece.word))
        self.by_member[id(run[0])] = found
        self.count("bit-fields at places that the rules do not give", len(run))

    def said_bits(self, run):
        """The pieces of a run by its members, each a bit-field at its bits; None where that cannot be. What has no name becomes padding before the next one."""
        free, end, said, passed = self.bit if -(-self.bit // 8) == self.pos else 8 * self.pos, 0, {}, []
        for one in run:
            first, last = one.bits
            said[id(one)], end = [], max(end, last + 1)
            if not one.name:
                passed.append(f"{one.written} : {last - first + 1}")
                continue
            kind = self.types.kind(one.type)
            size = self.types.size(kind)
            width = min(last - first + 1, 1 if kind.word == "bool" else 8 * size)
            if kind.sort != "scalar" or kind.length is not None or size > effective_align(self.record) or first < free:
                return None
            if bit_places.place(free, width, size) != first:
                said[id(one)] += self.filler(free, first, one.access, passed)
                free, passed = first, []
            if bit_places.place(free, width, size) != first:
                return None
            said[id(one)].append(self.bit_field(one, kind, width, last - first + 1))
            free = first + width
        said[id(run[-1])] += self.filler(free, end, run[-1].access, passed)
        self.keep_bits(said, max(free, end))
        return said

    def needs_filler(self, run):
        """Whether C++ itself has bits in a run that no member takes: those without a name, and those of a field that is wider than its type."""
        sizes = [8 * self.types.size(self.types.kind(one.type)) for one in run]
        return any(not one.name or one.bits[1] - one.bits[0] >= most for one, most in zip(run, sizes))

    def bits_anywhere(self, run):
        """The pieces of a run, each bit-field at its bits, wherever these are; None where one has a type that is no number."""
        kinds = {id(one): self.types.kind(one.type) for one in run if one.name}
        if any(kind.sort != "scalar" or kind.length is not None for kind in kinds.values()):
            return None
        said = {id(one): [] for one in run}
        for one in [one for one in run if one.name]:
            kind, count = kinds[id(one)], one.bits[1] - one.bits[0] + 1
            said[id(one)].append(self.bit_field(one, kind, min(count, 1 if kind.word == "bool" else 8 * self.types.size(kind)), count))
        self.keep_bits(said, max([one.bits[1] + 1 for one in run if one.name], default=8 * self.pos))
        return said

    def filler(self, free, first, access, passed):
        """The padding for bits that no named bit-field takes; `passed` has what is in C++ there."""
        note = "; ".join(passed) or "bits that no member takes"
        found = [Piece(word, "padding", None, at // 8, access, note, width, at % 8) for word, at, width in bit_places.filler(free, first, effective_align(self.record))]
        for piece in found[1:]:
            piece.note = "more of padding"
        return found

    def bit_field(self, member, kind, width, written):
        note = f"{member.written} : {written}" if kind.note or width < written else ""
        return Piece(kind, member.name, None, member.bits[0] // 8, member.access, note, width, member.bits[0] % 8)

    def keep_bits(self, said, free):
        """Goes on behind a run that is said, whose last bit comes before `free`, and counts what was changed."""
        for piece in [piece for those in said.values() for piece in those]:
            kind = piece.word
            self.align = max(self.align, stand_ins.width(kind) if isinstance(kind, str) else self.types.size(kind))
            if isinstance(kind, str) and piece.note != "more of padding":
                self.count("bits without a member, which are padding here", 1)
            elif not isinstance(kind, str) and kind.change:
                self.count(kind.change, 1)
            elif piece.note and not isinstance(kind, str):
                self.count("bit-fields wider than their types", 1)
        self.bit, self.pos = free, -(-free // 8)

    def member(self, member, limit):
        """The pieces of a member; none for an array of length 0."""
        kind = self.types.kind(member.type)
        size, align = self.types.size(kind), self.types.align(kind)
        if kind.sort == "object" and kind.record in self.left_out:
            kind = replace(kind, sort="bytes" if size else "unknown", note=member.type, change="classes that are left out")
        if member is self.aligned:
            kind = replace(kind, sort="bytes", change="members with an alignment attribute")
            size, align, kind.length = size * kind.count, effective_align(self.record), None
        if kind.sort == "unknown":
            size = limit - member.place
            align = next(width for width in stand_ins.WIDTHS if member.place % width == 0 and size % width == 0 and width <= self.record.layout.align)
        if kind.count == 0:
            self.count("arrays of length 0, which take no place", 1)
            return []
        if member.attribute == "no_unique_address" and kind.sort == "object" and self.is_empty(kind.record):
            self.count("empty members without an address of their own", 1)
            return []
        found = self.padding(member, align)
        self.need_place(member, kind, min(align, MOST_ALIGN))
        return found + self.said(member, kind, size, align)

    def said(self, member, kind, size, align):
        is_union = kind.sort == "object" and kind.record.tag == "union" and kind.record.is_nameless
        if is_union or kind.sort in ("bytes", "unknown"):
            note = f"union {{ {'; '.join(member.inside)} }}" if is_union and kind.length is None else member.written
            found = stand_ins.pieces(member.place, member.place + size * kind.count, min(align, MOST_ALIGN), member.name or "unnamed", member.access, note)
            self.count(UNION if is_union else kind.change, 1)
        elif kind.sort != "object" and kind.count > MOST_ELEMENTS:
            # as few elements as can be, since the program counts each as a part
            found = stand_ins.pieces(member.place, member.place + size * kind.count, effective_align(self.record), member.name, member.access, member.written)
            self.count("arrays of more than 4,096 elements", 1)
        else:
            found = self.arrays(member, kind, size)
            if kind.change:
                self.count(kind.change, 1)
        self.pos = max(self.pos, member.place + size * kind.count)
        self.align = max(self.align, min(align, MOST_ALIGN))
        return found

    def arrays(self, member, kind, size):
        """One member, or several where an array has more elements than one may have."""
        found, done = [], 0
        while done < kind.count:
            count = min(MOST_ELEMENTS, kind.count - done)
            note = f"more of {member.name}" if done else member.written if kind.note else ""
            length = None if kind.length is None else count
            found.append(Piece(kind, member.name or "unnamed", length, member.place + done * size, member.access, note))
            done += count
        return found

    def padding(self, member, align):
        """Scalars before a member whose alignment no scalar has."""
        natural = -(-self.pos // min(align, MOST_ALIGN)) * min(align, MOST_ALIGN)
        if align <= MOST_ALIGN or natural >= member.place:
            return []
        self.unlike = self.unlike or f"its alignment is said as {MOST_ALIGN} in place of {self.record.layout.align}, and the places are kept by padding"
        found = stand_ins.pieces(self.pos, member.place, 1, "padding", member.access, f"padding before {member.name or 'the next member'}, of alignment {align}")
        self.pos = member.place
        return found

    def need_place(self, member, kind, align):
        """Ends the plan where the rules put a member elsewhere; a member with empty classes may lie elsewhere by the rules too."""
        if self.anywhere:
            return
        natural = -(-self.pos // align) * align
        has_empty = kind.sort == "object"
        if member.place < natural or (member.place > natural and not has_empty) or member.place % align:
            why = member.attribute or self.record.attribute or "its attributes"
            raise Misplaced(f"its member {member.name or 'without name'} lies at {member.place}, where the rules put it at {natural}: {why}")

    def put(self, piece, align):
        self.pos, self.align = max(self.pos, piece.place + align * (piece.length or 1)), max(self.align, align)

    def tail(self):
        """What is left behind the last member: padding where the alignment of the class is one that no scalar has."""
        layout = self.record.layout
        self.behind = []
        if layout.align > MOST_ALIGN:
            self.unlike = f"its alignment is said as {MOST_ALIGN} in place of {layout.align}, and the places are kept by padding"
            natural = max(-(-self.pos // self.align) * self.align, 1)
            if natural < layout.size and not any("virtual base" in row[2] for row in layout.rows):
                self.behind = stand_ins.pieces(self.pos, layout.size, MOST_ALIGN, "padding", "public", f"padding up to a multiple of {layout.align}")
                self.align = max([self.align, *(stand_ins.width(piece.word) for piece in self.behind)])
        if self.align != effective_align(self.record) and not self.anywhere:
            has_bits = any(member.is_bit_field for member in self.record.members)
            why = self.record.attribute or ("no scalar over its bit-fields has that" if has_bits else "the attributes of its members")
            raise Misplaced(f"its alignment is {layout.align}, where the rules give {self.align}: {why}")

    def count(self, change, number):
        self.changes[change] = self.changes.get(change, 0) + number
