"""Sound layouts made by chance, unlike those of any compiler: components in another order, with gaps, bases as primary ones or not, bits in another order.

No two components of a class share a byte, but for bit-fields that share bytes and no bits. So no two leaves meet, and no two subobjects have one place.
"""
import random

from . import listing, source
from .compilers import Seen
from .layout_text import SIZES

GAPS = (0, 0, 0, 1, 2, 3, 8, 16)


class Chance:
    """The layouts of the classes of a source, by a seed."""

    def __init__(self, classes, seed):
        self.classes, self.random = classes, random.Random(seed)
        self.dynamic = source.dynamic_classes(classes)
        self.seen, self.places, self.ends = {}, {}, {}  # the numbers, the places of direct bases that are not virtual, and where the part without virtual bases ends
        for name in classes:
            self.seen[name] = self.one(name)

    def one(self, name):
        """The numbers of one class over those before it."""
        one, seen = self.classes[name], Seen(0, 1, 0, 1, 0, {})
        at, places = self.start(name, seen), self.places.setdefault(name, {})
        for base in places:
            seen.nvalign = max(seen.nvalign, self.seen[base].nvalign)
        parts = [base.name for base in one.bases if not base.virtual and base.name not in places]
        parts += [field for field in one.fields if field.width is None] + ([[field for field in one.fields if field.width is not None]] if any(field.width for field in one.fields) else [])
        self.random.shuffle(parts)
        for part in parts:
            at = self.put(seen, places, part, at)
        self.ends[name] = max(at, 1)
        seen.nvsize, seen.align = self.ends[name], seen.nvalign
        self.virtual_bases(name, seen, at)
        seen.dsize = self.random.choice([seen.nvsize, seen.size, 0])
        return seen

    def start(self, name, seen):
        """Where the components begin: behind the virtual pointer, or behind a primary base at the start."""
        one = self.classes[name]
        near = [base.name for base in one.bases if not base.virtual and base.name in self.dynamic]
        if near and self.random.randrange(3):
            seen.primary = self.random.choice(near)
            self.places[name] = {seen.primary: 0}
            return self.ends[seen.primary]
        if name in self.dynamic:
            seen.nvalign = 8
            return 8
        return 0

    def room(self, at, align):
        """A place at or behind one, of an alignment."""
        at += self.random.choice(GAPS)
        return -(-at // align) * align

    def put(self, seen, places, part, at):
        """Places a base, a member, or all bit-fields; gives where it ends."""
        if isinstance(part, list):
            return self.bits(seen, part, self.room(at, 1))
        if isinstance(part, str):
            align, size = self.seen[part].nvalign, self.ends[part]
            places[part] = at = self.room(at, align)
        else:
            is_object = part.type in self.classes
            size = (self.seen[part.type].size if is_object else SIZES.get(part.type, 8)) * (part.length or 1)
            align = self.seen[part.type].align if is_object else SIZES.get(part.type, 8)
            seen.members[part.name] = at = self.room(at, align)
        seen.nvalign = max(seen.nvalign, align)
        return at + size

    def bits(self, seen, fields, at):
        """Places bit-fields one behind the other by bits, in another order and with gaps of bits."""
        bit = 8 * at
        for field in self.random.sample(fields, len(fields)):
            bit += self.random.choice([0, 0, 1, 5])
            if bit % 8 + field.width > 64:
                bit = -(-bit // 8) * 8
            seen.members[field.name] = (bit, bit + field.width - 1)
            bit += field.width
        return -(-bit // 8)

    def virtual_bases(self, name, seen, at):
        """Places the virtual bases behind all other components in an order by chance, and then knows the place of each subobject."""
        paths = listing.base_paths(name, lambda one: [(base.name, base.virtual) for base in self.classes[one].bases])
        shared = [base for _, base, _, is_virtual in paths if is_virtual]
        starts = {}
        for base in self.random.sample(shared, len(shared)):
            starts[base] = at = self.room(at, self.seen[base].nvalign)
            seen.align = max(seen.align, self.seen[base].nvalign)
            at += self.ends[base]
        for path, base, around, is_virtual in paths:
            owner = around.split("/")[-1].lstrip("*") if around else name
            seen.bases[path] = starts[base] if is_virtual else (seen.bases[around] if around else 0) + self.places[owner][base]
        seen.size = self.room(max(at, 1), seen.align)
