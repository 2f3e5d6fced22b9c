"""Where the virtual pointers of an object lead while it is built and ended: the rule of docs/PAGE.md.

When a subobject gets ready, and when it begins to end, its virtual pointers are set to the tables of its group: that of its class where it is the
whole or its class has no virtual base, and else the one of this subobject in the class of the whole. No other event changes a pointer.
"""
from dataclasses import dataclass


@dataclass
class Led:
    """A pointer leads to this table of a group. `start` is what the table's place is counted from."""

    table: object
    group: str
    start: int

    @property
    def text(self):
        return f"{self.table.name} of {self.group}"


class Pointers:
    """The rule over the tables of all classes."""

    def __init__(self, classes, tables):
        self.tables = tables
        self.classes = classes

    def has_virtual_base(self, name):
        return any(base.virtual or self.has_virtual_base(base.name) for base in self.classes[name].bases)

    def set_by(self, part):
        """The pointers that a subobject sets, as places in the heap object with the tables to which they lead."""
        whole = part.whole
        if part.path and self.has_virtual_base(part.class_name):
            of, name, start = whole.class_name, f"{part.class_name}@{part.place - whole.place} in {whole.class_name}", whole.place
        else:
            of, name, start = part.class_name, part.class_name, part.place
        group = self.tables[of].group(name)
        return {} if group is None else {start + table.place: Led(table, name, start) for table in group.tables}

    def entry_of(self, name, function):
        """The number of the entry that a class has for a function which it declares, None where it is not virtual."""
        group = self.tables[name].group(name)
        if group is None:
            return None
        own = [word.number for word in group.tables[0].words if word.sort in ("func", "pure") and word.names == f"{name}::{function}" and word.result is None]
        return own[-1] if own else None

    def deleting_entry(self, name):
        group = self.tables[name].group(name)
        found = [word.number for word in group.tables[0].words if word.sort == "deleting"] if group else []
        return found[0] if found else None


def adjusted(place, word, pointers):
    """The place of `this` behind an entry that is reached from a place, by the tables to which pointers lead; None where one is not set."""
    at = place + (word.this or 0)
    if word.vcall is None:
        return at
    led = pointers.get(at)
    offset = led.table.word(word.vcall // 8) if led else None
    return None if offset is None else at + offset.value
