"""When the initialisers of a constructor are calculated: with the arguments of its bases and members, or at the start of its body.

In C++ each base and member is made or set in its turn. In our language all bases and members are made before the body of a constructor
runs, and what they are told is calculated before. So what an initialiser gives a number or pointer is either *late*, at the start of the
body, or *early*, in the plan, which hands it over. It is late where nothing between could be seen, else early; and where neither is right,
the program is not said.
"""
from . import effects, tree
from .numbers import CASTS
from .places import is_reference
from .refusal import CannotSay

CALCULATED, MADE, SET = 0, 1, 2  # the three times: in the plan, when bases and members are made, in the body
HANDED = ("number", "pointer", "text")


class Item:
    """One initialiser: the `field` that it gives a value, or None for a base or an object; `value` is what calculating does, `code` what making does."""

    def __init__(self, field, given):
        self.field, self.given, self.may_be_early = field, given, False
        self.value, self.code, self.value_time = effects.NOTHING, effects.NOTHING, SET

    @property
    def is_early(self):
        return self.may_be_early and self.value_time == CALCULATED


class Early:
    """The times of the initialisers of one program's constructors."""

    def __init__(self, program):
        self.program, self.known = program, {}

    def fields(self, record, constructor):
        """The members whose values the plan calculates, by the numbers of their declarations, in the order of C++."""
        return [one.field["id"] for one in self.items(record, constructor) if one.is_early]

    def items(self, record, constructor):
        """The initialisers of a constructor, each with its times."""
        if constructor is None:
            return []
        definition = self.program.constructions.body(constructor) or constructor
        if (record.name, definition["id"]) not in self.known:
            own = effects.own_names(definition)
            found = [self.item(record, one, own) for one in effects.initialisers(definition) if tree.parts(one)]
            self.known[record.name, definition["id"]] = found
            while any(self.becomes_early(one, at, found) for at, one in enumerate(found)):
                pass
        return self.known[record.name, definition["id"]]

    def item(self, record, initialiser, own):
        """One initialiser, whose value is late for now, where that can be chosen."""
        given = effects.value_of(self.program.tree, initialiser)
        field = self.program.tree.nodes[initialiser["anyInit"]["id"]] if "anyInit" in initialiser else None
        shape = self.program.shapes.of(tree.type_of(field if field else given), record)
        one = Item(field, given)
        if field is not None and (is_reference(field) or shape.sort in HANDED):
            one.may_be_early = True
            one.value = self.program.effects.of(given, own)
            return one
        while given.get("elidable") or given["kind"] in ("MaterializeTemporaryExpr", *CASTS):
            given = tree.bare(tree.parts(given)[-1])
        inside = shape.inner if shape.sort == "array" else shape
        if given["kind"] in ("CXXConstructExpr", "CXXTemporaryObjectExpr") and inside is not None and inside.sort == "object":
            self.made(one, inside.record, given, own)
        else:
            one.value = self.program.effects.of(given, own)
        return one

    def made(self, one, record, given, own):
        """What the making of a base or member by a constructor does."""
        constructor, asked = self.program.effects.constructor(record, given), self.program.effects
        one.given = given
        one.value = frozenset().union(*(asked.of(part, own) for part in tree.parts(given)))
        if constructor is not effects.HIDDEN and self.program.constructions.is_plain_copy(constructor, record):
            one.value |= asked.of_making(given, own, True)
            return
        one.value_time, one.code = CALCULATED, asked.of_constructor(record, constructor)
        one.value |= asked.of_defaults(constructor, tree.parts(given))

    def becomes_early(self, one, at, items):
        """Makes a late value early where something in between could see it, or where an early one asks for it."""
        if not one.may_be_early or one.value_time == CALCULATED or not one.value:
            return False
        later = items[at + 1:]
        seen = any(not effects.commute(one.value, other.code) or other.value_time == CALCULATED and not effects.commute(one.value, other.value) for other in later)
        if seen or any(other.value_time == CALCULATED and asks(other.given, one.field["id"], items[:items.index(other)]) for other in later):
            one.value_time = CALCULATED
            return True
        return False

    def check(self, record, constructor):
        """Refuses an initialiser that would be calculated or made at another time than C++ does it, where that could be seen."""
        items = self.items(record, constructor)
        for at, later in enumerate(items):
            for one in items[:at]:
                if later.value_time == CALCULATED and not effects.commute(one.code, later.value):
                    raise CannotSay(place(later, constructor), name_of(later), "it would be calculated before the constructor of an earlier base or member runs, and that could be seen")
                if one.value_time == SET and (not effects.commute(one.value, later.code) or later.value_time == CALCULATED and not effects.commute(one.value, later.value)):
                    raise CannotSay(place(one, constructor), name_of(one), "it would be calculated behind that of a later base or member, and that could be seen")


def place(item, constructor):
    return item.given if item.given.get("range", {}).get("begin") else constructor


def name_of(item):
    return f"this initialiser of {item.field.get('name', 'a member')}" if item.may_be_early else "this argument of a base or member"


def asks(node, field, items):
    """Whether an initialiser names a member, itself or by that of a member before it."""
    named = {part["referencedMemberDecl"] for part in tree.within(node) if part.get("kind") == "MemberExpr" and tree.parts(part) and effects.is_this(tree.parts(part)[0])}
    return field in named or any(one.field is not None and one.field["id"] in named and asks(one.given, field, items[:at]) for at, one in enumerate(items))
