"""Says the classes of a C++ source in the language of the workbench.

A class is *said* with all its members at their places. Where that cannot be, it has a *stand-in*: a class with its size, so that what holds it
can be said. It is *left out* where not even that is known.
"""
import re
from dataclasses import dataclass, field

from .cpp_types import Types
from .overriding import Functions, safe, virtual_signatures
from .plan import Misplaced, Plan, effective_align

POINTED = "opaque"
SAID, STAND_IN, LEFT_OUT = "said", "stand-in", "left out"
MOST_BASES, MOST_PARTS, MOST_SIZE, MOST_PARAMETERS = 64, 1024, 500000, 16  # the limits L3 and L6 of the program
MOST_ELEMENTS = 65536  # of one class, the limit L5


@dataclass
class Restated:
    """The classes that a text has in their order, and our name of each."""

    records: list
    names: dict
    text: str = ""
    parts: list = field(default_factory=list)


class Restating:
    """The classes of one source, which of them can be said, and how. With `anywhere` their members may lie where the rules put none."""

    def __init__(self, names, anywhere=False):
        self.names, self.anywhere = names, anywhere
        self.types = Types(names)
        self.functions = Functions(names.order)
        self.levels = {}   # by the name of a class: what becomes of it, and the reason where it is not said
        self.plans = {}
        self.needed = {}
        self.inexact = set()  # the stand-ins that cannot be bases, since more than the size counts there
        self.virtual = virtual_signatures(names.order, self.bases, self.functions)

    # What a class needs.

    def bases(self, record):
        found = [self.types.inside(record).kind(base.type) for base in record.bases]
        return [kind.record for kind in found if kind.sort == "object"]

    def is_virtual(self, record, method):
        return method.virtual or self.functions.signature(method) in self.virtual[record.name]

    def virtual_methods(self, record):
        return [method for method in record.methods if self.is_virtual(record, method)]

    def is_dynamic(self, record):
        return any(sort == "virtual pointer" or "virtual base" in sort for _, _, sort, _ in record.layout.rows)

    def is_empty(self, record):
        return record.layout is not None and record.layout.is_empty

    def is_abstract(self, record):
        return self.level(record)[0] == SAID and record.is_abstract

    def result(self, record, method):
        """The kind of a function's result."""
        return self.types.inside(record).kind(result_text(method.type))

    def overridden(self, record, method):
        """The functions of bases that a method overrides, each with its class."""
        signature, found = self.functions.signature(method), []
        for base in self.bases(record):
            found += [(base, other) for other in base.methods if self.functions.signature(other) == signature]
            found += self.overridden(base, method)
        return found

    def covariant(self, record):
        """The classes whose pointers a function returns where an overridden one returns a pointer to another."""
        needed = []
        for method in self.virtual_methods(record):
            own = self.result(record, method).record
            for base, other in self.overridden(record, method):
                theirs = self.result(base, other).record
                if own and theirs and own is not theirs:
                    needed += [own, theirs]
        return needed

    def held(self, record):
        """The classes of a class's members."""
        kinds = [self.types.inside(record).kind(member.type) for member in record.members]
        return [kind.record for kind in kinds if kind.sort == "object"]

    def plan(self, record):
        """The members of a class as they are said; raises `Misplaced` where they cannot be."""
        if record.name not in self.plans:
            left_out = [one for one in self.held(record) if self.level(one)[0] == LEFT_OUT]
            self.plans[record.name] = Plan(record, self.types.inside(record), self.is_empty, left_out, self.anywhere)
        return self.plans[record.name]

    def needs(self, record):
        """The classes that have to be complete before a class."""
        if record.name not in self.needed:
            found = []
            if self.level(record)[0] == SAID:
                held = [piece.word for those in self.plan(record).by_member.values() for piece in those if not isinstance(piece.word, str)]
                found = self.bases(record) + [kind.record for kind in held if kind.sort == "object"] + self.covariant(record)
            self.needed[record.name] = [one for index, one in enumerate(found) if one is not record and one not in found[:index]]
        return self.needed[record.name]

    # What becomes of a class.

    def level(self, record):
        """What becomes of a class, and the reason where it is not said."""
        if record.name not in self.levels:
            self.levels[record.name] = (SAID, "")
            self.levels[record.name] = self.found_level(record)
        return self.levels[record.name]

    def found_level(self, record):
        if record.layout is None:
            return LEFT_OUT, record.missing or "clang gives no layout of it"
        if record.layout.size > MOST_SIZE:
            return LEFT_OUT, f"its size is {record.layout.size}, and {MOST_SIZE} is the most that the program takes (L6)"
        if record.layout.size // effective_align(record) > MOST_ELEMENTS:
            return LEFT_OUT, f"it has more than {MOST_ELEMENTS} scalars of its alignment, and that is the most that the program takes (L5)"
        reason = self.own_reason(record)
        return (STAND_IN, reason) if reason else (SAID, "")

    def own_reason(self, record):
        if record.tag == "union" and len(record.members) != 1:
            return "it is a union"
        for base in record.bases:
            kind = self.types.inside(record).kind(base.type)
            if kind.sort != "object" or base.place is None:
                return f"its base {base.type} is not known"
            level, _ = self.level(kind.record)
            if level == LEFT_OUT or (level == STAND_IN and (kind.record.name in self.inexact or self.is_dynamic(kind.record))):
                return f"its base {shown(kind.record)} is not said"
        if len(record.bases) > MOST_BASES or len(record.parts) >= MOST_PARTS:
            return "it has more bases or parts than the program takes (L3)"
        try:
            self.plan(record)
        except Misplaced as why:
            return str(why)
        return ""

    def put_down(self, wrong):
        """Says less of classes whose layout was not as it should be: a stand-in for what was said, and nothing for a stand-in."""
        below = {}
        for record, reason in wrong:
            level, before = self.level(record)
            below[record.name] = (STAND_IN, reason) if level == SAID else (LEFT_OUT, before + "; for a stand-in, " + reason)
        self.forget_said()
        self.levels.update(below)

    def forget_said(self):
        """Forgets what rests on other classes, of which less is said now."""
        self.levels = {name: kept for name, kept in self.levels.items() if kept[0] != SAID and "is not said" not in kept[1]}
        self.needed, self.plans = {}, {}

    # The text.

    def closure(self, chosen):
        """The chosen classes that are not left out, each behind those that it needs."""
        order, seen = [], set()

        def visit(record):
            if record.name in seen or self.level(record)[0] == LEFT_OUT:
                return
            seen.add(record.name)
            for one in self.needs(record):
                visit(one)
            order.append(record)

        for record in chosen:
            visit(record)
        return Restated(order, our_names(order))


def result_text(text):
    """The result in the type of a function."""
    depth = 0
    for at, letter in enumerate(text):
        if letter == "(" and depth == 0 and at:
            return text[:at].strip()
        depth += {"<": 1, ">": -1}.get(letter, 0)
    return text


def shown(record):
    """The shortest full name of a class, as a reader writes it."""
    named = [name for name in record.names if "(unnamed at " not in name] or record.names
    return re.sub(r"\(unnamed at [^()]*?([^/()]*)\)", r"(unnamed at \1)", min(named, key=len)).replace(",", ", ")


def plain(record):
    """The name of a class in letters, digits and `_`: its namespaces and arguments are joined to it."""
    name = re.sub(r"\(unnamed at [^()]*:(\d+):\d+\)", r"unnamed_\1", shown(record))
    return re.sub(r"\W+", "_", name, flags=re.ASCII).strip("_")


def our_names(records):
    """A name of our language for each class: its own with namespaces and arguments joined to it, each once."""
    names, taken = {}, {POINTED}
    for record in records:
        word = safe(plain(record))
        name, count = word, 1
        while name in taken:
            count += 1
            name = f"{word}_{count}"
        taken.add(name)
        names[record.name] = name
    return names
