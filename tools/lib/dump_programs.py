"""Makes random programs that dump objects: with bases, members of class type, arrays, pointers and bit-fields, some of them set and others not.

The classes are those of `random_source`, with more pointers. A line of `main` that the program refuses is taken out.
"""
import collections
import random

from . import listing, random_programs, random_source, source
from .layout_text import SIZES

POINTERS, BIT_FIELDS = 25, 30  # so many of a hundred members, and of the others
OBJECTS = 3
LINES = 14       # at most so many assignments to one object
DEEPEST = 4      # members in members


class Classes(random_source.Maker):
    """Classes with pointers to themselves and to those before them."""

    def field(self, number, before):
        if not self.chance(POINTERS):
            return super().field(number, before)
        return f"K{self.random.randrange(len(before) + 1)}* m{number}{self.random.choice(['', '', '[2]'])};"


class Maker:
    """Makes the programs of one seed."""

    def __init__(self, seed):
        self.random = random.Random(f"{seed}/dumps")
        self.sources = Classes(seed, BIT_FIELDS)

    def program(self):
        """A program that runs to its end, or an empty text where none was found."""
        text = self.sources.source(self.random.randrange(2, 7))
        self.classes = source.classes(text) if text else {}
        return random_programs.settled([*text.splitlines(), *self.main()]) if text else ""

    def main(self):
        """The lines of `main`: objects that are dumped as they are made, set here and there, and dumped again."""
        lines, names = ["int main() {"], [name for name in self.classes if not self.may_be_abstract(name)]
        self.made = {}  # the pointers that there are, by their class
        if not names:
            return []
        for number, name in enumerate(self.random.sample(names, min(len(names), OBJECTS - 1)) + names[-1:]):
            lines += [f"{name}* o{number} = new {name};", f"dump(o{number});"]
            self.made.setdefault(name, []).append(f"o{number}")
            used = [(f"o{number}", name)]
            bases = [base for base, times in self.bases(name).items() if times == 1]
            for base in self.random.sample(bases, min(len(bases), 3)):
                lines.append(f"{base}* o{number}{base} = o{number};")
                used.append((f"o{number}{base}", base))
                self.made.setdefault(base, []).append(f"o{number}{base}")
            lines += [line for pointer, of in used for line in self.settings(pointer, of)][:LINES]
            lines.append(f"dump({self.random.choice(used)[0]});")
        return [*lines, "}"]

    def bases(self, name):
        """The classes of the base subobjects, each with how many there are."""
        return collections.Counter(base for _, base, _, _ in listing.base_paths(name, lambda one: [(base.name, base.virtual) for base in self.classes[one].bases]))

    def may_be_abstract(self, name):
        """Whether a base or the class itself has a pure function that the class does not define: all abstract classes, and some others."""
        own = {function.name for function in self.classes[name].functions if not function.pure}
        return any(function.pure and function.name not in own for one in [name, *self.bases(name)] for function in self.classes[one].functions)

    def settings(self, pointer, name):
        """Statements that set leaves of the class itself, and leaves in its members."""
        found = []
        for field in self.classes[name].fields:
            if self.random.randrange(100) < 70:
                place, kind = self.leaf(f"{pointer}->", field)
                if kind:
                    found.append(f"{place} = {self.value(kind)};")
        return found

    def leaf(self, front, field):
        """The place of a number or pointer in a field, with its type; no type where the way ends in an empty class or is too long."""
        for _ in range(DEEPEST):
            place = front + field.name + (f"[{self.random.randrange(field.length)}]" if field.length else "")
            if field.type not in self.classes:
                return place, field.type
            fields = [one for owner in [field.type, *self.bases(field.type).elements()] for one in self.classes[owner].fields]
            names = collections.Counter(one.name for one in fields)
            inner = [one for one in fields if names[one.name] == 1]
            if not inner:
                break
            front, field = place + ".", self.random.choice(inner)
        return "", ""

    def value(self, kind):
        """A number at or near the ends of a type, a small one, or a pointer."""
        if kind.endswith("*"):
            return self.random.choice(["0", *self.made.get(kind[:-1], [])])
        bits = 8 * SIZES[kind]
        return self.random.choice([0, 1, -1, 7, 200, 258, -(1 << bits - 1) + (bits == 64), (1 << bits - 1) - 1, self.random.randrange(-(1 << 40), 1 << 40)])


def programs(count, seed):
    """So many programs, by a name for each: every fourth one is of `random_programs`, whose constructors and functions set what they have."""
    usual, other = Maker(seed).program, _run(seed)
    made = 0
    while made < count:
        text = other() if made % 4 == 3 else usual()
        if text and "dump(" in text:
            made += 1
            yield f"p{made}", text


def _run(seed):
    maker = random_programs.Maker(seed, 50, dumps=True)
    return lambda: maker.program(maker.random.randrange(2, 8))
