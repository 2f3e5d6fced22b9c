"""Makes random hierarchies in our language: virtual and repeated bases, empty classes, covariant results, arrays, members, bit-fields."""
import random
import re

from . import program
from .layout_text import SIZES

SCALARS = ["bool", "char", "signed char", "unsigned char", "short", "unsigned short", "int", "unsigned int", "long", "unsigned long"]


class Maker:
    """Makes sources of one seed. A class that the program refuses is made anew. So many of a hundred members are bit-fields. With `plain` there are
    functions that are not virtual, too."""

    def __init__(self, seed, bit_fields=0, plain=False):
        self.random, self.bit_fields, self.plain = random.Random(seed), bit_fields, plain

    def source(self, count, answer=program.answer):
        """A source of so many classes, or fewer where the program refuses what comes."""
        names = [f"K{number}" for number in range(count)]
        classes = [self.one(name, names[:number]) for number, name in enumerate(names)]
        for _ in range(3 * count):
            text = "".join(classes)
            told, status = answer(["check"], text)
            if status == 0:
                return text
            refused = re.match(r"refused E\d+ \w+ at (\d+)", told)
            at = text.count("\n", 0, int(refused[1])) if refused else len(classes) - 1
            classes[at] = self.one(names[at], names[:at])
        return ""

    def chance(self, percent):
        return self.random.randrange(100) < percent

    def one(self, name, before):
        """The text of one class over those before it."""
        bases = self.bases(before)
        sort = self.random.choice(["empty", "plain", "dynamic", "mixed", "pointer alone", "pointer alone"])
        parts = []
        if sort not in ("empty", "pointer alone"):
            parts += [self.field(number, before) for number in range(self.random.randrange(0, 8 if self.bit_fields else 4))]
        if sort in ("dynamic", "mixed", "pointer alone"):
            parts += self.functions(name, before)
        if self.plain and self.chance(40):
            parts.append(f"long g{self.random.randrange(3)}(int a) {{ return 1; }}")
        if self.chance(25):
            parts.append(f"{name}() {{}}")
        if self.chance(15):
            parts.append(f"{'virtual ' if self.chance(50) else ''}~{name}() {{}}")
        self.random.shuffle(parts)
        if parts and self.chance(15):
            parts.insert(self.random.randrange(len(parts)), self.random.choice(["private:", "protected:", "public:"]))
        head = f" : {', '.join(bases)}" if bases else ""
        return f"struct {name}{head} {{ {' '.join(parts)} }};\n"

    def bases(self, before):
        count = min(len(before), self.random.choice([0, 0, 1, 1, 2, 2, 3]))
        share = self.random.choice([0, 30, 60, 100])
        access = lambda: self.random.choice(["", "", "", "", "private "])
        return [f"{'virtual ' if self.chance(share) else ''}{access()}{name}" for name in self.random.sample(before, count)]

    def field(self, number, before):
        if self.bit_fields and self.chance(self.bit_fields):
            return self.bit_field(number)
        length = f"[{self.random.randrange(1, 4)}]" if self.chance(20) else ""
        if before and self.chance(35):
            kind = self.random.choice(before) + ("*" if self.chance(25) else "")
        else:
            kind = self.random.choice(SCALARS)
        return f"{kind} m{number}{length};"

    def bit_field(self, number):
        kind = self.random.choice(SCALARS)
        return f"{kind} m{number} : {bit_width(self.random, kind)};"

    def functions(self, name, before):
        parts = []
        for number in self.random.sample(range(4), self.random.randrange(0, 3)):
            pure = " = 0;" if self.chance(10) else " {}"
            parts.append(f"virtual void f{number}(){pure}")
        if self.chance(25):
            result = self.random.choice([name, *before])
            parts.append(f"virtual {result}* clone() {{}}")
        return parts


def bit_width(chosen, kind):
    """A width that a type can have: often few bits, often all or nearly all."""
    most = 1 if kind == "bool" else 8 * SIZES[kind]
    return min(most, chosen.choice([chosen.randrange(1, most + 1), chosen.randrange(1, most + 1), chosen.randrange(1, 9), most, max(1, most - 1)]))


def sources(count, seed, bit_fields=0, plain=False):
    """Sources with at least so many classes in all, by a name for each."""
    maker, made, number = Maker(seed, bit_fields, plain), 0, 0
    while made < count:
        number += 1
        text = maker.source(maker.random.randrange(3, 10))
        made += text.count("struct ")
        if text:
            yield f"s{number}", text
