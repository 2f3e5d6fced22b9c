"""Makes random programs in our language: classes with bases and virtual functions, constructors and destructors that call, casts, `delete`.

A line that the program refuses, or whose step is undefined, is taken out, until the run comes to the end of `main`.
"""
import random
import re

from . import program
from .random_source import bit_width

SCALARS = ["bool", "char", "signed char", "unsigned char", "short", "unsigned short", "int", "unsigned", "long", "unsigned long"]
FUNCTIONS = 4
TRIES = 200


class Maker:
    """Makes the programs of one seed. Function `f2` calls `f0` and `f1` alone, so that each call comes back.

    So many of a hundred members are bit-fields; where there are some, objects are copied too. With `dumps` each object of `main` is dumped.
    """

    def __init__(self, seed, bit_fields=0, dumps=False):
        self.random, self.bit_fields, self.dumps = random.Random(seed), bit_fields, dumps

    def program(self, count):
        """A source of so many classes that runs to its end, or an empty text where no such source was found."""
        return settled(self.lines(count))

    def lines(self, count):
        """The lines of a source of so many classes as they come: some may be refused or undefined."""
        names = [f"K{number}" for number in range(count)]
        self.hidden = self.random.choice([4, 4, 4, 40])  # how many bases of a hundred are private
        lines = [line for number, name in enumerate(names) for line in self.one(name, names[:number])]
        return lines + self.main(names)

    def chance(self, percent):
        return self.random.randrange(100) < percent

    def one(self, name, before):
        """The lines of one class over those before it."""
        share = self.random.choice([0, 40, 40, 100])
        chosen = self.random.sample(before, min(len(before), self.random.choice([0, 1, 1, 2, 2, 3])))
        bases = [("virtual " if self.chance(share) else "") + ("private " if self.chance(self.hidden) else "") + one for one in chosen]
        fields = [self.field(f"{name.lower()}m{number}") for number in range(self.random.randrange(6 if self.bit_fields else 3))]
        lines = [f"struct {name}{' : ' + ', '.join(bases) if bases else ''} {{", *[field + ";" for field in fields]]
        if self.random.choice(before + [None, None]) is None or fields:
            starts = [f"{name_of(field)}({self.number() if self.bit_fields else self.random.randrange(0, 2)})" for field in fields if not (self.bit_fields and self.chance(20))]
            lines += [f"{name}(){' : ' + ', '.join(starts) if starts else ''} {{", *self.body(name, before, FUNCTIONS, fields), "}"]
        for number in self.random.sample(range(FUNCTIONS), self.random.choice([0, 1, 2, 2])):
            lines += [f"virtual long f{number}() {{", *self.body(name, before, number, fields), f"return {self.number()};", "}"]
        if self.chance(35):
            lines += [f"virtual {self.random.choice([name, name, *before])}* g() {{", *self.body(name, before, 0, fields), "return this;", "}"]
        if self.chance(60):
            lines += [f"{'virtual ' if self.chance(80) else ''}~{name}() {{", *self.body(name, before, FUNCTIONS, fields), "}"]
        return [*lines, "};"]

    def field(self, name):
        """The declaration of a member."""
        kind = self.random.choice(SCALARS)
        is_bit_field = self.bit_fields and self.chance(self.bit_fields)
        return f"{kind} {name}" + (f" : {bit_width(self.random, 'unsigned int' if kind == 'unsigned' else kind)}" if is_bit_field else "")

    def number(self):
        if self.bit_fields and self.chance(30):
            return self.random.randrange(-(1 << 40), 1 << 40)
        return self.random.choice([self.random.randrange(100), self.random.randrange(100), -1, 300, 70000])

    def body(self, name, before, calls, fields):
        """Statements of a member function, which call functions with numbers below `calls`."""
        return [line for _ in range(self.random.randrange(4)) for line in self.statement("this", name, before, calls, fields)]

    def local(self):
        self.locals = getattr(self, "locals", 0) + 1
        return f"v{self.locals}"

    def statement(self, pointer, name, classes, calls, fields=()):
        """The lines of a statement over a pointer to a class of this name."""
        x, other = self.local(), self.random.choice([*classes, name])
        field = name_of(self.random.choice(fields)) if fields else f"{other.lower()}m{self.random.randrange(6) if self.bit_fields else 0}"
        function = self.random.randrange(calls) if calls else None
        called = [[f"long {x} = {pointer}->f{function}();", f"print({x});"]] if calls else []
        through = [[f"{other}* {x} = {pointer};", *self.calls(x, function)]] if calls else []
        qualified = [[f"long {x} = {pointer}->{other}::f{function}();", f"print({x});"]] if calls else []
        stored = [[f"{pointer}->{field} = {self.number()};", f"long {x} = {pointer}->{field};", f"print({x});"]] * 6 if self.bit_fields else []
        return self.random.choice([
            *stored,
            [f"print({self.number()});"],
            [f"print(typeid(*{pointer}));"],
            [f"{pointer}->{field} = {self.number()};"],
            [f"long {x} = {pointer}->{field};", f"print({x});"],
            [f"{other}* {x} = dynamic_cast<{other}*>({pointer});", f"bool {x}b = {x} != 0;", f"print({x}b);", f"if ({x}b) {{", f"print(typeid(*{x}));", "}"],
            [f"bool {x} = typeid(*{pointer}) == typeid({other});", f"print({x});"],
            [f"{other}* {x} = {pointer};", f"bool {x}b = {x} == {pointer};", f"print({x}b);"],
            *called, *called, *through, *through, *qualified,
        ])

    def calls(self, pointer, function):
        return [f"long {pointer}r = {pointer}->f{function}();", f"print({pointer}r);"]

    def main(self, names):
        """The lines of `main`: objects, each used by pointers to its bases, and some of them deleted."""
        lines = ["int main() {"]
        for name in self.random.sample(names, min(len(names), 3)) + names[-1:]:
            made, base = self.local(), self.local()
            upper = self.random.choice(names)
            cast = f"({upper}*)" if self.hidden > 4 else ""  # a base that is private can be reached by a cast in parentheses alone
            lines += [f"{name}* {made} = new {name};", f"{upper}* {base} = {cast}{made};", f"bool {base}b = {base} != 0;", f"print({base}b);"]
            for pointer, of in [(made, name), (base, upper), (base, upper)]:
                lines += self.statement(pointer, of, names, FUNCTIONS)
            lines += self.copy(made, name, names) if self.bit_fields else []
            back = self.local()
            lines += [f"{name}* {back} = static_cast<{name}*>({base});", f"bool {back}b = {back} == {made};", f"print({back}b);"]
            lines += [f"{upper}* {back}g = {base}->g();", *self.statement(f"{back}g", upper, names, FUNCTIONS)]
            lines += [f"dump({made});"] if self.dumps else []
            lines += [f"delete {self.random.choice([made, base])};"] if self.chance(70) else []
        return [*lines, "}"]

    def copy(self, made, name, names):
        """The lines that copy an object of a class to another one, or the other way round, and use both."""
        other = self.local()
        first, second = self.random.choice([(made, other), (other, made)])
        used = [line for pointer in (first, second, second) for line in self.statement(pointer, name, names, FUNCTIONS)]
        return [f"{name}* {other} = new {name};", *self.statement(other, name, names, FUNCTIONS), f"*{first} = *{second};", *used]


def name_of(field):
    """The name of a member that is declared so."""
    return field.split(" :")[0].split()[-1]


def settled(lines, answer=program.answer):
    """The text of these lines without those that are refused or undefined; empty where none is left to take out."""
    for _ in range(TRIES):
        text = "".join(line + "\n" for line in lines)
        told, status = answer(["run"], text)
        if status == 0:
            return text
        refused = re.search(r"^refused E\d+ \w+ at (\d+)$", told, re.M)
        undefined = re.search(r"^undefined U\d+ \w+ line (\d+)$", told, re.M)
        at = text.count("\n", 0, int(refused[1])) if refused else int(undefined[1]) - 1 if undefined else None
        if at is None or at >= len(lines):
            return ""
        lines = without(lines, at)
        if not lines:
            return ""
    return ""


def without(lines, at):
    """The lines without one of them: a statement alone, or a function or an `if` with all that stands in it. A class stays, without bases."""
    line = lines[at]
    if line.startswith("struct "):
        return [] if " : " not in line else [*lines[:at], line[:line.index(" : ")] + " {", *lines[at + 1:]]
    if line.startswith("return this"):
        return without(lines, max(n for n in range(at) if lines[n].startswith("virtual ") and lines[n].endswith("{")))
    if line.startswith(("int main", "return", "};")):
        return []
    if not line.endswith("{"):
        return [*lines[:at], *lines[at + 1:]] if line != "}" else []
    end, depth = at, 0
    for end in range(at, len(lines)):
        depth += lines[end].endswith("{") - (lines[end] == "}")
        if depth == 0:
            break
    return [*lines[:at], *lines[end + 1:]]


def programs(count, seed, bit_fields=0, dumps=False):
    """So many programs that run to their end, by a name for each."""
    return made_by(Maker(seed, bit_fields, dumps), count, 2, 8)


def made_by(maker, count, least, end):
    """So many programs of a maker that run to their end, each of at least so many classes and less than `end`."""
    made = 0
    while made < count:
        text = maker.program(maker.random.randrange(least, end))
        if text:
            made += 1
            yield f"p{made}", text
