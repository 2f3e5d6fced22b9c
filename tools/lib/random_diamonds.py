"""Makes random programs over shared bases: classes with few members, of which some bases are private, and pointers that go up base by base.

Each class is tried before the next one is made, so that no base is taken out afterwards. From the end of each way up, and from `this` in
constructors and functions, the program calls and casts.
"""
from . import program
from .random_programs import FUNCTIONS, Maker, made_by

PRIVATE = 20  # of a hundred bases
ATTEMPTS = 6  # for a class that is taken


class Diamonds(Maker):
    def lines(self, count):
        names = [f"K{number}" for number in range(count)]
        self.direct, self.classes = {}, ""
        lines = [line for number, name in enumerate(names) for line in self.one(name, names[:number])]
        return lines + self.main(names)

    def one(self, name, before):
        """The lines of one class over those before it."""
        head, field, functions = self.taken(name, before)
        lines = [head, *field]
        if self.chance(70):
            lines += [f"{name}() {{", *[f"this->{name.lower()}m = 7;" for _ in field], *self.body(name, FUNCTIONS), "}"]
        for number in functions:
            lines += [f"virtual long f{number}() {{", *self.body(name, number), f"return {self.number()};", "}"]
        if self.chance(30):
            lines += ["virtual " + f"~{name}() {{", *self.body(name, FUNCTIONS), "}"]
        return [*lines, "};"]

    def taken(self, name, before):
        """The head of a class that the program takes, its member where it has one, and the functions that it declares."""
        for _ in range(ATTEMPTS):
            chosen = self.random.sample(before[-5:], min(len(before[-5:]), self.random.choice([1, 2, 2, 2, 3])))
            bases = [self.random.choice(["virtual ", ""]) + ("private " if self.chance(PRIVATE) else "") + one for one in chosen]
            field = [f"int {name.lower()}m;"] if self.chance(15) else []
            functions = self.random.sample(range(FUNCTIONS), self.random.choice([0, 1, 1, 2] if bases else [1, 2]))
            head = f"struct {name}{' : ' + ', '.join(bases) if bases else ''} {{"
            text = self.classes + " ".join([head, *field, *(f"virtual long f{number}() {{ return 0; }}" for number in functions), "};\n"])
            if program.answer(["check"], text)[1] == 0:
                self.classes, self.direct[name] = text, chosen
                return head, field, functions
        return self.taken(name, [])

    def above(self, name):
        """All bases of a class, at each depth."""
        return {name}.union(*(self.above(base) for base in self.direct[name]))

    def body(self, name, calls):
        return [line for _ in range(self.random.randrange(3)) for line in self.used("this", name, calls)]

    def used(self, pointer, name, calls):
        """The lines of a statement over a pointer to a class of this name: a call, or a cast to one of the classes that there are."""
        x, base, other = self.local(), self.random.choice(sorted(self.above(name))), self.random.choice(list(self.direct))
        call = [f"long {x}r = {{}}->f{self.random.randrange(calls)}();", f"print({x}r);"] if calls else []
        return self.random.choice([
            [line.format(pointer) for line in call],
            [f"{base}* {x} = ({base}*){pointer};", *(line.format(x) for line in call)],
            [f"{other}* {x} = dynamic_cast<{other}*>({pointer});", f"bool {x}b = {x} != 0;", f"print({x}b);"],
        ])

    def main(self, names):
        """The lines of `main`: objects of the last classes, each used, and reached by two ways up."""
        lines = ["int main() {"]
        for name in names[-3:]:
            made = self.local()
            lines += [f"{name}* {made} = new {name};", *self.used(made, name, FUNCTIONS), *self.used(made, name, FUNCTIONS)]
            lines += [line for _ in range(2) for line in self.way_up(made, name)]
        return [*lines, "}"]

    def way_up(self, pointer, name):
        """The lines of a way from a class to a base of a base, each step to a direct base, and of casts from there."""
        lines, start = [], name
        while self.direct[name] and (name == start or self.chance(70)):
            below, pointer, name = pointer, self.local(), self.random.choice(self.direct[name])
            lines.append(f"{name}* {pointer} = ({name}*){below};")
        for other in [start, *self.random.sample(sorted(self.direct), min(2, len(self.direct)))]:
            x = self.local()
            lines += [f"{other}* {x} = dynamic_cast<{other}*>({pointer});", f"bool {x}b = {x} != 0;", f"print({x}b);"]
        return lines + self.used(pointer, name, FUNCTIONS)


def programs(count, seed):
    """So many programs that run to their end, by a name for each."""
    return made_by(Diamonds(seed), count, 4, 9)
