"""Makes the inputs of tools/fuzz: words and a text for standard input. The number of an input and the seed decide it alone."""
import functools
import random as randoms
import re
from collections import namedtuple
from dataclasses import dataclass

from .. import program, random_programs, random_source, worked
from . import changes, commands

INPUTS_OF_A_PROGRAM = 128  # of so many inputs that follow each other, those that change a program change the same one
READING = ("check", "layout", "tables", "run", "paths", "array", "memptr")  # the commands whose input is a source alone
ODD_WORDS = [b"", b"-", b"--", b"-h", b"--help", b"--version", b"help", b"--steps", b"--steps=", b"--steps=5", b"--steps=0", b"--step", b"--trace", b"--trace=1", b"--Trace", b"-5", b"0", b"1", b"7", b"1000", b"1001",
             b"4000000", b"4000001", b"0000005", b"00000005", b"A", b"A@3", b"A::x", b"A::x@B", b"A@", b"@", b"::", b"RUN", b"run ", b" ", b"\n", "\u00e9".encode(), b"\xff", b"\xc3", b"a" * 300]


@dataclass(frozen=True)
class Input:
    """Words and a text, as bytes; the command that the words were made for, None for words by chance."""

    command: object
    words: tuple
    text: bytes
    sort: str


# what an input is made of: its random numbers, seed and number, the commands that are known, and what tells the answer of a program
Making = namedtuple("Making", "random seed number known answer")


def made(seed, number, known, answer=program.answer):
    """The input of a number, over the commands that are known."""
    making = Making(randoms.Random(f"{seed}/{number}"), seed, number, known, answer)
    sort = making.random.choices(list(SORTS), weights=[weight for weight, _ in SORTS.values()])[0]
    return SORTS[sort][1](making, sort)


def of_command(making, sort, takes, text):
    """An input for one of the commands that take such a text."""
    fitting = [command for command in making.known if command.takes in takes or (command.takes == commands.NOTHING and making.random.random() < 0.1)]
    command = making.random.choice(fitting or making.known)
    words = [word.encode("latin-1", "replace") for word in command.words(making.random, text)]
    return Input(command, tuple(words), text.encode("latin-1", "replace"), sort)


@functools.cache
def sources():
    """The sources of worked cases: those that are taken, and all texts."""
    taken = [case.source for case in worked.cases() if case.words[:1] and case.words[0] in READING and case.status in (0, 3, 4)]
    return [list(dict.fromkeys(texts)) for texts in (taken, [case.source for case in worked.cases()])]


def mutants(making, sort):
    """A worked case as it is, or changed one to three times."""
    random = making.random
    text = random.choice(sources()[random.random() < 0.3])
    for _ in range(random.choice([0, 1, 1, 1, 1, 2, 3])):
        text = random.choice(changes.OF_SOURCES)(random, text)
    return of_command(making, sort, (commands.SOURCE,), text)


def programs(making, sort):
    """A random program or hierarchy, of which one token, number or line is exchanged."""
    base = program_of(f"{making.seed}/{making.number // INPUTS_OF_A_PROGRAM}", making.answer)
    change = making.random.choice(changes.OF_PROGRAMS)
    return of_command(making, sort, (commands.SOURCE,), change(making.random, base))


@functools.lru_cache(maxsize=4)
def program_of(name, answer):
    """A random program that runs to its end, one whose lines are left as they come, or a hierarchy."""
    random = randoms.Random(name)
    kind, bits = random.choice(["program", "program", "program", "lines", "hierarchy", "hierarchy"]), random.choice([0, 0, 40])
    if kind == "hierarchy":
        return random_source.Maker(name, bits, random.random() < 0.5).source(random.randrange(2, 7), answer) or "struct A { int x; };\n"
    lines = random_programs.Maker(name, bits, random.random() < 0.3).lines(random.randrange(1, 5))
    if kind == "lines":
        return "".join(line + "\n" for line in lines)
    return random_programs.settled(lines, answer) or "int main() { print(1); }\n"


def soup(making, sort):
    """Tokens by chance, sometimes behind the front of a source."""
    random = making.random
    front = random.choice(["", "", "struct A { ", "int main() { ", "struct A { int x; virtual void f() {} }; int main() { A* p = new A; "])
    count = random.choice([1, 3, 10, 30, 100, 300, 20_000 if random.random() < 0.02 else 50])
    between = random.choice([" ", " ", "", "\n"])
    return of_command(making, sort, (commands.SOURCE,), front + between.join(changes.token(random) for _ in range(count)))


def raw(making, sort):
    """Bytes by chance: of all values, or of those that stand in a source."""
    random, limit = making.random, changes.LIMIT
    letters = random.choice([bytes(range(256)), b"{}()[];:,*&=!-<>+~./ \n0123456789abfx_", b"/*\n *", b" \t\n"])
    size = random.choice([0, 1, 2, 5, 20, 100, 1000, random.choice([limit - 1, limit, limit + 1]) if random.random() < 0.02 else 300])
    return of_command(making, sort, (commands.SOURCE, commands.LISTING, commands.DUMP), bytes(random.choices(letters, k=size)).decode("latin-1"))


def words(making, sort):
    """Words by chance, over the text of a worked case."""
    random = making.random
    chosen = [random.choice(random.choice([named(), ODD_WORDS])) for _ in range(random.choice([0, 1, 1, 2, 2, 3, 4, 6]))]
    return Input(None, tuple(chosen), random.choice(sources()[1]).encode("latin-1"), sort)


@functools.cache
def named():
    """The words that commands begin with, and those of their options."""
    return [word.encode() for command in commands.COMMANDS for word in command.name.split()]


def large(making, sort):
    """A text at or past a limit: a piece of a worked case, or of the grammar, again and again."""
    random = making.random
    piece = random.choice(["{", "struct A {", "while (true) {", "if (x) { } else {", "-", "*", "a", "1", " ", "/* */", "struct A {};", "int x;", "x = x;", changes.token(random)])
    front = random.choice(["", "int main() { bool x = true; ", "struct A { void f() { bool x = true; "])
    text = front + piece * random.choice([63, 64, 65, 255, 256, 257, 1024, 1025, 40_000])
    return of_command(making, sort, (commands.SOURCE,), text[:changes.LIMIT + 1])


def listings(making, sort):
    """The layout of a worked case and its source, with a change in one of them."""
    return behind(making, sort, commands.LISTING, listed())


def dumps(making, sort):
    """A dump of a worked case and its source, with a change in one of them."""
    return behind(making, sort, commands.DUMP, dumped())


def behind(making, sort, takes, found):
    """A text, a line `program` and a source, mostly with a change in one of them; now and then for a command that takes a source."""
    random = making.random
    text, source = random.choice(found)
    changed = random.random()
    if changed < 0.75:
        text = random.choice(changes.OF_LINES)(random, text)
    elif changed < 0.85:
        source = random.choice(changes.OF_SOURCES)(random, source)
    between = random.choice(["program\n"] * 12 + ["", "program", "program \n", "program\nprogram\n"])
    return of_command(making, sort, (takes, takes, commands.SOURCE) if random.random() < 0.1 else (takes,), text + between + source)


@functools.cache
def listed():
    """The listings of all classes that stand in worked cases, with their sources: answers of `layout`, and inputs of `foreign`, whose sources have a `main`."""
    laid = [(case.text, case.source) for case in worked.cases() if case.words == ("layout",) and case.status == 0]
    given = [case.source.partition("program\n") for case in worked.cases() if case.words[:1] == ("foreign",)]
    return laid + 4 * [(listing, source) for listing, between, source in given if between]


@functools.cache
def dumped():
    """The dumps that stand in worked cases, with their sources."""
    pieces = re.compile(r"^dump #.*\n(?:\d+ (?:vptr|pad|bits|\S+ .* \S+).*\n)*", re.M)
    return [(piece, case.source) for case in worked.cases() for piece in pieces.findall(case.text)]


SORTS = {"mutants": (32, mutants), "programs": (28, programs), "soup": (6, soup), "bytes": (5, raw), "words": (6, words), "large": (1, large), "listings": (11, listings), "dumps": (11, dumps)}
