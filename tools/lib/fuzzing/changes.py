"""Changes of a text by chance, each of which takes a generator of random numbers and a text. No change reads all tokens of a text."""
import functools
import re

from .. import grammar, worked

LIMIT = 262_144
LEFT_OUT = "template union enum typedef const static friend operator sizeof throw try using goto double".split()
NAMES = "A B C D V E K0 K1 x y f g m a p q".split()
NUMBERS = "0 1 2 3 5 7 8 16 17 31 32 33 63 64 65 255 256 257 1023 1024 1025 4095 4096 4097 65536 500000 1048576 2147483647 2147483648 4294967295 4294967296 9223372036854775807 9223372036854775808 18446744073709551616 00 08 3x".split()
ODD = ["$", "#", "\"", "'", "\\", "@", "`", "\x00", "\x7f", "\xe9", "\xff", "/*", "*/", "//", "\r", "\n", "\t", "1.5", "0x1", "..."]
TOKEN = re.compile(r"\b\w+|::|==|!=|->|<=|[^\w\s]")
NUMBER = re.compile(r"\b\d+")
LOOKED_AT = 8  # so many places, until one has a token of a kind


@functools.cache
def tokens_by_kind():
    """Tokens to choose from, those of a list as often as it stands here."""
    return [grammar.vocabulary()] * 2 + [NAMES] * 2 + [NUMBERS]


@functools.cache
def words_of_the_language():
    return frozenset(word for word in grammar.vocabulary() if word[0].isalpha())


def token(random):
    """A token by chance: of the grammar, a name, a number, a word that is left out, or no token."""
    seldom = random.random()
    return random.choice(LEFT_OUT if seldom < 0.02 else ODD if seldom < 0.04 else random.choice(tokens_by_kind()))


def near(random, text, form):
    """A piece of this form behind a place by chance, the first one where none is behind it, None where there is none."""
    return form.search(text, random.randrange(len(text) + 1)) or form.search(text)


def at_token(change):
    """A change of one token as a change of a text; a text without tokens gets one."""
    def changed(random, text):
        found = near(random, text, TOKEN)
        return text[:found.start()] + change(random, text, found[0]) + text[found.end():] if found else text + token(random)
    return changed


def exchanged_token(random, text, old):
    """Another token: one of the same kind out of the text, so that many sources are still taken, another number, or any."""
    kind = kind_of(old)
    if random.random() < 0.7:
        others = (near(random, text, TOKEN)[0] for _ in range(LOOKED_AT))
        found = next((other for other in others if other != old and kind_of(other) == kind), None)
        if found:
            return found
    return random.choice(NUMBERS) if kind == "number" else f" {token(random)} "


def kind_of(text):
    """The kind of a token: number, word of the language, sign, or a name by its first letter: in random programs classes and functions have one each."""
    if text.isdecimal():
        return "number"
    return "word" if text in words_of_the_language() else f"name {text[0]}" if text[0].isalpha() or text[0] == "_" else "sign"


exchange = at_token(exchanged_token)
drop = at_token(lambda random, text, old: " ")
double = at_token(lambda random, text, old: f"{old} {old}")
insert = at_token(lambda random, text, old: f"{old} {token(random)} ")


def cut(random, text):
    """A front of the text."""
    return text[:random.randrange(len(text) + 1)]


def without_piece(random, text):
    """The text without a piece."""
    start = random.randrange(len(text) + 1)
    return text[:start] + text[start + random.choice([1, 2, 5, 20, 100]):]


def with_byte(random, text):
    """The text with another byte at a place."""
    place = random.randrange(len(text) + 1)
    return text[:place] + chr(random.randrange(256)) + text[place + random.randrange(2):]


def spliced(random, text):
    """A front of the text, and the end of another case."""
    other = random.choice(worked.cases()).source
    return cut(random, text) + other[random.randrange(len(other) + 1):]


def repeated(random, text):
    """The text with a piece again and again."""
    start = random.randrange(len(text) + 1)
    piece = text[start:start + random.choice([1, 3, 10, 40])]
    return text[:start] + piece * random.choice([2, 3, 20, 70, 300]) + text[start:]


def padded(random, text):
    """The text with white space in front, or with so much behind it that it has as many bytes as the limit, one more or one less."""
    return text.ljust(random.choice([LIMIT - 1, LIMIT, LIMIT + 1])) if random.random() < 0.05 else " " + text


def line_changed(random, text):
    """The text of lines with one of them left out, doubled, moved, or made another one's."""
    lines = text.splitlines(keepends=True)
    if not lines:
        return text
    index, other = random.randrange(len(lines)), random.randrange(len(lines))
    lines[index] = random.choice(["", lines[index] * 2, lines[other], lines[index].rstrip("\n"), lines[index].replace("\n", " \n")])
    return "".join(lines)


def number_changed(random, text):
    """The text with another number in place of one."""
    one = near(random, text, NUMBER)
    if not one:
        return text
    beside = str(max(0, int(one[0][:18]) + random.choice([-8, -4, -1, 1, 4, 8])))
    return text[:one.start()] + random.choice([beside, beside, random.choice(NUMBERS), "-" + one[0], "--"]) + text[one.end():]


def unchanged(random, text):
    return text


OF_SOURCES = [exchange, exchange, exchange, exchange, number_changed, drop, double, insert, cut, without_piece, with_byte, spliced, repeated, padded]
OF_LINES = [number_changed, number_changed, number_changed, line_changed, line_changed, cut, without_piece, with_byte, unchanged]
OF_PROGRAMS = [exchange, exchange, exchange, number_changed, line_changed, line_changed]
