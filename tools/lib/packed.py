"""Texts of HTML that are much alike, in little room: each piece of them stands once, and a text is a row of letters that stand for its pieces."""
import json
import re
from collections import Counter

# Where a text is cut: around its tags, which classes that are alike have in common; or around its numbers, by which others differ. No anchor is cut.
TAGS, NUMBERS = re.compile(r"((?:<[^>]*>\s*)+)"), re.compile(r'( id="[^"]*"|[\d.]+)')
ENOUGH = 5  # how many times smaller the texts have to be for one cut alone to be tried
FIRST, HIGH, GAP = 0x3F, 0xD800, 0x800  # letters begin behind `<`, and leave out the numbers that are halves of a letter


def letter(number):
    """The letter that stands for a piece; page_closed.js reads it."""
    code = FIRST + number
    return chr(code if code < HIGH else code + GAP)


def packed(texts):
    """The pieces and the rows as JSON, which may stand in a script: no `</` is in it."""
    texts = list(texts)
    first = packed_by(TAGS, texts)
    if len(first) * ENOUGH < sum(map(len, texts)):
        return first
    return min(first, packed_by(NUMBERS, texts), key=lambda text: len(text.encode()))


def packed_by(cut, texts):
    rows = [[piece for piece in cut.split(text) if piece] for text in texts]
    pieces = [piece for piece, _ in Counter(piece for row in rows for piece in row).most_common()]
    letters = {piece: letter(number) for number, piece in enumerate(pieces)}
    data = {"pieces": pieces, "texts": ["".join(map(letters.get, row)) for row in rows]}
    return json.dumps(data, ensure_ascii=False, separators=(",", ":")).replace("</", "<\\/")
