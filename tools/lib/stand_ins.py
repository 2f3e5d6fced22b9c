"""Which scalars take the bytes of members that the language has no word for: unions, bit-fields, wide numbers, padding, whole classes."""
from dataclasses import dataclass

WIDTHS = {8: "long", 4: "int", 2: "short", 1: "char"}
MOST_ALIGN = 8    # the largest alignment of a scalar of the workbench
MOST_ELEMENTS = 4096


@dataclass
class Piece:
    """A member as it is said: the word of its type, its name and length, its place, and the type of C++ that it stands for.

    A bit-field has a width, and the first bit in the byte at its place.
    """

    word: str
    name: str
    length: object
    place: object
    access: str
    note: str = ""
    width: object = None
    first: int = 0
    said: str = ""  # the name that it has in the text

    @property
    def bits(self):
        """The first and the last bit of a bit-field, from the start of the class."""
        return 8 * self.place + self.first, 8 * self.place + self.first + self.width - 1


def fill(start, end, align):
    """Scalars of at most an alignment that take the bytes from start to end: word, count and place of each."""
    found, at = [], start
    while at < end:
        width = next(width for width in WIDTHS if width <= align and at % width == 0 and at + width <= end)
        word, count, place = found[-1] if found else ("", 0, 0)
        if word == WIDTHS[width] and count < MOST_ELEMENTS:
            found[-1] = (word, count + 1, place)
        else:
            found.append((WIDTHS[width], 1, at))
        at += width
    return found


def pieces(start, end, align, name, access, note):
    """The members that take the bytes from start to end; the first has the note."""
    found = []
    for word, count, place in fill(start, end, align):
        found.append(Piece(word, name, None if count == 1 else count, place, access, note if not found else f"more of {name}"))
    return found


def bits(run, pos, limit, is_wide):
    """Scalars for a run of bit-fields that the rules put elsewhere: over the bytes of the bits, or, to have their alignment too, over the units of the wide ones.

    `run` has the bit-fields, `pos` is the first byte that is free, and `limit` the first byte behind that is not.
    """
    named = [one for one, _ in run if one.bits[1] >= one.bits[0]]
    if not named:
        return []
    first, last = min(one.bits[0] for one in named) // 8, max(one.bits[1] for one in named) // 8 + 1
    align = max(size for _, size in run)
    start, end = first, last
    if is_wide and first // align * align >= pos and -(-last // align) * align <= limit:
        start, end = first // align * align, -(-last // align) * align
    note = "; ".join(f"{one.written} {one.name} : {one.bits[1] - one.bits[0] + 1}".replace("  ", " ") for one in named)
    return pieces(start, end, min(align, MOST_ALIGN), "bits", run[0][0].access, note)


def width(word):
    """The size of a scalar of `WIDTHS`."""
    return next(width for width, one in WIDTHS.items() if one == word)
