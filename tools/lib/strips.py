"""Cuts an object into rows of 64 bytes, and the parts of each row into levels: a part lies one level below that which holds it."""
from dataclasses import dataclass, field

MOST = 64


@dataclass
class Piece:
    """What one row has of a part. A part that began in an earlier row is `later`."""

    part: object
    start: int
    end: int
    level: int

    @property
    def later(self):
        return self.part.place < self.start


@dataclass
class Strip:
    """A row of bytes, with the pieces in it; one that has no pieces is a stretch of rows that lie within a single part."""

    start: int
    end: int
    pieces: list = field(default_factory=list)
    within: object = None


def strips(whole):
    """The rows of an object. Rows that show nothing but the inside of one array are told as one stretch."""
    found = []
    for start in range(whole.place, whole.end, MOST):
        strip = _strip(whole, start, min(start + MOST, whole.end))
        before = found[-1] if found else None
        if strip.within and before and before.within is strip.within:
            before.end = strip.end
        else:
            found.append(strip)
    return found


def _strip(whole, start, end):
    strip = Strip(start, end)
    _add(strip, whole, 0)
    inner = max(strip.pieces, key=lambda piece: piece.level)
    filled = all((piece.start, piece.end) == (start, end) for piece in strip.pieces)
    if inner.later and filled and not inner.part.parts:
        return Strip(start, end, within=inner.part)
    return strip


def _add(strip, part, level):
    """Adds the piece of a part, if it has any in the row, and those of the parts below."""
    if part.is_mark:
        if not strip.start <= part.place < strip.end:
            return
    elif part.end <= strip.start or part.place >= strip.end:
        return
    strip.pieces.append(Piece(part, max(part.place, strip.start), min(part.end, strip.end), level))
    for inner in part.parts:
        _add(strip, inner, level + 1)


def lanes(pieces, extent):
    """The pieces in lanes, level by level, so that none lie over each other; `extent` is from where to where a piece is drawn."""
    levels = {}
    for piece in pieces:
        start, end = extent(piece)
        rows = levels.setdefault((piece.level, piece.part.is_mark), [])
        row = next((row for row in rows if all(end <= other or start >= after for other, after, _ in row)), None)
        if row is None:
            row = []
            rows.append(row)
        row.append((start, end, piece))
    return [[piece for _, _, piece in row] for _, rows in sorted(levels.items()) for row in rows]
