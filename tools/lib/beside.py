"""Two layouts of a class, that of the rules and that of a listing: their parts, and what lies elsewhere."""
import re

from . import amounts, layout_text, listing, parts, source
from .problem import Problem

NUMBERS = ("size", "align", "dsize", "nvsize", "nvalign")
MOST_MOVES = 40  # lines of one class


class Beside:
    """The layouts of the classes of a listing, each beside that of the rules."""

    def __init__(self, whole, name):
        self.name = name
        front, text = listing.parted(whole, name)
        if any(len(number) > 7 or int(number) > listing.MOST for number in re.findall(r"\d+", re.sub(r"[A-Za-z_]\w*", "", front))):
            raise Problem(f"{name} has a number above {listing.MOST}, which is the most that a listing may have")
        self.ours = parts.Objects.of_text(text)
        self.classes = source.classes(text)
        try:
            self.theirs = parts.Objects(text, front)
        except Problem:
            raise Problem(f"{name} has a line before '{listing.PROGRAM}' that is none of a layout; tools/listing makes such files") from None
        self.need_same_rows()

    def need_same_rows(self):
        """Ends where the listing is not one of the classes of its source."""
        for name, ours in self.ours.layouts.items():
            theirs = self.theirs.layouts.get(name)
            if theirs is None or _rows(ours) != _rows(theirs):
                raise Problem(f"the lines of {self.name} on the class {name} are not those that its source asks for: run ./tagymelur foreign on it, and it tells the line")

    def pair(self, name):
        """The parts of an object by both layouts, with their titles, and the lines that tell what is another."""
        ours, theirs = self.ours.whole(name), self.theirs.whole(name)
        self.mark(name, ours, theirs)
        lines = self.moves(name)
        return [(ours, f"by the rules: {self.ours.layouts[name].title}"), (theirs, f"by {self.name}: {self.theirs.layouts[name].title}", lines)]

    def mark(self, name, ours, theirs):
        """Marks the parts of both that lie elsewhere in the other."""
        places = [{}, {}]
        for found, whole in zip(places, (ours, theirs)):
            for key, part in _keyed(whole):
                found[key] = part
        for key, part in places[0].items():
            other = places[1].get(key)
            if other is not None and other.place != part.place:
                part.note = f"by {self.name} at {amounts.place_text(other.place)}"
                other.note = f"by the rules at {amounts.place_text(part.place)}"

    def moves(self, name):
        """What is another in the listing, in lines."""
        ours, theirs = self.ours.layouts[name], self.theirs.layouts[name]
        lines = [f"{key} {getattr(ours, key)} -> {getattr(theirs, key)}" for key in (*NUMBERS, "primary") if getattr(ours, key) != getattr(theirs, key)]
        lines = [", ".join(lines)] if lines else []
        for one, other in [*zip(ours.bases, theirs.bases), *zip(ours.members, theirs.members)]:
            if one.place != other.place or getattr(one, "first", 0) != getattr(other, "first", 0):
                told = f"base {one.text}" if isinstance(one, layout_text.Base) else one.told
                start = lambda part: amounts.place_text(getattr(part, "start", part.place))
                lines.append(f"{told}: {start(one)} -> {start(other)}")
        more = len(lines) - MOST_MOVES
        return [*lines[:MOST_MOVES], *([f"and {more} more"] if more > 0 else [])] or ["nothing lies elsewhere"]


def _rows(layout):
    return [base.text for base in layout.bases], [member.told for member in layout.members]


def _keyed(whole):
    """The parts by the names on the way to them, where these name one part."""
    found, twice = {}, set()

    def visit(part, way):
        for inner in part.parts:
            if inner.is_padding:
                continue
            # a shared base is the same one, wherever it lies and whoever holds it
            key = ("*" + inner.name.lstrip("*"),) if inner.name.startswith("*") and len(way) <= 1 else (*way, inner.name)
            twice.update({key} & found.keys())
            found[key] = inner
            visit(inner, key)

    visit(whole, ())
    return [(key, part) for key, part in found.items() if key not in twice]
