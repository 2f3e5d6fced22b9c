"""Compares each class as it is said with the layout that clang gives the class of C++ itself."""
from . import class_text, clang
from .restate import SAID

NUMBERS = ("size", "dsize", "align", "nvsize", "nvalign")


def checked(restating, chosen):
    """The chosen classes and what they need, without what would not have the layout of C++: less is said of that."""
    while True:
        restated = class_text.write(restating, restating.closure(chosen))
        ours = clang.layouts(restated.text, list(restated.names.values()), ["-std=gnu++98"])
        wrong, behind, inexact = {}, set(), len(restating.inexact)
        for record in restated.records:
            reason = difference(restating, record, ours.get(restated.names[record.name]))
            # what holds a wrong class, however deep, is judged when less is said of that one
            if any(one.name in behind for one in restating.needs(record)):
                behind.add(record.name)
            elif reason:
                wrong[record.name] = (record, reason)
                behind.add(record.name)
        if not wrong and inexact == len(restating.inexact):
            return restated
        restating.put_down(wrong.values())


def difference(restating, record, ours):
    """Why a layout as it is said is not that of C++; an empty text where it is."""
    if ours is None:
        return "clang does not lay out what is said of it"
    if restating.level(record)[0] == SAID:
        return _of_said(restating, record, ours)
    return _of_stand_in(restating, record, ours)


def _of_stand_in(restating, record, ours):
    """The size of a stand-in has to be right. Where more of it is not, no class has it as a base."""
    original = record.layout
    if original.size != ours.size or min(original.align, 8) != ours.align:
        return f"its size and alignment would be {ours.size} and {ours.align} in place of {original.size} and {original.align}"
    if any(getattr(original, key) != getattr(ours, key) for key in NUMBERS) or original.is_empty != ours.is_empty:
        restating.inexact.add(record.name)
    return ""


def _of_said(restating, record, ours):
    original, plan = record.layout, restating.plan(record)
    # of an empty class clang has the other numbers as 0 or 1, by what it is empty of
    for key in ("size",) if plan.unlike or (original.is_empty and ours.is_empty) else NUMBERS:
        if getattr(original, key) != getattr(ours, key):
            return f"its {key} would be {getattr(ours, key)} in place of {getattr(original, key)}"
    if ours.align != min(original.align, 8):
        return f"its alignment would be {ours.align} in place of {min(original.align, 8)}"
    if original.is_empty != ours.is_empty:
        return "it would be empty" if ours.is_empty else "it would not be empty"
    if _bases(original) != _bases(ours):
        return "a base or virtual pointer of it would lie at another place"
    places = {row[3].split()[-1]: ours.bits.get(number, row[0]) for number, row in enumerate(ours.rows) if row[1] == 1 and row[2] == "field"}
    for those in plan.by_member.values():
        for piece in those:
            place = piece.place if piece.width is None else piece.bits
            if places.get(piece.said) != place:
                return f"its member {piece.said} would lie at {_shown(places.get(piece.said))} in place of {_shown(place)}"
    return ""


def _shown(place):
    """A place in words: a byte, or the first and the last bit of a bit-field."""
    return f"the bits {place[0]} to {place[1]}" if isinstance(place, tuple) else place


def _bases(layout):
    return [row[:3] for row in layout.rows if row[1] == 1 and row[2] != "field"]
