"""Draws the parts of an object with letters, for a terminal."""
import math

from . import amounts, strips

LEAST = 3
MOST = 14
BOXES = ("base", "shared base", "held base", "object", "element", "cookie")


def text(whole, title):
    """For each row of bytes a ruler, the leaves with their names, and a line a level for the bases above them."""
    lines = [title]
    for strip in strips.strips(whole):
        lines += [f".. {strip.start} to {strip.end}: {strip.within.told} goes on"] if strip.within else _row_lines(strip)
    return "\n".join(line.rstrip() for line in lines) + "\n"


def _row_lines(strip):
    columns = _columns(strip)
    leaves = [piece for piece in strip.pieces if not piece.part.is_mark and not any(not inner.is_mark for inner in piece.part.parts)]
    lines = [_ruler(columns), _leaf_line(leaves, columns)]
    boxes = [piece for piece in strip.pieces if piece.part.sort in BOXES and piece not in leaves]
    for lane in reversed(strips.lanes(boxes, lambda piece: (columns[piece.start], columns[piece.end]))):
        lines.append(_brackets(lane, columns))
    lines += _mark_lines([piece for piece in strip.pieces if piece.part.is_mark], columns)
    short = [piece for piece in leaves if not piece.part.is_padding and not piece.later and len(piece.part.name) > _room(piece, columns)]
    return lines + [f"  {amounts.place_text(piece.part.place)}: {piece.part.told}" for piece in short]


def _room(piece, columns):
    return columns[piece.end] - columns[piece.start] - 2


def _columns(strip):
    """The column of each border: a stretch has as many columns as bytes, within bounds."""
    borders, at = sorted({edge for piece in strip.pieces for edge in (piece.start, piece.end)}), 0
    columns = {borders[0]: 0}
    for start, end in zip(borders, borders[1:]):
        at += max(LEAST + len(amounts.place_text(end)), min(MOST, math.ceil(end - start)))
        columns[end] = at
    return columns


def _ruler(columns):
    line = ""
    for byte, column in columns.items():
        line = line.ljust(column) + amounts.place_text(byte) + " "
    return line


def _leaf_line(leaves, columns):
    row = list(" " * (max(columns.values()) + 1))
    for piece in leaves:
        start, end = columns[piece.start], columns[piece.end]
        row[start], row[end] = "|", "|"
        if piece.part.is_padding:
            row[start + 1:end] = "." * (end - start - 1)
        elif piece.part.sort != "whole":
            name = (".. " if piece.later else "") + piece.part.name
            row[start + 1:start + 1 + len(name[:end - start - 2]) + 1] = " " + name[:end - start - 2]
    return "".join(row)


def _brackets(lane, columns):
    """A bracket below each box of a lane, with its name."""
    line = ""
    for piece in lane:
        width = columns[piece.end] - columns[piece.start]
        label = f"'- {piece.part.name} "
        label = label.ljust(width - 1, "-")[:width - 1] + "'"
        line = line.ljust(columns[piece.start]) + label
    return line


def _mark_lines(marks, columns):
    """The empty bases, each with an arrow to its place; those of one place share an arrow."""
    places = {}
    for piece in marks:
        places.setdefault(piece.start, []).append(piece.part.name)
    return [" " * columns[place] + f"^ {', '.join(names)} (empty)" for place, names in sorted(places.items())]
