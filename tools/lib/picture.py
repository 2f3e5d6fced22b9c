"""Draws the parts of objects as an SVG picture: rows of at most 64 bytes, each with a ruler, a lane a level, and the names that had no room."""
import math
from xml.sax.saxutils import escape

from . import amounts, strips, svg

PLAIN, MARKED = 'stroke="#222222"', 'stroke="#c0392b" stroke-width="2.4"'  # the border of a box, and of one that has a note
ROW, MARK, GAP, MARGIN, LETTER, SMALL = 26, 11, 6, 26, 6.7, 5.2
LEAST, MOST, WANTED = 16, 48, 900  # pixels a byte, and of a short object in all

# Fill and pattern of each sort of part. The patterns tell the sorts apart where colours are lost.
SHADES = {
    "whole": "#ffffff", "base": "#cfe3f5", "shared base": "url(#shared)", "held base": "url(#held)", "empty base": "#cfe3f5", "member": "#fff3c4",
    "object": "#ffe0a3", "element": "#ffe9c2", "repeat": "url(#repeat)", "cookie": "#f6d5d5", "virtual pointer": "#4a4a4a", "padding": "url(#padding)", "tail padding": "url(#tail)",
}
PATTERNS = """<defs>
<pattern id="shared" width="6" height="6" patternUnits="userSpaceOnUse" patternTransform="rotate(45)"><rect width="6" height="6" fill="#dff0d8"/><rect width="1.6" height="6" fill="#b4d8a4"/></pattern>
<pattern id="held" width="6" height="6" patternUnits="userSpaceOnUse" patternTransform="rotate(-45)"><rect width="6" height="6" fill="#eadcf4"/><rect width="1.6" height="6" fill="#c9abe0"/></pattern>
<pattern id="repeat" width="8" height="8" patternUnits="userSpaceOnUse"><rect width="8" height="8" fill="#ffe9c2"/><rect width="1.6" height="8" fill="#e8c27a"/></pattern>
<pattern id="padding" width="5" height="5" patternUnits="userSpaceOnUse" patternTransform="rotate(45)"><rect width="5" height="5" fill="#f4f4f4"/><rect width="1" height="5" fill="#999999"/></pattern>
<pattern id="tail" width="5" height="5" patternUnits="userSpaceOnUse"><rect width="5" height="5" fill="#f4f4f4"/><circle cx="2.5" cy="2.5" r="1" fill="#777777"/></pattern>
<marker id="arrow" markerUnits="userSpaceOnUse" markerWidth="7" markerHeight="7" refX="6" refY="3.5" orient="auto"><path d="M0,0 L7,3.5 L0,7 z" fill="#7a4fa3"/></marker>
</defs>
"""
KEYS = [("base", "base"), ("shared base", "shared base (*)"), ("held base", "shared base that this subobject holds"), ("empty base", "empty base: no bytes"),
        ("virtual pointer", "virtual pointer"), ("member", "member"), ("object", "member of class type"), ("element", "element"), ("repeat", "elements alike"), ("cookie", "cookie"),
        ("padding", "padding"), ("tail padding", "tail padding")]


class Row:
    """The drawing of one row of bytes, from `top` downwards; `lines` are of SVG, and `bottom` is where it ends."""

    def __init__(self, strip, unit, top):
        self.strip, self.unit, self.lines, self.wide = strip, unit, [], MARGIN + (strip.end - strip.start) * unit
        self.boxes, self.unnamed = {}, {}
        lanes = strips.lanes(strip.pieces, self.extent)
        at = top + 20
        self.ruler(at)
        y, at = at + 6, []
        for number, lane in enumerate(lanes, 1):
            at.append(y)
            for piece in lane:
                self.lines += self.mark(piece, y) if piece.part.is_mark else self.box(piece, y, number)
            y += (MARK if lane[0].part.is_mark else ROW) + GAP
        self.arrows()
        self.bottom = self.names(y, at)

    def x(self, byte):
        return MARGIN + (byte - self.strip.start) * self.unit

    def extent(self, piece):
        """From where to where a piece is drawn, in pixels; a mark has its name behind it."""
        start = self.x(piece.start)
        if piece.part.is_mark:
            return start - 6, start + 10 + len(piece.part.name) * LETTER
        return start, self.x(piece.end)

    def ruler(self, y):
        """A mark at each border, with its byte where there is room for it."""
        free, last = -100.0, self.strip.end
        for byte in sorted({edge for piece in self.strip.pieces for edge in (piece.start, piece.end)}):
            x, half = self.x(byte), len(amounts.place_text(byte)) * SMALL / 2
            self.lines.append(f'<line x1="{x:.1f}" y1="{y - 5}" x2="{x:.1f}" y2="{y + 2}" stroke="#333333"/>')
            if x - half > free + 2 and (byte == last or x + half + 2 < self.x(last) - len(str(last)) * SMALL / 2):
                self.lines.append(f'<text x="{x:.1f}" y="{y - 8}" font-size="9" text-anchor="middle">{amounts.place_text(byte)}</text>')
                free = x + half
        self.lines.append(f'<line x1="{MARGIN}" y1="{y}" x2="{self.x(last):.1f}" y2="{y}" stroke="#333333"/>')
        self.bit_ruler(y)

    def bit_ruler(self, y):
        """A small mark at each bit of the bytes in which a bit-field lies."""
        split = [piece for piece in self.strip.pieces if piece.part.sort == "member" and not _is_whole(piece.part)]
        for byte in sorted({byte for piece in split for byte in range(int(piece.start), math.ceil(piece.end))}):
            marks = " ".join(f"M{self.x(byte + bit / 8):.2f},{y} v-3" for bit in range(1, 8))
            self.lines.append(f'<path class="bits" d="{marks}" stroke="#777777" stroke-width="0.6"/>')

    def mark(self, piece, y):
        """An empty base: a mark at its place, which covers nothing."""
        x, part = self.x(piece.start), piece.part
        self.wide = max(self.wide, self.extent(piece)[1])
        return [f'<g class="empty-base"><title>{escape(part.tip)}</title>',
                f'<path d="M{x:.1f},{y} l5,9 l-10,0 z" fill="{SHADES[part.sort]}" {MARKED if part.note else PLAIN}/>',
                f'<text x="{x + 8:.1f}" y="{y + 10}" font-size="11">{escape(part.name)}</text></g>']

    def box(self, piece, y, lane):
        part, x, width = piece.part, self.x(piece.start), (piece.end - piece.start) * self.unit
        self.boxes[id(part)] = (x, y)
        ink = "#ffffff" if part.sort == "virtual pointer" else "#000000"
        lines = [f'<g class="{part.sort.replace(" ", "-")}"><title>{escape(part.tip)}</title>',
                 f'<rect x="{x:.1f}" y="{y}" width="{width:.1f}" height="{ROW}" fill="{SHADES[part.sort]}" {MARKED if part.note else PLAIN}/>']
        label = self.label(piece, width, lane)
        if label and SHADES[part.sort].startswith("url"):
            wide = len(label) * LETTER + 4
            lines.append(f'<rect x="{x + width / 2 - wide / 2:.1f}" y="{y + 5}" width="{wide:.1f}" height="{ROW - 10}" fill="#ffffff" fill-opacity="0.85"/>')
        if label:
            lines.append(f'<text x="{x + width / 2:.1f}" y="{y + 17}" font-size="11" text-anchor="middle" fill="{ink}">{escape(label)}</text>')
        return lines + ["</g>"]

    def label(self, piece, width, lane):
        """The label that fits into the box. Where none does, the names below the row have it; padding needs none."""
        part, more = piece.part, ".. " if piece.later else ""
        for text in ([part.told] if part.sort in ("member", "object") else []) + [part.name]:
            if len(more + text) * LETTER + 6 <= width:
                return more + text
        if not part.is_padding and not piece.later:
            self.unnamed.setdefault(lane, []).append(f"{amounts.place_text(part.place)} {part.name if part.sort in ('base', 'shared base', 'held base', 'element', 'repeat') else part.told}")
        return ""

    def arrows(self):
        """From the box of a holder to the virtual base that it holds."""
        holders = [(piece.part, inner) for piece in self.strip.pieces for inner in piece.part.parts if inner.sort == "held base"]
        for above, held in holders:
            if id(held) in self.boxes and id(above) in self.boxes:
                x, y = self.boxes[id(held)]
                upper = self.boxes[id(above)][1]
                self.lines.append(f'<path d="M{x + 5:.1f},{upper + ROW - 11} L{x + 5:.1f},{y + 2}" stroke="#7a4fa3" stroke-width="2" marker-end="url(#arrow)"/>')

    def names(self, top, lanes):
        """What had no room, by its lane, which has a number then; `lanes` are where these lie. Gives where the text ends."""
        letters = int(max(self.wide - MARGIN, 600) / 6.2)
        for lane, texts in self.unnamed.items():
            self.lines.append(f'<text x="4" y="{lanes[lane - 1] + 17}" font-size="10" font-weight="bold">{lane}</text>')
            for number, line in enumerate(wrapped(texts, letters - 4)):
                top += 14
                front = f'<tspan font-weight="bold">{lane}</tspan>  ' if number == 0 else ""
                self.lines.append(f'<text class="names" x="{MARGIN if number == 0 else MARGIN + 18}" y="{top}" font-size="10">{front}{escape(line)}</text>')
                self.wide = max(self.wide, MARGIN + 20 + len(line) * 6.2)
        return top + 8


def _is_whole(part):
    """Whether a part begins and ends at a byte's border."""
    return part.place == int(part.place) and part.size == int(part.size)


def wrapped(texts, width):
    """The texts in lines of at most so many letters."""
    lines = [texts[0]]
    for text in texts[1:]:
        if len(lines[-1]) + len(text) + 2 > width:
            lines.append(text)
        else:
            lines[-1] += ", " + text
    return lines


def drawn(whole, title, top):
    """The lines of one object, how wide it is, and where it ends."""
    unit = min(MOST, max(LEAST, WANTED / max(1, min(whole.size, strips.MOST))))
    lines, wide = [f'<text x="{MARGIN}" y="{top + 16}" font-size="14" font-weight="bold">{escape(title)}</text>'], len(title) * 8.6
    top += 26
    for strip in strips.strips(whole):
        if strip.within:
            lines.append(f'<text class="within" x="{MARGIN}" y="{top + 16}" font-size="10">{strip.start} to {strip.end}: {escape(strip.within.told)} goes on</text>')
            top += 22
            continue
        row = Row(strip, unit, top)
        lines += [f'<g class="row" data-start="{strip.start}" data-unit="{unit:.3f}">', *row.lines, "</g>"]
        wide, top = max(wide, row.wide), row.bottom
    return lines, wide, top


def key_lines(sorts, top):
    """A box with its meaning for each sort that is drawn."""
    lines, x = [], MARGIN
    for sort, text in KEYS:
        if sort in sorts:
            shape = f'<path d="M{x + 9},{top} l6,11 l-12,0 z"' if sort == "empty base" else f'<rect x="{x}" y="{top}" width="18" height="12"'
            lines.append(f'{shape} fill="{SHADES[sort]}" stroke="#222222"/>')
            lines.append(f'<text x="{x + 23}" y="{top + 10}" font-size="10">{text}</text>')
            x += 23 + int(len(text) * 6.1) + 18
    return lines, x


def pictures(objects):
    """One document with the objects, given as wholes with their titles, and with lines to stand below where there are some, one below the other."""
    lines, right = key_lines({part.sort for whole, *_ in objects for part in whole.all()}, 10)
    top, width = 36, right
    for whole, title, *below in objects:
        more, wide, top = drawn(whole, title, top)
        lines += more
        for text in below[0] if below else []:
            top += 14
            lines.append(f'<text class="below" x="{MARGIN}" y="{top}" font-size="11">{escape(text)}</text>')
            wide = max(wide, MARGIN + len(text) * LETTER)
        top, width = top + 14, max(width, wide)
    return svg.document(width + MARGIN, top, PATTERNS + "\n".join(lines))
