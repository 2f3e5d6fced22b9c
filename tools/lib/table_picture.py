"""Draws the tables of classes with what each word leads to, as text and as an SVG picture."""
import re
from xml.sax.saxutils import escape

from . import svg, table_text

LINE, LETTER, MARGIN = 20, 6.7, 20
SHADES = {"offset": "#cfe3f5", "entry": "#fff3c4", "none": "#e4e4e4", "vtt": "#dff0d8", "typeinfo": "#eadcf4"}
KEYS = [("offset", "before the address point: offsets and type information"), ("entry", "entry: a function, or a thunk"), ("none", "entry that runs nothing"),
        ("vtt", "VTT: the tables while bases are built"), ("typeinfo", "type information, for casts at run time")]
NO_ENTRY = "(no entry)"


def sections(one):
    """The parts of a class as titles with rows: the number and text of a word, its sort, what it leads to, and the table that this is."""
    for table in one.tables:
        rows = [(str(word.number), word.text, word.sort, table_text.leads(word, table, one.tables), None) for word in table.words]
        if not any(word.number >= 0 for word in table.words):
            rows.append(("0", NO_ENTRY, "none", "here is the address point", None))
        yield table_text.title(table, one.name), (table.name, table.group), rows
    if one.vtt:
        rows = [(str(word.number), word.text, "vtt", table_text.served(*table_text.target(word), one.name), table_text.target(word)) for word in one.vtt]
        yield f"the VTT of {one.name}: constructors and destructors of bases take their tables from here", None, rows
    rows = [("", line, "typeinfo", table_text.typeinfo_told(line), None) for line in one.typeinfo]
    yield f"the type information of {one.name}", None, rows


def plain(classes):
    """For a terminal; an arrow is at the address point."""
    lines = []
    for one in classes:
        for title, _, rows in sections(one):
            lines.append(f"{one.name}: {title}" if not title.endswith(one.name) else title)
            wide = max(len(text) for _, text, _, _, _ in rows)
            for number, text, sort, told, _ in rows:
                point = "->" if number == "0" and sort != "vtt" else "  "
                lines.append(f"  {point} {number:>4} | {text.ljust(wide)} | {told}")
    return "\n".join(lines) + "\n"


def picture(classes):
    """One document with all tables, one below the other; a word of a VTT is a link to its table."""
    lines, wide = _keys()
    top = 46
    for one in classes:
        for title, name, rows in sections(one):
            more, right = _section(one, title, name, rows, top)
            lines += more
            top, wide = top + 28 + len(rows) * LINE + 16, max(wide, right, MARGIN + len(title) * 8 + 20)
    return svg.document(wide + MARGIN, top, "\n".join(lines))


def _keys():
    lines, x = [], MARGIN
    for sort, text in KEYS:
        lines.append(f'<rect x="{x}" y="10" width="18" height="12" fill="{SHADES[sort]}" stroke="#222222"/><text class="key" x="{x + 23}" y="20" font-size="10">{text}</text>')
        x += 23 + int(len(text) * 6.1) + 18
    return lines, x


def anchor(class_name, table, group):
    return re.sub(r"\W", "_", f"{class_name}.{group}.{table}")


def _section(one, title, name, rows, top):
    known = f' id="{anchor(one.name, *name)}"' if name else ""
    lines = [f'<text{known} x="{MARGIN}" y="{top + 14}" font-size="12" font-weight="bold">{escape(title)}</text>']
    left, width = MARGIN + 90, 50 + max(len(row[1]) for row in rows) * LETTER + 12
    right = 0
    for index, (number, text, sort, told, target) in enumerate(rows):
        y = top + 22 + index * LINE
        words = f'<text x="{left + 6}" y="{y + 14}" font-size="11">{number}</text><text x="{left + 46}" y="{y + 14}" font-size="11">{escape(text)}</text>'
        leads = f'<text class="leads" x="{left + width + 12:.1f}" y="{y + 14}" font-size="11" fill="#444444">{escape(told)}</text>'
        if target:
            leads = f'<a href="#{anchor(one.name, *target)}">{leads}</a>'
        lines.append(f'<g class="{"word" if sort not in ("vtt", "typeinfo") else sort}"><rect x="{left}" y="{y}" width="{width:.1f}" height="{LINE}" fill="{SHADES[sort]}" stroke="#222222"/>{words}{leads}</g>')
        if number == "0" and sort != "vtt":
            lines.append(f'<text x="{MARGIN}" y="{y + 4}" font-size="10">address point</text><path d="M{left - 10},{y} L{left},{y}" stroke="#000000" stroke-width="2"/>')
        right = max(right, left + width + 12 + len(told) * LETTER)
    return lines, right
