"""The classes of a source as HTML: an index, and for each class its picture, numbers, padding, tables and type information."""
import re
from html import escape

from . import amounts, picture

MOST_PARTS = 400
AT_ONCE = 50  # rows, headings or lines that a browser lays out together, when they come near to what is seen


def count_of(part):
    return 1 + sum(count_of(inner) for inner in part.parts)


def slug(text):
    return re.sub(r"[^\w]+", "-", text).strip("-")


class Links:
    """The anchors of a chapter; `front` keeps those of several sources apart."""

    def __init__(self, front, classes, tables):
        self.front, self.classes, self.tables = front, classes, tables

    def class_id(self, name):
        return f"{self.front}class-{name}"

    def group_id(self, group):
        return f"{self.front}group-{slug(group)}"

    def table_id(self, table, group):
        return f"{self.front}table-{slug(table)}-of-{slug(group)}"

    def info_id(self, name):
        return f"{self.front}typeinfo-{name}"

    def function_id(self, function):
        return f"{self.front}function-{slug(function)}"

    def to_class(self, name):
        return f'<a href="#{self.class_id(name)}">{escape(name)}</a>'

    def to_function(self, text):
        """A link to a function of a class; an implicit one leads to the class."""
        owner, _, name = text.partition("::")
        declared = any(one.name == name and one.kind != "constructor" for one in self.classes[owner].functions)
        target = self.function_id(text.replace("~", "destructor-")) if declared else self.class_id(owner)
        return f'<a href="#{target}">{escape(text)}</a>'

    def to_table(self, table, group):
        return f'<a href="#{self.table_id(table, group)}">{escape(table)}</a>'

    def to_word(self, word):
        """The text of a table's word, with a link from what it names."""
        if not word.names:
            return escape(word.text)
        front, _, behind = word.text.partition(" " + word.names)  # a class may be called `a`, as a part of `vbase`
        if word.sort == "typeinfo":
            link = f'<a href="#{self.info_id(word.names)}">{escape(word.names)}</a>'
        elif word.sort == "vbase":
            link = self.to_class(word.names)
        else:
            link = self.to_function(word.names)
        return escape(front) + " " + link + escape(behind)


def index(chapter, is_long):
    """A table of all classes, a row for each; a long one has its rows in several bodies."""
    rows = []
    for name, layout in chapter.layouts.items():
        lost = sum(hole.total for hole in chapter.holes[name])
        one = chapter.classes[name]
        words = " ".join([name, *(base.name for base in one.bases), *(part.name for part in one.parts)])
        bases = ", ".join(("virtual " if base.virtual else "") + chapter.links.to_class(base.name) for base in one.bases)
        saved = layout.size - chapter.orders[name].size
        rows.append(f'<tr data-words="{escape(words.lower())}"><th scope="row">{chapter.links.to_class(name)}</th><td class="number">{layout.size}</td>'
                    f'<td class="number">{layout.align}</td><td class="number">{amounts.plain(lost)}</td><td class="number">{saved or ""}</td><td>{bases}</td></tr>')
    head = "".join(f'<th scope="col">{word}</th>' for word in ("Class", "Size", "Alignment", "Padding", "Another order saves", "Bases"))
    bodies = in_chunks("tbody", rows) if is_long else "<tbody>\n" + "\n".join(rows) + "\n</tbody>"
    table = f'<table class="index" aria-label="Classes of {escape(chapter.name)}"><thead><tr>{head}</tr></thead>{bodies}</table>'
    return with_roles(table) if is_long else table


def in_chunks(head, parts):
    """The parts in elements of so many each. page_late.js has each laid out when its turn comes; page.css takes its height from the count until then."""
    tag, found = head.split()[0], []
    for start in range(0, len(parts), AT_ONCE):
        chunk = parts[start:start + AT_ONCE]
        found.append(f'<{head.format(first=start + 1)} data-late style="--count:{len(chunk)}">\n' + "\n".join(chunk) + f"\n</{tag}>")
    return "\n".join(found)


ROLES = {"table": "table", "thead": "rowgroup", "tbody": "rowgroup", "tr": "row", "td": "cell", 'th scope="col"': "columnheader", 'th scope="row"': "rowheader"}


def with_roles(table):
    """The rows of a long table are no table to the style of the page; their roles tell it to a screen reader."""
    return re.sub(f"<({'|'.join(ROLES)})(?=[ >])", lambda found: f'<{found[1]} role="{ROLES[found[1]]}"', table)


def section(chapter, name):
    """The heading of a class, and its parts."""
    return f'<section class="class" id="{chapter.links.class_id(name)}"><h3>{heading(chapter, name)}</h3><div class="body">{body(chapter, name)}</div></section>'


def closed_section(chapter, name):
    """The heading of a class, which page_closed.js opens."""
    return f'<section class="class" id="{chapter.links.class_id(name)}"><h3><button type="button" aria-expanded="false">{heading(chapter, name)}</button></h3></section>'


def heading(chapter, name):
    return f"{chapter.classes[name].tag} {escape(name)}"


def body(chapter, name):
    layout, links, tables = chapter.layouts[name], chapter.links, chapter.tables[name]
    parts = [facts(chapter, layout), drawing(chapter, name), padding(chapter, layout), functions(chapter, name)]
    if tables.groups:
        parts.append("<h4>Virtual tables</h4>")
        parts += [group_html(links, group) for group in tables.groups[:1]]
    if tables.vtt:
        parts.append(vtt(links, tables))
        parts += [group_html(links, group) for group in tables.groups[1:]]
    return "\n".join([*parts, info(links, tables.info)])


def facts(chapter, layout):
    one, links = chapter.classes[layout.name], chapter.links
    words = layout.primary.split()
    primary = "none" if words == ["none"] else ("virtual " if len(words) > 1 else "") + links.to_class(words[-1])
    bases = ", ".join(f"{base.access} {'virtual ' if base.virtual else ''}{links.to_class(base.name)}" for base in one.bases) or "none"
    below = chapter.derived[layout.name]
    rows = [("Size", f"{layout.size} bytes"), ("Alignment", layout.align), ("Without tail padding (dsize)", f"{layout.dsize} bytes"),
            ("As a base (nvsize, nvalign)", f"{layout.nvsize} bytes, {layout.nvalign}"), ("Bases", bases), ("Primary base", primary)]
    if below:
        rows.append(("Derived classes", ", ".join(map(links.to_class, below))))
    return '<dl class="facts">' + "".join(f"<div><dt>{head}</dt><dd>{text}</dd></div>" for head, text in rows) + "</dl>"


def drawing(chapter, name):
    """The picture of tools/draw; its patterns stand once in the page."""
    layout = chapter.layouts[name]
    whole = chapter.objects.whole(name)
    if count_of(whole) > MOST_PARTS:
        return f"<p>A picture of {count_of(whole):,} parts is too large for this page; <code>tools/draw {escape(name)}</code> draws it.</p>"
    text = re.sub(r"<defs>.*?</defs>\n?", "", picture.pictures([(whole, layout.title)]), flags=re.S)
    words = "; ".join(f"{base.text} at {base.place}" for base in layout.bases)
    members = "; ".join(f"{member.told} at {amounts.place_text(member.start)}" for member in layout.members)
    said = escape(f"{layout.title}. " + (f"Bases: {words}. " if words else "") + (f"Members: {members}." if members else ""))
    return f'<figure class="picture">{text.replace("<svg ", f"""<svg role="img" aria-label="{said}" """, 1)}</figure>'


def padding(chapter, layout):
    holes = chapter.holes[layout.name]
    lost = sum(hole.total for hole in holes)
    if not lost:
        return '<p class="padding">No byte is padding.</p>'
    rows = "".join(f'<tr><td class="number">{amounts.place_text(hole.place)}</td><td class="number">{amounts.plain(hole.size)}{f", {hole.count} times" if hole.count > 1 else ""}</td>'
                   f'<td>{escape(hole.before)}</td><td>{escape(hole.behind)}</td></tr>' for hole in holes)
    told = chapter.orders[layout.name].told(layout.size)
    order = escape(f"{told[0].upper()}{told[1:]}.") if chapter.classes[layout.name].fields else "It has no member whose place could change."
    return (f'<h4>Padding: {amounts.plain(lost)} of {layout.size} bytes</h4><p class="padding">{order}</p><div class="wide"><table><thead><tr><th scope="col">Place</th><th scope="col">Bytes</th>'
            f'<th scope="col">Behind</th><th scope="col">Before</th></tr></thead><tbody>{rows}</tbody></table></div>')


def functions(chapter, name):
    """The functions that a class declares, each with an anchor for the words of tables."""
    found = []
    for one in chapter.classes[name].functions:
        if one.kind != "constructor":
            parameters = ", ".join(f"{kind} {word}" for kind, word in one.parameters)
            text = f"{'virtual ' if one.virtual else ''}{one.result + ' ' if one.result else ''}{one.name}({parameters}){' = 0' if one.pure else ''}"
            target = chapter.links.function_id(f"{name}::{one.name}".replace("~", "destructor-"))
            found.append(f'<li id="{target}"><code>{escape(text)}</code></li>')
    return f'<h4>Functions</h4><ul class="functions">{"".join(found)}</ul>' if found else ""


def group_html(links, group):
    parts = [f'<h5 id="{links.group_id(group.name)}">Group {escape(group.name)}</h5><div class="tables">']
    for table in group.tables:
        rows = "".join(f'<tr{" class=point" if word.number == 0 else ""}><th scope="row" class="number">{word.number}</th><td>{links.to_word(word)}</td></tr>' for word in table.words)
        parts.append(f'<table id="{links.table_id(table.name, group.name)}"><caption>Table {escape(table.name)}, of the pointer at {table.place}</caption><thead class="hidden"><tr><th scope="col">Word</th>'
                     f'<th scope="col">What it holds</th></tr></thead><tbody>{rows}</tbody></table>')
    return "".join(parts) + "</div>"


def vtt(links, tables):
    rows = "".join(f'<tr><th scope="row" class="number">{word.number}</th><td>{links.to_table(word.table, word.group)} of <a href="#{links.group_id(word.group)}">{escape(word.group)}</a></td></tr>' for word in tables.vtt)
    return (f'<h4>VTT</h4><div class="tables"><table><caption>The tables for the bases of {escape(tables.name)} under construction</caption><thead class="hidden"><tr><th scope="col">Word</th>'
            f'<th scope="col">Table</th></tr></thead><tbody>{rows}</tbody></table></div>')


def info(links, one):
    words = {"class": "no base", "si": "one public base at the start", "vmi": f"flags {one.flags}"}[one.sort]
    bases = "".join(f'<li><a href="#{links.info_id(base.name)}">{escape(base.name)}</a>, offset and flags {base.offset_flags}</li>' for base in one.bases)
    return f'<h4 id="{links.info_id(one.name)}">Type information</h4><p>{one.sort}: {words}.</p>' + (f"<ul>{bases}</ul>" if bases else "")
