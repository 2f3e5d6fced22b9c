"""The time line of a run as HTML: the object with the phases of its parts, its pointers, the source, and a list of all moments."""
import json
from html import escape

from . import amounts, layout_text, page_classes

MOST_PARTS = 256
PHASES = {"raw": "raw", "bases": "bases", "building": "ready, building", "complete": "complete", "ending": "ready, ending", "ending-bases": "ending bases", "ended": "ended"}
LEAF, BAR, LEFT, BYTE, WIDEST = 30, 26, 10, 26.0, 620


class Drawing:
    """An object of a class: a bar for each class subobject, a row of virtual pointers and members, and a row for where each pointer leads."""

    def __init__(self, parts, layouts, places):
        self.parts, self.layouts, self.places = parts, layouts, sorted(places)
        self.size = layouts[parts[0].class_name].size
        self.byte = max(4.0, min(BYTE, WIDEST / max(1, self.size)))

    def extent(self, part):
        layout = self.layouts[part.class_name]
        return part.place, part.place + max(1, layout.nvsize if part.path else layout.size)

    def lanes(self):
        """Rows in which no two bars overlap: the outer subobjects come first."""
        lanes = []
        for part in sorted(self.parts, key=lambda one: (len(one.whole.path), len(one.names), one.place)):
            start, end = self.extent(part)
            low = 1 + max((row for row, lane in enumerate(lanes) for other in lane if self.is_around(other, part)), default=-1)
            while low < len(lanes) and any(start < self.extent(other)[1] and self.extent(other)[0] < end for other in lanes[low]):
                low += 1
            while len(lanes) <= low:
                lanes.append([])
            lanes[low].append(part)
        return lanes

    @staticmethod
    def is_around(other, part):
        if other.whole is not part.whole:
            return part.whole.path.startswith(other.whole.path) and not other.path
        return not other.path or (part.path.startswith(other.path + "/"))

    def svg(self, label):
        lines, top = [], 4
        for lane in self.lanes():
            for part in lane:
                start, end = self.extent(part)
                name = part.path or part.whole.path or part.class_name
                lines.append(f'<g class="part" data-part="{part.number}"><title>{escape(part.text)}</title><rect x="{LEFT + start * self.byte:.1f}" y="{top}" width="{(end - start) * self.byte:.1f}" height="{BAR}"/>'
                             f'<text x="{LEFT + start * self.byte + 5:.1f}" y="{top + 17}" data-name="{escape(name)}">{escape(name)}</text></g>')
            top += BAR + 3
        lines += [line for part in self.parts for line in self.members(part, top)]
        for row, place in enumerate(self.places):
            x, y = LEFT + place * self.byte, top + LEAF + 22 + row * 20
            lines.append(f'<g class="pointer" data-place="{place}"><rect x="{x:.1f}" y="{top}" width="{8 * self.byte:.1f}" height="{LEAF}"/><text class="inside" x="{x + 5:.1f}" y="{top + 19}">vptr</text>'
                         f'<path d="M{x + 4:.1f},{top + LEAF} V{y - 4} h8"/><text class="leads" x="{x + 16:.1f}" y="{y}"></text></g>')
        height = top + LEAF + 22 + len(self.places) * 20
        width = LEFT * 2 + self.size * self.byte + 180
        return f'<svg role="img" aria-label="{escape(label)}" class="object" viewBox="0 0 {width:.0f} {height}" width="{width:.0f}" height="{height}">{"".join(lines)}</svg>'

    def members(self, part, top):
        for member in self.layouts[part.class_name].members:
            if not member.is_object:
                start, size = part.place + member.start, layout_text.member_size(self.layouts, member)
                yield (f'<g class="member"><title>{escape(member.told)}: {amounts.size_text(size)} at {amounts.place_text(start)}</title><rect x="{LEFT + start * self.byte:.1f}" y="{top}" width="{size * self.byte:.1f}" height="{LEAF}"/>'
                       f'<text x="{LEFT + start * self.byte + 4:.1f}" y="{top + 19}">{escape(member.name) if size * self.byte > 8 * len(member.name) + 6 else ""}</text></g>')


def stages(chapter, line):
    """A drawing with two tables for each class of which an object is made."""
    found = {}
    for one in line.objects:
        if one.class_name not in found:
            places = {place for part in one.parts for place in chapter.pointers.set_by(part)}
            found[one.class_name] = stage(chapter, one, sorted(places))
    return "\n".join(found.values())


def stage(chapter, one, places):
    if len(one.parts) > MOST_PARTS:
        return f'<div class="stage" data-class="{escape(one.class_name)}" hidden><p>An object of {escape(one.class_name)} has {len(one.parts):,} class subobjects, too many to draw here.</p></div>'
    label = f"An object of {one.class_name}; the tables below the picture say the same"
    parts = "".join(f'<tr data-part="{part.number}"><th scope="row">{escape(part.text)}</th><td class="number">{part.place}</td><td class="phase"></td></tr>' for part in one.parts)
    pointers = "".join(f'<tr data-place="{place}"><th scope="row" class="number">{place}</th><td class="leads"></td></tr>' for place in places)
    return (f'<div class="stage" data-class="{escape(one.class_name)}" hidden><div class="wide">{Drawing(one.parts, chapter.layouts, places).svg(label)}</div><div class="pair">'
            f'<table><caption>Class subobjects</caption><thead><tr><th scope="col">Subobject</th><th scope="col">Place</th><th scope="col">Phase</th></tr></thead><tbody>{parts}</tbody></table>'
            f'<table><caption>Virtual pointers</caption><thead><tr><th scope="col">Place</th><th scope="col">Leads to the table</th></tr></thead><tbody>{pointers}</tbody></table></div></div>')


def links_of(chapter):
    """For the text of each table the anchor of it."""
    return {f"{table.name} of {group.name}": chapter.links.table_id(table.name, group.name) for tables in chapter.tables.values() for group in tables.groups for table in group.tables}


def said(moment):
    """What a moment reads and sets, in words."""
    found = []
    if moment.table:
        found.append(f"the pointer at {moment.places[0]} leads to {moment.table}; {moment.thunk}")
    elif moment.places:
        found.append(f"a pointer at {' or '.join(map(str, moment.places))}; {moment.thunk}")
    elif moment.thunk:
        found.append(moment.thunk)
    found += [f"the pointer at {place} leads to {text}" for place, text in moment.pointers.items() if text]
    return "; ".join(found)


def row(front, number, moment):
    return (f'<tr id="{front}moment-{number}" class="{moment.sort}"><td class="number"><button type="button" data-moment="{number}">{number}</button></td><td class="number">{moment.line or ""}</td>'
            f"<td>{escape(moment.text)}</td><td>{escape(said(moment))}</td></tr>")


def section(chapter, line):
    """The whole time line of a source."""
    front = chapter.links.front
    used = {moment.table for moment in line.moments} | {text for moment in line.moments for text in moment.pointers.values()}
    data = {"phases": PHASES, "objects": [{"number": one.number, "class": one.class_name} for one in line.objects],
            "moments": [{"sort": one.sort, "text": one.text, "line": one.line, "object": one.object, "phases": one.phases, "pointers": one.pointers, "places": one.places, "said": said(one)} for one in line.moments],
            "links": {text: anchor for text, anchor in links_of(chapter).items() if text in used}}
    data = json.dumps(data, separators=(",", ":")).replace("<", "\\u003c")
    lines = page_classes.in_chunks('ol start="{first}"', [f'<li id="{front}line-{number}"><code>{escape(text) or " "}</code></li>' for number, text in enumerate(chapter.shown.split("\n"), 1)])
    rows = "\n".join(row(front, number, moment) for number, moment in enumerate(line.moments, 1))
    cut = f"<p>These are the first {len(line.moments):,} moments of a longer run.</p>" if line.is_cut else ""
    last = len(line.moments)
    return f"""<section class="run" id="{front}run" data-front="{front}"><h2>The run of main</h2>
<p>Each event in the life of an object, each call and each printed line. Step by the buttons, or by the keys ← and → (Home and End for the first and the last).</p>{cut}
<div class="controls"><button type="button" data-go="first">First</button><button type="button" data-go="back">Back</button><button type="button" data-go="forward">Forward</button><button type="button" data-go="last">Last</button>
<label>Moment <input type="range" min="1" max="{max(1, last)}" value="1"></label> <span class="count">1 of {last}</span></div>
<p class="now" aria-live="polite"></p>
<ul class="phases" aria-label="Colours of the phases">{"".join(f'<li class="{phase}">{name}</li>' for phase, name in PHASES.items())}</ul>
<div class="both"><div class="stages">{stages(chapter, line)}</div><div class="source" tabindex="0" role="region" aria-label="The source">{lines}</div></div>
<h3>All moments</h3><div class="wide all" data-late style="--count:{last}"><table class="moments" aria-label="All moments"><thead><tr><th scope="col">Moment</th><th scope="col">Line</th><th scope="col">What happens</th><th scope="col">What is read and set</th></tr></thead><tbody>
{rows}
</tbody></table></div>
<script type="application/json" class="data">{data}</script></section>"""
