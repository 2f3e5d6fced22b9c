"""A whole page: the sources as chapters, in one file that needs no other."""
import os
from html import escape

from . import class_tables, holes, marked_run, orders, packed, page_classes, page_run, parts, picture, pointers, program, time_line

HERE = os.path.dirname(os.path.abspath(__file__))
MANY = 100  # classes; on a page of more the parts of a class are made when the reader opens it


class Chapter:
    """All that is told of one source."""

    def __init__(self, name, text, front):
        words = program.text_of(["layout"], text)
        self.name, self.text = name, text
        self.shown = text.encode("latin-1").decode("utf-8", "replace").rstrip("\n")
        self.objects = parts.Objects(text, words)
        self.classes, self.layouts = self.objects.classes, self.objects.layouts
        self.derived = {one: [] for one in self.classes}
        for one in self.classes.values():
            for base in one.bases:
                self.derived[base.name].append(one.name)
        self.tables = class_tables.read(program.text_of(["tables"], text))
        self.holes = {one: holes.holes(self.objects, one) for one in self.layouts}
        self.orders = orders.best_of_all(self.objects, list(self.layouts))
        self.pointers = pointers.Pointers(self.classes, self.tables)
        self.links = page_classes.Links(front, self.classes, self.tables)

    def run(self):
        """The time line of `main`; a sentence where there is none."""
        try:
            line = time_line.read(self.text, self.classes, self.layouts, self.tables)
        except marked_run.NoMarks as reason:
            return f'<section class="run"><h2>The run of main</h2><p>There is no time line: {escape(str(reason))}.</p></section>'
        return page_run.section(self, line)

    def has_main(self):
        return any(body.kind == "main" for body in marked_run.statements.read(self.text).bodies)

    def sections(self, is_closed):
        """The classes; closed ones have their parts packed behind them."""
        if not is_closed:
            return "\n".join(page_classes.section(self, name) for name in self.layouts)
        heads = page_classes.in_chunks('div class="heads"', [page_classes.closed_section(self, name) for name in self.layouts])
        return f"""<p class="opener"><button type="button" data-all>Open all classes of {escape(self.name)}</button> A heading opens its class, and so does each link to it. The printed page has all classes open.</p>
<noscript><p>A script of this page makes the parts of its classes, so that scripts have to be allowed.</p></noscript>
{heads}
<script type="application/json" class="packed">{packed.packed(page_classes.body(self, name) for name in self.layouts)}</script>"""

    def html(self, is_closed):
        return f"""<section class="chapter" aria-label="{escape(self.name)}"><h2>Classes of {escape(self.name)}</h2>
<div class="index-box" tabindex="0" role="region" aria-label="Index of the classes of {escape(self.name)}">{page_classes.index(self, is_closed)}</div>
{self.run() if self.has_main() else ""}
<h2>Each class of {escape(self.name)}</h2>
{self.sections(is_closed)}</section>"""


def _file(name):
    with open(os.path.join(HERE, name), encoding="utf-8") as file:
        return file.read()


def page(chapters):
    """The text of the page."""
    names = ", ".join(chapter.name for chapter in chapters)
    count = sum(len(chapter.layouts) for chapter in chapters)
    patterns = picture.PATTERNS
    return f"""<!DOCTYPE html>
<html lang="en"><head><meta charset="utf-8"><meta name="viewport" content="width=device-width, initial-scale=1"><title>{escape(names)}: layouts, tables and runs</title><link rel="icon" href="data:,">
<style>{_file("page.css")}</style><script>document.documentElement.className = "late";</script></head><body>
<a class="skip" href="#main">To the classes</a>
<svg width="0" height="0" style="position:absolute" aria-hidden="true" focusable="false">{patterns}</svg>
<header><h1>{escape(names)}</h1><p>{count} classes: how each is laid out, its virtual tables, and what its objects go through. All numbers are bytes.</p>
<div class="search"><label for="search">Search classes, bases, members and functions</label><input type="search" id="search" autocomplete="off"><span id="found" aria-live="polite"></span></div></header>
<main id="main"{' class="many"' if count > MANY else ""}>{"".join(chapter.html(count > MANY) for chapter in chapters)}</main>
<footer><p>Made by <code>tools/page</code> of Tagymelur. docs/PAGE.md says how the pictures and the time line are made.</p></footer>
<script>{_file("page_late.js")}{_file("page_closed.js") if count > MANY else ""}{_file("page.js")}</script></body></html>
"""
