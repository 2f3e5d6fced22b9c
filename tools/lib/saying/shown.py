"""The page of a program of C++: the time line of its run in the words and lines of the user's source, with the objects while they are built."""
import os
import re
from dataclasses import replace
from html import escape

from .. import marked_run, page_frame, page_run, problem, time_line
from . import back, runs, telling


class ProgramChapter(page_frame.Chapter):
    """What is told of one program. The lines that are shown are those of its first file."""

    def __init__(self, said, files):
        super().__init__(os.path.basename(files[0]), said.text, "s1-")
        self.said, self.file = said, os.path.abspath(files[0])
        self.shown = problem.read_text(files[0]).encode("latin-1").decode("utf-8", "replace").rstrip("\n")

    def run(self):
        try:
            line = time_line.read(self.text, self.classes, self.layouts, self.tables)
        except marked_run.NoMarks as reason:
            return f'<section class="run"><h2>The run of main</h2><p>There is no time line: {escape(str(reason))}.</p></section>'
        return page_run.section(self, Words(self.said, self.file, line).line())


class Words:
    """A time line in the words of the user's program: without the objects and calls that only say it."""

    def __init__(self, said, file, line):
        self.said, self.file, self.whole = said, file, line
        self.rows = back.table(said.text)
        self.ended = ""

    def line(self):
        moments, waiting = [], list(self.whole.moments)
        while waiting:
            one = waiting.pop(0)
            shown = self.printed(one, waiting) if one.sort == "printed" else self.last(one) if one.sort == "last" else self.event(one)
            if shown is not None:
                moments.append(replace(shown, line=self.line_of(one)))
        return replace(self.whole, moments=moments)

    def line_of(self, moment):
        """The user's line that a line of our source says, where it stands in the file that is shown."""
        place = self.said.places[moment.line - 1] if 0 < moment.line <= len(self.said.places) else None
        return place[1] if place and place[0] and os.path.abspath(place[0]) == self.file else 0

    def printed(self, moment, waiting):
        """What is printed, with the texts of the program: a template takes the printed lines behind it."""
        mark = back.MARK.fullmatch(moment.text)
        if mark is None or int(mark[1]) not in self.rows:
            return moment
        count = back.holes(self.rows, int(mark[1]))
        given, out = [waiting.pop(0).text for _ in range(min(count, len(waiting)))], back.Output()
        back.filled_in(self.rows, int(mark[1]), iter(given), out)
        if out.ended:
            self.ended = out.aside.strip() or f"the program ends with status {out.status}"
            return None
        return replace(moment, text=(out.text + out.aside).rstrip("\n") or "an empty line")

    def last(self, moment):
        """How the run ended; where the program ended itself, in its own words."""
        return replace(moment, text=self.ended or runs.Ran(self.said, moment.text + "\n", 3).why or moment.text)

    def event(self, moment):
        """An event of an object of the user's, or a call of a function of the user's."""
        made = self.whole.objects[moment.object - 1] if moment.object else None
        called = re.fullmatch(r"call (\S+) on (#\d+\+\d+)", moment.text)
        if called:
            told = telling.told(self.said, f"call {called[1]} {called[2]}")
            own = made is not None and made.class_name in self.said.names
            return told and replace(moment, text=told, object=moment.object if own else 0, table=moment.table if own else "", thunk=moment.thunk if own else "", places=moment.places if own else [])
        return moment if made is None or made.class_name in self.said.names else None


def page(said, files):
    """The page of a program."""
    return page_frame.page([ProgramChapter(said, files)])
