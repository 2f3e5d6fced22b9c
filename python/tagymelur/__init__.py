"""Tagymelur from Python: the answers of the program as typed values.

    import tagymelur
    tagymelur.check(text)                     how many classes a source has
    tagymelur.layout(text)["D"].size          the layouts by class name; `layout(text, "D")` is one
    tagymelur.tables(text)["D"].groups        virtual tables, VTT and type information
    tagymelur.run(text).lines                 what main prints; `trace=True` gives the events too
    tagymelur.paths(text).lines               the same by the machine of paths
    tagymelur.array(text, "D", 3).elements    what new D[3] makes
    tagymelur.memptr(text, "D::f").calls      the pointer &D::f; `memptr(text, "V::f", "D")` is that for objects of D
    tagymelur.inspect(text, dump).fields      what the text of a dump says of each field
    tagymelur.foreign(text, listing).lines    what main prints over a listing of layouts
    for one in tagymelur.many(texts, tagymelur.layout):
        one.value or one.error

A source that is not taken raises `Refused`, a run that ends otherwise than by its end `Undefined`, `OutOfSteps` or `Limit`. Each has `rule`,
`line`, `sentence` and, where there are such, `at`, `column`, `section` and the `lines` that were printed before; the line of a rule F or I is
one of the listing or the dump. `Unavailable` is raised where the
program cannot be run. The program is the one that the variable TAGYMELUR names, else the one of the repository or of the package.
"""
import os
from concurrent.futures import ThreadPoolExecutor
from dataclasses import dataclass

_HERE = os.path.dirname(os.path.abspath(__file__))
# The readers of answers are those of the tools: beside this folder in the repository, and in the package's own folder where it is installed.
for _folder in (os.path.join(_HERE, "..", "..", "tools"), os.path.join(_HERE, "..", "..", "..", "tagymelur", "tools")):
    if os.path.isfile(os.path.join(_folder, "lib", "answers.py")):
        __path__.append(_folder)
        break

from .lib import answers as _answers, class_tables as _class_tables, layout_text as _layout_text, small_texts as _small_texts  # noqa: E402
from .lib.answers import End, Event, Run  # noqa: E402
from .lib.class_tables import ClassTables  # noqa: E402
from .lib.layout_text import Layout  # noqa: E402
from .lib.problem import Problem as _Problem  # noqa: E402
from .lib.small_texts import Array, Dump, MemberPointer  # noqa: E402

__all__ = ["Answer", "Array", "ClassTables", "Dump", "End", "Error", "Event", "Layout", "Limit", "MemberPointer", "OutOfSteps", "Refused", "Run", "Unavailable", "Undefined",
           "array", "check", "foreign", "inspect", "layout", "many", "memptr", "paths", "run", "tables"]


class Error(Exception):
    """An answer that is no success."""

    def __init__(self, end, lines=()):
        self.end, self.lines = end, list(lines)
        self.status, self.rule, self.name = end.status, end.rule, end.name
        self.at, self.line, self.column = end.at, end.line, end.column
        self.sentence, self.section = end.sentence, end.section
        place = f" in line {end.line}" if end.line else ""
        super().__init__(f"{' '.join(filter(None, [end.rule, end.name])) or end.kind}{place}: {end.sentence}")

    def __reduce__(self):
        return type(self), (self.end, self.lines)


class Refused(Error):
    """The source is not taken, or the listing or the dump before it, or there is no such array or member pointer."""


class Undefined(Error):
    """A step of the run is undefined."""


class OutOfSteps(Error):
    """The budget of steps was spent."""


class Limit(Error):
    """A limit was met."""


class Unavailable(Exception):
    """The program is not there, has no memory, or cannot read or write."""


_ERRORS = {"refused": Refused, "undefined": Undefined, "out of steps": OutOfSteps, "limit": Limit}


def _checked(end, lines=()):
    if end.kind == "usage":
        raise ValueError(end.sentence)
    if end.kind in _ERRORS:
        raise _ERRORS[end.kind](end, lines)
    if end.kind != "done":
        raise Unavailable(f"{end.sentence or 'the program ended'} (status {end.status})")


def _given(words, texts):
    """Looks at what a caller gave: words and texts that are no str, and a word that no program can be given."""
    for text in [*words, *texts]:
        if not isinstance(text, str):
            raise TypeError(f"a str is asked for, and not {type(text).__name__}")
    if any("\0" in word for word in words):
        raise ValueError("a word has a byte 0")


def _asked(call, *words):
    try:
        return call(*words)
    except _Problem as problem:
        raise Unavailable(str(problem)) from None


def _text(words, source):
    _given(words, [source])
    text, end = _asked(_answers.ask, words, source)
    _checked(end)
    return text


def _one(found, name):
    if name not in found:
        raise Unavailable(f"the program's answer does not have {name}")
    return found[name]


def check(source):
    """How many classes the source has."""
    text = _text(["check"], source)
    if not text.endswith(" classes\n"):
        raise Unavailable(f"the program's answer has a text that is not known here: {text!r}")
    return int(text.split()[0])


def layout(source, name=None):
    """The layouts of all classes by name, or that of one class."""
    found = _asked(_layout_text.read, _text(["layout"] + ([] if name is None else [name]), source))
    return found if name is None else _one(found, name)


def tables(source, name=None):
    """The tables of all classes by name, or those of one class."""
    found = _asked(_class_tables.read, _text(["tables"] + ([] if name is None else [name]), source))
    return found if name is None else _one(found, name)


def run(source, steps=None, trace=False):
    """What `main` prints on the byte machine."""
    _given([], [source])
    found = _asked(_answers.run, source, "run", steps, trace)
    _checked(found.end, found.lines)
    return found


def paths(source, steps=None):
    """What `main` prints on the machine of paths."""
    _given([], [source])
    found = _asked(_answers.run, source, "paths", steps)
    _checked(found.end, found.lines)
    return found


def array(source, name, count):
    """What `new name[count]` makes."""
    return _asked(_small_texts.array, _text(["array", f"{name}@{count}"], source))


def memptr(source, member, of=None):
    """The pointer to a member, named as `C::m`; for objects of the class `of`, else of C."""
    return _asked(_small_texts.member_pointer, _text(["memptr", member if of is None else f"{member}@{of}"], source))


def inspect(source, dump):
    """What the text of one dump says of each field."""
    _given([], [source, dump])
    return _asked(_small_texts.dump, _text(["inspect"], _answers.joined(dump, source)))


def foreign(source, listing, steps=None):
    """What `main` prints on the byte machine over the layouts of a listing."""
    _given([], [source, listing])
    found = _asked(_answers.run, _answers.joined(listing, source), "foreign", steps)
    _checked(found.end, found.lines)
    return found


@dataclass
class Answer:
    """What a call gave for one of many sources: its value, or the error that it raised."""

    source: str
    value: object = None
    error: object = None


def many(sources, call=layout, processors=None):
    """An `Answer` for each source, in their order. The program runs side by side on all processors, or on so many."""
    def one(source):
        try:
            return Answer(source, call(source))
        except (Error, Unavailable) as error:
            return Answer(source, None, error)

    with ThreadPoolExecutor(processors or os.cpu_count()) as pool:
        yield from pool.map(one, sources)
