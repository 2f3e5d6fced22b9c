"""What tools/timings runs: each row has a command, and its words and its source at each part of its size."""
from dataclasses import dataclass
from typing import Callable

from . import run_shapes, shapes

BUDGET = "4000000"


@dataclass
class Row:
    """A command at some parts of its size: `words` and `source` are functions of the part."""

    name: str
    group: str
    what: str
    words: Callable
    source: Callable
    unit: str = ""
    limits: tuple = ()  # the last lines that may be met in place of an end: limits, or that no step is left
    most: int = 0  # the megabytes that a run may have in use; 0: any


def spelled(function):
    return function.__name__.replace("_", "-")


def run_row(shape, command, unit):
    """A run of which the number of steps is known."""
    return Row(f"{command}-{spelled(shape)}", "runs", shape.__doc__, lambda part: [command, "--steps", BUDGET], shape, unit)


RUNS = [(run_shapes.loop, "turns"), (run_shapes.calls, "calls"), (run_shapes.thunks, "calls"), (run_shapes.shared_thunks, "calls"), (run_shapes.casts, "casts"),
        (run_shapes.cross_casts, "casts"), (run_shapes.small_news, "objects"), (run_shapes.news, "objects"), (run_shapes.deep_news, "objects"), (run_shapes.shared_news, "objects"),
        (run_shapes.copies, "copies"), (run_shapes.many_objects, "objects"), (run_shapes.text, "lines"), (run_shapes.dump, "dumps"), (run_shapes.dumps, "dumps")]

HIERARCHIES = [shapes.classes, shapes.chain, shapes.overriding_chain, shapes.wide, shapes.nearly_empty, shapes.diamonds, shapes.shared, shapes.empty_tower,
               shapes.parts, shapes.pairs, shapes.construction_chain, shapes.many_entries]
TEXTS = [shapes.comment, shapes.words, shapes.statements, shapes.blocks, shapes.writes, shapes.base_writes, shapes.objects]
PROGRAMS = [shapes.writes, shapes.base_writes, shapes.objects]
MADE = [shapes.chain, shapes.overriding_chain, shapes.wide, shapes.nearly_empty, shapes.diamonds, shapes.shared, shapes.parts, shapes.pairs, shapes.construction_chain]
WORST = [shapes.member_subobjects, shapes.silent_chain, shapes.own_functions]
LIMITS = {"layout-chain": ("limit L9",), "layout-overriding-chain": ("limit L9",), "tables-many-entries": ("limit L9",), "check-silent-chain": ("limit L7",),
          "check-own-functions": ("limit L7",)}


def row(command, shape, source=None):
    """A command over a shape."""
    name = f"{command}-{spelled(shape)}"
    words = [command, "--steps", BUDGET] if command == "run" else [command]
    return Row(name, command, spelled(shape), lambda part: words, source or shape, limits=LIMITS.get(name, ()))


def made_row(shape):
    """A run that makes one object of the last class of a shape."""
    return row("run", shape, lambda part: shapes.with_main(shape(part)))


def room_row(shape, most, command="paths"):
    """A run that meets a limit, or has no step left, with the megabytes that it may have in use."""
    what = spelled(shape) if command == "paths" else f"{spelled(shape)} by {command}"
    limits = ("limit L8", "limit L10", f"out of steps {BUDGET}")
    return Row(f"{command}-{spelled(shape)}", "paths", what, lambda part: [command, "--steps", BUDGET], shape, limits=limits, most=most)


def room_rows():
    """The worst sources that are known, by the memory that a run takes."""
    return [room_row(run_shapes.large_arrays, 50), room_row(run_shapes.deep_members, 50),
            *[room_row(shape, 300, command) for shape in run_shapes.WORST for command in ("paths", "run")]]


def gen_row():
    return Row("gen", "gen", "gen 1000", lambda part: ["gen", str(1000 // part)], lambda part: "")


def rows():
    """All rows, group by group."""
    return [*[run_row(shape, command, unit) for shape, unit in RUNS for command in ("run", "paths")], gen_row(),
            *[row("check", shape) for shape in TEXTS + HIERARCHIES + WORST], *[row(command, shape) for command in ("layout", "tables") for shape in HIERARCHIES],
            *[row("run", shape) for shape in PROGRAMS], *[made_row(shape) for shape in MADE],
            *room_rows()]


@dataclass
class Beside:
    """A command of the program beside what a compiler does of the same classes; `flags` are those of the compiler."""

    name: str
    words: list
    shape: Callable
    form: Callable
    flags: list
    compilers: tuple = ("clang++",)


def as_it_is(text):
    return text


LAYOUTS = [shapes.classes, shapes.chain, shapes.overriding_chain, shapes.wide, shapes.nearly_empty, shapes.diamonds, shapes.empty_tower, shapes.parts, shapes.pairs]
DUMPED = ["-fsyntax-only", "-Xclang", "-fdump-record-layouts"]


def beside():
    """What is timed beside compilers, but for the run of a whole program."""
    return [*[Beside(f"check-{spelled(shape)}", ["check"], shape, as_it_is, ["-fsyntax-only"]) for shape in (shapes.comment, shapes.words, shapes.statements, shapes.blocks)],
            *[Beside(f"layout-{spelled(shape)}", ["layout"], shape, shapes.as_cpp, DUMPED) for shape in LAYOUTS],
            Beside("tables-pairs", ["tables"], shapes.pairs, shapes.as_objects, ["-c", "-o", "/dev/null"], ("clang++", "g++"))]
