"""Each command of the program on the shapes of tools/large-source: its words and what comes on standard input."""
import itertools
import re

from . import listing, program, run_shapes, shapes

USAGE = 2
MAIN = "int main() {"
SMALLEST = 64  # so many parts of its size are tried, until a listing or a dump of a shape has room
READING = [("check",), ("layout",), ("tables",), ("run",), ("run", "--trace"), ("paths",)]
RUNNING = [("run", "--steps", "4000000"), ("run", "--trace", "--steps", "4000000"), ("paths", "--steps", "4000000")]


def named(function):
    return function.__name__.replace("_", "-")


def shape_names():
    return [named(shape) for shape in shapes.SHAPES + run_shapes.RUNS]


def rows(part, only=None):
    """The name of a shape, words and an input, for all shapes or one, each at a part of its size."""
    for shape in shapes.SHAPES:
        if only in (None, named(shape)):
            yield from of_classes(shape, part)
    for shape in run_shapes.RUNS:
        if only in (None, named(shape)):
            yield from ((named(shape), words, shape(part).source) for words in RUNNING)
    if only is None:
        yield "generated", ("gen", str(1000 // part)), ""


def of_classes(shape, part):
    """The commands on a source of classes; an object of the last class is made where there is no `main` yet."""
    name, source = named(shape), shape(part)
    classes = shapes.names_in(source)
    whole = with_a_main(source) if classes else source
    yield from ((name, words, whole) for words in READING)
    if classes:
        yield from later(name, classes[-1], whole)
        yield from in_two_parts(shape, part)


def later(name, last, source):
    """The commands on a source that some builds do not have: three elements of the last class, and its first member."""
    for words in [("array", f"{last}@3"), ("memptr", f"{last}::{first_member(source, last)}")]:
        if program.answer(words, "struct A {};")[1] != USAGE:
            yield name, words, source


def in_two_parts(shape, part):
    """The commands whose input is a listing or a dump before a source. Where that has no room, the shape is smaller, and its name says so.
    A program that gives no listing or no dump has no such input."""
    for command, made in (("foreign", listed), ("inspect", dumped)):
        if program.answer([command], "")[1] == USAGE:
            continue
        texts = ((smaller, made(shape(smaller))) for smaller in range(part, part + SMALLEST))
        for smaller, text in itertools.islice(((smaller, text) for smaller, text in texts if 0 < len(text) <= shapes.SOURCE_BYTES), 1):
            yield named(shape) if smaller == part else f"{named(shape)} --part {smaller}", (command,), text


def with_a_main(source):
    return source if MAIN in source else shapes.with_main(source)


def first_member(source, name):
    """The name of the first member of a class, `f` where it has none."""
    body = re.search(rf"struct {name}\b[^;{{]*\{{([^}}]*)", source)[1]
    found = re.search(r"(\w+)(?:\[\d+\])?[;(]", body)
    return found[1] if found else "f"


def listed(source):
    """What `layout` says of the classes of a source, before the source; empty where it does not lay them out."""
    whole = with_a_main(source)
    told, status = program.answer(["layout"], whole)
    return listing.with_program(told, whole) if status == 0 else ""


def dumped(source):
    """The dump of an object of the last class of a source, before the source that makes it; empty where none is made."""
    last = shapes.names_in(source)[-1]
    making = f"{MAIN} {last}* dumped = new {last}; dump(dumped);"
    whole = source.replace(MAIN, making, 1) if MAIN in source else f"{source}{making} }}\n"
    dump = re.match(r"dump #1 .*\n(?:\d+ .*\n)+", program.answer(["run"], whole)[0])
    return listing.with_program(dump[0], whole) if dump else ""
