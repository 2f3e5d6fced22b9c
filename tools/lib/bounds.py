"""What is wanted of casts, copies, the worst sources and objects that are gone, for tools/timings: what is found, and the most that it may be."""
from dataclasses import dataclass
from typing import Callable

from .interpreters import MISSED


@dataclass
class Bound:
    """What is measured, in which unit, and the most that is wanted of it. `found` is a function of the looks at the rows that it needs, each by its name and its part."""

    row: str
    what: str
    unit: str
    most: float
    needs: tuple
    found: Callable


def turn(name):
    """The processor seconds of a turn: the whole without its first quarter, so that the start is left out."""
    return lambda look: (look(name, 1).processor - look(name, 4).processor) / (look.turns(name, 1) - look.turns(name, 4))


def ratio(one, other):
    return lambda look: turn(one)(look) / turn(other)(look)


def whole(name):
    return lambda look: look(name, 1).processor


def megabytes(name):
    return lambda look: look(name, 1).kilobytes / 1024


def left_behind(name):
    """How many bytes a run has in use for each object more."""
    return lambda look: 1024 * (look(name, 1).kilobytes - look(name, 4).kilobytes) / (look.turns(name, 1) - look.turns(name, 4))


def turn_bound(row, what, most):
    return Bound(row, what, "microseconds", most, ((row, 1), (row, 4)), lambda look: 1e6 * turn(row)(look))


def ratio_bound(one, other, what):
    return Bound(one, what, "times", 1, tuple((name, part) for name in (one, other) for part in (1, 4)), ratio(one, other))


def source_bounds(row, most):
    """A fifth of what a source took, and 64 MB."""
    return [Bound(row, "the whole", "seconds", most, ((row, 1),), whole(row)), Bound(row, "in use", "MB", 64, ((row, 1),), megabytes(row))]


BOUNDS = [
    ratio_bound("run-casts", "run-calls", "a turn with a cast whose hint gives the place, of one with a virtual call"),
    turn_bound("run-cross-casts", "a turn with any other cast", 10),
    turn_bound("run-copies", "a copy by `run`", 1e6 / 812_000),
    ratio_bound("paths-copies", "run-copies", "a copy by `paths`, of one by `run`"),
    *source_bounds("tables-construction-chain", 0.256),
    *source_bounds("tables-overriding-chain", 0.172),
    *source_bounds("check-member-subobjects", 0.162),
    *source_bounds("check-own-functions", 0.178),
    *source_bounds("check-silent-chain", 0.118),
    Bound("run-small-news", "what an object that is gone leaves behind", "bytes", 24, (("run-small-news", 1), ("run-small-news", 4)), left_behind("run-small-news")),
]


def holds(found, most):
    """Whether what is found is above what is wanted by so little that the rate would miss it by no more than a third."""
    return found * (MISSED - 1) <= most * MISSED
