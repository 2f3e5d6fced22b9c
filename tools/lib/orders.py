"""Which order of its own members makes a class smallest. The program itself lays out each order that is tried."""
import math
from collections import Counter
from dataclasses import dataclass

from . import layout_text, program, skeletons

MOST = 5_000  # orders that are all tried, where no bound settles it
AT_ONCE = 500
MOST_CLASSES = 1_024


@dataclass
class Best:
    """The best order that was found, its size, and why no order is better: nothing where that is not known."""

    names: list
    size: int
    reason: str
    least: int

    def told(self, size):
        """What this order is to the declared one, which has so many bytes."""
        why = f"no order is smaller, since {self.reason}" if self.reason else f"the best of the orders that were tried; no order is below {self.least}"
        if self.size == size:
            return f"the order of the members is best: {why}" if self.reason else f"no better order of the members was found; none is below {self.least}"
        return f"in the order {', '.join(self.names)} its size is {self.size}, {size - self.size} byte{'' if size - self.size == 1 else 's'} less: {why}"


def best(objects, name):
    """The order of the members of a class with the least size; the declared one where none is smaller."""
    return best_of_all(objects, [name])[name]


def best_of_all(objects, names):
    """The best order of each of these classes, by name. All orders are tried of those with the fewest, up to so many in all."""
    asked = _Asked(objects)
    trials = [_Trial(objects, name) for name in names]
    for number in range(3):
        asked.try_all((trial, trial.likely(objects)[number]) for trial in trials if trial.is_open)
    left, room = [], MOST
    for trial in sorted((trial for trial in trials if trial.is_open), key=lambda one: one.count):
        room -= trial.count
        left += [trial] if room >= 0 else []
    asked.try_all((trial, order) for trial in left for order in _distinct(trial.fields))
    return {trial.name: trial.best() for trial in trials}


class _Trial:
    """The orders of the members of a class that were laid out, and the best of them."""

    def __init__(self, objects, name):
        layout = objects.layouts[name]
        self.name, self.fields, self.align = name, objects.classes[name].fields, layout.align
        boxes = [part for part in objects.whole(name).parts if not part.is_mark and not part.is_padding]
        # boxes lie apart in every order, and their sizes do not depend on it
        self.data = math.ceil(sum(part.size for part in boxes))
        self.least = max(layout.align, -(-self.data // layout.align) * layout.align)
        self.start = max([part.end for part in boxes if part.sort in ("base", "held base", "virtual pointer")], default=0)
        self.count = _count(self.fields)
        self.found = layout.size, self.fields
        self.tried = {_kinds(self.fields)}

    @property
    def is_open(self):
        """Whether an order that was not laid out may be better than the best one so far."""
        return self.found[0] > self.least and len(self.tried) < self.count

    def likely(self, objects):
        return list(_likely(objects, self.start, self.fields))

    def laid_out(self, order, size):
        self.tried.add(_kinds(order))
        self.found = min(self.found, (size, order), key=lambda pair: pair[0])

    def best(self):
        size, order = self.found
        reason = ""
        if size == self.least:
            reason = f"its bases, members and virtual pointer take {self.data} bytes, and a size is a multiple of {self.align}"
        elif len(self.tried) == self.count:
            reason = f"all {self.count} orders of its members were laid out" if self.count > 1 else "its members have no other order"
        return Best([field.name for field in order], size, reason, self.least)


class _Asked:
    """Asks the program for orders of classes, as many in a call as a source has room for."""

    def __init__(self, objects):
        self.skeletons = skeletons.Skeletons(objects.classes)

    def try_all(self, pairs):
        """Lays out each order with the class of its trial, but those that were laid out before."""
        batch, needed = [], set()
        for trial, order in pairs:
            if _kinds(order) in trial.tried:
                continue
            more = needed | self.skeletons.needed[trial.name]
            if batch and (len(batch) == AT_ONCE or len(more) + len(batch) >= MOST_CLASSES):
                self.lay_out(batch)
                batch, more = [], self.skeletons.needed[trial.name]
            batch.append((trial, order))
            needed = more
        if batch:
            self.lay_out(batch)

    def lay_out(self, batch):
        """Lays out these orders as classes of one source, in two where it is past a limit. One that is past it alone stays untried."""
        text = self.skeletons.source(set().union(*(self.skeletons.needed[trial.name] for trial, _ in batch)))
        text += "".join(self.skeletons.text(trial.name, f"o{number}", order) for number, (trial, order) in enumerate(batch))
        answer, status = program.answer(["layout"], text)
        if status == 5:
            for half in (batch[:len(batch) // 2], batch[len(batch) // 2:]) if len(batch) > 1 else ():
                self.lay_out(half)
            return
        if status != 0:
            raise program.refused(["layout"], answer, status)
        layouts = layout_text.read(answer)
        for number, (trial, order) in enumerate(batch):
            trial.laid_out(order, layouts[f"o{number}"].size)


def _kind(field):
    return field.type, field.length, field.width


def _kinds(order):
    """An order as it counts: members of one type and length are alike."""
    return tuple(map(_kind, order))


def _count(fields):
    """How many orders there are, where members of one type and length are alike."""
    return math.factorial(len(fields)) // math.prod(math.factorial(count) for count in Counter(map(_kind, fields)).values())


def _distinct(fields, front=()):
    """All orders; members of one type and length keep theirs."""
    if not fields:
        yield list(front)
    seen = set()
    for number, field in enumerate(fields):
        if _kind(field) not in seen:
            seen.add(_kind(field))
            yield from _distinct(fields[:number] + fields[number + 1:], (*front, field))


def _likely(objects, start, fields):
    """Three orders that are often best: by alignment both ways, and by what fits at the next place without a hole."""
    align = lambda field: 8 if field.type.endswith("*") else layout_text.SIZES.get(field.type) or objects.layouts[field.type].align
    size = lambda field: layout_text.member_size(objects.layouts, layout_text.Member(0, field.type, field.length, field.name, 0, field.width))
    yield sorted(fields, key=align, reverse=True)
    yield sorted(fields, key=align)
    left, order, at = sorted(fields, key=align, reverse=True), [], start
    while left:
        field = next((one for one in left if at % align(one) == 0), left[-1])
        left.remove(field)
        order.append(field)
        at = -(-at // align(field)) * align(field) + size(field)
    yield order
