"""Tells what became of the classes of a C++ source: every drop, every change, every stand-in, each once, with its count."""
from collections import Counter

from . import class_text
from .chosen import ASK, MOST_SHOWN
from .restate import LEFT_OUT, MOST_PARAMETERS, SAID, STAND_IN, shown

MOST_BYTES, MOST_CLASSES = 262144, 1024  # the limits L1 and L2 of the program


def lines(restating, restated, chosen, arguments, templates=()):
    """The lines for standard error, by the words of the tool. The templates are those of which there is no class."""
    quiet = arguments.quiet
    said = [record for record in restated.records if restating.level(record)[0] == SAID]
    stand_ins = [record for record in restated.records if restating.level(record)[0] == STAND_IN]
    left_out = [record for record in chosen if restating.level(record)[0] == LEFT_OUT]
    found = _counted("dropped", _dropped(restating, said)) + _renamed(restating, said, quiet)
    found += _counted("members of other types", _members(restating, said)) + _counted("types in signatures", _signatures(restating, said))
    found += [f"not as in C++: {shown(record)}: {restating.plan(record).unlike}" for record in said if restating.plan(record).unlike and not quiet]
    found += _grouped("a stand-in of its size", restating, stand_ins, quiet) + _grouped("left out", restating, left_out, quiet)
    found += _templates(templates, quiet) + _limits(restated, arguments.classes)
    stand_in = f", {len(stand_ins)} by a stand-in of their size" if stand_ins else ""
    return found + [f"{len(said)} classes said{stand_in}, {len(left_out)} left out"]


def _counted(title, counts):
    words = "; ".join(f"{sort} {count}" for sort, count in sorted(counts.items(), key=lambda one: (-one[1], one[0])) if count)
    return [f"{title}: {words}"] if words else []


def _dropped(restating, said):
    counts = Counter()
    for record in said:
        counts.update(record.dropped)
        virtual = restating.virtual_methods(record)
        counts["functions that are not virtual"] += len(record.methods) - len(virtual)
        counts["constructors, where one without parameters is there"] += max(record.constructors - 1, 0)
        counts["marks of deletion at virtual functions"] += sum(method.deleted for method in virtual)
        counts["parameters behind the sixteenth"] += sum(max(len(method.parameters) - MOST_PARAMETERS, 0) for method in virtual)
    return counts


def _renamed(restating, said, quiet):
    names = {}
    for record in said:
        for method in restating.virtual_methods(record):
            word = restating.functions.word(method)
            if word != method.name:
                names[restating.functions.signature(method)] = word
    if not names:
        return []
    words = "" if quiet else ": " + ", ".join(f"{signature} is {word}" for signature, word in names.items())
    return [f"renamed: {len(names)} virtual functions{words}"]


def _members(restating, said):
    counts = Counter()
    for record in said:
        counts.update(restating.plan(record).changes)
    return counts


def _signatures(restating, said):
    counts = Counter()
    for record in said:
        for method in restating.virtual_methods(record):
            types = restating.types.inside(record)
            for kind in [restating.result(record, method), *(types.kind(text) for text in method.parameters)]:
                change = "classes by value, which are pointers here" if kind.sort == "object" else kind.change
                if change:
                    counts[change] += 1
    return counts


def _grouped(title, restating, records, quiet):
    """A line for each reason, with the classes of that reason."""
    reasons = {}
    for record in records:
        reasons.setdefault(restating.level(record)[1], []).append(class_text.shown(record))
    if quiet:
        return [f"{title}: {len(names)} classes: {reason}" for reason, names in reasons.items()]
    return [f"{title}: {', '.join(names)}: {reason}" for reason, names in reasons.items()]


def _templates(templates, quiet):
    if not templates:
        return []
    shown = ", ".join(templates[:MOST_SHOWN]) + (f" and {len(templates) - MOST_SHOWN} more" if len(templates) > MOST_SHOWN else "")
    return [f"class templates {len(templates)}" + ("" if quiet else ": " + ASK.format(shown, templates[0]))]


def _limits(restated, named):
    """Whether the text is more than the program takes, and what to do then; of classes that were named there is nothing to leave out."""
    size, count = len(restated.text.encode("utf-8", "replace")), len(restated.records) + ("struct opaque {" in restated.text)
    if size <= MOST_BYTES and count <= MOST_CLASSES:
        return []
    over = [f"{size} bytes, where {MOST_BYTES} are the most (L1)"] * (size > MOST_BYTES) + [f"{count} classes, where {MOST_CLASSES} are the most (L2)"] * (count > MOST_CLASSES)
    advice = "that is what these classes need" if named else "--class NAME gives one class and what it needs"
    return [f"too much for one source: {' and '.join(over)}: {advice}"]
