"""The leaves of a class by its layout alone, for tests: each number, pointer and virtual pointer, elements of classes counted through.

Places and sizes are in bytes; those of bit-fields have eighths.
"""
from collections import namedtuple

import support  # noqa: F401, which gives the path of lib
from lib import layout_text, source

Leaf = namedtuple("Leaf", "place size told end")


def bits(one):
    """The bits that a leaf, a part or a hole takes, counted from the start of the object."""
    return range(int(8 * one.place), int(8 * (one.place + one.size)))


def leaf(place, size, told):
    return Leaf(place, size, told, place + size)


def of_class(classes, layouts, name, start=0):
    """The leaves of an object of a class that begins at `start`. An array of numbers or pointers is one leaf."""
    dynamic, found, pointers = source.dynamic_classes(classes), [], {}
    subobjects = [(name, 0)] + [(base.class_name, base.place) for base in layouts[name].bases]
    for owner, place in subobjects:
        if owner in dynamic:
            pointers.setdefault(place, set()).add(owner)
        for member in layouts[owner].members:
            size, at = layout_text.member_size(layouts, member), start + place + member.start
            if not member.is_object:
                found.append(leaf(at, size, member.told))
            for number in range(member.length or 1) if member.is_object else []:
                found += of_class(classes, layouts, member.type, at + number * layouts[member.type].size)
    # subobjects at one place share a virtual pointer; it is named after the one without a primary base there
    for place, owners in pointers.items():
        last = {owner for owner in owners if not any(primary in owners for primary in [layouts[owner].primary.replace("virtual ", "")])}
        found += [leaf(start + place, 8, f"virtual pointer of {owner}") for owner in last]
    return found
