"""An array as the parts of its region: the cookie, and each element at the place that `array` tells."""
import re

from . import program
from .parts import Part

ELEMENTS = 16  # so many are drawn; the others are told as one stretch
COUNT = 8      # the bytes of the count, before element 0


def of_array(objects, asked):
    """The parts of the region of `new C[n]`, asked as `C@n`, a title, and what is to be said below."""
    name, count = asked.split("@")
    text = program.text_of(["array", asked], objects.text)
    told = dict(re.findall(r"^(region|cookie) (\d+)$", text, re.M))
    places = [int(place) for place in re.findall(r"^element \d+ at (\d+)$", text, re.M)]
    ends = re.findall(r"^end (\d+) at", text, re.M)
    cookie, made = int(told["cookie"]), f"new {name}[{int(count)}]"
    whole = Part("whole", 0, int(told["region"]), made, f"region of {made}", _cookie(cookie, int(count)) + _elements(objects, name, places))
    title = f"{made}: region {told['region']}, {f'cookie {cookie}' if cookie else 'no cookie'}"
    ended = f"delete[] ends the elements {_in_order(ends)}" if ends else "delete[] ends no element"
    return whole, title, [f"{made} gives the place {places[0]}", ended]


def _cookie(size, count):
    """The part in front of the elements, if there is one; the count is its last word."""
    if not size:
        return []
    number = Part("member", size - COUNT, COUNT, f"count {count}", f"count of elements, {count}")
    return [Part("cookie", 0, size, "cookie", "cookie", [number])]


def _elements(objects, name, places):
    size = objects.layouts[name].size
    found = [Part("element", place, size, f"[{number}]", f"{name} [{number}]", objects.whole(name, place).parts) for number, place in enumerate(places[:ELEMENTS])]
    rest = places[ELEMENTS:]
    if rest:
        told = f"[{ELEMENTS}] to [{len(places) - 1}]" if len(rest) > 1 else f"[{ELEMENTS}]"
        found.append(Part("repeat", rest[0], size * len(rest), told, f"{name} {told}, {'each ' if len(rest) > 1 else ''}as [0]"))
    return found


def _in_order(numbers):
    return ", ".join(numbers) if len(numbers) <= ELEMENTS else f"{numbers[0]}, {numbers[1]} .. {numbers[-1]}"
