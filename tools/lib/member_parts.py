"""Where a pointer to a member leads: an object with the member, or with the subobject that a function gets, marked."""
import re

from . import program
from .problem import Problem


def of_member(objects, asked):
    """The parts of an object for a pointer asked as `K::m` or `K::m@D`, a title, and what its bytes say."""
    named, _, whole_name = asked.partition("@")
    owner, _, member = named.partition("::")
    text = program.text_of(["memptr", asked], objects.text)
    whole = objects.whole(whole_name or owner)
    title = f"&{named} as a pointer to a member of {whole.name}"
    data = re.fullmatch(r"data (\d+)\nbytes (\w{16})\n", text)
    if data:
        place = int(data[1])
        _mark(whole, title, lambda part: part.sort in ("member", "object") and (part.place, part.name) == (place, member))
        return whole, title, [f"bytes {data[2]}, the lowest first: {place}, the place of the member"]
    ptr, code, adj, ends, function, this = re.fullmatch(r"function (?:virtual (\d+)|code (\S+)) adj (\d+)\n(calls|pure) (\S+)(?: at (\d+))?\n", text).groups()
    _mark(whole, title, lambda part: part.place == int(adj) and (part is whole or part.sort.endswith("base")) and part.name.lstrip("*") == owner)
    return whole, title, [_words(ptr, code, adj), f"a call runs {function}, this at {this}" if ends == "calls" else f"a call reaches {function}, which is pure"]


def _words(ptr, code, adj):
    """The two words of a pointer to a function in a line."""
    if code:
        return f"ptr is even, the code of {code}; adj {adj}: it gets the {code.split('::')[0]} at {adj}"
    return f"ptr {ptr} is odd: entry {int(ptr) // 8} of the table to which the virtual pointer at {adj} leads; adj {adj}"


def _mark(whole, note, is_meant):
    """Marks the first part that is meant."""
    found = next((part for part in whole.all() if is_meant(part)), None)
    if found is None:
        raise Problem(f"no part of {whole.name} is the one to which {note} leads", 2)
    found.note = note
