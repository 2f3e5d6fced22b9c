"""The layouts that clang++ and g++ give the classes of sources, many sources in one compile."""
import os
import re
from dataclasses import dataclass, field

from . import clang, cpp_text, gcc_bits
from .problem import Problem

FLAGS = ["-std=gnu++98", "-w", "-fno-access-control"]


@dataclass
class Seen:
    """What a compiler says of a class. Bases are the places by path, as `*V/B`; g++ names them in preorder, by class alone.

    Members are places in bytes; that of a bit-field is its first and its last bit.
    """

    size: int
    align: int
    nvsize: int
    nvalign: int
    dsize: object = None
    bases: object = None
    preorder: object = None
    members: dict = field(default_factory=dict)
    primary: str = "none"
    lost: bool = False


def unit(sources):
    """One text of C++ for sources that are given by name, each name a namespace."""
    return "".join(cpp_text.in_namespace(name, cpp_text.source_text(found)) for name, found in sources.items())


def by_clang(sources, flags=()):
    """Clang's word on each class, by the names of source and class, also by flags of the user's."""
    names = [f"{name}::{one}" for name, found in sources.items() for one in found]
    layouts = clang.layouts(unit(sources), names, FLAGS[:2] + list(flags))
    found = {}
    for name, classes in sources.items():
        for one in classes:
            layout = layouts.get(f"{name}::{one}")
            if layout is None:
                raise Problem(f"clang++ does not lay out the class {one}; run clang++ on the source, and see what it says")
            found[name, one] = _of_rows(layout)
    return found


def _of_rows(layout):
    """Places of bases by their paths, and of the class's own members."""
    seen = Seen(layout.size, layout.align, layout.nvsize, layout.nvalign, layout.dsize, {})
    path, inside = {}, None
    for number, (place, depth, sort, words) in enumerate(layout.rows):
        if inside is not None and depth > inside:
            continue
        inside = None
        if sort == "field":
            inside = depth
            if depth == 1:
                seen.members[words.split()[-1]] = layout.bits.get(number, place)
        elif sort != "virtual pointer":
            own = words[:words.index(" (")].split("::")[-1].split()[-1]
            path[depth] = "*" + own if "virtual" in sort else path.get(depth - 1, "") + "/" + own if depth > 1 else own
            seen.bases[path[depth]] = place
            if depth == 1 and (sort == "primary base" or (sort == "primary virtual base" and seen.primary == "none")):
                seen.primary = ("virtual " if "virtual" in sort else "") + own
    return seen


def by_gcc(sources):
    """G++'s word on each class: its dump of classes, the places of members as constants of an assembly text, and the bits that a program sets."""
    units = unit(sources)
    text = units + "".join(_offsets(name, found) for name, found in sources.items())

    def work(folder):
        dump, assembly = os.path.join(folder, "classes"), os.path.join(folder, "text.s")
        words = ["g++", *FLAGS, "-S", "-O0", "-x", "c++", f"-fdump-lang-class={dump}", "-o", assembly, "-"]
        _, said, good = clang.call(words, text, folder)
        if not good:
            raise Problem("g++ does not take the classes: " + "; ".join(line for line in said.splitlines() if "error" in line)[:300])
        with open(dump, encoding="utf-8") as classes, open(assembly, encoding="utf-8") as constants:
            return classes.read(), constants.read()

    classes, constants = clang.in_folder(work)
    found = _of_dump(classes)
    places, bits = _of_constants(constants), gcc_bits.places(units, FLAGS, sources)
    for name, classes in sources.items():
        for one, record in classes.items():
            if (name, one) not in found:
                raise Problem(f"g++ does not lay out the class {one}; run g++ on the source, and see what it says")
            found[name, one].members = dict(zip([field.name for field in _whole(record)], places.get((name, one), [])))
            found[name, one].members.update({field.name: bits[name, one, field.name] for field in record.fields if field.width is not None})
    return found


def _whole(record):
    """The members of a class that are no bit-fields."""
    return [field for field in record.fields if field.width is None]


def _offsets(name, found):
    lines = []
    for one, record in found.items():
        if _whole(record):
            offsets = ", ".join(f"__builtin_offsetof({name}::{one}, {field.name})" for field in _whole(record))
            lines.append(f'extern "C" {{ extern const unsigned long places__{name}__{one}[] = {{ {offsets} }}; }}\n')
    return "".join(lines)


def _of_constants(text):
    found, current = {}, None
    for line in text.splitlines():
        label = re.match(r"places__(\w+?)__(\w+):", line)
        if label:
            current = found.setdefault((label[1], label[2]), [])
        elif re.match(r"\w+:", line) or line.strip().startswith(".globl"):
            current = None
        elif current is not None:
            number = re.match(r"\s+\.(quad|zero)\s+(\d+)", line)
            if number:
                current += [int(number[2])] if number[1] == "quad" else [0] * (int(number[2]) // 8)
    return found


BASE = re.compile(r"(?:(\w+)::)?(\w+) \(0x\w+\) (\d+|alternative-path)(.*)")


def _of_dump(text):
    """The classes of g++'s dump. It lists subobjects in preorder, and a shared base once with its place."""
    found, key, seen, owner = {}, None, None, None
    for line in text.splitlines():
        head = re.match(r"Class (?:(\w+)::)?(\w+)$", line)
        sizes = re.match(r"   (base )?size=(\d+) (?:base )?align=(\d+)", line)
        base = BASE.match(line)
        if head:
            key, seen, owner = (head[1] or "", head[2]), Seen(0, 0, 0, 0, preorder=[]), None
            found[key] = seen
        elif line.startswith(("Vtable", "VTT", "Construction")):
            key = seen = None
        elif seen is None:
            continue
        elif sizes:
            seen.__dict__.update({"nvsize" if sizes[1] else "size": int(sizes[2]), "nvalign" if sizes[1] else "align": int(sizes[3])})
        elif base and base[3] != "alternative-path":
            owner = (base[2], "virtual" in base[4])
            if seen.preorder is not None:
                seen.preorder.append((base[2], int(base[3]), "virtual" in base[4]))
        elif owner and "primary-for" in line:
            target = re.search(r"primary-for (?:\w+::)?(\w+) ", line)
            if target and target[1] == key[1]:
                seen.primary = ("virtual " if owner[1] else "") + owner[0]
        if seen is not None and "lost-primary" in line:
            seen.lost = True
    for seen in found.values():
        seen.preorder = seen.preorder[1:]
    return found
