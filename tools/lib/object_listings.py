"""The layouts that debug information tells of the classes of sources, beside those of the program."""
import os
import re

from . import class_text, clang, compare, compiled_tables, compilers, cpp_text, debug_information, layout_text, listing, program, restate, source
from .compare import Difference
from .layout_text import SIZES
from .problem import Problem

FLAGS = {"g++": ["-femit-class-debug-always"], "clang++": ["-fstandalone-debug"]}
VERSIONS = ("4", "5")
AS_WIDE = "clang++ tells a bit-field that is as wide as its type as a member that is no bit-field"


def unit(sources):
    """The classes of sources in namespaces, with the constructors that make a compiler write tables."""
    text = ""
    for name, found in sources.items():
        uses = "".join(f"{one}* use_{one};\n" for one in found)
        text += cpp_text.in_namespace(name, compiled_tables.unit(found) + uses)
    return text


def told(compiler, version, sources):
    """What the debug information of one compile tells: the lines of each class by source and class, and why a class has none."""
    def work(folder):
        path = os.path.join(folder, "classes.o")
        words = [compiler, *compilers.FLAGS, "-O0", "-c", f"-gdwarf-{version}", "-fno-eliminate-unused-debug-types", *FLAGS[compiler], "-o", path, "-x", "c++", "-"]
        _, said, good = clang.call(words, unit(sources))
        if not good:
            raise Problem(f"{compiler} does not take the classes: " + "; ".join(line for line in said.splitlines() if "error" in line)[:300])
        return debug_information.read(path)

    found = clang.in_folder(work)
    restating = restate.Restating(found.names, anywhere=True)
    restated = class_text.write(restating, restating.closure(found.names.order))
    classes = source.classes(restated.text)
    numbers = listing.Said(restating, restated).of_classes(classes)
    own = {restated.names[record.name]: tuple(record.name.split("::", 1)) for record in restated.records}
    lines = {own[name]: listing.class_text(classes, classes[name], numbers[name]) for name in classes if name in own}
    return lines, {tuple(record.name.split("::", 1)): record.missing for record in found.names.order if record.missing}


def with_wide_fields(line):
    """A line as clang++ tells it of a bit-field that is as wide as its type; any other line as it is."""
    bits = re.match(r"(\d+) bits 0 (\d+) (.+) (\w+)$", line)
    return f"{bits[1]} field {bits[3]} {bits[4]}" if bits and int(bits[2]) == 8 * SIZES.get(bits[3], 0) else line


def plain(lines, name):
    """The lines of a class without the namespace of its source in the names of classes."""
    return re.sub(rf"\b{name}_(?=\w)", "", lines).splitlines()


def differences(sources, texts, chosen):
    """The differences of a batch, for each compiler and version of DWARF, and how many classes were compared, and how many left out."""
    layouts = {name: program.text_of(["layout"], texts[name]) for name in sources}
    gcc = compilers.by_gcc(sources) if "g++" in chosen else None
    found, taken, left_out = [], 0, 0
    for compiler in chosen:
        for version in VERSIONS:
            lines, missing = told(compiler, version, sources)
            for name, classes in sources.items():
                known = compare.Known(classes, layout_text.read(layouts[name]), {one: gcc[name, one] for one in classes} if gcc else {})
                for ours in re.split(r"(?m)^(?=class )", layouts[name])[1:]:
                    one, ours = ours.split()[1], ours.splitlines()
                    if (name, one) not in lines and any("virtual table" in missing.get((name, other), "") for other in known.related(one)):
                        left_out += 1
                        continue
                    theirs, taken = plain(lines.get((name, one), "nothing"), name), taken + 1
                    if theirs != ours:
                        found.append(difference(name, one, f"{compiler}, DWARF {version}", ours, theirs, known))
    return found, taken, left_out


def difference(name, one, told_by, ours, theirs, known):
    """What differs in a class, with the known reason or an empty text."""
    compiler = told_by.split(",")[0]
    words = [line for line in ours if line not in theirs] + [f"{told_by}: {line}" for line in theirs if line not in ours]
    reason = AS_WIDE if compiler == "clang++" and list(map(with_wide_fields, ours)) == theirs else known.reason(compiler, one)
    return Difference(name, one, compiler, words, reason)
