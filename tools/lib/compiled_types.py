"""Type information as compilers make it: the records of an assembly text, in the words of `tables`."""
import re

REPEATED = "clang++ takes a class below a shared base for one that the object has twice"


def of_assembly(text):
    """The record of each class that the text has, as `tables` writes it, line by line."""
    found, current = {}, None
    for line in text.splitlines():
        label = re.match(r"([\w.$]+):", line)
        word = re.match(r"\s+\.(?:quad|long)\s+([\w.$+-]+)", line)
        if label:
            name = re.match(r"_ZTI(\d+)(\w+)$", label[1])
            current = found.setdefault(name[2][:int(name[1])], []) if name else None
        elif current is not None and word:
            current.append(word[1])
    return {name: lines(name, words) for name, words in found.items() if words}


def class_of(symbol):
    """The class whose record a symbol names."""
    name = re.match(r"_ZTI(\d+)(\w+)$", symbol)
    return name[2][:int(name[1])] if name else symbol


def lines(name, words):
    """The lines of a record: a class without bases, one with a simple base, or any other."""
    if "__si_class_type_info" in words[0]:
        return [f"typeinfo {name} si {class_of(words[2])}"]
    if "__vmi_class_type_info" in words[0]:
        bases = [f"base {class_of(base)} {number}" for base, number in zip(words[4::2], words[5::2])]
        return [f"typeinfo {name} vmi flags {words[2]} bases {words[3]}", *bases]
    return [f"typeinfo {name} class"]


def ours(text):
    """The record of each class by the program's text."""
    found, current = {}, None
    for line in text.splitlines():
        head = re.match(r"typeinfo (\w+) ", line)
        if head:
            current = found.setdefault(head[1], [])
        elif not line.startswith("base "):
            current = None
        if current is not None:
            current.append(line)
    return found


def flags_of(record):
    found = re.match(r"typeinfo \w+ vmi flags (\d+) ", record[0])
    return int(found[1]) if found else 0


def reason(compiler, mine, its):
    """The known reason of a difference, or an empty text."""
    repeated = flags_of(its) == flags_of(mine) | 1 and re.sub(r"flags \d+", "", its[0]) == re.sub(r"flags \d+", "", mine[0]) and its[1:] == mine[1:]
    return REPEATED if compiler == "clang++" and repeated else ""


def differences(compiler, classes, text, assembly):
    """The records that differ: class, words, and the known reason or an empty text. A class with a base that is not public is left out."""
    theirs, found = of_assembly(assembly), []
    for name, mine in ours(text).items():
        its = theirs.get(name)
        if its is not None and its != mine and all(base.access == "public" for base in classes[name].bases):
            found.append((name, [f"{' / '.join(mine)}, {compiler} {' / '.join(its)}"], reason(compiler, mine, its)))
    return found
