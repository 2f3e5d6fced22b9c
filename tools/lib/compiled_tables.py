"""The words of virtual tables as compilers make them: the symbols and numbers of an assembly text, in the words of `tables`."""
import os
import re

from . import clang, compiled_types, compilers, cpp_text, source, table_text
from .problem import Problem

UNUSED = "a word of a virtual primary base that another subobject holds"
ABSTRACT = "g++ writes 0 for the destructors of an abstract class"
NOT_WRITTEN = "clang++ writes no tables of an abstract class with virtual bases"
COVARIANT = "g++ leaves `this` as it is at a covariant entry"


def unit(classes):
    """The classes as C++, with a constructor for each that has tables, so that a compiler writes them."""
    dynamic = source.dynamic_classes(classes)
    text = "".join(f"{one.tag} {one.name};\n" for one in classes.values())
    for one in classes.values():
        if one.name not in dynamic:
            text += cpp_text.class_text(one)
            continue
        parts = [part for part in one.parts if getattr(part, "kind", "") != "constructor"]
        written = cpp_text.class_text(source.Class(one.tag, one.name, one.bases, parts))
        text += written[:written.rindex("}")] + f"public:\n  {one.name}();\n}};\n{one.name}::{one.name}() {{}}\n"
    return text


def assembly(compiler, classes):
    """The assembly text that a compiler makes of the classes."""
    def work(folder):
        path = os.path.join(folder, "text.s")
        _, said, good = clang.call([compiler, *compilers.FLAGS, "-S", "-O0", "-x", "c++", "-o", path, "-"], unit(classes))
        if not good:
            raise Problem(f"{compiler} does not take the classes: " + "; ".join(line for line in said.splitlines() if "error" in line)[:300])
        with open(path, encoding="utf-8") as file:
            return file.read()

    return clang.in_folder(work)


def of_assembly(text):
    """The words below each label of a table."""
    found, current = {}, None
    for line in text.splitlines():
        label = re.match(r"([\w.$]+):", line)
        word = re.match(r"\s+\.quad\s+([\w.$-]+)", line)
        zeros = re.match(r"\s+\.zero\s+(\d+)", line)
        if label:
            name = re.match(r"_ZTV(\d+)(\w+)$", label[1])
            current = found.setdefault(name[2][:int(name[1])], []) if name else None
        elif current is not None and word:
            current.append(plain(word[1]))
        elif current is not None and zeros:
            current += ["0"] * (int(zeros[1]) // 8)
    return found


def _number(text):
    return text.replace("n", "-")


def _names(encoding):
    """The names of a nested name, as `N1D1fE`, or of one alone; a destructor is D1 or D0 behind the class."""
    encoding = encoding[1:] if encoding.startswith("N") else encoding
    encoding = encoding.lstrip("K")
    found = []
    while encoding and encoding[0].isdigit():
        length = re.match(r"\d+", encoding)[0]
        found.append(encoding[len(length):len(length) + int(length)])
        encoding = encoding[len(length) + int(length):]
    return found, encoding


def _offset(text):
    """A call offset: its words, and what stands behind it."""
    constant = re.match(r"h(n?\d+)_", text)
    virtual = re.match(r"v(n?\d+)_(n?\d+)_", text)
    found = constant or virtual
    return [_number(part) for part in found.groups()], text[found.end():]


def plain(symbol):
    """A word of an assembly text as `tables` writes it, without its index; numbers stay numbers."""
    if not symbol.startswith("_Z"):
        return "pure" if symbol == "__cxa_pure_virtual" else symbol
    if symbol.startswith("_ZTI"):
        return "typeinfo " + "::".join(_names(symbol[4:])[0])
    rest, this, result = symbol[2:], [], []
    if rest.startswith("Tc"):
        this, rest = _offset(rest[2:])
        result, rest = _offset(rest)
    elif rest.startswith(("Th", "Tv")):
        this, rest = _offset(rest[1:])
    names, behind = _names(rest)
    if behind.startswith(("D0", "D1", "D2")):
        words = f"{'deleting' if behind[1] == '0' else 'complete'} {names[-1]}::~{names[-1]}"
    else:
        words = "func " + "::".join(names)
    if this and this != ["0"]:
        words += f" this {this[0]}" + (f" vcall {this[1]}" if len(this) > 1 else "")
    if result and result != ["0"]:
        words += f" return vbase {result[1]} {result[0]}" if len(result) > 1 else f" return {result[0]}"
    return words


def ours(text):
    """The words of the whole group of each class, by the program's text."""
    found = {}
    for table in (table for one in table_text.read(text) for table in one.tables):
        if "@" not in table.group:
            found.setdefault(table.group, []).extend(_ours(word.text) for word in table.words)
    return found


def _ours(word):
    sort, _, rest = word.partition(" ")
    if sort in ("vbase", "vcall", "top"):
        return rest.split()[0]
    return {"unused": "0 unused", "pure": "pure"}.get(sort, word)


def differences(compiler, classes, text, lost):
    """The words that differ, and the type information, a class at a time: class, words, and the known reason or an empty text.

    `lost` has the classes in whose objects a virtual primary base is held by another subobject."""
    made = assembly(compiler, classes)
    return table_differences(compiler, of_assembly(made), text, lost) + compiled_types.differences(compiler, classes, text, made)


def table_differences(compiler, theirs, text, lost):
    """The words of tables that differ."""
    found = []
    for name, words in ours(text).items():
        other = theirs.get(name)
        if other is None:
            found.append((name, [f"{compiler} writes no tables"], NOT_WRITTEN if compiler == "clang++" and "pure" in words else ""))
            continue
        if len(words) != len(other):
            found.append((name, [f"{len(words)} words, {compiler} {len(other)}"], UNUSED if name in lost else ""))
            continue
        pairs = [(number, mine, its) for number, (mine, its) in enumerate(zip(words, other)) if mine.replace(" unused", "") != its or "unused" in mine and its != "0"]
        if pairs:
            reasons = {reason(compiler, mine, its, name in lost) for _, mine, its in pairs}
            found.append((name, [f"word {number} is {mine!r}, {compiler} {its!r}" for number, mine, its in pairs], reasons.pop() if len(reasons) == 1 else "" if "" in reasons else "; ".join(sorted(reasons))))
    return found


def reason(compiler, mine, its, is_lost):
    """The known reason of one word that differs, or an empty text."""
    if "unused" in mine or is_lost:
        return UNUSED
    if compiler == "g++" and its == "0" and mine.startswith(("complete ", "deleting ")):
        return ABSTRACT
    if compiler == "g++" and " return " in mine and re.sub(r" this 0 vcall -?\d+", "", mine) == its:
        return COVARIANT
    return ""
