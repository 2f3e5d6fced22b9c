"""Pointers to members as compilers write them into object files, beside what `memptr` says of them."""
import os
import re
from dataclasses import dataclass

from . import clang, compiled_tables, compilers, cpp_text, program
from .compare import Difference
from .layout_text import SIZES
from .problem import Problem


@dataclass
class Asked:
    """`&K::m` as a pointer to a member of D, and what the program answers: the words, or the refusal."""

    source: str
    owner: str
    member: object
    of: str
    words: list
    refused: str = ""

    @property
    def text(self):
        return f"{self.owner}::{self.member.name}@{self.of}"


def bases_of(classes, name):
    """The classes that a class has as bases, itself first, each once."""
    found = [name]
    for one in found:
        found += [base.name for base in classes[one].bases if base.name not in found]
    return found


def asked(source, classes, text):
    """Each member of each class and of its bases, with the answer of the program. Of what is refused one word says why."""
    found = []
    for name in classes:
        for owner in bases_of(classes, name):
            for member in [*classes[owner].fields, *(one for one in classes[owner].functions if one.kind == "function")]:
                found.append(Asked(source, owner, member, name, []))
    for one in found:
        answer, status = program.answer(["memptr", one.text], text)
        refused = re.match(r"refused (M\d) \w+$", answer)
        if refused:
            one.refused = refused[1]
        elif status:
            raise program.refused(["memptr", one.text], answer, status)
        else:
            one.words = words_of(answer)
    return found


def words_of(answer):
    """The words of an answer: numbers, and the function of a code."""
    data = re.match(r"data (-?\d+)\nbytes ([0-9a-f]{16})\n$", answer)
    function = re.match(r"function (?:virtual (\d+)|code (\S+)) adj (\d+)\n(?:calls|pure) ", answer)
    if data:
        number = int.from_bytes(bytes.fromhex(data[2]), "little", signed=True)
        return [str(number)] if number == int(data[1]) else [f"{data[1]} in the bytes {data[2]}"]
    if not function:
        raise Problem(f"the program's answer of memptr is not known here: {answer!r}")
    return [function[1] or function[2], function[3]]


def declaration(number, one):
    """A constant of C++ with the value of the pointer."""
    space, member = one.source, one.member
    if hasattr(member, "kind"):
        parameters = ", ".join(_type(space, kind) for kind, _ in member.parameters)
        head = f"{_type(space, member.result)} ({space}::{one.of}::*pointer_{number})({parameters})"
    else:
        length = "" if member.length is None else f"[{member.length}]"
        head = f"{_type(space, member.type)} ({space}::{one.of}::*pointer_{number}){length}"
    return f'extern "C" {{ {head} = &{space}::{one.owner}::{member.name}; }}'


def _type(space, kind):
    """A type as the text outside of the namespace names it."""
    return kind if kind in SIZES or kind == "void" else f"{space}::{kind}"


def unit(sources, pointers):
    """The classes, then a line for each pointer, whose number in errors is that of the pointer."""
    text = "".join(cpp_text.in_namespace(name, cpp_text.source_text(found)) for name, found in sources.items())
    return text + "".join(f'#line {number + 1} "pointers"\n{declaration(number, one)}\n' for number, one in enumerate(pointers))


def refused_by(compiler, sources, pointers):
    """The numbers of the pointers that a compiler does not take."""
    more = ["-ferror-limit=0"] if compiler == "clang++" else []
    _, said, _ = clang.call([compiler, *compilers.FLAGS, *more, "-fsyntax-only", "-x", "c++", "-"], unit(sources, pointers))
    errors = [line for line in said.splitlines() if re.search(r"\berror: ", line)]
    found = [re.match(r"pointers:(\d+):", line) for line in errors]
    if any(match is None for match in found):
        raise Problem(f"{compiler} does not take the classes: {errors[found.index(None)][:300]}")
    return {int(match[1]) - 1 for match in found}


def written_by(compiler, sources, pointers):
    """The words that a compiler writes for each pointer, by its number."""
    def work(folder):
        path = os.path.join(folder, "pointers.s")
        _, said, good = clang.call([compiler, *compilers.FLAGS, "-S", "-O0", "-x", "c++", "-o", path, "-"], unit(sources, pointers))
        if not good:
            raise Problem(f"{compiler} does not take the pointers: " + "; ".join(line for line in said.splitlines() if "error" in line)[:300])
        with open(path, encoding="utf-8") as file:
            return file.read()

    return of_assembly(clang.in_folder(work))


def of_assembly(text):
    """The words below the label of each pointer."""
    found, current = {}, None
    for line in text.splitlines():
        label, word, zeros = re.match(r"([\w.$]+):", line), re.match(r"\s+\.quad\s+([\w.$-]+)", line), re.match(r"\s+\.zero\s+(\d+)", line)
        if label:
            name = re.match(r"pointer_(\d+)$", label[1])
            current = found.setdefault(int(name[1]), []) if name else None
        elif current is not None and word:
            current.append(plain(word[1]))
        elif current is not None and zeros:
            current += ["0"] * (int(zeros[1]) // 8)
    return found


def plain(word):
    """A word as `memptr` writes it: a number, or a function with its class, without the namespace of the source."""
    if not word.startswith("_Z"):
        return word
    return "::".join(compiled_tables.plain(word).removeprefix("func ").split("::")[-2:])


def differences(sources, texts, chosen):
    """The differences of a batch, for each compiler, and how many pointers were compared, and how many refused."""
    pointers = [one for name, classes in sources.items() for one in asked(name, classes, texts[name])]
    taken, found = [one for one in pointers if not one.refused], []
    for compiler in chosen:
        errors = refused_by(compiler, sources, [one for one in pointers if one.refused != "M2"]) if any(one.refused for one in pointers) else set()
        others = [one for one in pointers if one.refused != "M2"]
        for number, one in enumerate(others):
            if (number in errors) != bool(one.refused):
                words = f"&{one.owner}::{one.member.name} for {one.of}: {one.refused or 'taken'}, {compiler} {'refuses it' if number in errors else 'takes it'}"
                found.append(Difference(one.source, one.of, compiler, [words], ""))
        fine = [one for number, one in enumerate(others) if not one.refused and number not in errors]
        written = written_by(compiler, sources, fine)
        for number, one in enumerate(fine):
            if written.get(number) != one.words:
                words = f"&{one.owner}::{one.member.name} for {one.of} is {' '.join(one.words)}, {compiler} {' '.join(written.get(number) or ['nothing'])}"
                found.append(Difference(one.source, one.of, compiler, [words], ""))
    return found, len(taken), len(pointers) - len(taken)
