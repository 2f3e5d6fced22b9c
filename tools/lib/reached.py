"""Which definitions a clause reaches, and how many lines they have: from the names that the clause cites, over what each
definition cites. A name is looked up in its own file and in what that imports."""
import os
import re
from collections import Counter
from dataclasses import dataclass, field

from .problem import Problem

WORD = re.compile(r"[^\s(){}\[\],;:.→λ]+")
IMPORT = re.compile(r"(pub )?use (?:Rattle\.)?([\w.]+)\.\{([^}]*)\}")
HEAD = re.compile(r"(?:(?:abbrev|unfoldable|pub|record|data) +)+([^\s:({]+)|  (?=(?:pub )?(?:abbrev|unfoldable|record|data) )(?:(?:abbrev|unfoldable|pub|record|data) +)+([^\s:({]+)")
MEMBER = re.compile(r" +(?:pub )?([^\s:({|]+) *:")
GHOST = re.compile(r"ghost use (?:Rattle\.)?([\w.]+)\.\{([^}]*)\}")


@dataclass
class Module:
    """A file of specs/: its definitions with their lines, and the names that it imports, and those that it hands on."""

    definitions: dict = field(default_factory=dict)
    spelled: dict = field(default_factory=dict)  # what is written of a definition, and its name
    members: dict = field(default_factory=dict)  # a constructor or a field, and the definition that has it
    imports: dict = field(default_factory=dict)
    handed_on: dict = field(default_factory=dict)


def spellings(name):
    """A name, and what is written of it where it stands between its arguments."""
    return [name, *[piece for piece in name.split("◌") if piece]] if "◌" in name else [name]


def imported(module, names):
    """The names of an import, each with where it stands under which name."""
    for one in names.split(","):
        old, _, new = one.strip().partition(" as ")
        for spelling in spellings(new.strip() or old.strip()):
            yield spelling, (module, old.strip())


def add_line(module, line, name):
    """Adds a line of a definition, and the constructor or field with which it begins."""
    module.definitions[name].append(line)
    member = MEMBER.match(line)
    if member and re.search(r"\b(?:data|record)\b", module.definitions[name][0]):
        module.members.setdefault(member[1], name)


def read_module(text):
    """The definitions of a file. A line that is blank, a comment or an import belongs to none."""
    module, name = Module(), None
    text = re.sub(IMPORT, lambda found: found[0].replace("\n", " "), text)
    for line in text.splitlines():
        found = IMPORT.match(line)
        if found:
            names = dict(imported(found[2], found[3]))
            module.imports.update(names)
            module.handed_on.update(names if found[1] else {})
        elif re.match(r"\s*(?:--.*)?$|(?:pub )?(?:use|mod) |infix|mutual", line):
            continue
        elif HEAD.match(line):  # one of several that cite each other stands two blanks from the margin
            name = HEAD.match(line)[1] or HEAD.match(line)[2]
            module.definitions[name] = [line]
            module.spelled.update((spelling, name) for spelling in spellings(name))
        elif name:
            add_line(module, line, name)
    return module


def read_crates(folder):
    """The files of the specs/ of all crates, by their names."""
    modules = {}
    for place, _, files in os.walk(folder):
        parts = os.path.relpath(place, folder).split(os.sep)
        for file in files:
            if "specs" in parts[1:2] and file.endswith(".antt"):
                with open(os.path.join(place, file), encoding="utf-8") as opened:
                    modules[".".join([*parts, file[:-len(".antt")]])] = read_module(opened.read())
    return modules


def found_in(modules, place, name):
    """The definition that a name of a file is, or None for one of the structs of src/ and of the kit. An import may name a
    constructor behind its definition."""
    module = modules.get(place)
    if module is None:
        above, _, last = place.rpartition(".")
        return found_in(modules, above, last) if above in modules else None
    if name in module.definitions:
        return place, name
    if name in module.handed_on:
        return found_in(modules, *module.handed_on[name])
    return (place, module.members[name]) if name in module.members else None


def named(modules, place, word):
    """The definition that a word in a file is."""
    module = modules[place]
    if word in module.spelled:
        return place, module.spelled[word]
    if word in module.imports:
        return found_in(modules, *module.imports[word])
    return found_in(modules, place, word)


def reached(modules, starts):
    """All definitions that these cite, and that those cite, and so on."""
    seen, open_ones = set(), list(starts)
    while open_ones:
        one = open_ones.pop()
        if one not in seen:
            seen.add(one)
            words = {word for line in modules[one[0]].definitions[one[1]] for word in WORD.findall(line.split(" -- ")[0])}
            open_ones += [found for found in (named(modules, one[0], word) for word in words) if found]
    return seen


def lines_by_crate(modules, definitions):
    """How many lines of definitions each crate has."""
    counts = Counter()
    for place, name in definitions:
        counts[place.split(".")[0]] += len(modules[place].definitions[name])
    return counts


def begin(call):
    """How a public call begins."""
    return rf'pub (?:const |unsafe |extern "C" )*fn {re.escape(call)}\b'


def clause_words(text, call, clause):
    """The words of the clauses of a public call, or of the one clause."""
    head = re.search(begin(call) + r"(.*?)^\s*\{", text, re.S | re.M)
    if not head:
        raise Problem(f"there is no public call {call} in that crate", 2)
    parts = re.split(r"^\s*(?=requires|ensures)", re.sub(r"//.*", "", head[1]), flags=re.M)[1:]
    wanted = [part for part in parts if clause is None or re.match(rf"\w+ {re.escape(clause)} \{{", part)]
    if not wanted:
        raise Problem(f"{call} has no clause {clause}", 2)
    return set(WORD.findall(" ".join(wanted)))


def cited(modules, text, words):
    """The definitions that words of a file of src/ are, by its ghost imports."""
    names = {}
    for module, listed in GHOST.findall(text):
        names.update(imported(module, listed))
    return [found for found in (found_in(modules, *names[word]) for word in words if word in names) if found]


def of_call(folder, crate, call, clause):
    """The lines of definitions that a public call reaches, by crates."""
    source = os.path.join(folder, crate, "src")
    modules = read_crates(folder)
    for file in sorted(os.listdir(source)) if os.path.isdir(source) else []:
        with open(os.path.join(source, file), encoding="utf-8") as opened:
            text = opened.read()
        if re.search(begin(call), text):
            return lines_by_crate(modules, reached(modules, cited(modules, text, clause_words(text, call, clause))))
    raise Problem(f"there is no public call {call} in a crate {crate}", 2)
