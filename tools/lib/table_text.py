"""Reads the text of `tables`, and says of each word what it leads to."""
import re
from dataclasses import dataclass, field

WORD = 8
ENTRY = re.compile(r"(func|complete|deleting) (\S+)(?: this (-?\d+))?(?: vcall (-?\d+))?(?: return (vbase )?(-?\d+)(?: (-?\d+))?)?$")
ENDS = {"func": "", "complete": ", which ends the object", "deleting": ", which ends the object and frees it"}


@dataclass
class Word:
    number: int
    text: str

    @property
    def sort(self):
        """offset for the words before the address point, entry for those behind it, and none for an entry that runs nothing."""
        return "offset" if self.number < 0 else "none" if self.text.split()[0] in ("pure", "unused") else "entry"


@dataclass
class Table:
    """A table: the group that it stands in, the class of the subobject that it belongs to, its place, and its words."""

    group: str
    owner: str
    place: int
    words: list = field(default_factory=list)

    @property
    def name(self):
        return f"{self.owner}@{self.place}"


@dataclass
class ClassTables:
    """All of one class: its tables with those of its construction groups, its VTT, and the lines of its type information."""

    name: str
    tables: list = field(default_factory=list)
    vtt: list = field(default_factory=list)
    typeinfo: list = field(default_factory=list)


def read(text):
    """The classes of a text, in their order. A class ends with its type information, or with the text."""
    found, lines = [], text.splitlines()
    current, group, words = ClassTables(""), "", None
    for number, line in enumerate(lines):
        first, rest = line.split(" ", 1)
        if first == "group":
            group, current.name = rest, current.name or rest
        elif first == "table":
            owner, place = rest.split("@")
            current.tables.append(Table(group, owner, int(place)))
            words = current.tables[-1].words
        elif first == "vtt":
            words = current.vtt
        elif first in ("typeinfo", "base"):
            current.name = current.name or rest.split()[0]
            current.typeinfo.append(line)
            if not lines[number + 1:number + 2] or not lines[number + 1].startswith("base "):
                found.append(current)
                current, group, words = ClassTables(""), "", None
        else:
            words.append(Word(int(first), rest))
    return found + ([current] if current.tables else [])


def served(table_name, group, name):
    """Which virtual pointer leads to a table, and when."""
    place = table_name.split("@")[1]
    if group == name:
        return f"the table of the pointer at {place} of a complete {name}"
    return f"the table of the pointer at {place} while the {group.split('@')[0]} at {group.split('@')[1].split()[0]} is under construction or destruction"


def title(table, name):
    """A heading for a table."""
    return f"{table.name}{'' if table.group == name else f' of {table.group}'}: {served(table.name, table.group, name)}"


def leads(word, table, tables):
    """What a word of a table leads to, in words. Places count from the start of the complete object."""
    sort, *rest = word.text.split()
    if sort == "vbase":
        return f"{rest[1]} lies {rest[0]} bytes from here, at {table.place + int(rest[0])}"
    if sort == "vcall":
        return f"what runs for {rest[1]} lies {rest[0]} bytes from here, at {table.place + int(rest[0])}"
    if sort == "top":
        return f"the start of the view, at {table.place + int(rest[0])}"
    if sort == "typeinfo":
        return f"the type information of {rest[0]}, which typeid names"
    if sort in ("pure", "unused"):
        return f"{rest[0]} is pure: nothing runs" if sort == "pure" else "nothing: no call comes through this word"
    return _runs(ENTRY.match(word.text), table, tables)


def _runs(entry, table, tables):
    kind, function, this, vcall, by_word, first, second = entry.groups()
    told = f"runs {function}{ENDS[kind]}, this at {table.place}"
    if this is not None:
        told = f"a thunk adds {this} to this"
        place = table.place + int(this)
        if vcall is not None:
            told += f", then the word {int(vcall) // WORD} of the table there"
            place += _vcall(tables, table.group, place, int(vcall) // WORD)
        told += f", and runs {function}{ENDS[kind]}, this at {place}"
    if by_word:
        told += f"; to the result it adds the word {int(first) // WORD} of the result's own table, then {second}"
    elif first:
        told += f"; to the result it adds {first}"
    return told


def _vcall(tables, group, place, number):
    """The vcall word of this number in the table of the group at a place."""
    for table in tables:
        if (table.group, table.place) == (group, place):
            for word in table.words:
                if word.number == number and word.text.startswith("vcall "):
                    return int(word.text.split()[1])
    raise ValueError(f"no vcall word {number} in the table at {place} of {group}")


def target(word):
    """The table to which a word of a VTT leads: its name and its group."""
    name, group = word.text.split(" of ", 1)
    return name, group


def typeinfo_told(line):
    """What a line of type information says."""
    words = line.split()
    if words[0] == "base":
        number = int(words[2])
        access = f"{'virtual, ' if number & 1 else ''}{'public' if number & 2 else 'not public'}"
        place = number >> 8
        return f"{words[1]}: {access}, " + (f"as far as the word {place // WORD} of the object's table says" if number & 1 else f"at {place}")
    if words[2] != "vmi":
        return f"{words[1]} has no base" if words[2] == "class" else f"{words[1]} has one public base at 0, {words[3]}"
    flags = int(words[4])
    told = [text for bit, text in ((1, "a class is there twice"), (2, "a shared base is reached twice")) if flags & bit]
    return f"{words[1]} has {words[6]} base{'' if words[6] == '1' else 's'}" + (f"; {' and '.join(told)}" if told else "")
