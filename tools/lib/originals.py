"""The layouts of the classes of a C++ source by clang, with the types of members and bases as clang itself names the classes.

A class has many spellings in C++. So each class is asked for by a probe that points to it, and the record layout of the probe has the one name
that clang uses in all layouts. A class that no C++ text can name, as one without a name, is found by its place in the source.
"""
import re

from . import clang
from .cpp_tree import spelled
from .cpp_types import without_arguments


def bind(names, text, flags):
    """Gives each class of a source its layout, and its members and bases the types that stand in the layout."""
    probes = "".join(_probe(number, record) for number, record in enumerate(names.order) if not record.is_unnameable)
    found = _layouts(text + PROBES + probes, flags)
    pointed = _pointed(found)
    by_place = _by_place(found)
    for number, record in enumerate(names.order):
        spellings = [one for one in [pointed.get(number), *record.names, by_place.get(_place(record.name))] if one in found]
        if spellings:
            names.records.setdefault(spellings[0], record)
            if number in pointed:
                names.records[pointed[number]] = record
            record.layout = found[spellings[0]]
    for record in names.order:
        if record.layout:
            _members(record)
            _bases(record)


def meant(names, name, text, flags):
    """The class that a name means for clang, as by a second name of a namespace; None where it means none that is bound."""
    probe = f"template struct {PROBE}<{name.replace('>>', '> >')}, 0>;\n"
    return names.record(_pointed(_layouts(text + PROBES + probe, flags)).get(0, ""))


def _layouts(text, flags):
    words = ["clang++", "-x", "c++", "-w", "-fsyntax-only", "-fno-spell-checking", "-ferror-limit=0", "-Xclang", "-fdump-record-layouts",
             "-Xclang", "-fdump-record-layouts-canonical", *flags, "-"]
    output, _, _ = clang.call(words, text)
    return {spelled(name): layout for name, layout in clang.read_layouts(output).items()}


# A probe is an explicit instantiation, since that may name what is private (ISO C++03 14.7.2 p8).
PROBE = "tagymelur_probe"
PROBES = f"\ntemplate<class T, int n> struct {PROBE} {{ T* p; char c[sizeof(T)]; int size() {{ return sizeof({PROBE}); }} }};\n"


def _probe(number, record):
    """A class whose layout shows how clang names another one; unknown names make an error, and no layout."""
    name = record.name.replace("(anonymous namespace)::", "").replace(">>", "> >")
    return f"template struct {PROBE}<{record.tag + ' ' if record.is_tagged else ''}{name}, {number}>;\n"


def _pointed(found):
    """The name to which each probe points."""
    names = {}
    for name, layout in found.items():
        probe = re.fullmatch(rf"{PROBE}<.*,(\d+)>", name)
        if probe and layout.rows:
            names[int(probe[1])] = spelled(re.sub(r" ?\* p$", "", layout.rows[0][3]))
    return names


UNNAMED = "(unnamed at "


def _place(name):
    return name[name.rindex(UNNAMED):] if UNNAMED in name else ""


def _by_place(found):
    """The names of classes without a name, by their places, where one class stands at a place: of templates there are several."""
    names = {}
    for name in found:
        names.setdefault(_place(name), []).append(name)
    return {place: those[0] for place, those in names.items() if len(those) == 1}


def _members(record):
    """The row of each member, where the layout has as many as the class."""
    rows = [(number, row) for number, row in enumerate(record.layout.rows) if row[1] == 1 and row[2] == "field"]
    if len(rows) != len(record.members):
        record.layout = None
        return
    for member, (number, row) in zip(record.members, rows):
        member.place = row[0]
        member.bits = record.layout.bits.get(number)
        member.written = member.type
        member.type = row[3][:len(row[3]) - len(member.name)].strip()
        member.inside = _rows_inside(record.layout.rows, number)


def _rows_inside(rows, number):
    """The words of the rows below one row, which are the members of an unnamed class."""
    found = []
    for row in rows[number + 1:]:
        if row[1] <= rows[number][1]:
            break
        if row[1] == rows[number][1] + 1:
            found.append(row[3].strip())
    return found


def _bases(record):
    """The type of each base by its row: by its name, else by what is left over."""
    rows = [row for row in record.layout.rows if row[1] == 1 and "base" in row[2]]
    waiting = [(row, spelled(row[3][:row[3].rindex(" (")])) for row in rows]
    for wanted in (_same_name, _same_template, lambda base, name: True):
        for base in [base for base in record.bases if base.place is None]:
            fitting = [one for one in waiting if ("virtual" in one[0][2]) == base.virtual and wanted(base, one[1])]
            if len(fitting) == 1 or (fitting and wanted is _same_name):
                base.place, base.type = fitting[0][0][0], fitting[0][1]
                waiting.remove(fitting[0])


def _same_name(base, name):
    return spelled(base.type) == name


def _same_template(base, name):
    return _last(spelled(base.type)) == _last(name)


def _last(name):
    """The last part of a name, without its arguments."""
    return without_arguments(name).split("::")[-1]
