"""Calls clang++ and g++, and reads the record layouts of clang++."""
import os
import re
import shutil
import subprocess
import tempfile
from dataclasses import dataclass, field

from .problem import Problem

STANDARDS = ["gnu++98", "gnu++11", "gnu++14", "gnu++17", "gnu++20"]
YEARS = {"199711": "98", "201103": "11", "201402": "14", "201703": "17", "202002": "20", "202302": "23"}


def need(command):
    """The command, or the sentence that says how to get it."""
    if shutil.which(command) is None:
        package = {"clang++": "clang", "c++filt": "binutils", "ar": "binutils", "strip": "binutils", "objdump": "binutils", "cc": "gcc", "dpkg-deb": "dpkg"}.get(command, command)
        raise Problem(f"{command} is not on the path, and this tool calls it: apt-get install {package}", 2)
    return command


def call(words, text=None, folder=None):
    """Runs a compiler; its output, what it said, and whether it succeeded."""
    need(words[0])
    done = subprocess.run(words, input=text, stdout=subprocess.PIPE, stderr=subprocess.PIPE, cwd=folder, encoding="utf-8", errors="replace")
    return done.stdout, done.stderr, done.returncode == 0


def unit(files):
    """The text of a translation unit that reads the files one after the other."""
    return "".join(f'#include "{os.path.abspath(file)}"\n' for file in files)


def version():
    """The name and version of the compiler, as it says it."""
    output, _, _ = call(["clang++", "--version"])
    found = re.search(r"clang version (\d+(?:\.\d+)*)", output)
    return "clang++ " + found[1] if found else "clang++"


def standard_by(flags):
    """The standard by which clang reads a text with these flags, and whether it is the compiler's own default."""
    given = next((flag[len("-std="):] for flag in reversed(flags) if flag.startswith("-std=")), "")
    if given:
        return given, False
    output, _, _ = call(["clang++", "-x", "c++", *flags, "-dM", "-E", "-"], "")
    year = YEARS.get((re.search(r"__cplusplus (\d+)", output) or ["", ""])[1], "")
    return (("c++" if "__STRICT_ANSI__" in output else "gnu++") + year if year else "its own standard"), True


def with_standard(flags):
    """The flags with the standard by which clang reads a text, so that another compiler goes by it too."""
    standard, is_default = standard_by(flags)
    return [*flags, f"-std={standard}"] if is_default and "++" in standard else flags


FIRST = "// read by "


def first_line(flags, source=""):
    """The comment that says by which compiler and standard a source of C++ was read, and what named the standard."""
    standard, is_default = standard_by(flags)
    by = f"its default {standard}" if is_default else f"{standard}, as {source + ' says' if source else 'the flags say'}"
    return f"{FIRST}{version()} by {by}\n"


def errors_of(text, flags):
    """The lines by which clang refuses a text; none where it takes it."""
    _, said, good = call(["clang++", "-x", "c++", "-w", "-fsyntax-only", *flags, "-"], text)
    return [] if good else [line for line in said.splitlines() if "error" in line] or said.splitlines()[-1:] or ["nothing"]


def need_taken(text, flags, refused="clang++ does not take the source, so its classes are not known. Mend it, or give flags after -- (as -I FOLDER)"):
    """Ends with a problem where clang does not take a text by these flags. The problem names the standards by which it does."""
    errors = errors_of(text, flags)
    if not errors:
        return
    standard, _ = standard_by(flags)
    others = [one for one in STANDARDS if one != standard and not errors_of(text, [*flags, f"-std={one}"])]
    if others:
        raise Problem(f"the source is not C++ by {standard}, but by {' and '.join(others)}: give -- -std={others[0]}. {version()} says of {standard}:\n  " + "\n  ".join(errors[:5]))
    raise Problem(f"{refused}. It says:\n  " + "\n  ".join(errors[:5]))


@dataclass
class RecordLayout:
    """One layout by clang: the five numbers, and a row for each line: place, depth, sort and text."""

    name: str
    size: int = 0
    dsize: int = 0
    align: int = 0
    nvsize: int = 0
    nvalign: int = 0
    rows: list = field(default_factory=list)
    bits: dict = field(default_factory=dict)  # by the number of the row: the first and the last bit of a bit-field, from the start of the class
    is_empty: bool = False


LINE = re.compile(r"\s*(\d+)(?::([\d-]+))? \| ( *)(.*)")
SIZES = re.compile(r"(sizeof|dsize|align|nvsize|nvalign)=(\d+)")
SORTS = [
    ("(primary virtual base)", "primary virtual base"), ("(primary base)", "primary base"), ("(virtual base)", "virtual base"), ("(base)", "base"),
    ("vtable pointer)", "virtual pointer"), ("vbtable pointer)", "virtual pointer"),
]


def layouts(text, names, flags):
    """Clang's layouts of the classes of a text: of the named ones and of all that these need, by clang's names."""
    probes = "".join(f"\nextern char tagymelur_probe_{number}[sizeof({name.replace('>>', '> >')})];" for number, name in enumerate(names))
    words = ["clang++", "-x", "c++", "-w", "-fsyntax-only", "-fno-access-control", "-ferror-limit=0", "-Xclang", "-fdump-record-layouts", *flags, "-"]
    output, _, _ = call(words, text + probes)
    return read_layouts(output)


def read_layouts(output):
    """The record layouts of a dump, by the names that clang gives the classes."""
    found, current = {}, None
    for line in output.splitlines():
        if line.startswith("*** Dumping"):
            current = RecordLayout("") if line.endswith("AST Record Layout") else None
        elif current is not None:
            current = _read_line(found, current, line)
    return found


def _read_line(found, current, line):
    row = LINE.match(line)
    if not row:
        for key, value in SIZES.findall(line):
            setattr(current, {"sizeof": "size"}.get(key, key), int(value))
        return None if "nvalign=" in line or ("sizeof=" in line and line.rstrip().endswith("]")) else current
    place, depth, words = int(row[1]), len(row[3]) // 2, row[4]
    if not current.rows and not current.name:
        current.name, current.is_empty = re.sub(r" \(empty\)$", "", words), words.endswith(" (empty)")
        found[re.sub(r"^(struct|class|union) ", "", current.name)] = current
        return current
    empty = words.endswith(" (empty)")
    words = words[:-len(" (empty)")] if empty else words
    sort = next((sort for mark, sort in SORTS if words.endswith(mark)), "field")
    if row[2]:
        first, _, last = row[2].partition("-")
        current.bits[len(current.rows)] = (8 * place + int(first or 0), 8 * place + int(last or first)) if last else (8 * place, 8 * place - 1)
    current.rows.append((place, depth, sort, words))
    return current


def in_folder(work):
    """Calls work with a folder that is gone afterwards."""
    with tempfile.TemporaryDirectory(prefix="tagymelur-") as folder:
        return work(folder)
