"""Which crates a build was proved with: the sum of each crate's files, and what the log of the build says of it."""
import hashlib
import os
import re
import shutil
import subprocess

from .program import TOP

LOG = os.path.join(TOP, "crates", "tagymelur", "out", "build.log")


def needed():
    """The crates on which the program stands, in the order of crates.txt."""
    below = {}
    with open(os.path.join(TOP, "crates.txt"), encoding="utf-8") as file:
        for line in file:
            if re.match(r"[a-z]", line):
                head, _, names = line.partition(":")
                below[head.split()[0]] = names.split()
    seen, left = set(), ["tagymelur"]
    while left:
        name = left.pop()
        if name in below and name not in seen:
            seen.add(name)
            left += below[name]
    return [name for name in below if name in seen]


def files_of(name):
    """The files that a proof of a crate reads, in the order of their names."""
    top = os.path.join(TOP, "crates", name)
    return sorted(os.path.join(folder, file) for part in ("src", "specs", "proofs") for folder, _, files in os.walk(os.path.join(top, part)) for file in files)


def sum_of(name):
    """SHA-256 over the names and texts of the files of a crate."""
    found, top = hashlib.sha256(), os.path.join(TOP, "crates", name)
    for path in files_of(name):
        with open(path, "rb") as file:
            text = file.read()
        found.update(f"{os.path.relpath(path, top)} {len(text)}\n".encode() + text)
    return found.hexdigest()


def kit():
    """The kit's line, where its command is there."""
    if shutil.which("rt") is None:
        return "not known: the command rt is not there"
    return subprocess.run(["rt", "version"], stdout=subprocess.PIPE, stderr=subprocess.DEVNULL, encoding="utf-8").stdout.strip() or "not known"


def said(program, log=LOG):
    """What the log of the build says of each crate; nothing where the program is not the one of that build, or older than a file of a crate."""
    built = os.path.join(TOP, "crates", "tagymelur", "out", "tagymelur")
    if not os.path.exists(log) or os.path.realpath(program) != os.path.realpath(built):
        return {}
    if any(os.path.getmtime(path) > os.path.getmtime(built) for name in needed() for path in files_of(name)):
        return {}
    with open(log, encoding="utf-8", errors="replace") as file:
        return {line[1]: line[2] for line in re.finditer(r"^rt: ([a-z0-9_]+) (proved|is kept)", file.read(), re.M)}


def report(program, log=LOG):
    """The text of the file PROVED."""
    told, names = said(program, log), needed()
    missing = [name for name in names if name not in told]
    lines = [f"kit: {kit()}", f"program: SHA-256 {_file_sum(program)} before it was stripped"]
    if missing:
        lines.append(f"NOT KNOWN TO BE PROVED: the log of the build says nothing of {len(missing)} of {len(names)} crates.")
    else:
        lines.append(f"All {len(names)} crates were proved; one that is kept was proved by an earlier run, over the same files.")
    lines.append("The sum of a crate is SHA-256 over its files under src, specs and proofs in the order of their names: name, length, text.")
    return "\n".join(lines + [f"{sum_of(name)}  {name}  {told.get(name, 'not known')}" for name in names]) + "\n"


def _file_sum(path):
    with open(path, "rb") as file:
        return hashlib.sha256(file.read()).hexdigest()
