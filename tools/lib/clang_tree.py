"""The declarations of a C++ text by clang's JSON tree, one at a time: the tree of a large header has gigabytes, and classes are a small part of it."""
import json
import subprocess
import tempfile

from . import clang
from .clang_scan import BLOCK, TOP, Scanner
from .problem import Problem

PIPE = 1 << 20  # the most that Linux gives without more rights


def declarations(text, flags, whole=False):
    """The declarations of a translation unit as nested dicts, in their order; whole ones have the bodies of functions too, and the place of each part."""
    words = [clang.need("clang++"), "-x", "c++", "-w", "-fsyntax-only", "-ferror-limit=0", "-Xclang", "-ast-dump=json", *flags, "-"]
    with tempfile.TemporaryFile() as source, tempfile.TemporaryFile() as said:
        source.write(text.encode("utf-8", "surrogateescape"))
        source.seek(0)
        with subprocess.Popen(words, stdin=source, stdout=subprocess.PIPE, stderr=said, bufsize=BLOCK, pipesize=PIPE) as process:
            count = 0
            for declaration in _whole(process.stdout) if whole else Scanner(process.stdout).declarations():
                count += 1
                yield declaration
        if not count:
            said.seek(0)
            last = said.read().decode("utf-8", "replace").strip().splitlines()[-1:]
            raise Problem("clang++ gives no tree of the source" + (f": {last[0]}" if last else ""))


def _whole(stream):
    """The declarations with all that the tree has of them. Files and lines, which clang prints only where they change, are written at each place."""
    start, ends = b" " * TOP + b"{\n", (b" " * TOP + b"}\n", b" " * TOP + b"},\n")
    file, number, kept, is_place = b'""', b"0", None, False
    for line in stream:
        if kept is None:
            kept = [line] if line == start else None
        elif line in ends:
            yield json.loads(b"".join([*kept, b"}"]).decode("utf-8", "replace"))
            kept = None
        elif is_place and b'"file": ' in line:
            file = _value(line)
        elif is_place and b'"line": ' in line:
            number = _value(line)
        else:
            kept += [b'"file": ' + file + b",\n", b'"line": ' + number + b",\n", line] if is_place else [line]
            is_place = line.lstrip().startswith(b'"offset"')
    if kept is not None:
        raise Problem("clang++ ends amid its tree of the source; look whether there is memory enough")


def _value(line):
    return line[line.index(b": ") + 2:-2]
