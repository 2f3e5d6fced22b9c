"""The flags by which a project compiles a file, from its compile_commands.json."""
import json
import os
import shlex

from .problem import Problem, read_text

# Words of a command that say what to make of the file, and not how to read it; the number is that of the words behind.
DROPPED = {"-c": 0, "-S": 0, "-E": 0, "-o": 1, "-MF": 1, "-MT": 1, "-MQ": 1, "-MD": 0, "-MMD": 0, "-MP": 0, "-M": 0, "-MM": 0, "-MG": 0, "-Werror": 0, "--": 0}
PATHS = ("-I", "-isystem", "-iquote", "-idirafter", "-include", "-isysroot", "--sysroot=", "-imacros")


def flags(path, files):
    """The flags for the first of the files; for a header that no command names those of the source nearest to it."""
    entries = _entries(path)
    entry = _entry(entries, files[0])
    folder = os.path.join(os.path.dirname(os.path.abspath(path)), entry["directory"])
    return _kept(_words(entry), folder, os.path.join(folder, entry["file"]))


def _entries(path):
    try:
        entries = json.loads(read_text(path))
    except ValueError as error:
        raise Problem(f"{path} is no JSON: {error}; give the compile_commands.json that your build writes (cmake -DCMAKE_EXPORT_COMPILE_COMMANDS=ON)") from None
    fit = isinstance(entries, list) and all(isinstance(one, dict) and isinstance(one.get("file"), str) and isinstance(one.get("directory"), str) for one in entries)
    if not fit or not entries:
        raise Problem(f"{path} is no list of commands with 'file' and 'directory'; give the compile_commands.json that your build writes")
    if not all(isinstance(one.get("command"), str) or isinstance(one.get("arguments"), list) for one in entries):
        raise Problem(f"{path} has an entry without 'command' and 'arguments'; give the compile_commands.json that your build writes")
    return entries


def _entry(entries, file):
    """The entry of a file; else of the source with its name, or of one in the nearest folder."""
    wanted = os.path.realpath(file)
    stem = os.path.splitext(wanted)[0]

    def distance(entry):
        source = os.path.realpath(os.path.join(entry["directory"], entry["file"]))
        common = len(os.path.commonpath([source, wanted]))
        return (source != wanted, os.path.splitext(source)[0] != stem, os.path.splitext(os.path.basename(source))[0] != os.path.basename(stem), -common)

    return min(entries, key=distance)


def _words(entry):
    return [str(word) for word in entry["arguments"]] if "arguments" in entry else shlex.split(entry["command"])


def _kept(words, folder, source):
    """The words that say how to read a source, with whole paths."""
    kept, rest = [], iter(words[1:])
    for word in rest:
        if word in DROPPED:
            for _ in range(DROPPED[word]):
                next(rest, None)
        elif word in PATHS:
            kept += [word, os.path.join(folder, next(rest, ""))]
        elif not word.startswith("-"):
            if os.path.realpath(os.path.join(folder, word)) != os.path.realpath(source):
                kept.append(word)
        else:
            front = next((one for one in PATHS if word.startswith(one) and len(word) > len(one)), None)
            kept.append(front + os.path.join(folder, word[len(front):]) if front else word)
    return kept
