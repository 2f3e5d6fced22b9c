"""Which classes of a C++ source the user asks for, and what stands around them in the text."""
import os
import re

from . import clang, cpp_tree, originals, restate
from .cpp_types import without_arguments
from .problem import Problem

COMPLETE = "tagymelur_complete"
ASK = "{}, of which the source makes no class: --class '{}<int>' makes one"
MOST_SHOWN = 20


def names(arguments, text, flags):
    """The names of a source, and its text with what completes the templates that the user asks for and the source only names."""
    found = cpp_tree.read(text, flags)
    wanted = _incomplete(found, arguments)
    if not wanted:
        return found, text
    lines = "".join(f"template struct {COMPLETE}<{name.replace('>>', '> >')} >;\n" for name in wanted)
    text += f"\ntemplate<class T> struct {COMPLETE} {{ char c[sizeof(T)]; }};\n{lines}"
    found = cpp_tree.read(text, flags)
    found.order = [one for one in found.order if not one.name.startswith(COMPLETE)]
    return found, text


def _incomplete(found, arguments):
    """The specialisations to complete: those that --class names, else those of the templates of the files.

    --all leaves those of other headers as they are: there are hundreds that nothing of the source uses.
    """
    if arguments.classes:
        return [name for name in arguments.classes if found.record(name) is None and "<" in _meant(found, name)]
    files = _files(arguments)
    return [name for name, file in found.incomplete.items() if "?" not in name and "(" not in name and os.path.realpath(file) in files]


def _meant(found, name):
    """What a name is by its typedefs."""
    seen = set()
    while cpp_tree.spelled(name) in found.typedefs and name not in seen:
        seen.add(name)
        name = found.typedefs[cpp_tree.spelled(name)]
    return name


def _files(arguments):
    return {os.path.realpath(file) for file in arguments.files}


def records(found, arguments, text, flags):
    """The classes that the words ask for."""
    if arguments.classes:
        return [_named(found, name, text, flags) for name in arguments.classes]
    files = _files(arguments)
    # a union without a name is a member of its class
    named = [record for record in found.order if not (record.is_nameless and record.tag == "union")]
    chosen = [record for record in named if arguments.all or cpp_tree.is_in(record, files)]
    if not chosen:
        made = templates(found, arguments)
        raise Problem(f"the files define no class{', but class templates: ' + ASK.format(', '.join(made[:MOST_SHOWN]), made[0]) if made else ''}; --all takes those of the headers that they include, --class NAME one of them")
    return chosen


def templates(found, arguments):
    """The class templates of the files of which the source makes no class."""
    if arguments.classes:
        return []
    files, made = _files(arguments), {without_arguments(name) for record in found.order for name in record.names}
    return [name for name, file in found.templates.items() if name not in made and (arguments.all or os.path.realpath(file) in files)]


def _named(found, name, text, flags):
    record = found.record(name) or originals.meant(found, name, text, flags)
    if record is not None:
        return record
    by = _other_standards(name, text, flags)
    if by:
        raise Problem(f"no class {name} is defined here by {clang.standard_by(flags)[0]}, but by {' and '.join(by)}: give -- -std={by[0]}")
    plain, near = cpp_tree.spelled(name), _near(found, name)
    unmade = [one for one in [*found.templates, *found.declared] if one not in found.records and plain in (one, _last(one))]
    if plain in unmade or unmade and not near:
        raise Problem(_unmade(found, plain if plain in unmade else unmade[0]))
    if len(near) == 1:
        raise Problem(f"no class {name} is defined here, but {near[0]} is: give --class '{near[0]}'")
    raise Problem(f"no class {name} is defined here; give the whole name with its namespaces" + (f"; did you mean {', '.join(near)}?" if near else ""))


def _unmade(found, name):
    """What is said of a name that the source has, and that is no class that it defines."""
    if name in found.templates:
        return f"{name} is a class template: give its arguments, as --class '{name}<int>'"
    return f"{name} is declared here and not defined, so nothing is known of its members: give the header that defines it"


def _near(found, name):
    """Classes whose last name is the one that was given; else those that have it in their names."""
    last = _last(cpp_tree.spelled(name))
    shown = [(restate.shown(one), one) for one in found.order if not one.is_nameless]
    same = [text for text, one in shown if _last(one.name) == last and _plain(text) != _plain(name)] or [text for text, one in shown if _last(one.name) == last]
    like = [text for text, one in shown if last.lower() in _last(one.name).lower()]
    return sorted(set(same or like), key=lambda text: (len(text), text))[:1 if len(set(same)) == 1 else 3]


def _plain(name):
    return re.sub(r"\s", "", name)


def _last(name):
    """The last part of a name, without arguments of templates."""
    return re.sub(r"<.*", "", name).split("::")[-1]


def _other_standards(name, text, flags):
    """The standards by which a name is a complete class."""
    probe = f"\nextern char tagymelur_probe[sizeof({name.replace('>>', '> >')})];\n"
    used = clang.standard_by(flags)[0]
    later = clang.STANDARDS[clang.STANDARDS.index(used) + 1:] if used in clang.STANDARDS else []
    return [one for one in later if not clang.errors_of(text + probe, [*flags, f"-std={one}"])]


def main_text(restating, result, wanted):
    """A main that makes an object of each class that was asked for, dumps and deletes it; `run` needs one."""
    lines = []
    for number, record in enumerate(wanted, 1):
        name = result.names.get(record.name)
        if name is None:
            continue
        if restating.is_abstract(record):
            lines.append(f"  // {name} is abstract, so no object is made of it")
        else:
            lines += [f"  {name}* p{number} = new {name};", f"  dump(p{number});", f"  delete p{number};"]
    return "\nint main() {\n" + "\n".join(lines) + "\n}\n"
