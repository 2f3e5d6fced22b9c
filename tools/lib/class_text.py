"""Writes the classes of a C++ source, as they are said, in the language of the workbench."""
import re

from . import stand_ins
from .cpp_tree import Member
from .overriding import safe
from .restate import MOST_PARAMETERS, POINTED, SAID, result_text, shown

ONE_MEMBER = "a union with one member in C++, whose layout is that of a class with that member"


def write(restating, restated):
    """Gives the classes their text."""
    restating.functions.parameters, restating.functions.results = {}, {}
    restated.parts = [_text(restating, record, restated.names) for record in restated.records]
    ahead = _forward_declarations(restated)
    text = "\n".join([ahead, *restated.parts] if ahead else restated.parts)
    if re.search(rf"\b{POINTED}\*", text):
        text = f"// what pointers point to where it is no class of this source\nstruct {POINTED} {{}};\n\n" + text
    restated.text = text
    return restated


def _text(restating, record, names):
    level, reason = restating.level(record)
    if level == SAID:
        return _Class(restating, record, names).text()
    return _stand_in_text(record, names[record.name], reason)


def _stand_in_text(record, name, reason):
    """A class with the size of one that cannot be said, and where that can be, with its data size."""
    layout = record.layout
    align = min(layout.align, stand_ins.MOST_ALIGN)
    end = layout.dsize if align <= layout.dsize <= layout.size < layout.dsize + align else layout.size
    members = [] if layout.is_empty and layout.size == 1 else stand_ins.pieces(0, end, align, "bytes", "public", "")
    lines = [f"{_original(record, name)}struct {name} {{  // a stand-in of its size: {reason}"]
    if not record.is_pod:
        lines.append(f"  {name}() {{}}")
    for number, piece in enumerate(members, 1):
        piece.said = f"{piece.name}{'' if number == 1 else f'_{number}'}"
        lines.append(f"  {piece.word} {piece.said}{'' if piece.length is None else f'[{piece.length}]'};")
    record.stand_in = members
    return "\n".join(lines) + "\n};\n"


def _original(record, name):
    """A line with the name in C++, where it is another."""
    return f"// {shown(record)}\n" if shown(record) != name else ""


class _Class:
    """The text of one class."""

    def __init__(self, restating, record, names):
        self.restating, self.record, self.names = restating, record, names
        self.plan = restating.plan(record)
        self.name = names[record.name]
        self.taken = {self.name} | {restating.functions.word(method) for method in restating.virtual_methods(record)}

    def text(self):
        record = self.record
        tag = record.tag if record.tag in ("struct", "class") else "struct"
        bases = ", ".join(self.base(base) for base in record.bases)
        lines = [f"{_original(record, self.name)}{tag} {self.name}{' : ' + bases if bases else ''} {{{note_text(self.plan.unlike or (ONE_MEMBER if record.tag == 'union' else ''))}"]
        access = "public" if tag == "struct" else "private"
        for part_access, line in self.parts():
            if part_access != access:
                lines.append(f"{part_access}:")
                access = part_access
            lines.append(f"  {line}")
        return "\n".join(lines) + "\n};\n"

    def kind(self, text):
        """The kind of a type as this class names it."""
        return self.restating.types.inside(self.record).kind(text)

    def base(self, base):
        kind = self.kind(base.type)
        return f"{'virtual ' if base.virtual else ''}{base.access} {self.names[kind.record.name]}"

    def parts(self):
        """Access and line of each part, in the order of the class; a constructor comes first."""
        record = self.record
        if record.constructors:
            yield "public", f"{self.name}() {{}}"
        elif not record.is_pod and self.looks_pod():
            yield "public", f"{self.name}() {{}}  // the class is no POD in C++03, by a user-declared assignment or a reference"
        for part in record.parts:
            if isinstance(part, Member):
                for piece in self.plan.by_member.get(id(part), []):
                    yield piece.access, self.member(piece)
            elif part is record.destructor:
                yield part.access, self.destructor(part)
            elif self.restating.is_virtual(record, part):
                yield part.access, self.method(part)
        for piece in self.plan.behind:
            yield piece.access, self.member(piece)

    def destructor(self, method):
        note = "  // pure in C++" if method.pure else ""
        return f"{'virtual ' if method.virtual else ''}~{self.name}() {{}}{note}"

    def looks_pod(self):
        """Whether the restated class would be a POD by what can be said of it, apart from a constructor."""
        record = self.record
        held = [piece.word.record for those in self.plan.by_member.values() for piece in those if not isinstance(piece.word, str) and piece.word.sort == "object"]
        plain = all(member.access == "public" for member in record.members)
        return not record.bases and not record.destructor and not self.restating.virtual_methods(record) and plain and all(one.is_pod for one in held)

    def value(self, kind):
        """The spelling of a parameter or result."""
        if kind.sort == "scalar" and kind.length is None:
            return kind.word
        if kind.sort in ("pointer", "object") and kind.length is None and kind.record and kind.record.name in self.names:
            return self.names[kind.record.name] + "*"
        return POINTED + "*"

    def method(self, method):
        functions = self.restating.functions
        signature = functions.signature(method)
        kinds = [self.kind(text) for text in method.parameters[:MOST_PARAMETERS]]
        if signature not in functions.parameters:
            functions.parameters[signature] = ", ".join(f"{self.value(kind)} p{number}" for number, kind in enumerate(kinds, 1))
        result, word = self.restating.result(self.record, method), functions.word(method)
        said = self.result_word(method)
        end = " = 0;" if method.pure else " {}" if said == "void" else " { return 0; }"
        original = f"{result_text(method.type)} {method.name}{method.type[len(result_text(method.type)):].strip()}"
        is_same = word == method.name and not result.change and result.sort != "object" and not any(kind.change or kind.sort == "object" for kind in kinds)
        note = "" if is_same else f"  // {original}"
        return f"virtual {said} {word}({functions.parameters[signature]}){end}{note}"

    def result_word(self, method):
        """The result as it is said: that of the overridden function where no relation of the two classes is said."""
        results, key = self.restating.functions.results, (self.record.name, self.restating.functions.signature(method))
        kind = self.restating.result(self.record, method)
        own = "void" if kind.sort == "void" else self.value(kind)
        for base, _ in self.restating.overridden(self.record, method):
            theirs = results.get((base.name, key[1]))
            if theirs and theirs != own and not self.is_below(kind.record, theirs):
                own = theirs
        results[key] = own
        return own

    def is_below(self, record, pointer):
        """Whether a class that is said has the class of a pointer among its bases, as they are said."""
        if record is None or record.name not in self.names or self.restating.level(record)[0] != SAID:
            return False
        return any(self.names[base.name] + "*" == pointer or self.is_below(base, pointer) for base in self.restating.bases(record) if base.name in self.names)

    def member(self, piece):
        base = safe(re.sub(r"\W+", "_", piece.name, flags=re.ASCII))
        name, count = base, 1
        while name in self.taken:
            count += 1
            name = f"{base}_{count}"
        self.taken.add(name)
        piece.said = name
        behind = f" : {piece.width}" if piece.width is not None else "" if piece.length is None else f"[{piece.length}]"
        if isinstance(piece.word, str):
            return f"{piece.word} {name}{behind};{note_text(piece.note)}"
        kind = piece.word
        known = kind.record is not None and kind.record.name in self.names
        word = self.names[kind.record.name] if kind.sort == "object" else kind.word if kind.sort == "scalar" else self.pointer(kind)
        note = piece.note or ("" if known or kind.record is None else shown(kind.record) + " *")
        return f"{word} {name}{behind};{note_text(note)}"

    def pointer(self, kind):
        return (self.names[kind.record.name] if kind.record and kind.record.name in self.names else POINTED) + "*"


def note_text(note):
    """A comment with the type of C++, on one line."""
    return "  // " + re.sub(r"\(unnamed at [^()]*?([^/()]*)\)", r"(unnamed at \1)", re.sub(r"\s+", " ", note)) if note else ""


def _forward_declarations(restated):
    """A line for each class that a pointer names before its definition, so that the text is C++ too."""
    order = {restated.names[record.name]: number for number, record in enumerate(restated.records)}
    early = {}
    for number, part in enumerate(restated.parts):
        for word in re.findall(r"\b(\w+)\*", re.sub(r"//.*", "", part)):
            if order.get(word, -1) > number:
                early[word] = restated.records[order[word]].tag
    return "".join(f"{'struct' if tag == 'union' else tag} {word};\n" for word, tag in early.items())
