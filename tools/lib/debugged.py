"""Classes and objects of a program under gdb. This module runs inside gdb alone.

The classes are said by the types that gdb knows; the program lays them out, and what gdb tells of sizes and places has to be the same.
"""
import re

import gdb

from . import class_tables, class_text, cpp_tree, dumps, layout_text, program, restate, source
from .clang import RecordLayout
from .cpp_tree import Base, Member, Method, Record, spelled
from .problem import Problem, read_text

METHOD = re.compile(r"(?P<front>(?:virtual |static )*)(?P<result>.*?)(?P<name>operator.*?|~?[A-Za-z_]\w*)\((?P<parameters>[^()]*|.*\(\*\).*)\)(?P<behind>(?: const| volatile)*)(?: \[.*\])?;$")
CODES = {gdb.TYPE_CODE_STRUCT: "struct", gdb.TYPE_CODE_UNION: "union"}


class Classes:
    """The classes that an object of one class needs, said in the language, with what the program answers on them."""

    def __init__(self, text, name_of):
        self.text, self.name_of, self.root = text, name_of, None
        self.layouts = layout_text.read(program.text_of(["layout"], text))
        self.tables = class_tables.read(program.text_of(["tables"], text))

    @classmethod
    def of_source(cls, path, text):
        """Those of a source that tools/from-cpp gave; a class of C++ has its name with namespaces and arguments joined to it."""
        found = source.classes(text)
        name_of = lambda one: next((name for name in (restate.safe(re.sub(r"\W+", "_", spelled(one), flags=re.ASCII).strip("_")), one) if name in found), None)
        if not found:
            raise Problem(f"{path} has no class; give a source that tools/from-cpp made")
        return cls(text, name_of)

    @classmethod
    def of_type(cls, one):
        """Those of the debug information."""
        reader = _Types()
        record = reader.record(one)
        restating = restate.Restating(reader.names, anywhere=True)
        restated = class_text.write(restating, restating.closure([record]))
        if record.name not in restated.names:
            raise Problem(f"the class {record.name} cannot be said: {restating.level(record)[1]}")
        found = cls(restated.text, lambda name: restated.names.get(spelled(name)))
        found.root = restated.names[record.name]
        for one in restated.records:
            if restating.level(one)[0] == restate.SAID:
                found.need_same(one, restating, restated)
        return found

    def need_same(self, record, restating, restated):
        """Ends where the program lays a class out otherwise than the debug information tells."""
        layout = self.layouts[restated.names[record.name]]
        if layout.size != record.layout.size:
            raise Problem(self.differs(record, f"the size is {layout.size}, and {record.layout.size} in the program"))
        spots = {member.name: member for member in layout.members}
        for piece in [piece for those in restating.plan(record).by_member.values() for piece in those]:
            own = spots[piece.said]
            ours, theirs = (own.place, piece.place) if piece.width is None else ((8 * own.place + own.first, own.width), (piece.bits[0], piece.width))
            if ours != theirs:
                raise Problem(self.differs(record, f"the member {piece.said} lies elsewhere in the program"))
        for base in [base for base in record.bases if not base.virtual]:
            name = restated.names[restating.types.inside(record).kind(base.type).record.name]
            own = next(one for one in layout.bases if one.names == [name] and not one.shared)
            if own.place != base.place:
                raise Problem(self.differs(record, f"the base {name} lies at {own.place}, and at {base.place} in the program"))

    @staticmethod
    def differs(record, what):
        return (f"the rules lay out {record.name} otherwise than its compiler did: {what}. So its dump cannot be told; "
                "tools/listing --object and tools/draw --beside show the two layouts")


class _Types:
    """Records from gdb's types."""

    def __init__(self):
        self.names = cpp_tree.Names()

    def record(self, one, around="", label=""):
        """The record of a class, with those of its bases and members before it."""
        one = one.strip_typedefs().unqualified()
        name = spelled(one.tag or one.name or f"{around}::(unnamed at {label}:1:1)")
        if name in self.names.records:
            return self.names.records[name]
        told = _Ptype(one)
        if told.is_incomplete:
            raise Problem(f"the debug information has only a declaration of {name}: g++ tells the class by -femit-class-debug-always, clang++ by -fstandalone-debug")
        record = Record([name], CODES[one.code], "", 0, False)
        record.is_tagged = bool(one.tag or one.name)
        self.names.records[name] = record
        record.layout = RecordLayout(f"{record.tag} {name}", one.sizeof, one.sizeof, max(one.alignof, 1), one.sizeof, max(one.alignof, 1))
        for number, field in enumerate(one.fields()):
            self.field(record, one, field, told, number)
        told.functions(record)
        self.finish(record)
        self.names.order.append(record)
        return record

    def field(self, record, one, field, told, number):
        place = getattr(field, "bitpos", "static")
        if place == "static":
            return
        if field.is_base_class:
            inner = self.record(field.type)
            record.bases.append(Base(inner.name, place is None, told.base(inner.name), (place or 0) // 8))
            record.layout.rows.append((one.sizeof if place is None else place // 8, 1, "virtual base" if place is None else "base", f"{inner.name} (base)"))
        elif field.artificial and (field.name or "").startswith("_vptr"):
            record.layout.rows.append((0, 1, "virtual pointer", "(vtable pointer)"))
        else:
            member = Member(field.name or "", self.type_text(field.type, record.name, field.name or str(number)), told.access(field.name))
            member.written, member.place = member.type, place // 8
            held = self.names.records.get(member.type)
            member.inside = [f"{inner.type} {inner.name}" for inner in held.members] if held else []
            if field.bitsize:
                member.is_bit_field, member.bits = True, (place, place + field.bitsize - 1)
                record.layout.bits[len(record.layout.rows)] = member.bits
            record.layout.rows.append((member.place, 1, "field", f"{member.type} {member.name}"))
            record.members.append(member)
            record.parts.append(member)

    def finish(self, record):
        bases = [self.names.records[base.type] for base in record.bases]
        functions = [*record.methods, *filter(None, [record.destructor])]
        dynamic = any(row[2] in ("virtual pointer", "virtual base") for row in record.layout.rows) or any(method.virtual for method in functions)
        if record.destructor and dynamic:
            record.destructor.virtual = _has_virtual_destructor(record.name)
        held = [self.names.records.get(re.sub(r"(\[\d+\])+$", "", member.type)) for member in record.members]
        record.layout.is_empty = not record.members and not dynamic and all(one.layout.is_empty for one in bases)
        record.is_pod = not (bases or functions and (record.destructor or dynamic or any(one.name == "operator=" for one in functions)) or record.constructors
                             or any(member.access != "public" or member.type.endswith("&") for member in record.members) or any(one and not one.is_pod for one in held))

    def type_text(self, one, around, label):
        """A type, as clang would write it; the classes of members are read."""
        one = one.strip_typedefs().unqualified()
        code = one.code
        if code in CODES:
            return self.record(one, around, label).name
        if code == gdb.TYPE_CODE_ARRAY:
            if getattr(one, "dynamic", False):
                return f"{self.type_text(one.target(), around, label)}[0]"
            low, high = one.range()
            inner = self.type_text(one.target(), around, label)
            return re.sub(r"((?:\[\d+\])*)$", rf"[{max(high - low + 1, 0)}]\1", inner, count=1)
        if code == gdb.TYPE_CODE_PTR:
            target = one.target().strip_typedefs().unqualified()
            if target.code in CODES:
                return f"{spelled(target.tag or target.name or '?')} *"
            return "void (*)()" if target.code in (gdb.TYPE_CODE_FUNC, gdb.TYPE_CODE_ARRAY) else "void *"
        if code in (gdb.TYPE_CODE_REF, gdb.TYPE_CODE_RVALUE_REF):
            return "void &"
        if code == gdb.TYPE_CODE_ENUM:
            signed = any(field.enumval < 0 for field in one.fields())
            under = {1: "char", 2: "short", 4: "int", 8: "long"}[one.sizeof]
            under = ("signed " if one.sizeof == 1 else "") + under if signed else "unsigned " + under
            if not one.name:
                return under
            self.names.enums[spelled(one.name)] = under
            return spelled(one.name)
        if code == gdb.TYPE_CODE_METHODPTR:
            return "void (C::*)()"
        if code == gdb.TYPE_CODE_MEMBERPTR:
            return "int C::*"
        return _number(one)


def _number(one):
    if one.code == gdb.TYPE_CODE_BOOL:
        return "bool"
    name = one.name or ""
    if one.code == gdb.TYPE_CODE_FLT or name in ("wchar_t", "char8_t", "char16_t", "char32_t") or one.sizeof > 8:
        return {"__int128 unsigned": "unsigned __int128"}.get(name, name)
    if one.sizeof == 1:
        return name if name in ("char", "signed char", "unsigned char") else "unsigned char"
    word = {2: "short", 4: "int", 8: "long long" if "long long" in name else "long"}.get(one.sizeof, name)
    return f"unsigned {word}" if "unsigned" in name else word


def _has_virtual_destructor(name):
    """Whether the virtual table of a class has a destructor; gdb does not tell that of the function. True where the program has no such table."""
    try:
        start = int(gdb.parse_and_eval(f"&'vtable for {name}'"))
        words = [_symbol(Memory().word(start + 8 * number)) for number in range(2, 200)]
    except (gdb.error, Problem):
        return True
    for number, word in enumerate(words):
        if "::~" in word:
            return True
        if word.startswith(("vtable for", "VTT for", "typeinfo", "construction vtable")):
            return False
    return False


class _Ptype:
    """What `ptype` tells of a class, and gdb's Python does not: access and functions."""

    def __init__(self, one):
        self.own = re.sub(r"<.*", "", (one.tag or one.name or "")).split("::")[-1]
        gdb.set_convenience_variable("_tagymelur", gdb.Value(0).cast(one.pointer()))  # by a value, since not each type has a name that gdb can read
        self.lines = gdb.execute("ptype *$_tagymelur", to_string=True).splitlines()
        self.is_incomplete = any("<incomplete type>" in line or "<no data fields>" in line and one.sizeof == 0 for line in self.lines)
        self.is_class = bool(self.lines) and self.lines[0].startswith("type = class ")
        self.head = self.lines[0] if self.lines else ""

    def base(self, name):
        found = re.search(rf"(public|protected|private)(?: virtual)? {re.escape(name)}\s*[,{{]", self.head)
        return found[1] if found else "public"

    def inside(self):
        """The lines of the class itself, each with its access."""
        access, depth = "private" if self.is_class else "public", 0
        for line in self.lines[1:]:
            line = line.strip()
            label = re.match(r"(public|protected|private):$", line)
            if label and depth == 0:
                access = label[1]
            elif depth == 0 and not line.endswith("{"):
                yield line, access
            depth += line.count("{") - line.count("}")

    def access(self, name):
        return next((access for line, access in self.inside() if name and re.search(rf"\b{re.escape(name)}\b(?: : \d+|(?:\[\d*\])*|\)\(.*\))?;$", line)), "public")

    def functions(self, record):
        for line, access in self.inside():
            found = METHOD.match(line)
            if found is None or "static " in found["front"]:
                continue
            name, virtual = found["name"].strip(), "virtual" in found["front"]
            parameters = [] if found["parameters"] in ("void", "") else _split(found["parameters"])
            if name == self.own and not virtual:
                record.constructors += 1
                continue
            result = found["result"].strip() or "void"
            method = Method(name, f"{result} ({', '.join(parameters)}){found['behind']}", parameters, virtual, False, access, "")
            if name.startswith("~"):
                record.destructor = method
            else:
                record.methods.append(method)
            record.parts.append(method)


def _split(text):
    """Parameters, at the commas that stand in no brackets."""
    parts, depth = [""], 0
    for letter in text:
        depth += letter in "<([" and 1 or letter in ">)]" and -1
        if letter == "," and depth == 0:
            parts.append("")
        else:
            parts[-1] += letter
    return [re.sub(r"^(int) $", r"\1", part.strip()) for part in parts]


# Objects.

POINTERS = (gdb.TYPE_CODE_PTR, gdb.TYPE_CODE_REF, gdb.TYPE_CODE_RVALUE_REF)
POINTED = re.compile(r"(.*?)(?: \+ (\d+))? in section ")


class Memory:
    """The memory of the stopped program, or of a core file."""

    def __init__(self):
        self.inferior = gdb.selected_inferior()

    def bytes(self, address, size):
        try:
            return self.inferior.read_memory(address, size).tobytes()
        except gdb.error:
            raise Problem(f"{size} bytes at {address:#x} cannot be read; the expression is no object of this process or core file") from None

    def word(self, address, signed=False):
        return int.from_bytes(self.bytes(address, 8), "little", signed=signed)


class Led:
    """Where a virtual pointer leads, by the symbols of the program: the class whose table it is, or a view of one under construction.

    `view` is the class of the group's view, `whole` and `place` that of the object in which it is under construction and where it lies there, and
    `top` the offset to the start of the view. `why` says why it leads to no table."""

    def __init__(self, memory, address):
        self.address, self.view, self.whole, self.place, self.top, self.why = address, None, None, 0, 0, ""
        shown = _symbol(address)
        if address == 0:
            self.why = "it is null: no constructor has set it yet"
            return
        found = re.match(r"(?:vtable for (?P<view>.+)|construction vtable for (?P<part>.+)-in-(?P<whole>.+))$", shown)
        if not found:
            self.why = f"it leads to {shown}, which is no virtual table" if shown else "it leads to no virtual table of this program: it was overwritten, or no constructor has set it yet"
            return
        try:
            self.top, of = memory.word(address - 16, signed=True), _symbol(memory.word(address - 8))
        except Problem:
            self.top, of = 0, ""
        self.symbol = shown
        self.view, self.whole = found["view"] or found["part"], found["whole"]
        if of != f"typeinfo for {self.view}":
            self.view, self.why = None, f"it leads into the {shown}, and to no address point there: it was overwritten"
        elif self.whole:
            mangled = _symbol(address, mangled=True)
            place = re.match(r"_ZTC.*?E?(\d+)_", _cut_name(mangled))
            self.place = int(place[1]) if place else 0


def _cut_name(mangled):
    """The symbol of a construction table without the name of the whole, whose digits could be taken for the place."""
    rest = mangled.removeprefix("_ZTC")
    if rest.startswith("N"):
        depth, at = 0, 0
        while at < len(rest):
            number = re.match(r"\d+", rest[at:])
            if number:
                at += len(number[0]) + int(number[0])
                continue
            depth += rest[at] in "NI" and 1 or rest[at] == "E" and -1
            at += 1
            if depth == 0:
                break
        return "_ZTC" + rest[at:]
    number = re.match(r"\d+", rest)
    rest = rest[len(number[0]) + int(number[0]):] if number else rest
    if rest.startswith("I"):
        rest = _cut_name("_ZTCN" + rest[1:]).removeprefix("_ZTC")
    return "_ZTC" + rest


def _symbol(address, mangled=False):
    """The symbol at an address, without the distance from its start."""
    if not 0 <= address < 1 << 63:
        return ""
    said = gdb.execute(f"{'with print demangle off -- ' if mangled else ''}info symbol {address:#x}", to_string=True).strip()
    found = POINTED.match(said + " in section ")
    return "" if said.startswith("No symbol matches") else re.sub(r" \+ \d+$", "", found[1])


class Object:
    """The complete object to which an expression leads, and what its bytes say."""

    def __init__(self, expression, source_file):
        self.expression, self.notes, self.memory = expression, [], Memory()
        self.given, self.start = self.value(expression)
        self.type = self.given
        self.find_whole()
        self.classes = self.said(source_file)
        self.name = self.classes.root or self.classes.name_of(self.type.tag or self.type.name or "")
        if self.name is None:
            raise Problem(f"the source has no class for {self.type}; tools/from-cpp --class '{self.type}' says it")
        self.layout = self.classes.layouts[self.name]
        self.content = self.memory.bytes(self.start, self.layout.size)

    def value(self, expression):
        """The class and the address of the object. Nothing is read there: gdb would warn of pointers that it does not know."""
        try:
            value = self.pointer(expression)
            while value.type.strip_typedefs().target().strip_typedefs().code in POINTERS:
                value = gdb.parse_and_eval(f"({value.type.strip_typedefs().target()}) *({value.type.strip_typedefs()}) {int(value)}")
        except gdb.error as error:
            raise Problem(f"{expression}: {error}".rstrip(".") + _hint()) from None
        one = value.type.strip_typedefs().target().strip_typedefs().unqualified()
        if one.code != gdb.TYPE_CODE_STRUCT:
            raise Problem(f"{expression} is of the type {one}, and no object of a class and no pointer to one")
        if int(value) == 0:
            raise Problem(f"{expression} is null")
        return one, int(value)

    def pointer(self, expression):
        """A pointer to the object: the expression itself, or its address."""
        try:
            value = gdb.parse_and_eval(f"&({expression})")
            if value.type.strip_typedefs().target().strip_typedefs().code not in POINTERS:
                return value
        except gdb.error:
            pass
        value = gdb.parse_and_eval(expression)
        if value.is_optimized_out:
            raise Problem(f"{expression} is optimized out here; go to another place of the program, or compile it with -O0")
        code = value.type.strip_typedefs().code
        if code == gdb.TYPE_CODE_PTR:
            return value
        if code in POINTERS or value.address is not None:
            return value.address
        raise Problem(f"{expression} is of the type {value.type}, and no object of a class in memory and no pointer to one")

    def said(self, source_file):
        if source_file:
            return Classes.of_source(source_file, read_text(source_file))
        return Classes.of_type(self.type)

    def find_whole(self):
        """Goes from a subobject to the complete object that has it, by the virtual pointer at its start."""
        if not _is_dynamic(self.given):
            return
        led = Led(self.memory, self.memory.word(self.start))
        if led.view is None:
            return  # told with the other pointers
        view, start = _class(led.view), self.start + led.top
        if led.whole:
            view, start = _class(led.whole), start - led.place
        if view is None:
            self.notes.append(f"the debug information has no class {led.whole or led.view}, so that the {self.given} alone is told")
        elif not _has_base(self.given, view):  # a D whose pointer is that of its base view is one under construction, or one that ends
            self.type, self.start = view, start

    def leaves(self):
        return dumps.leaves(self.classes.layouts, self.classes.tables, self.name)

    def pointers(self):
        """Each virtual pointer: its leaf, where it leads, and the table in the words of `tables`; no text where it leads to none."""
        for leaf in [leaf for leaf in self.leaves() if leaf.table]:
            led = Led(self.memory, int.from_bytes(self.content[leaf.place:leaf.place + 8], "little"))
            yield leaf, led, self.table(leaf, led)

    def table(self, leaf, led):
        """The table to which a pointer leads, as `S@p of group`, with the table itself; the place of a view is counted from the object that has it."""
        if led.view is None:
            return "", None
        name, whole = self.classes.name_of(led.view), self.classes.name_of(led.whole) if led.whole else None
        group = f"{name}@{led.place} in {whole}" if led.whole else name
        tables = self.classes.tables.get(whole if led.whole else name)
        found = tables.group(group) if tables else None
        place = (led.place if led.whole else 0) - led.top
        table = next((one for one in found.tables if one.place == place), None) if found else None
        return (f"{table.name} of {group}", table) if table else (f"@{place} of {group}", None)

    def states(self):
        """What the virtual pointers say of the object, in sentences, where it is not a complete one."""
        for leaf, led, (text, table) in self.pointers():
            at = f"the virtual pointer at {leaf.place} ({leaf.table})"
            if led.why:
                yield f"{at} has the value {led.address:#x}: {led.why}"
            elif text != leaf.table:
                sort = f"the {led.view} at {led.place} in the {led.whole} is under construction, or it ends" if led.whole else f"a {led.view} in it is under construction, or it ends"
                yield f"{at} leads to {text}: {sort}"

    def words_apart(self, led, table):
        """The words before the address point that are not those of `tables`."""
        for word in table.words:
            if word.value is not None:
                found = self.memory.word(led.address + 8 * word.number, signed=True)
                if found != word.value:
                    yield f"word {word.number} is {found}, where the rules give {word.text}"


def _hint():
    if gdb.selected_inferior().pid == 0 and not gdb.selected_inferior().threads():
        return "; there is no process: run the program to a breakpoint, or give gdb a core file"
    return ""


def _class(name):
    try:
        return gdb.lookup_type(name).strip_typedefs().unqualified()
    except gdb.error:
        return None


def _is_dynamic(one):
    for field in one.fields():
        if (field.artificial and (field.name or "").startswith("_vptr")) or (field.is_base_class and (getattr(field, "bitpos", 0) is None or _is_dynamic(field.type.strip_typedefs()))):
            return True
    return False


def _has_base(one, base):
    """Whether a class has another one as a proper base."""
    return any(field.is_base_class and (field.type.strip_typedefs().unqualified() == base or _has_base(field.type.strip_typedefs(), base)) for field in one.fields())


def shown(address):
    """The symbol at an address, in brackets, where there is one."""
    symbol = _symbol(address)
    return f" ({symbol})" if symbol else ""
