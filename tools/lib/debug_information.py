"""The classes of an object file by its debug information, with their layouts, in the form that clang's tree and layouts have."""
import os
import re

from . import cpp_tree, deduced, elf
from .cpp_tree import Base, Member, Method, Record, spelled
from .problem import Problem

CLASSES = {"DW_TAG_structure_type": "struct", "DW_TAG_class_type": "class", "DW_TAG_union_type": "union"}
SCOPES = {"DW_TAG_namespace", "DW_TAG_compile_unit", *CLASSES}
ACCESS = {1: "public", 2: "protected", 3: "private"}
DROPPED = {"DW_TAG_typedef": "typedefs", "DW_TAG_enumeration_type": "enumerations", "DW_TAG_variable": "static members"}
VERSIONS = (4, 5)


def text_of(value):
    return value.decode("utf-8", "replace") if isinstance(value, bytes) else str(value)


def attribute(entry, name, default=None):
    found = entry.attributes.get(name)
    return default if found is None else found.value


def name_of(entry):
    return text_of(attribute(entry, "DW_AT_name", b""))


class Entries:
    """The entries of one unit: their scopes and full names, by their offsets."""

    def __init__(self, found, top, version):
        self.found, self.version = found, version
        self.scopes, self.typedefs = {}, {}
        self.file = name_of(top)
        self.names_of_files = _files(top)
        self.walk(top, "")

    def walk(self, entry, scope):
        """Keeps the scope of each entry that has a name, or can have one."""
        for child in entry.iter_children():
            self.scopes[child.offset] = scope
            if child.tag == "DW_TAG_typedef" and "DW_AT_type" in child.attributes:
                target = child.get_DIE_from_attribute("DW_AT_type")
                if target.tag in CLASSES and not name_of(target):
                    self.typedefs.setdefault(target.offset, name_of(child))
            if child.tag in SCOPES:
                self.walk(child, self.full(child) + "::" if self.last(child) or child.tag != "DW_TAG_namespace" else scope)

    def last(self, entry):
        """The own name of an entry; where it has none, that of its typedef."""
        return name_of(entry) or self.typedefs.get(entry.offset, "")

    def full(self, entry):
        """The full name of an entry; a class without a name has its place in it."""
        if "DW_AT_specification" in entry.attributes:
            return self.full(entry.get_DIE_from_attribute("DW_AT_specification"))
        scope = self.scopes.get(entry.offset, "")
        if entry.tag == "DW_TAG_namespace" and not name_of(entry):
            return scope + "(anonymous namespace)"
        last = self.last(entry)
        if not last or last.startswith(("{unnamed", "<unnamed", "<lambda", "(anonymous", "._")):
            last = f"(unnamed at {os.path.basename(self.place(entry)[0])}:{self.place(entry)[1]}:{entry.offset})"
        return scope + last

    def place(self, entry):
        """The file and line of an entry."""
        number = attribute(entry, "DW_AT_decl_file", 0)
        return self.names_of_files.get(number, self.file), attribute(entry, "DW_AT_decl_line", 0)

    def type_text(self, entry, depth=0):
        """A type, as clang would write it."""
        if "DW_AT_type" not in entry.attributes:
            return "void"
        one = entry.get_DIE_from_attribute("DW_AT_type")
        if depth > 30:
            return "?"
        if one.tag == "DW_TAG_base_type":
            return _base_type(one)
        if one.tag in CLASSES:
            return spelled(self.full(one))
        if one.tag == "DW_TAG_enumeration_type":
            return self.enum(one)
        if one.tag in ("DW_TAG_typedef", "DW_TAG_const_type", "DW_TAG_volatile_type", "DW_TAG_restrict_type", "DW_TAG_atomic_type"):
            return self.type_text(one, depth + 1)
        if one.tag in ("DW_TAG_pointer_type", "DW_TAG_reference_type", "DW_TAG_rvalue_reference_type"):
            return self.pointer(one, "*" if one.tag == "DW_TAG_pointer_type" else "&", depth)
        if one.tag == "DW_TAG_array_type":
            return self.array(one, depth)
        if one.tag == "DW_TAG_ptr_to_member_type":
            target = one.get_DIE_from_attribute("DW_AT_type")
            return "void (C::*)()" if target.tag == "DW_TAG_subroutine_type" else "int C::*"
        return "std::nullptr_t" if one.tag == "DW_TAG_unspecified_type" else one.tag

    def pointer(self, one, sign, depth):
        target = one.get_DIE_from_attribute("DW_AT_type") if "DW_AT_type" in one.attributes else None
        if target is not None and target.tag in ("DW_TAG_subroutine_type", "DW_TAG_array_type"):
            return f"void ({sign})()"
        if depth > 4:  # a pointer to a class is told by its class; what lies deeper changes nothing
            return "void *"
        return f"{self.type_text(one, depth + 1)} {sign}"

    def array(self, one, depth):
        counts = []
        for child in one.iter_children():
            if child.tag == "DW_TAG_subrange_type":
                upper, count = attribute(child, "DW_AT_upper_bound"), attribute(child, "DW_AT_count")
                counts.append(count if isinstance(count, int) else upper + 1 if isinstance(upper, int) else 0)
        if attribute(one, "DW_AT_GNU_vector"):
            inner = self.type_text(one, depth + 1)
            return f"__attribute__((__vector_size__({counts[0] if counts else 1} * sizeof({inner})))) {inner}"
        counts = [0 if count >= 1 << 62 else count for count in counts] or [0]
        return self.type_text(one, depth + 1) + "".join(f"[{count}]" for count in counts)

    def enum(self, one):
        under = self.type_text(one) if "DW_AT_type" in one.attributes else {1: "unsigned char", 2: "unsigned short", 8: "unsigned long"}.get(attribute(one, "DW_AT_byte_size"), "unsigned int")
        if not name_of(one):
            return under
        self.found.names.enums[spelled(self.full(one))] = under
        return spelled(self.full(one))


def _files(top):
    """The names of the files of a unit by number."""
    try:
        lines = top.dwarfinfo.line_program_for_CU(top.cu)
    except KeyError:  # a form that the library does not know; then all classes count as those of the unit's own file
        return {}
    if lines is None:
        return {}
    first, header, found = (0 if lines["version"] >= 5 else 1), lines.header, {}
    folders = [text_of(folder) for folder in header["include_directory"]]
    start = text_of(attribute(top, "DW_AT_comp_dir", b""))
    for number, entry in enumerate(header["file_entry"], first):
        index = entry["dir_index"] - (0 if first == 0 else 1)
        folder = folders[index] if 0 <= index < len(folders) else ""
        found[number] = os.path.normpath(os.path.join(start, folder, text_of(entry["name"])))
    return found


def _base_type(one):
    """The word of a number, by its sort and size: compilers write the words in several orders."""
    name, size, sort = name_of(one), attribute(one, "DW_AT_byte_size", 0), attribute(one, "DW_AT_encoding", 0)
    if name in ("wchar_t", "char8_t", "char16_t", "char32_t", "__int128", "unsigned __int128", "__int128 unsigned") or sort in (3, 4, 9, 0x80, 0x83):
        return {"__int128 unsigned": "unsigned __int128", "_Float128": "__float128", "complex float": "_Complex float", "complex double": "_Complex double",
                "complex long double": "_Complex long double", "decltype(nullptr)": "std::nullptr_t"}.get(name, name)
    if sort == 2:
        return "bool"
    if size == 1:
        return "char" if name == "char" else "signed char" if sort in (5, 6) else "unsigned char"
    word = {2: "short", 4: "int", 8: "long long" if "long long" in name else "long"}.get(size, name)
    return word if sort in (5, 6, 0xd) else f"unsigned {word}"


class Found:
    """The classes of an object file."""

    def __init__(self, file):
        self.file, self.names, self.declared, self.sources = file, cpp_tree.Names(), set(), set()
        self.versions, self.has_type_units = set(), False
        for top, version in file.units():
            self.versions.add(version)
            self.has_type_units |= top.tag == "DW_TAG_type_unit"
            if version in VERSIONS and top.tag == "DW_TAG_compile_unit":
                self.unit(top, version)

    def unit(self, top, version):
        entries = Entries(self, top, version)
        self.sources.add(os.path.realpath(os.path.join(text_of(attribute(top, "DW_AT_comp_dir", b"")), entries.file)))
        self.classes(entries, top)

    def classes(self, entries, around):
        for child in around.iter_children():
            if child.tag in CLASSES:
                self.one(entries, child)
            if child.tag in SCOPES:
                self.classes(entries, child)

    def one(self, entries, entry):
        """Keeps a class, where it is complete and the first of its name."""
        name = spelled(entries.full(entry))
        if attribute(entry, "DW_AT_declaration") or "DW_AT_signature" in entry.attributes or "DW_AT_byte_size" not in entry.attributes:
            self.declared.add(name)
            return
        if name not in self.names.records:
            record = _record(entries, entry, name)
            self.names.records[name] = record
            self.names.order.append(record)

    def chosen(self, arguments):
        """The classes that the words ask for."""
        from . import chosen
        if arguments.classes:
            return [self.named(name) for name in arguments.classes]
        files = {os.path.realpath(file) for file in arguments.files} or self.sources
        named = [record for record in self.names.order if not (record.is_nameless and record.tag == "union")]
        found = [record for record in named if arguments.all or cpp_tree.is_in(record, files)]
        if not found:
            raise Problem(f"the debug information of {self.file.path} has no class of {'these files' if arguments.files else 'its own source'}; "
                          "--all takes those of all headers, --class NAME one of them")
        return found

    def named(self, name):
        record = self.names.record(name)
        if record is None and spelled(name) in self.declared:
            raise Problem(f"the class {name} is only declared in the debug information: {deduced.DECLARED}; neither may have -fdebug-types-section")
        if record is None:
            raise Problem(f"the debug information has no class {name}; give the whole name with its namespaces")
        return record


def _record(entries, entry, name):
    """A class with its bases, members and functions."""
    own = re.sub(r"<.*", "", entries.last(entry))
    one = Record([name], CLASSES[entry.tag], *entries.place(entry), False)
    one.is_tagged = bool(name_of(entry)) or entry.offset in entries.typedefs
    one.debug = deduced.Told(attribute(entry, "DW_AT_byte_size"), attribute(entry, "DW_AT_alignment"))
    default = "private" if one.tag == "class" else "public"
    for child in entry.iter_children():
        access = ACCESS.get(attribute(child, "DW_AT_accessibility"), default)
        if child.tag == "DW_TAG_inheritance":
            _base(entries, child, one, access)
        elif child.tag == "DW_TAG_member":
            _member(entries, child, one, access)
        elif child.tag == "DW_TAG_subprogram":
            _function(entries, child, one, access, own)
        elif child.tag in DROPPED:
            one.drop(DROPPED[child.tag])
    return one


def _base(entries, child, one, access):
    place = attribute(child, "DW_AT_data_member_location", 0)
    base = Base(entries.type_text(child), bool(attribute(child, "DW_AT_virtuality")), access, place if isinstance(place, int) else None)
    if base.virtual:
        base.place, base.word = None, _offset_of_word(entries, child)
    one.bases.append(base)


def _offset_of_word(entries, child):
    """Where the offset of a virtual base stands before the address point: the expression subtracts its distance. None where it has another form."""
    value = attribute(child, "DW_AT_data_member_location")
    if isinstance(value, int):
        return value or None
    from elftools.dwarf.dwarf_expr import DWARFExprParser
    operations = DWARFExprParser(child.cu.structs).parse_expr(value)
    numbers = [one.args[0] if one.args else int(one.op_name.removeprefix("DW_OP_lit")) for one in operations if one.op_name.startswith(("DW_OP_const", "DW_OP_lit", "DW_OP_plus_uconst"))]
    return numbers[0] if len(numbers) == 1 else None


def _member(entries, child, one, access):
    name, artificial = name_of(child), attribute(child, "DW_AT_artificial")
    if artificial and name.startswith("_vptr"):
        one.debug.has_pointer = True
        return
    if attribute(child, "DW_AT_external") or attribute(child, "DW_AT_declaration"):
        one.drop("static members")
        return
    place = attribute(child, "DW_AT_data_member_location", 0)
    member = Member(name, entries.type_text(child), access)
    member.written, member.place = member.type, place if isinstance(place, int) else 0
    width, first = attribute(child, "DW_AT_bit_size"), attribute(child, "DW_AT_data_bit_offset")
    if width is not None:
        if first is None:  # as DWARF 2 has it: counted from the highest bit of the unit, and below 0 where the field begins behind the unit
            before = attribute(child, "DW_AT_bit_offset", 0)
            first = 8 * member.place + 8 * attribute(child, "DW_AT_byte_size", 0) - (before - (1 << 64) if before >= 1 << 63 else before) - width
        member.is_bit_field, member.bits, member.place = True, (first, first + width - 1), first // 8
    one.members.append(member)
    one.parts.append(member)


def _function(entries, child, one, access, own):
    name = name_of(child)
    if attribute(child, "DW_AT_artificial"):
        return
    parameters = [part for part in child.iter_children() if part.tag == "DW_TAG_formal_parameter"]
    is_static = "DW_AT_object_pointer" not in child.attributes and not any(attribute(part, "DW_AT_artificial") for part in parameters)
    virtuality = attribute(child, "DW_AT_virtuality", 0)
    types = [entries.type_text(part) for part in parameters if not attribute(part, "DW_AT_artificial")]
    result = entries.type_text(child)
    linkage = text_of(attribute(child, "DW_AT_linkage_name", b""))
    is_const = bool(re.match(r"_ZNV?K", linkage))
    method = Method(name, f"{result} ({', '.join(types)}){' const' if is_const else ''}", types, bool(virtuality), virtuality == 2, access, linkage, bool(attribute(child, "DW_AT_deleted")))
    if name == own and not virtuality:
        one.constructors += 1
    elif name.startswith("~"):
        one.destructor = method
        one.parts.append(method)
    elif is_static:
        one.drop("static functions")
    else:
        one.methods.append(method)
        one.parts.append(method)


def read(path):
    """The classes of an object file, each with its layout, or the reason why it has none."""
    file = elf.ObjectFile(path)
    try:
        found = Found(file)
        tables = file.virtual_tables()
    except Problem:
        raise
    except Exception as error:  # the library tells what it cannot read by errors of many kinds
        raise Problem(f"the debug information of {path} cannot be read: {type(error).__name__} {error}; try -gdwarf-4") from None
    if not found.versions & set(VERSIONS):
        raise Problem(f"the debug information of {path} is DWARF {', '.join(map(str, sorted(found.versions)))}; compile it with -gdwarf-5 or -gdwarf-4")
    if found.has_type_units or file.has_type_units:
        raise Problem(f"{path} has its classes in type units; compile it without -fdebug-types-section")
    deduced.lay_out(found.names, tables)
    return found
