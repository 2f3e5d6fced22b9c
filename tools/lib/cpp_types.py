"""What a C++ type is in the language of the workbench: of the same size and alignment, with a comment where it is another type."""
import re
from dataclasses import dataclass, replace

from .cpp_tree import spelled

# Types of C++ by the type of the workbench that stands for them.
SAME = {
    "bool": "bool", "char": "char", "signed char": "signed char", "unsigned char": "unsigned char", "short": "short", "unsigned short": "unsigned short",
    "int": "int", "unsigned int": "unsigned int", "long": "long", "unsigned long": "unsigned long", "long long": "long long",
    "unsigned long long": "unsigned long long",
}
FLOATING = {"float": "int", "double": "long"}
OTHER = {"wchar_t": "int", "char8_t": "unsigned char", "char16_t": "unsigned short", "char32_t": "unsigned int"}
SIZES = {"bool": 1, "char": 1, "signed char": 1, "unsigned char": 1, "short": 2, "unsigned short": 2, "int": 4, "unsigned int": 4}  # 8 for all others
# Types without a scalar of their size or alignment: these two numbers.
WIDE = {
    "long double": (16, 16), "__int128": (16, 16), "unsigned __int128": (16, 16), "__float128": (16, 16), "_Float16": (2, 2), "__fp16": (2, 2), "__bf16": (2, 2),
    "_Complex float": (8, 4), "_Complex double": (16, 8), "_Complex long double": (32, 16),
}
VECTOR = re.compile(r"__attribute__\(\((?:__vector_size__\((\d+) \* sizeof\([^()]*\)\)|__ext_vector_type__\((\d+)\)|ext_vector_type\((\d+)\))\)\)\)? *(.*)")


@dataclass
class Kind:
    """sort: void, scalar, pointer (to `record`, or None for what is no class), object, bytes (`size` and `align` of a type without a word) or unknown.

    `note` is the type of C++ where `word` is another, and `change` says in which way it is another.
    """

    sort: str
    word: str = ""
    record: object = None
    length: object = None
    note: str = ""
    change: str = ""
    size: int = 0
    align: int = 0

    @property
    def count(self):
        return 1 if self.length is None else self.length


class Types:
    """The kinds of types, by the names of one source."""

    def __init__(self, names):
        self.names = names
        self.around = [""]
        self.known = {}
        self.other, self.wide = OTHER, WIDE  # those of x86-64; another target may have other sizes

    def inside(self, record):
        """The types as the members of a class name them: a name without scope is looked up from the class outwards."""
        cuts = [match.end() for match in re.finditer("::", record.name) if _is_open(record.name[:match.start()])]
        self.around = [record.name + "::"] + [record.name[:cut] for cut in reversed(cuts)] + [""]
        return self

    def found(self, table, name):
        """What a table has for a name, looked up in the scopes around."""
        scopes = [""] + self.around if "::" in name else self.around
        return next((table[spelled(scope + name)] for scope in scopes if spelled(scope + name) in table), None)

    def kind(self, text, depth=0):
        """The kind of a type that clang wrote."""
        key = (self.around[0], text)
        if key not in self.known:
            self.known[key] = self.found_kind(text, depth)
        return self.known[key]

    def found_kind(self, text, depth):
        text = without_qualifiers(text)
        if depth > 20:
            return Kind("unknown", note=text)
        vector = VECTOR.match(text)
        if vector:
            return self.vector(vector, text, depth)
        outer = without_arguments(text)
        if "::*" in outer:
            return self.to_member(outer, text)
        if re.search(r"\((?:\*|&|\^)", outer):
            inside = re.search(r"\(([*&]+)((?:\[\d*\])*)\)", outer)
            lengths = re.findall(r"\[(\d*)\]", inside[2]) if inside else []
            return self.repeated(Kind("pointer", note=text, change="pointers to what is no class here"), lengths, text)
        dims = re.search(r"((?:\[\d*\])+)$", text)
        if dims:
            return self.repeated(self.kind(text[:dims.start()], depth + 1), re.findall(r"\[(\d*)\]", dims[1]), text)
        if text.endswith(("*", "&")):
            return self.pointer(text)
        return self.named(spelled(text), depth)

    def repeated(self, one, lengths, text):
        """An array of a kind; an array of arrays is one array."""
        if not lengths or one.sort == "unknown":
            return one
        count = one.count
        for length in lengths:
            count *= int(length or 0)
        nested = len(lengths) > 1 or one.length is not None
        return replace(one, length=count, note=(text if nested or one.note else ""), change=one.change or ("arrays of arrays" if nested else ""))

    def vector(self, match, text, depth):
        one = self.kind(match[4], depth + 1)
        size = int(match[1] or match[2] or match[3]) * self.size(one)
        size = 1 << max(size - 1, 0).bit_length()
        return Kind("bytes", size=size, align=size, note=text, change="vectors")

    def to_member(self, outer, text):
        """A pointer to a member: one word of 8 bytes, or two for a function."""
        lengths = re.findall(r"\[(\d+)\]", outer)
        count = 2 if re.search(r"\(.*::\*", outer) else 1
        for length in lengths:
            count *= int(length)
        return Kind("scalar", "long", length=count if count > 1 else None, note=text, change="pointers to members")

    def pointer(self, text):
        target = re.sub(r"(?:\s|&)+$", "", text)
        is_reference = target != text.strip()
        target = target[:-1] if target.endswith("*") else target
        pointed = self.kind(target) if not target.strip().endswith("*") else Kind("pointer")
        record = pointed.record if pointed.sort == "object" and pointed.length is None else None
        change = "references" if is_reference else "" if record else "pointers to what is no class here"
        return Kind("pointer", record=record, note="" if record and not is_reference else text, change=change)

    def named(self, name, depth):
        if name == "void":
            return Kind("void")
        if name in SAME:
            return Kind("scalar", SAME[name])
        if name in FLOATING:
            return Kind("scalar", FLOATING[name], note=name, change="floating types")
        if name in self.other:
            return Kind("scalar", self.other[name], note=name, change="types of characters")
        if name in self.wide:
            size, align = self.wide[name]
            return Kind("bytes", size=size, align=align, note=name, change="numbers without a scalar of their size")
        if name.startswith("std::nullptr_t"):
            return Kind("pointer", note=name, change="pointers to what is no class here")
        record = self.found(self.names.records, name)
        if record:
            return Kind("object", record=record)
        under = self.found(self.names.enums, name)
        if under:
            return Kind("scalar", self.kind(under, depth + 1).word, note=name, change="enumerations")
        other = self.found(self.names.typedefs, name) or self.with_arguments_meant(name)
        if other:
            return self.kind(other, depth + 1)
        return Kind("unknown", note=name, change="types that no name of this source leads to")

    def with_arguments_meant(self, name):
        """The name of a specialisation with what its arguments are by their typedefs; none where they are none."""
        head, bracket, rest = name.partition("<")
        meant = re.sub(r"(?<![\w:>])[a-zA-Z_][\w:]*(?![\w:<])", lambda word: self.found(self.names.typedefs, word[0]) or word[0], rest)
        return head + bracket + meant if spelled(meant) != rest else None

    def size(self, kind):
        """The bytes of one element of a kind; 0 where they are not known."""
        if kind.sort == "object":
            return kind.record.layout.size if kind.record.layout else 0
        return kind.size if kind.sort == "bytes" else SIZES.get(kind.word, 8) if kind.sort in ("scalar", "pointer") else 0

    def align(self, kind):
        """The alignment in C++."""
        if kind.sort == "object":
            return kind.record.layout.align if kind.record.layout else 0
        return kind.align if kind.sort == "bytes" else self.size(kind)


def without_qualifiers(text):
    """A type without const, volatile and restrict, but for those inside of template arguments."""
    parts, depth = [], 0
    for part in re.split(r"([<>])", text):
        depth += {"<": 1, ">": -1}.get(part, 0)
        parts.append(part if depth else re.sub(r"\b(?:__restrict|restrict|volatile|const)\b", "", part))
    return "".join(parts).strip()


def without_arguments(text):
    """A type without the arguments of templates."""
    shorter = re.sub(r"<[^<>]*>", "", text)
    while shorter != text:
        text, shorter = shorter, re.sub(r"<[^<>]*>", "", shorter)
    return text


def _is_open(front):
    """Whether the place behind a text is outside all its brackets."""
    return front.count("<") == front.count(">")
