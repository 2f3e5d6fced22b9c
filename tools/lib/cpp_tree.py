"""From clang's tree to the classes, enums and typedefs of a C++ source, by their names."""
import os
import re
from dataclasses import dataclass, field
from functools import lru_cache

from . import clang_tree


@dataclass
class Member:
    """A non-static data member, with its type as clang writes it, and what its layout says of it: the type as the source writes it is `written` then."""

    name: str
    type: str
    access: str
    is_bit_field: bool = False
    attribute: str = ""
    written: str = ""
    place: object = None
    bits: object = None
    inside: list = field(default_factory=list)


@dataclass
class Method:
    name: str
    type: str
    parameters: list
    virtual: bool
    pure: bool
    access: str
    mangled: str
    deleted: bool = False


@dataclass
class Base:
    type: str
    virtual: bool
    access: str
    place: object = None


@dataclass
class Record:
    """A complete class of the source. `names` are spellings that mean it and no other class, the first is the full one."""

    names: list
    tag: str
    file: str
    line: int
    is_pod: bool
    bases: list = field(default_factory=list)
    members: list = field(default_factory=list)
    methods: list = field(default_factory=list)
    constructors: int = 0
    destructor: object = None
    attribute: str = ""
    is_abstract: bool = False
    is_tagged: bool = True  # whether it has a name of its own, and not one by a typedef
    parts: list = field(default_factory=list)  # members, methods and the destructor, in their order
    dropped: dict = field(default_factory=dict)  # what a class of the workbench has no place for, counted by its sort
    layout: object = None
    missing: str = ""  # why there is no layout of it
    stand_in: list = field(default_factory=list)  # the members that a stand-in of its size has

    @property
    def name(self):
        return self.names[0]

    @property
    def is_unnameable(self):
        """Whether no text of C++ can name the class, or an argument of its template."""
        return "(unnamed" in self.name or "(lambda" in self.name or "?" in self.name

    @property
    def is_nameless(self):
        return not self.is_tagged and self.name.endswith(")") and "(unnamed at " in self.name

    def drop(self, sort):
        self.dropped[sort] = self.dropped.get(sort, 0) + 1


@dataclass
class Names:
    """What the names of a source stand for."""

    records: dict = field(default_factory=dict)
    enums: dict = field(default_factory=dict)
    typedefs: dict = field(default_factory=dict)
    constants: dict = field(default_factory=dict)
    order: list = field(default_factory=list)
    incomplete: dict = field(default_factory=dict)  # the specialisations that the source does not complete, with the file of each
    templates: dict = field(default_factory=dict)  # the class templates that are defined, with the file of each
    declared: set = field(default_factory=set)  # the classes that are declared; those that are defined are records

    def record(self, name):
        """The class of a name, also by typedefs."""
        name, seen = spelled(name), set()
        while name not in self.records and name in self.typedefs and name not in seen:
            seen.add(name)
            name = spelled(self.typedefs[name])
        return self.records.get(name)


WORDS = re.compile(r"\b(?:struct|class|union|enum|typename)\s+")
PLACE = re.compile(r"\((?:anonymous|unnamed)(?: struct| class| union| enum)? at ")
BOOL = re.compile(r"\b_Bool\b")
INLINE = re.compile(r"\b(?:__cxx11|__1|_V2)::")


SPACED = re.compile(r"\s*([<>,*&()\[\]])\s*")


@lru_cache(1 << 16)
def spelled(name):
    """One spelling for the several that clang has of one name."""
    name = PLACE.sub("(unnamed at ", BOOL.sub("bool", name))
    name = INLINE.sub("", WORDS.sub("", name)).replace("(void)", "()")
    return SPACED.sub(r"\1", name).strip()


def read(text, flags):
    """The names of a translation unit."""
    names = Names()
    walk = _Walk(names)
    for declaration in clang_tree.declarations(text, flags):
        walk.declarations({"inner": [declaration]}, [""])
    names.incomplete = {name: file for name, file in names.incomplete.items() if spelled(name) not in names.records}
    return names


def read_tree(tree):
    """The walk of a tree that was read whole: its names, the classes with their nodes as `pairs`; it takes classes of bodies too."""
    walk = _NodeWalk(Names())
    walk.declarations(tree, [""])
    return walk


SHAPING_ATTRIBUTES = {
    "PackedAttr": "packed", "AlignedAttr": "an alignment attribute", "MaxFieldAlignmentAttr": "#pragma pack", "NoUniqueAddressAttr": "no_unique_address",
    "MSStructAttr": "ms_struct", "ModeAttr": "a mode attribute", "VectorTypeAttr": "a vector type",
}


def _shaping(node):
    """The attribute of a declaration that can change its layout."""
    for child in node.get("inner", []):
        if child["kind"] in SHAPING_ATTRIBUTES:
            return SHAPING_ATTRIBUTES[child["kind"]]
    return ""


def _type(node):
    kind = node.get("type", {})
    return kind.get("desugaredQualType", kind.get("qualType", ""))


def _children(node, kind):
    return [child for child in node.get("inner", []) if child["kind"] == kind]


def _value(constant):
    """The value that an enum's constant is given; None where it is the next one."""
    inner = [one for child in constant.get("inner", []) for one in [child, *child.get("inner", [])]]
    values = [one["value"] for one in inner if one["kind"] == "ConstantExpr" and one.get("value", "").lstrip("-").isdigit()]
    return int(values[0]) if values else None


NO_PARAMETER = (None, None, None)  # of a template: type, default and name


class _Walk:
    def __init__(self, names):
        self.names = names
        self.scopes_of = {}
        self.parameters = {}
        self.unnamed = {}

    def declarations(self, node, scopes):
        """Reads what a scope declares; `scopes` are the spellings of its name, each with its '::'."""
        for child in node.get("inner", []):
            kind = child["kind"]
            around = self.scopes_of.get(child.get("parentDeclContextId"), scopes)
            if not around:
                continue  # what belongs to a template, and is no class before its arguments are known
            if kind in ("NamespaceDecl", "LinkageSpecDecl"):
                inner = scopes
                if kind == "NamespaceDecl" and not child.get("isInline"):
                    inner = [scope + child.get("name", "(anonymous namespace)") + "::" for scope in scopes]
                self.scopes_of[child["id"]] = inner
                self.scopes_of[child.get("originalNamespace", child)["id"]] = inner
                self.declarations(child, inner)
            elif kind == "ClassTemplateDecl":
                self.template(child, around)
            elif kind == "FriendDecl":
                self.friend(child)
            elif kind in ("CXXRecordDecl", "ClassTemplateSpecializationDecl"):
                self.record(child, around)
            elif kind == "EnumDecl":
                self.enum(child, around)
            elif kind in ("TypedefDecl", "TypeAliasDecl"):
                self.typedef(child, scopes)

    def template(self, node, scopes):
        """Reads the specialisations of a template, and keeps its parameters for the names of others."""
        known = self.parameters.setdefault(scopes[0] + node.get("name", ""), {})
        for index, child in enumerate(child for child in node.get("inner", []) if child["kind"].endswith("ParmDecl")):
            default = _type(child["defaultArg"]) if "defaultArg" in child else known.get(index, NO_PARAMETER)[1]
            known[index] = (_type(child), default, child.get("name"))
        for pattern in _children(node, "CXXRecordDecl"):
            self.pattern(pattern)
            if pattern.get("completeDefinition"):
                self.names.templates.setdefault(spelled(scopes[0] + node.get("name", "")), _place(node).get("file", ""))
        for one in _children(node, "ClassTemplateSpecializationDecl"):
            self.record(one, scopes)

    def friend(self, node):
        """Reads a template that is declared first as a friend: its specialisations stand there, and it belongs to the namespace around."""
        for child in _children(node, "ClassTemplateDecl"):
            around = self.scopes_of.get(child.get("parentDeclContextId"), [""])
            if around:
                self.template(child, around)

    def pattern(self, node):
        """Marks what is declared in a template itself."""
        self.scopes_of[node["id"]] = []
        for child in _children(node, "CXXRecordDecl"):
            self.pattern(child)

    def typedef(self, node, scopes):
        """A second name of a type, or the one name that a class or enum without a name has for linkage."""
        for scope in scopes:
            name = spelled(scope + node.get("name", ""))
            if spelled(_type(node)) != name:
                self.names.typedefs.setdefault(name, _type(node))
            elif name not in self.names.records and name not in self.names.enums:
                last = self.unnamed.get(scopes[0])
                if isinstance(last, Record):
                    self.rename(last, name)
                elif last:
                    self.names.enums[name] = last

    def rename(self, record, name):
        """Gives a class without a name the name of its typedef; the classes inside of it have it in theirs."""
        old = record.name
        first = next(number for number in reversed(range(len(self.names.order))) if self.names.order[number] is record)
        for one in self.names.order[first:]:
            if one is record or one.name.startswith(old + "::"):
                one.names.insert(0, name + one.name[len(old):])
                self.names.records[one.name] = one

    def enum(self, node, scopes):
        given = [_value(constant) for constant in _children(node, "EnumConstantDecl")]
        values = [value for value in given if value is not None]
        fixed = node.get("fixedUnderlyingType", {})
        under = fixed.get("desugaredQualType", fixed.get("qualType"))
        if under is None:
            wide = any(value > 0xFFFFFFFF or value < -0x80000000 for value in values) or (any(value < 0 for value in values) and any(value > 0x7FFFFFFF for value in values))
            sign = "" if any(value < 0 for value in values) else "unsigned "
            under = sign + ("long" if wide else "int")
        for name in self.spellings(node, scopes):
            self.names.enums[spelled(name)] = under
            self.names.constants[spelled(name)] = self.constants(node, name)
        if "name" not in node:
            self.unnamed[scopes[0]] = under

    def constants(self, node, name):
        """The names of an enum's constants by their values, as clang writes template arguments."""
        scope = name + "::" if node.get("scopedEnumTag") else name[:len(name) - len(node.get("name", ""))]
        found, value = {}, -1
        for constant in _children(node, "EnumConstantDecl"):
            given = _value(constant)
            value = value + 1 if given is None else given
            found.setdefault(str(value), scope + constant.get("name", ""))
        return found

    def spellings(self, node, scopes, is_default=None):
        """The full name of a class, and those that leave out arguments which may be the defaults, from the last on."""
        is_default = is_default or _may_be_default
        name = node.get("name") or _unnamed(node)
        if node["kind"] != "ClassTemplateSpecializationDecl":
            return [scope + name for scope in scopes]
        parameters = self.parameters.get(scopes[0] + name, {})
        arguments, types = [], {}
        for index, child in enumerate(_children(node, "TemplateArgument")):
            kind, _, own = parameters.get(index, NO_PARAMETER)
            arguments.append(self.argument(child, types.get(kind, kind)))
            types[own] = arguments[-1]
        fronts = [[argument for argument in arguments if argument]]
        while fronts[-1] and is_default(fronts[-1][-1], parameters.get(len(fronts[-1]) - 1, NO_PARAMETER)[1], types, scopes[0]):
            fronts.append(fronts[-1][:-1])
        return [f"{scope}{name}<{', '.join(front)}>" for scope in scopes for front in fronts]

    def argument(self, node, kind):
        """The text of a template argument, by the type of its parameter; a question mark for one that the tree does not show."""
        if "type" in node:
            return _type(node)
        if "value" in node:
            value = str(node["value"])
            if kind in ("bool", "_Bool"):
                return "true" if value not in ("0", "false") else "false"
            of_enum = next((found for name, found in self.names.constants.items() if kind and (name == spelled(kind) or name.endswith("::" + spelled(kind)))), {})
            return of_enum.get(value, value)
        inner = node.get("inner", [])
        if inner and all(child["kind"] == "TemplateArgument" for child in inner):
            return ", ".join(self.argument(child, kind) for child in inner)
        return "" if "isPack" in node else "?"

    def record(self, node, scopes):
        if node.get("isImplicit") or not node.get("completeDefinition"):
            if node["kind"] == "ClassTemplateSpecializationDecl":
                self.names.incomplete.setdefault(self.spellings(node, scopes)[0], _place(node).get("file", ""))
            elif not node.get("isImplicit"):
                self.names.declared.add(spelled(self.spellings(node, scopes)[0]))
            return
        spellings = _by_constructor(node, self.spellings(node, scopes))
        inner = [name + "::" for name in spellings] + (scopes if "name" not in node else [])
        self.scopes_of[node["id"]] = inner
        full = spelled(spellings[0])
        if full in self.names.records and self.names.records[full].name == full:
            return
        data, place = node.get("definitionData", {}), _place(node)
        sure = [spelled(name) for name in _by_constructor(node, self.spellings(node, scopes, _is_default))]
        one = Record(sure, node.get("tagUsed", "struct"), place.get("file", ""), place.get("line", 0), data.get("isPOD", False))
        one.is_tagged, one.is_abstract = "name" in node, data.get("isAbstract", False)
        one.attribute = _shaping(node)
        for name in reversed([spelled(name) for name in spellings]):
            known = self.names.records.get(name)
            if known is None or name == one.name:
                self.names.records[name] = one
        self.names.order.append(one)
        if "name" not in node:
            self.unnamed[scopes[0]] = one
        one.bases = [Base(_type(base), base.get("isVirtual", False), base["access"]) for base in node.get("bases", [])]
        self.parts(node, one, inner)

    def parts(self, node, one, scopes):
        access = "public" if one.tag != "class" else "private"
        for child in node.get("inner", []):
            kind = child["kind"]
            if kind == "AccessSpecDecl":
                access = child["access"]
            elif kind == "FieldDecl":
                one.members.append(_member(child, access))
                one.parts.append(one.members[-1])
            elif kind in DROPPED:
                one.drop(DROPPED[kind])
            elif kind in FUNCTIONS and not child.get("isImplicit"):
                self.function(child, one, access)
        self.declarations(node, scopes)

    def function(self, node, one, access):
        if node.get("storageClass") == "static":
            one.drop("static functions")
        elif node["kind"] == "CXXConstructorDecl":
            one.constructors += 1
        elif node["kind"] == "CXXDestructorDecl":
            one.destructor = _method(node, access)
            one.parts.append(one.destructor)
        else:
            one.methods.append(_method(node, access))
            one.parts.append(one.methods[-1])


FUNCTIONS = {"CXXMethodDecl", "CXXConversionDecl", "CXXConstructorDecl", "CXXDestructorDecl"}
DROPPED = {
    "VarDecl": "static members", "FriendDecl": "friends", "FunctionTemplateDecl": "function templates", "EnumDecl": "enumerations", "TypedefDecl": "typedefs",
    "TypeAliasDecl": "typedefs",
}


def _by_constructor(node, spellings):
    """The name of a specialisation whose arguments the tree does not show, by the parameter of a constructor."""
    if "?" not in spellings[0]:
        return spellings
    for constructor in _children(node, "CXXConstructorDecl"):
        found = re.fullmatch(r"void \((?:const )?(.*) &&?\)(?: noexcept.*)?", _type(constructor))
        if found and re.sub(r"<.*", "", found[1]) == re.sub(r"<.*", "", spellings[0]):
            return [found[1], *spellings]
    return spellings


class _NodeWalk(_Walk):
    """A walk that keeps the node of each class."""

    def __init__(self, names):
        super().__init__(names)
        self.pairs = []

    def record(self, node, scopes):
        before = len(self.names.order)
        super().record(node, scopes)
        if len(self.names.order) > before:
            self.pairs.append((self.names.order[before], node))


def _member(node, access):
    return Member(node.get("name", ""), _type(node), access, node.get("isBitfield", False), _shaping(node))


def _method(node, access):
    parameters = [_type(child) for child in _children(node, "ParmVarDecl")]
    deleted = node.get("explicitlyDeleted", False)
    return Method(node["name"], _type(node), parameters, node.get("virtual", False), node.get("pure", False), access, node.get("mangledName", ""), deleted)


def _may_be_default(argument, default, *_):
    """Whether an argument can be the default of its parameter; one that names other parameters is not compared."""
    if default is None:
        return False
    plain = spelled(default)
    return not re.fullmatch(r"[a-z ]+", plain) or plain == spelled(argument)


def _is_default(argument, default, arguments, scope):
    """Whether an argument is the default of its parameter, which may name others, by their `arguments`, and what is in the template's own scope."""
    if default is None:
        return False
    default = re.sub(r"\w+", lambda word: arguments.get(word[0]) or word[0], default)
    return spelled(default).replace(scope, "") == spelled(argument).replace(scope, "")


def _place(node):
    """Where a declaration stands; that of the text that uses a macro."""
    place = node.get("loc", {})
    return place.get("expansionLoc", place)


def _unnamed(node):
    place = _place(node)
    return f"(unnamed at {place.get('file', '')}:{place.get('line', 0)}:{place.get('col', 0)})"


def is_in(record, files):
    """Whether a class is defined in one of the files."""
    return os.path.realpath(record.file) in files if record.file else False
