"""What an expression, function or constructor does that others can see, so that it changes its place only where nobody sees it.

A set of words: it `reads` what others may change; it `prints`; it `changes` what others may read, or is not known. The set is
empty for what takes constants, parameters, variables of its own and the object under construction alone.
"""
from . import order, tree
from .calls import qualified_by
from .numbers import CASTS
from .places import DERIVED, is_reference
from .refusal import CannotSay

READS, PRINTS, CHANGES = "reads", "prints", "changes"
UNKNOWN = frozenset({READS, PRINTS, CHANGES})
NOTHING = frozenset()
HIDDEN = {}
SILENT = {"UnaryExprOrTypeTraitExpr", "CXXNoexceptExpr", "LambdaExpr", "CXXRecordDecl", "CXXDefaultArgExpr", "CXXDefaultInitExpr"}
CALLS = {"CallExpr", "CXXMemberCallExpr", "CXXOperatorCallExpr"}
PRINTED = {"printf", "__builtin_printf", "puts", "__builtin_puts", "putchar", "operator<<", "fflush", "flush", "endl"}


def commute(first, second):
    """Whether two things may change places."""
    if CHANGES in first and second or CHANGES in second and first:
        return False
    return not (PRINTS in first and PRINTS in second)


class Effects:
    """The effects of one program's functions and constructors, each found once."""

    def __init__(self, program):
        self.program = program
        self.known = {}

    def kept(self, key, find):
        """What is found for a key; a function that calls itself is not known while it is looked at."""
        if key not in self.known:
            self.known[key] = UNKNOWN
            self.known[key] = find()
        return self.known[key]

    # Functions and constructors.

    def of_function(self, number, own_object):
        _, body = self.program.tree.function(number)
        if body is None:
            return UNKNOWN
        return self.kept((body["id"], own_object), lambda: self.of(tree.body_of(body), own_names(body), own_object))

    def of_constructor(self, record, constructor):
        """The effects of making an object by a constructor, without those of its arguments; of an implicit one that is not there, of its parts."""
        made = self.program.constructions
        if constructor is HIDDEN:
            return UNKNOWN
        if constructor is None:
            return self.of_parts(record)
        definition = made.body(constructor)
        if definition is None and made.is_own(constructor):
            return UNKNOWN
        listed = initialisers(definition or constructor)
        if not listed and not made.is_own(constructor):
            return self.of_parts(record)
        return self.kept((record.name, (definition or constructor)["id"]), lambda: self.of_definition(definition or constructor))

    def constructor(self, record, node):
        """The constructor that an expression calls; HIDDEN where clang's tree does not show it."""
        try:
            return self.program.constructions.constructor_of(record, node)
        except CannotSay:
            return HIDDEN

    def of_parts(self, record):
        made = self.program.constructions
        return frozenset().union(*(self.of_constructor(inside, made.default(inside)) for inside, _ in made.subobjects(record)))

    def of_definition(self, definition):
        own, body = own_names(definition), tree.body_of(definition)
        said = [self.of(value_of(self.program.tree, one), own, True) for one in initialisers(definition) if tree.parts(one)]
        return frozenset().union(*said, self.of(body, own, True) if body is not None else NOTHING)

    # Expressions and statements.

    def of(self, node, own, own_object=True):
        """The effects of an expression or statement; `own` has the numbers of the variables that nobody else knows."""
        kind = node.get("kind", "")
        if kind in SILENT or kind.endswith("Decl") and kind != "VarDecl":
            return NOTHING
        inside = frozenset().union(*(self.of(part, own, own_object) for part in tree.parts(node)))
        return inside | self.itself(node, kind, own, own_object)

    def itself(self, node, kind, own, own_object):
        """The effects of a node without those of its parts."""
        if kind in CALLS:
            return self.of_call(node, own, own_object)
        if kind in ("CXXConstructExpr", "CXXTemporaryObjectExpr"):
            return self.of_making(node, own, own_object)
        if kind == "CXXBindTemporaryExpr":
            return UNKNOWN if self.ends(node) else NOTHING
        if kind == "VarDecl":
            return UNKNOWN if node.get("storageClass") in ("static", "extern") or self.ends(node) else NOTHING
        if order.changes(node) or kind in ("CXXThrowExpr", "CXXDeleteExpr"):
            changed = kind.endswith("Operator") and self.is_own(tree.parts(node)[0], own, own_object)
            return NOTHING if changed or kind == "CXXNewExpr" else UNKNOWN if kind.startswith("CXX") else frozenset({CHANGES})
        if kind == "CXXDynamicCastExpr" or kind in CASTS and node.get("castKind") == "LValueToRValue":
            place = tree.parts(node)[-1]
            return NOTHING if self.is_own(place, own, own_object) or is_constant(place) else frozenset({READS})
        return NOTHING

    def ends(self, node):
        """Whether the end of an object of the node's type does something."""
        shape = self.program.shapes.of(tree.type_of(node))
        shape = shape.inner if shape.sort == "array" else shape
        return shape is not None and shape.sort == "object" and self.program.has_destructor(shape.record)

    def of_making(self, node, own, own_object):
        """The effects of a constructor that an expression calls."""
        if node.get("elidable"):
            return NOTHING
        shape, made = self.program.shapes.of(tree.type_of(node)), self.program.constructions
        if shape.sort == "unsayable":
            raise CannotSay(node, f"an object of the type {tree.type_of(node)}", shape.word)
        record = shape.inner.record if shape.sort == "array" else shape.record
        constructor = self.constructor(record, node)
        if constructor is not HIDDEN and made.is_plain_copy(constructor, record):
            return NOTHING if self.is_own(tree.parts(node)[0], own, own_object) else frozenset({READS})
        return self.of_constructor(record, constructor) | self.of_defaults(constructor, tree.parts(node))

    def of_defaults(self, declared, arguments):
        """The effects of the default arguments that a call takes."""
        left_out = [at for at, one in enumerate(arguments) if tree.bare(one)["kind"] == "CXXDefaultArgExpr"] if declared else []
        return frozenset().union(*(self.of(self.program.tree.default(declared["id"], at), set(), False) for at in left_out))

    def of_call(self, node, own, own_object):
        callee, *arguments = tree.parts(node)
        callee = tree.bare(callee)
        while callee["kind"] in CASTS:
            callee = tree.bare(tree.parts(callee)[-1])
        number = callee.get("referencedMemberDecl") or callee.get("referencedDecl", {}).get("id")
        if number is None or self.program.tree.nodes.get(number, {}).get("kind") not in tree.FUNCTIONS:
            return UNKNOWN
        declared, body = self.program.tree.function(number)
        if body is None and declared.get("name") in PRINTED:
            return frozenset({PRINTS})
        if self.is_virtual(number, declared) and not (callee["kind"] == "MemberExpr" and qualified_by(callee, self.program.file_bytes)):
            return UNKNOWN
        target = tree.parts(callee)[0] if callee["kind"] == "MemberExpr" else None
        if node["kind"] == "CXXOperatorCallExpr" and declared["kind"] == "CXXMethodDecl":
            target, *arguments = arguments
        if body is None and declared.get("isImplicit"):
            return NOTHING if target is not None and self.is_own(target, own, own_object) else UNKNOWN
        on_own = target is not None and (self.is_own(target, own, own_object) or own_object and is_this(target))
        return self.of_function(number, on_own) | self.of_defaults(declared, arguments)

    def is_virtual(self, number, declared):
        owner = self.program.tree.owner(number)
        return owner is not None and declared["kind"] == "CXXMethodDecl" and self.program.names.method(declared) in self.program.classes.virtual_words(owner)

    def is_own(self, node, own, own_object):
        """Whether a place is one that nobody else knows: in a variable of its own, or in the object under construction."""
        node = tree.bare(node)
        kind = node["kind"]
        if kind in CASTS and node["castKind"] in ("NoOp", "ArrayToPointerDecay", *DERIVED):
            return self.is_own(tree.parts(node)[-1], own, own_object)
        if kind == "MemberExpr":
            return self.is_own_member(node, own, own_object)
        if kind == "ArraySubscriptExpr":
            return is_element(tree.parts(node)[0]) and self.is_own(tree.parts(node)[0], own, own_object)
        if kind == "UnaryOperator" and node["opcode"] == "*":
            return own_object and is_this(tree.parts(node)[0])
        return kind == "MaterializeTemporaryExpr" or kind == "DeclRefExpr" and node["referencedDecl"]["id"] in own

    def is_own_member(self, node, own, own_object):
        declared = self.program.tree.nodes.get(node["referencedMemberDecl"], {})
        if declared.get("kind") != "FieldDecl" or is_reference(declared):
            return False
        base = tree.parts(node)[0]
        return own_object and is_this(base) if node["isArrow"] else self.is_own(base, own, own_object)


def initialisers(constructor):
    return [child for child in tree.parts(constructor) if child["kind"] == "CXXCtorInitializer"]


def value_of(program_tree, initialiser):
    """What an initialiser gives its base or member: the member's own default where the constructor names none."""
    given = tree.bare(tree.parts(initialiser)[-1])
    while given["kind"] == "CXXDefaultInitExpr":
        given = tree.bare(tree.parts(program_tree.nodes[initialiser["anyInit"]["id"]])[-1])
    return given


def own_names(function):
    """The numbers of the variables that are a function's own: its parameters and locals that are no references."""
    return {one["id"] for one in tree.within(function) if one.get("kind") in ("VarDecl", "ParmVarDecl") and not is_reference(one) and one.get("storageClass") not in ("static", "extern")}


def is_element(node):
    """Whether what stands before an index is an array itself, and no pointer that leads elsewhere."""
    node = tree.bare(node)
    return node["kind"] == "ImplicitCastExpr" and node["castKind"] == "ArrayToPointerDecay"


def is_this(node):
    """Whether an expression is `this`, as a pointer to the class or to a base of it."""
    node = tree.bare(node)
    while node["kind"] in CASTS and node["castKind"] in DERIVED:
        node = tree.bare(tree.parts(node)[-1])
    return node["kind"] == "CXXThisExpr"


def is_constant(node):
    """Whether a name is that of a constant variable, which nobody changes."""
    node = tree.bare(node)
    if node["kind"] != "DeclRefExpr" or is_reference(node["referencedDecl"]):
        return False
    word = node["type"]["qualType"]
    return word.startswith("const ") and not word.endswith("*")
