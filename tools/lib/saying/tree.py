"""The tree of a C++ program, and what its declarations are by their numbers: functions with bodies, constants, classes."""
import os
import sys

from .. import clang, clang_tree, cpp_tree
from .refusal import CannotSay

sys.setrecursionlimit(max(sys.getrecursionlimit(), 100000))  # a sum is as deep as the source makes it
HEADERS = os.path.join(os.path.dirname(os.path.abspath(__file__)), "headers")
FUNCTIONS = {"FunctionDecl", "CXXMethodDecl", "CXXConstructorDecl", "CXXDestructorDecl", "CXXConversionDecl"}
CLASSES = {"CXXRecordDecl", "ClassTemplateSpecializationDecl"}
TEMPLATES = {"ClassTemplateDecl", "FunctionTemplateDecl"}


def inner(node):
    """The nodes directly inside of one, with empty dicts for parts that are not there."""
    return node.get("inner", [])


def parts(node):
    """The nodes directly inside of one that are there."""
    return [child for child in inner(node) if child.get("kind")]


def type_of(node):
    kind = node.get("type", {})
    return kind.get("desugaredQualType", kind.get("qualType", ""))


def within(node):
    """A node and all nodes inside of it."""
    yield node
    for child in inner(node):
        yield from within(child)


def body_of(node):
    """The body of a function; None where it is only declared."""
    return next((child for child in parts(node) if child["kind"] == "CompoundStmt"), None)


def parameters(node):
    return [child for child in parts(node) if child["kind"] == "ParmVarDecl"]


def bare(node):
    """A node without parentheses and what only says that temporaries end."""
    while node.get("kind") in ("ParenExpr", "ExprWithCleanups", "ConstantExpr", "SubstNonTypeTemplateParmExpr", "CXXBindTemporaryExpr"):
        node = parts(node)[-1]
    return node


def is_instance(node):
    """Whether a part of a template is one of its instances, which can be run."""
    if node["kind"] in ("ClassTemplateSpecializationDecl", "ClassTemplateDecl"):
        return True
    return node["kind"] in FUNCTIONS and any(one["kind"] == "TemplateArgument" for one in parts(node))


class Tree:
    """A program's declarations. `names` are its classes, enums and typedefs; `record_nodes` has the node of each class."""

    def __init__(self, text, flags):
        words = ["-nostdinc", "-nostdinc++", "-isystem", HEADERS, *flags]
        clang.need_taken(text, words, "the source is not taken with what is known of the library")
        self.top = {"kind": "TranslationUnitDecl", "inner": list(clang_tree.declarations(text, words, whole=True))}
        self.nodes, self.first, self.bodies, self.owners, self.constants = {}, {}, {}, {}, {}
        self.field_owners, self.redeclarations = {}, {}
        self.locals, self.variables = [], []
        self.index(self.top, None, "file")
        self.variables = [node for node in self.variables if node.get("previousDecl", node["id"]) in self.nodes]  # the others are members of a template itself
        walk = cpp_tree.read_tree(self.top)
        self.names = walk.names
        for node in self.locals:
            self.local(walk, node)
        self.record_nodes = {record.name: node for record, node in walk.pairs}
        self.record_of = {node["id"]: record for record, node in walk.pairs}

    def index(self, node, owner, scope):
        """Numbers what stands in a file, a class or a body; a template itself is passed over, its instances are not."""
        for child in parts(node):
            kind = child["kind"]
            if kind in TEMPLATES:
                self.index({"inner": [one for one in parts(child) if is_instance(one)]}, owner, scope)
            elif kind != "ClassTemplatePartialSpecializationDecl":
                if node.get("kind") == "LambdaExpr" and kind == "CXXRecordDecl":
                    child["isLambda"] = True
                    child.pop("isImplicit", None)
                if "id" in child:
                    self.declaration(child, owner, scope)
                inside = "class" if kind in CLASSES else "body" if kind in FUNCTIONS else scope
                self.index(child, child if kind in CLASSES else owner, inside)

    def declaration(self, node, owner, scope):
        kind = node["kind"]
        self.nodes.setdefault(node["id"], node)
        if kind in FUNCTIONS:
            first = self.first_of(node.get("previousDecl", node["id"]))
            self.first[node["id"]] = first
            self.redeclarations.setdefault(first, []).append(node)
            self.owners.setdefault(first, owner if kind != "FunctionDecl" else None)
            if body_of(node) is not None:
                self.bodies.setdefault(first, node)
        elif kind == "VarDecl":
            first = self.first_of(node.get("previousDecl", node["id"]))
            self.first[node["id"]] = first
            if scope == "class":
                self.field_owners.setdefault(first, owner)
            if scope != "body":
                self.variables.append(node)
        elif kind == "EnumDecl":
            self.enum(node)
        elif kind == "FieldDecl":
            self.field_owners[node["id"]] = owner
        if node.get("isLambda"):
            self.locals.append(node)
        elif scope == "body" and kind in ("CXXRecordDecl", "EnumDecl", "TypedefDecl", "TypeAliasDecl"):
            self.locals.append(node)

    def first_of(self, number):
        while self.first.get(number, number) != number:
            number = self.first[number]
        return number

    def enum(self, node):
        value = -1
        for one in parts(node):
            if one["kind"] == "EnumConstantDecl":
                given = [found for found in within(one) if found.get("kind") == "ConstantExpr" and "value" in found]
                one["inner"] = given[:1]
                value = int({"true": 1, "false": 0}.get(given[0]["value"], given[0]["value"])) if given else value + 1
                self.constants[one["id"]] = value

    def local(self, walk, node):
        """A class, enum or typedef of a body; its name must not be that of another one."""
        if node["kind"] == "CXXRecordDecl":
            if node.get("completeDefinition") and not node.get("isImplicit"):
                name = cpp_tree.spelled(walk.spellings(node, [""])[0])
                if name in self.names.records:
                    raise CannotSay(node, f"the class {name} of a body", "another class has this name, and clang's tree does not tell them apart")
                walk.record(node, [""])
        elif node["kind"] == "EnumDecl":
            walk.enum(node, [""])
        else:
            walk.typedef(node, [""])

    def function(self, number):
        """The first declaration of a function, and the one with its body or None."""
        first = self.first_of(number)
        known = self.redeclarations.get(first)
        if not known:
            raise CannotSay({}, "a function", "clang's tree names it and does not show it, as a friend that a template declares")
        return known[0], self.bodies.get(first)

    def variable_owner(self, node):
        """The class that declares a static member; None for another variable."""
        owner = self.field_owners.get(self.first_of(node["id"]))
        return self.record_of.get(owner["id"]) if owner else None

    def default(self, number, position):
        """The default argument of a parameter, by any declaration of the function."""
        first = self.first_of(number)
        for node in self.redeclarations[first]:
            given = [part for part in parts(parameters(node)[position]) if not part["kind"].endswith("Attr")]
            if given:
                return given[-1]
        return None

    def record_of_field(self, field, node):
        """The class that declares a data member."""
        owner = self.field_owners.get(field["id"])
        record = self.record_of.get(owner["id"]) if owner else None
        if record is None:
            raise CannotSay(node, f"the member {field.get('name', '')}", "its class has no name of its own, or is a union")
        return record

    def owner(self, number):
        """The class that a member function stands in; None for another function."""
        first = self.first_of(number)
        node = self.owners.get(first)
        return self.record_of.get(node["id"]) if node else None
