"""Statements: declarations, conditions and returns; each scope ends its objects on every way out."""
from . import tree
from .lines import is_operand
from .numbers import CASTS
from .places import Variable, is_reference
from .refusal import CannotSay, place_of

EXPRESSIONS = {"CallExpr", "CXXMemberCallExpr", "CXXOperatorCallExpr"}


class Statements:
    """The part of a body that says statements."""

    def statement(self, node):
        node_kind = node["kind"]
        if "range" in node and place_of(node)[1]:
            self.place_now = place_of(node)
        method = getattr(self, "say_" + node_kind, None)
        if method:
            method(node)
        elif node_kind.endswith(("Expr", "Operator", "Literal", "ExprWithCleanups")):
            with self.full():
                self.effect(node)
        else:
            raise CannotSay(node, f"the statement ({node_kind})", WHY.get(node_kind, "the language has nothing that does the same"))

    def say_NullStmt(self, node):
        pass

    def say_AttributedStmt(self, node):
        self.statement(tree.parts(node)[-1])

    def say_CompoundStmt(self, node):
        self.scopes.append([])
        self.sequence(tree.parts(node))

    def sequence(self, statements):
        """Statements one after the other, then the ends of the scope's objects; behind one that may leave a loop the rest is in an `if`."""
        opened = 0
        for position, one in enumerate(statements):
            self.statement(one)
            if self.leaves(one) and (position + 1 < len(statements) or self.scopes[-1]):
                self.open(f"if ({self.loops[-1].go})")
                opened += 1
        for name in reversed(self.scopes.pop()):
            self.put(f"delete {name};")
        for _ in range(opened):
            self.close()

    def block(self, node):
        """A statement that is a block of its own."""
        self.scopes.append([])
        self.sequence(tree.parts(node) if node["kind"] == "CompoundStmt" else [node])

    # Declarations.

    def say_DeclStmt(self, node):
        for one in tree.parts(node):
            if one["kind"] == "VarDecl":
                self.declare(one)
            elif one["kind"] not in ("CXXRecordDecl", "EnumDecl", "TypedefDecl", "TypeAliasDecl", "UsingDecl", "UsingDirectiveDecl", "StaticAssertDecl", "FunctionDecl", "EmptyDecl"):
                raise CannotSay(one, f"a declaration ({one['kind']}) in a body", "it is no variable, class, enum or typedef")

    def initial(self, node):
        found = [part for part in tree.parts(node) if not part["kind"].endswith("Attr")]
        return found[-1] if found and "init" in node else None

    def declare(self, node):
        """A local variable."""
        if node.get("storageClass") == "extern":
            return
        if node.get("storageClass") == "static":
            self.program.static_local(self, node)
            return
        shape, initial = self.shape_of(node), self.initial(node)
        if shape.sort in ("unsayable", "void"):
            raise CannotSay(node, f"a variable of the type {tree.type_of(node)}", shape.word)
        name = self.scope.new(node["name"])
        with self.full():
            if is_reference(node):
                self.variables[node["id"]] = Variable(name, "reference", shape)
                self.put(f"{shape.word} {name} = {self.address(initial)};")
            elif shape.sort == "object":
                self.declare_object(node, shape, name, initial)
            elif shape.sort == "array":
                self.declare_array(node, shape, name, initial)
            else:
                self.declare_number(node, shape, name, initial)

    def declare_object(self, node, shape, name, initial):
        self.variables[node["id"]] = Variable(name, "object", shape)
        declaration = f"{self.program.names.record(shape.record)}* {name}"
        if initial is None:
            self.program.constructions.blank(self, node, shape.record, declaration)
        else:
            self.object(initial, declaration)
        self.scopes[-1].append(name)
        if node.get("nrvo"):
            self.returned.add(name)

    def declare_array(self, node, shape, name, initial):
        self.variables[node["id"]] = Variable(name, "array", shape)
        self.program.constructions.array(self, node, shape, f"{self.program.array_class(node, shape)}* {name}", initial)
        self.scopes[-1].append(name)

    def declare_number(self, node, shape, name, initial):
        if self.program.is_boxed(node["id"]):
            box = self.program.names.box(shape.word)
            self.variables[node["id"]] = Variable(name, "boxed", shape)
            self.put(f"{box}* {name} = new {box};")
            self.scopes[-1].append(name)
            if initial is not None:
                self.put(f"{name}->v = {self.argument(initial)};")
            return
        self.variables[node["id"]] = Variable(name, "plain", shape)
        self.put(f"{shape.word} {name} = {self.assigned(initial)};" if initial is not None else f"{shape.word} {name};")

    # Conditions and ends.

    def tested(self, node, say=None):
        """The condition of an `if`, in a variable where temporaries end behind it."""
        with self.full():
            text = self.condition(node)
            if self.ends[-1] and is_operand(text):
                text = self.hold_as(text, self.word(node))
        return text

    def say_IfStmt(self, node):
        self.scopes.append([])
        statements = tree.parts(node)
        while statements[0]["kind"] == "DeclStmt":
            self.statement(statements.pop(0))
        condition, then, *other = statements
        self.open(f"if ({self.tested(condition)})")
        self.block(then)
        if other:
            self.close("} else {")
            self.depth += 1
            self.block(other[0])
        self.close()
        self.end_scope()

    def end_scope(self):
        for name in reversed(self.scopes.pop()):
            self.put(f"delete {name};")

    def end_scopes(self, count, kept=None):
        """Ends the objects of the innermost scopes, where a statement leaves them."""
        for scope in reversed(self.scopes[len(self.scopes) - count:]):
            for name in reversed(scope):
                if name != kept:
                    self.put(f"delete {name};")

    def say_ReturnStmt(self, node):
        given = tree.parts(node)
        if not given:
            self.end_scopes(len(self.scopes))
            self.put("return;")
            return
        with self.full():
            self.return_value(tree.bare(given[0]))

    def return_value(self, given):
        """A return with a value: it is read before objects of the body end."""
        shape = self.result
        if shape.sort == "void":
            self.effect(given)
            text = None
        elif self.result_is_reference:
            text = self.address(given)
        elif shape.sort == "object":
            text = self.returned_object(given)
        else:
            text = self.argument(given)
        ends = self.ends[-1] + [name for scope in self.scopes for name in scope if name != text]
        if text is not None and ends and shape.sort != "object" and not text.lstrip("-").isdigit():
            text = self.hold_as(text, shape.word)
        for name in reversed(self.ends[-1]):
            self.put(f"delete {name};")
        self.end_scopes(len(self.scopes), text)
        self.put("return;" if text is None else f"return {text};")
        self.ends[-1] = []

    def returned_object(self, given):
        """The object that a function gives: the one local that all its returns name is that object itself."""
        if given["kind"] == "CXXConstructExpr":
            named = tree.bare(tree.parts(given)[0]) if tree.parts(given) else given
            while named["kind"] in CASTS and named["castKind"] == "NoOp":
                named = tree.bare(tree.parts(named)[-1])
            if named["kind"] == "DeclRefExpr":
                variable = self.variables.get(named["referencedDecl"]["id"])
                if variable and variable.name in self.returned:
                    return variable.name
        return self.object(given)


WHY = {
    "GotoStmt": "the language has no jumps", "IndirectGotoStmt": "the language has no jumps", "LabelStmt": "the language has no jumps",
    "GCCAsmStmt": "the language has no inline assembly", "CXXForRangeStmt": "it steps a pointer through an array, and the language has no arithmetic on pointers",
}
