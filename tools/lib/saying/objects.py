"""Objects of a body: locals and temporaries are made by `new`, and ended by `delete` where C++ ends them."""
from contextlib import contextmanager

from . import tree
from .numbers import CASTS
from .places import is_reference
from .printing import text_value
from .refusal import CannotSay

MADE = {"CXXConstructExpr", "CXXTemporaryObjectExpr"}


class Objects:
    """The part of a body that makes and ends objects. `ends` has the temporaries of the expression at work, `scopes` the locals."""

    @contextmanager
    def full(self):
        """A full expression: its temporaries end behind it, the last first."""
        mark, branch = len(self.taken), self.branch
        self.ends.append([])
        self.branch = None
        yield
        for name in reversed(self.ends.pop()):
            self.put(f"delete {name};")
        self.branch = branch
        self.release(mark)

    def begin_branch(self):
        self.branches_open += 1
        if self.branch is None:
            self.branch, self.branch_depth = (len(self.lines), self.depth), self.branches_open

    def end_branch(self):
        if self.branch is not None and self.branch_depth == self.branches_open:
            self.branch = None
        self.branches_open -= 1

    def own(self, name):
        """Ends a temporary object behind the full expression; where a branch makes it, it is null before."""
        if self.branch is not None:
            at, depth = self.branch
            self.lines.insert(at, ("  " * depth + f"{name} = 0;", self.place_now))
        self.ends[-1].append(name)

    def temporary_object(self, node):
        """A pointer to an object that an expression makes for itself, which ends behind the full expression."""
        name = self.object(node)
        self.own(name)
        return name

    def materialized(self, node):
        """A temporary that a reference names: an object, or a box with a number. A reference that is a variable keeps it longer."""
        inside = tree.bare(tree.parts(node)[0])
        if "extendingDecl" in node and any(one.get("kind") == "MemberExpr" for one in tree.within(inside)) and self.shape(node).sort != "object" and not is_read(inside):
            raise CannotSay(node, "a reference to a member of a temporary", "the whole temporary would have to live as long")
        if self.shape(node).sort == "object":
            while inside["kind"] in CASTS and inside["castKind"] == "NoOp":
                inside = tree.bare(tree.parts(inside)[-1])
            name = self.object(inside)
        else:
            word = self.word(node)
            box = self.program.names.box(word)
            value = self.argument(inside)
            name = self.temporary(box + "*")
            self.put(f"{name} = new {box};")
            self.put(f"{name}->v = {value};")
        if "extendingDecl" in node and self.scopes:
            return self.extended(node, name)
        self.own(name)
        return name

    def extended(self, node, name):
        if node.get("storageDuration") == "static":
            return name
        inside = tree.bare(tree.parts(node)[0])
        kept = self.kept(self.pointer_word(inside) if self.shape(inside).sort == "object" else self.program.names.box(self.word(node)) + "*")
        self.put(f"{kept} = {name};")
        self.scopes[-1].append(kept)
        return kept

    # Making.

    def begin(self, target, word):
        """The variable that a new object goes to: one that is declared here, a given one, or a temporary."""
        if target is None:
            return self.temporary(word)
        if " " in target:
            self.put(target + ";")
            return target.split()[-1]
        return target

    def object(self, node, target=None):
        """A pointer to the object that an expression of class type makes; who asks has to end it. `target` is a variable or its declaration."""
        node = tree.bare(node)
        kind = node["kind"]
        word = self.pointer_word(node)
        if kind in MADE:
            return self.constructed(node, target)
        if kind == "MaterializeTemporaryExpr" or kind in CASTS and node["castKind"] in ("ConstructorConversion", "UserDefinedConversion", "NoOp"):
            return self.object(tree.parts(node)[-1], target)
        if kind in ("CallExpr", "CXXMemberCallExpr", "CXXOperatorCallExpr"):
            return self.set(target, word, self.call(node))
        if kind == "ConditionalOperator":
            name = self.begin(target, word)
            self.branches(tree.parts(node), lambda part: self.object(part, name))
            return name
        if kind == "BinaryOperator" and node["opcode"] == ",":
            self.effect(tree.parts(node)[0])
            return self.object(tree.parts(node)[1], target)
        if kind in ("InitListExpr", "CXXScalarValueInitExpr", "ImplicitValueInitExpr", "LambdaExpr"):
            return self.plain_object(node, target)
        raise CannotSay(node, f"an object made by {kind}", "the language makes objects by new alone")

    def set(self, target, word, text):
        if target is None:
            name = self.temporary(word)
            self.put(f"{name} = {text};")
            return name
        self.put(f"{target} = {text};")
        return target.split()[-1]

    def constructed(self, node, target):
        """An object by a constructor; a copy of what has no other name is that thing itself."""
        arguments = tree.parts(node)
        if node.get("elidable") and len(arguments) == 1:
            return self.object(arguments[0], target)
        record = self.shape(node).record
        constructor = self.program.constructions.constructor_of(record, node)
        return self.program.constructions.make(self, node, record, constructor, arguments, target)

    def plain_object(self, node, target):
        """An object without a constructor of the user's, whose members are set one by one, or to zero."""
        record = self.shape(node).record
        name = self.program.constructions.blank(self, node, record, target)
        if node["kind"] == "LambdaExpr":
            self.program.check_lambda(node)
        elif node["kind"] == "InitListExpr":
            self.filled(node, record, name)
        else:
            self.zero(record, name)
        return name

    def filled(self, node, record, path):
        """The members of a class that is written as a list in braces."""
        values = list(tree.parts(node)) or [part for part in node.get("array_filler", []) if part.get("kind")]
        fields = self.program.fields(record)
        sign = "." if "->" in path else "->"
        if record.bases:
            raise CannotSay(node, "a list for a class with bases", "the language sets members alone")
        for position, field in enumerate(fields):
            place = f"{path}{sign}{self.program.names.member(record, field['id'])}"
            given = values[position] if position < len(values) else {"kind": "ImplicitValueInitExpr", "type": field["type"], "range": node.get("range", {})}
            self.member_from(field, place, given)

    def member_from(self, field, place, given):
        """Sets one member, at a path, from an expression."""
        given = tree.bare(given)
        shape = self.shape_of(field)
        if shape.sort == "array":
            self.array_from(field, shape, place, given)
        elif shape.sort == "object":
            record = shape.record
            if given["kind"] == "InitListExpr":
                self.filled(given, record, place)
            elif given["kind"] in ("ImplicitValueInitExpr", "CXXScalarValueInitExpr"):
                self.zero(record, place)
            else:
                if self.program.constructions.runs_code(record) or self.program.has_destructor(record):
                    raise CannotSay(given, "a member set by an object", "it would be a copy of that object, and no object of its own")
                to = self.hold("&" + place, self.program.names.record(record) + "*")
                self.put(f"*{to} = *{self.temporary_object(given)};")
        else:
            self.set_member(field, place, given)

    def set_member(self, field, place, given):
        value = self.address(given) if is_reference(field) else self.argument(given)
        self.put(f"{place}{'.v' if self.program.is_boxed(field['id']) else ''} = {value};")

    def array_from(self, field, shape, place, given):
        """Sets the elements of an array, at a path, from a list or to zero; a literal fills an array of characters."""
        values = given.get("array_filler") or tree.parts(given) if given["kind"] == "InitListExpr" else []
        values = [part for part in values if part.get("kind") and part["kind"] != "ImplicitValueInitExpr"] if "array_filler" in given else [part for part in values if part.get("kind")]
        if given["kind"] == "StringLiteral":
            values = [{"kind": "CharacterLiteral", "value": ord(one), "type": {"qualType": "char"}} for one in text_value(given["value"])]
        elif given["kind"] not in ("InitListExpr", "ImplicitValueInitExpr", "CXXScalarValueInitExpr", "CXXConstructExpr"):
            raise CannotSay(given, "an array set by what is no list", "the language sets elements one by one")
        if given["kind"] == "CXXConstructExpr":
            return
        if any(one.get("kind") == "BinaryOperator" and one["opcode"] == "=" for value in values for one in tree.within(value)):
            raise CannotSay(given, "an assignment in a list of elements", "elements that the list leaves out are set at another time")
        filler = {"kind": "ImplicitValueInitExpr", "type": {"qualType": element_type(field)}, "range": given.get("range", {})}
        element = {"id": field["id"], "type": {"qualType": element_type(field)}}
        for position in range(shape.length):
            self.member_from(element, f"{place}[{position}]", values[position] if position < len(values) else filler)

    def zero(self, record, path, is_whole=True):
        """Sets the numbers and pointers of an object to zero, but for those of classes with a constructor of the user's, and for a base's virtual bases."""
        if any(self.program.constructions.is_own(one) for one in self.program.constructions.constructors(record)):
            return
        sign = "." if "->" in path else "->"
        for base in record.bases:
            if base.virtual and not is_whole:
                continue
            inside = self.program.shapes.of(base.type, record).record
            to = self.hold_as(path if "->" not in path else self.hold("&" + path, self.program.names.record(record) + "*"), self.program.names.record(inside) + "*")
            self.zero(inside, to, False)
        for field in self.program.fields(record):
            filler = {"kind": "ImplicitValueInitExpr", "type": field["type"]}
            self.member_from(field, f"{path}{sign}{self.program.names.member(record, field['id'])}", filler)

    # new and delete as the user writes them.

    def new(self, node):
        """`new`: of a class, or of a number in a box."""
        self.program.check_allocation(node, node.get("operatorNewDecl"))
        if node.get("isArray"):
            return self.new_array(node)
        if node.get("isPlacement"):
            raise CannotSay(node, "placement new", "the language chooses the places of objects itself")
        shape = self.shape(node)
        inits = [part for part in tree.parts(node) if part["kind"] not in ("DeclRefExpr",) or shape.record is None]
        if shape.sort == "pointer" and shape.record:
            made = next((part for part in tree.parts(node) if tree.bare(part)["kind"] in (*MADE, "InitListExpr", "ImplicitValueInitExpr", "CXXScalarValueInitExpr")), None)
            if made is not None:
                return self.object(made)
            if inits:
                return self.object(inits[-1])
            return self.program.constructions.blank(self, node, shape.record, None)
        if shape.sort == "pointer" and shape.inner.sort in ("number", "pointer", "text"):
            name = self.hold_as(f"new {shape.word[:-1]}", shape.word)
            if inits:
                self.put(f"{name}->v = {self.argument(inits[-1])};")
            return name
        raise CannotSay(node, f"new of {tree.type_of(node)}", shape.word or "the language makes objects of classes alone")

    def new_array(self, node):
        raise CannotSay(node, "new of an array", "the language has arrays as members alone")

    def delete(self, node):
        if node.get("isArray") or node.get("isArrayAsWritten"):
            raise CannotSay(node, "delete of an array", "the language has arrays as members alone")
        self.program.check_allocation(node, node.get("operatorDeleteDecl"))
        inside = tree.parts(node)[0]
        if self.shape(inside).sort != "pointer":
            raise CannotSay(node, f"delete of a {tree.type_of(inside)}", "the language ends objects of classes alone")
        self.put(f"delete {self.pointer(inside)};")


def is_read(node):
    """Whether an expression reads a place, so that its value is a copy: a reference to a bit-field names such a copy."""
    while node["kind"] in CASTS and node["castKind"] != "LValueToRValue":
        node = tree.bare(tree.parts(node)[-1])
    return node["kind"] in CASTS


def element_type(field):
    """The type of an array's elements, as clang writes it."""
    text = tree.type_of(field)
    return text[:text.index("[")].strip()
