"""Where things stand: variables, members and elements, as paths of our language, and pointers to objects and boxes."""
from dataclasses import dataclass

from . import tree
from .numbers import CASTS
from .refusal import CannotSay

DERIVED = {"DerivedToBase", "UncheckedDerivedToBase"}


@dataclass
class Variable:
    """mode: plain (a number or pointer of ours), object (a pointer to it), boxed, reference, array (a pointer to its holder)."""

    name: str
    mode: str
    shape: object


def is_reference(node):
    return node["type"]["qualType"].rstrip().endswith("&") or node["type"].get("desugaredQualType", "").rstrip().endswith("&")


class Places:
    """The part of a body that finds places."""

    def pointer(self, node):
        """A name or `this`, for what stands before `->`."""
        text = self.operand(node)
        return self.named(text, self.shape(node).word)

    def named(self, text, word):
        if text[0].isdigit():
            name = self.temporary(word)
            self.put(f"{name} = {text};")
            return name
        return text

    # Places of numbers and pointers.

    def place(self, node):
        """The path by which a number or pointer is read and written: a name, or `p->m`."""
        node = tree.bare(node)
        kind = node["kind"]
        if kind == "DeclRefExpr":
            variable = self.variable(node)
            return variable.name if variable.mode == "plain" else variable.name + "->v"
        if kind == "MemberExpr":
            return self.member_place(node)
        if kind == "ArraySubscriptExpr":
            return self.element_place(node)
        if kind in CASTS and node["castKind"] == "NoOp":
            return self.place(tree.parts(node)[-1])
        if kind == "BinaryOperator" and node["opcode"] == "=" or kind == "CompoundAssignOperator":
            return self.assign(node)
        if kind == "UnaryOperator" and node["opcode"] in ("++", "--"):
            return self.step(node)
        if kind == "UnaryOperator" and node["opcode"] == "*":
            return self.pointer(tree.parts(node)[0]) + "->v"
        if kind == "BinaryOperator" and node["opcode"] == ",":
            self.effect(tree.parts(node)[0])
            return self.place(tree.parts(node)[1])
        if kind == "MaterializeTemporaryExpr":
            return self.hold_typed(tree.parts(node)[0])
        return self.address(node) + "->v"

    def initial_member(self, node):
        """In a plan, where the object is not there yet, the initialiser of its member; None where the member is another's."""
        base = tree.bare(tree.parts(node)[0])
        while base["kind"] in CASTS:
            base = tree.bare(tree.parts(base)[-1])
        if self.this or base["kind"] != "CXXThisExpr":
            return None
        return self.initialisers.get(node["referencedMemberDecl"])

    def member_place(self, node):
        initial, declared = self.initial_member(node), self.program.tree.nodes[node["referencedMemberDecl"]]
        if initial is not None and declared["id"] in self.handed:
            return self.handed[declared["id"]] + ("->v" if is_reference(declared) else "")
        if initial is not None:
            return self.hold(self.right(initial), self.word(node))
        if declared["kind"] == "VarDecl":
            self.effect(tree.parts(node)[0])
            variable = self.program.global_variable(declared)
            return variable.name if variable.mode == "plain" else variable.name + "->v"
        path = self.path(node)
        if is_reference(declared):
            return self.hold(path, self.shape_of(declared).word) + "->v"
        return path + ".v" if self.program.is_boxed(declared["id"]) else path

    def path(self, node):
        """The path to a member itself: what an object is called, and the members that lead from it."""
        return "".join(self.path_parts(node))

    def path_parts(self, node):
        """The path to what has the member, the sign behind it, and the member's name."""
        declared = self.program.tree.nodes[node["referencedMemberDecl"]]
        record = self.program.tree.record_of_field(declared, node)
        name = self.program.names.member(record, declared["id"])
        base = tree.bare(tree.parts(node)[0])
        if node["isArrow"]:
            return self.pointer(base), "->", name
        if base["kind"] == "MemberExpr" and self.is_path(base):
            return self.path(base), ".", name
        return self.address(base), "->", name

    def is_path(self, node):
        """Whether a written path goes on behind a member: it is no reference and not static."""
        declared = self.program.tree.nodes[node["referencedMemberDecl"]]
        return declared["kind"] != "VarDecl" and not is_reference(declared)

    def element_place(self, node):
        array, index = self.array_and_index(node)
        if array is None:
            return self.address(node) + "->v"
        holder, name, variable = array
        value = self.constant(index)
        if value is not None and self.shape(node).sort != "object":
            self.check_index(node, value, variable)
            boxed = self.program.is_boxed(variable["id"])
            return f"{holder}->{name}[{value}]{'.v' if boxed else ''}"
        return self.address(node) + "->v"

    def check_index(self, node, value, variable):
        length = self.shape_of(variable).length
        if not 0 <= value < length:
            raise CannotSay(node, f"the element {value}", f"the array has {length} elements, and C++ leaves the step undefined")

    def array_and_index(self, node):
        """Of `a[i]` the array as its holder, member and declaration, and the index; the array is None where a pointer stands in its place."""
        base, index = [tree.bare(part) for part in tree.parts(node)]
        if self.shape(base).sort == "number":
            base, index = index, base
        if base["kind"] == "ImplicitCastExpr" and base["castKind"] == "ArrayToPointerDecay":
            array = self.array(tree.bare(tree.parts(base)[0]))
            return array, index
        return None, index

    def array(self, node):
        """The pointer to the class that holds an array, the member's name, and the declaration."""
        if node["kind"] == "DeclRefExpr":
            variable = self.variable(node)
            return variable.name, "e", self.program.tree.nodes[node["referencedDecl"]["id"]]
        if node["kind"] == "MemberExpr":
            declared = self.program.tree.nodes[node["referencedMemberDecl"]]
            if declared["kind"] == "VarDecl":
                return self.program.global_variable(declared).name, "e", declared
            front, sign, name = self.path_parts(node)
            if sign == ".":
                record = self.program.tree.record_of_field(declared, node)
                front = self.hold("&" + front, self.program.names.record(record) + "*")
            return front, name, declared
        raise CannotSay(node, "this array", "it is no variable and no member")

    # Pointers to objects and boxes.

    def address(self, node):
        """A pointer to the object or box that an expression names."""
        node = tree.bare(node)
        kind = node["kind"]
        method = getattr(self, "address_of_" + kind, None)
        if method:
            return method(node)
        if kind in CASTS:
            return self.address_of_cast(node)
        if kind in ("CallExpr", "CXXMemberCallExpr", "CXXOperatorCallExpr") and node.get("valueCategory") == "lvalue":
            return self.hold(self.call(node), self.pointer_word(node))
        if self.shape(node).sort == "object":
            return self.temporary_object(node)
        raise CannotSay(node, f"the address of a {kind}", "no pointer of the language leads to it")

    def pointer_word(self, node):
        return self.program.shapes.pointer(self.shape(node)).word

    def address_of_DeclRefExpr(self, node):
        variable = self.variable(node)
        if variable.mode == "plain":
            raise CannotSay(node, f"the address of {node['referencedDecl'].get('name')}", "no pointer of the language leads to a number")
        return variable.name

    def address_of_MemberExpr(self, node):
        declared = self.program.tree.nodes[node["referencedMemberDecl"]]
        if declared["kind"] == "VarDecl":
            self.effect(tree.parts(node)[0])
            return self.program.global_variable(declared).name
        initial = self.initial_member(node)
        if initial is not None:
            if not is_reference(declared):
                raise CannotSay(node, f"the member {declared.get('name', '')} in an initialiser", "what is under construction has no pointer yet that the language gives")
            return self.handed.get(declared["id"]) or self.address(initial)
        path = self.path(node)
        return self.hold(path if is_reference(declared) else "&" + path, self.pointer_word(node))

    def address_of_ArraySubscriptExpr(self, node):
        array, index = self.array_and_index(node)
        if array is None:
            if self.constant(index) == 0:
                return self.pointer(tree.parts(node)[0])
            raise CannotSay(node, "an index on a pointer", "the language has no arithmetic on pointers")
        holder, name, declared = array
        value = self.constant(index)
        word = self.pointer_word(node)
        if value is not None:
            self.check_index(node, value, declared)
            return self.hold(f"&{holder}->{name}[{value}]", word)
        accessor, number = self.program.accessor(declared, name, node), self.operand(index)
        if self.program.placed:
            owner = self.program.tree.record_of_field(declared, node) if declared["kind"] == "FieldDecl" else None
            holder_word = self.program.names.record(owner) if owner else self.program.array_class(declared, self.shape_of(declared))
            holder = self.hold_as(f"{holder}->in_{name}({number})", holder_word + "*")
        return self.hold(f"{holder}->{accessor}({number})", word)

    def address_of_UnaryOperator(self, node):
        if node["opcode"] == "*":
            return self.pointer(tree.parts(node)[0])
        return self.boxed_place(node)

    def boxed_place(self, node):
        """The box of what an assignment or a step gives."""
        if node["opcode"] not in ("++", "--") and (not node["opcode"].endswith("=") or node["opcode"] in ("==", "!=", "<=", ">=")):
            raise CannotSay(node, f"the place that {node['opcode']} gives", "the language has no pointers to members")
        place = self.place(node)
        if place.endswith("->v"):
            return place[:-3]
        if place.endswith(".v"):
            return self.hold("&" + place[:-2], self.pointer_word(node))
        raise CannotSay(node, "the address of what an assignment gives", "no pointer of the language leads to a number")

    def address_of_BinaryOperator(self, node):
        if node["opcode"] == ",":
            self.effect(tree.parts(node)[0])
            return self.address(tree.parts(node)[1])
        return self.boxed_place(node)

    address_of_CompoundAssignOperator = boxed_place

    def address_of_MaterializeTemporaryExpr(self, node):
        return self.materialized(node)

    def address_of_ConditionalOperator(self, node):
        return self.chosen(node, self.pointer_word(node), self.address)

    def address_of_CXXDynamicCastExpr(self, node):
        return self.address_of_cast(node)

    def address_of_StringLiteral(self, node):
        return self.text_of(node)

    def address_of_cast(self, node):
        inside, sort = tree.parts(node)[-1], node["castKind"]
        if sort == "NoOp":
            return self.address(inside)
        if sort in DERIVED:
            return self.converted(self.address(inside), node, inside)
        if sort == "BaseToDerived":
            return self.hold(f"static_cast<{self.pointer_word(node)}>({self.address(inside)})", self.pointer_word(node))
        if sort in ("ConstructorConversion", "UserDefinedConversion"):
            return self.address(inside)
        if sort == "Dynamic":
            raise CannotSay(node, "dynamic_cast to a reference", "it may throw, and the language has no exceptions")
        raise CannotSay(node, f"a conversion ({sort}) of what is named", "no pointer of the language is so converted")

    def converted(self, text, node, inside):
        """A pointer to a base, in a variable of its own type."""
        if self.shape(node).record is self.shape(inside).record:
            return text
        name = self.temporary(self.pointer_word(node) if self.shape(node).sort == "object" else self.shape(node).word)
        self.put(f"{name} = {text};")
        return name

    def variable(self, node):
        """The variable that a name stands for."""
        number = node["referencedDecl"]["id"]
        if number in self.variables:
            return self.variables[number]
        declared = self.program.tree.nodes.get(number)
        if declared is not None and declared["kind"] == "VarDecl" and self.program.is_global(declared):
            return self.program.global_variable(declared)
        raise CannotSay(node, f"the name {node['referencedDecl'].get('name', '')}", "it is no variable of this function and no global one")
