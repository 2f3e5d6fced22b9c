"""Calls: of free and static functions through the one object of the class of functions, of member functions through their objects."""
import re

from . import tree
from .lines import is_operand
from .numbers import CASTS
from .places import is_reference
from .refusal import CannotSay


# The functions of the library that are said, by the names that programs call.
KNOWN = {
    "printf": "printf", "__builtin_printf": "printf", "puts": "puts", "__builtin_puts": "puts", "putchar": "putchar", "abort": "abort", "__builtin_abort": "abort",
    "exit": "exit", "__builtin_exit": "exit", "_exit": "exit_at_once", "_Exit": "exit_at_once", "__assert_fail": "assert_fail", "same_type": "same_type",
    "other_type": "other_type", "fflush": "flush",
}


def qualified_by(node, read):
    """Whether a member is named with its class before it, as `p->K::f`, by the text of the source."""
    begin, end = node["range"]["begin"], node["range"]["end"]
    begin, end = begin.get("spellingLoc", begin), end.get("spellingLoc", end)
    base = tree.bare(tree.parts(node)[0])
    while base["kind"] in CASTS and base["kind"] == "ImplicitCastExpr":
        base = tree.bare(tree.parts(base)[-1])
    at = begin.get("offset", 0)
    if not base.get("implicit") and "end" in base.get("range", {}):
        last = base["range"]["end"].get("spellingLoc", base["range"]["end"])
        at = last.get("offset", at) + last.get("tokLen", 0) if last.get("file") == end.get("file") else at
    text = read(end.get("file", ""))[at:end.get("offset", 0)]
    return "::" in re.sub(rb"<[^<>]*>", b"", text).decode("latin-1")


class Calls:
    """The part of a body that says calls."""

    def functions(self, node):
        """A name for the object that has the functions."""
        return "this" if self.in_functions else self.program.names.all

    def call_for_effect(self, node):
        if self.known_name(node) == "operator<<":
            self.program.printing.stream(self, node, False)
            return
        text = self.call(node)
        if text and not is_operand(text):
            if self.shape(node).sort == "object" and not tree.type_of(node).endswith("&") and node.get("valueCategory") == "prvalue":
                self.own(self.hold(text, self.pointer_word(node)))
            else:
                self.put(text + ";")

    def of_CallExpr(self, node):
        text = self.call(node)
        return text + "->v" if node.get("valueCategory") == "lvalue" and is_operand(text) else text

    of_CXXMemberCallExpr = of_CXXOperatorCallExpr = of_CallExpr

    def call(self, node):
        """The text of a call, or of the operand that stands for its result; empty where all is said."""
        known = self.library(node)
        if known is not None:
            return known
        if node["kind"] == "CXXOperatorCallExpr":
            return self.operator_call(node)
        callee, *arguments = tree.parts(node)
        callee = tree.bare(callee)
        while callee["kind"] in CASTS and callee["castKind"] in ("FunctionToPointerDecay", "NoOp"):
            callee = tree.bare(tree.parts(callee)[-1])
        if callee["kind"] == "UnaryOperator" and callee["opcode"] in ("*", "&"):
            callee = tree.bare(tree.parts(callee)[0])
        if callee["kind"] == "CXXPseudoDestructorExpr":
            return ""
        if callee["kind"] == "DeclRefExpr" and callee["referencedDecl"]["kind"] in tree.FUNCTIONS:
            return self.free_call(node, callee["referencedDecl"]["id"], arguments)
        if callee["kind"] == "MemberExpr" and node["kind"] == "CXXMemberCallExpr":
            return self.member_call(node, callee, arguments)
        if callee["kind"] == "MemberExpr":
            self.effect(tree.parts(callee)[0])
            return self.free_call(node, callee["referencedMemberDecl"], arguments)
        raise CannotSay(node, "a call through a pointer to a function or member", "the language has no such pointers")

    def operator_call(self, node):
        """A call of an overloaded operator, as a function or as a member of its first operand."""
        callee, *arguments = tree.parts(node)
        number = tree.bare(tree.parts(tree.bare(callee))[-1])["referencedDecl"]["id"]
        declared, body = self.program.tree.function(number)
        if declared["kind"] == "FunctionDecl":
            return self.free_call(node, number, arguments)
        if declared.get("isImplicit") or declared.get("explicitlyDefaulted"):
            if declared["name"] == "operator=" and self.program.is_plain_assignment(self.program.tree.owner(number)):
                return self.copied(*arguments)
        return self.method_text(node, number, self.object_of(arguments[0], number), arguments[1:], False)

    def object_of(self, node, number):
        """The object of a call, as a pointer to the class that declares the function."""
        text, owner = self.address(node), self.program.tree.owner(number)
        if self.shape(node).record is not owner:
            name = self.temporary(self.program.names.record(owner) + "*")
            self.put(f"{name} = {text};")
            return name
        return text

    def copied(self, target, source):
        """The assignment of an object, leaf by leaf."""
        to, of = self.address(target), self.address(source)
        if self.shape(source).record is not self.shape(target).record:
            of = self.hold_as(of, self.pointer_word(target))
        self.put(f"*{to} = *{of};")
        return to

    def hold_as(self, text, word):
        name = self.temporary(word)
        self.put(f"{name} = {text};")
        return name

    def free_call(self, node, number, arguments):
        declared, body = self.program.tree.function(number)
        if body is None:
            raise CannotSay(node, f"a call of {declared.get('name')}", "the function is not defined in these files, and the language does not have it")
        given = self.arguments(node, number, arguments)
        return f"{self.functions(node)}->{self.program.function(number)}({given})"

    def member_call(self, node, callee, arguments):
        number = callee["referencedMemberDecl"]
        declared, _ = self.program.tree.function(number)
        base = tree.parts(callee)[0]
        if declared["kind"] == "CXXDestructorDecl":
            raise CannotSay(node, "a call of a destructor", "the language ends objects by delete alone")
        target = self.steady(self.pointer(base) if callee["isArrow"] else self.address(base), base, arguments)
        qualified = qualified_by(callee, self.program.file_bytes)
        return self.method_text(node, number, target, arguments, qualified)

    def method_text(self, node, number, target, arguments, qualified):
        declared, body = self.program.tree.function(number)
        owner = self.program.tree.owner(number)
        if owner is None:
            raise CannotSay(node, f"a call of {declared.get('name')}", "clang's tree does not show the class that has the function")
        given = self.arguments(node, number, arguments)
        if declared.get("storageClass") == "static":
            return self.free_call(node, number, arguments)
        if body is None and not declared.get("pure"):
            raise CannotSay(node, f"a call of {declared.get('name')}", "the function is not defined in these files")
        name = self.program.method(number)
        if qualified and declared.get("pure"):
            return f"{target}->{self.program.pure_body(number)}({given})"
        return f"{target}->{self.program.names.record(owner) + '::' if qualified else ''}{name}({given})"

    def arguments(self, node, number, arguments):
        return ", ".join(self.operands(node, number, arguments))

    def operands(self, node, number, arguments):
        """The operands of a call: references and objects as pointers, defaults where they are left out."""
        declared, _ = self.program.tree.function(number)
        wanted = tree.parameters(declared)
        if len(arguments) > len(wanted):
            raise CannotSay(node, f"a call of {declared.get('name')} with more arguments than parameters", "the language has no variable arguments")
        if len(wanted) > 16:
            raise CannotSay(node, f"a call of {declared.get('name')}", "it has more than 16 parameters")
        found = []
        for position, parameter in enumerate(wanted):
            given = tree.bare(arguments[position]) if position < len(arguments) else {"kind": "CXXDefaultArgExpr"}
            if given["kind"] == "CXXDefaultArgExpr":
                given = self.program.tree.default(number, position)
            found.append(self.steady(self.passed(parameter, given), parameter, arguments[position + 1:]))
        return found

    def passed(self, parameter, given):
        """One argument; an object that is passed by value is one of its own, which ends behind the call."""
        shape = self.program.shapes.of(tree.type_of(parameter))
        if shape.sort == "unsayable":
            raise CannotSay(parameter, f"a parameter of the type {tree.type_of(parameter)}", shape.word)
        if is_reference(parameter):
            text = self.address(given)
        elif shape.sort == "object":
            text = self.temporary_object(given)
        else:
            text = self.argument(given)
        return text

    # What the library does.

    def library(self, node):
        """A call of a function that these tools know by its name; None for another."""
        name = self.known_name(node)
        if name is None:
            return None
        if name == "operator<<":
            return self.program.printing.stream(self, node, True)
        if name not in KNOWN:
            return None
        return getattr(self, "library_" + KNOWN[name])(node, tree.parts(node)[1:])

    def known_name(self, node):
        """The name of a called function that has no body here; for `==` of types the operator's."""
        callee = tree.bare(tree.parts(node)[0])
        while callee["kind"] in CASTS:
            callee = tree.bare(tree.parts(callee)[-1])
        number = callee.get("referencedDecl", {}).get("id") or callee.get("referencedMemberDecl")
        if number is None or self.program.tree.nodes.get(number, {}).get("kind") not in tree.FUNCTIONS:
            return None
        declared, body = self.program.tree.function(number)
        if body is not None:
            return None
        owner = self.program.tree.owner(number)
        if owner is not None and owner.name == "std::type_info":
            return {"operator==": "same_type", "operator!=": "other_type"}.get(declared["name"])
        return declared.get("name") if owner is None or owner.name == "std::ostream" else None

    def library_printf(self, node, arguments):
        return self.program.printing.printf(self, node, arguments)

    def library_puts(self, node, arguments):
        return self.program.printing.puts(self, node, arguments)

    def library_putchar(self, node, arguments):
        return self.program.printing.putchar(self, node, arguments)

    def library_abort(self, node, arguments):
        return self.ended(("abort",))

    def library_assert_fail(self, node, arguments):
        said = tree.bare(arguments[0])
        while said["kind"] in CASTS:
            said = tree.bare(tree.parts(said)[-1])
        return self.ended(("assert", self.program.printing.value_of(said)))

    def library_exit(self, node, arguments):
        status = self.argument(arguments[0])
        self.program.printing.template(self, ("exit",), [status])
        self.put(f"{self.functions(node)}->{self.program.exit()}();")
        return ""

    def library_exit_at_once(self, node, arguments):
        """`_exit` ends the program without the ends of its globals."""
        status = self.argument(arguments[0])
        self.program.printing.template(self, ("exit",), [status])
        self.put(f"{self.functions(node)}->{self.program.end()}();")
        return ""

    def library_flush(self, node, arguments):
        """`fflush` changes nothing that a run shows."""
        return "0"

    def ended(self, row):
        self.program.printing.template(self, row, [])
        self.put(f"{self.functions(None)}->{self.program.end()}();")
        return ""

    def library_same_type(self, node, arguments):
        return self.types_equal(node, arguments, False)

    def library_other_type(self, node, arguments):
        return self.types_equal(node, arguments, True)

    def types_equal(self, node, arguments, negated):
        """`==` of two typeids, where one of them names a type or an object whose class is known."""
        sides = [self.type_side(one) for one in (arguments if len(arguments) == 2 else tree.parts(node)[1:])]
        sides.sort(key=lambda side: side[0] == "static")
        (sort, first), (other, second) = sides
        if other != "static":
            raise CannotSay(node, "a comparison of the types of two objects", "the language compares the type of one object with the name of a class")
        if sort == "static":
            return str(int((first == second) != negated))
        record = self.program.shapes.of(second).record
        if record is None:
            return str(int(negated))
        name = self.hold(f"typeid(*{first}) == typeid({self.program.names.record(record)})", "bool")
        return f"!{name}" if negated else name

    def type_side(self, node):
        """What a typeid asks: ("static", the type), or ("object", a pointer) where the class is that of the whole object."""
        node = tree.bare(node)
        while node["kind"] in CASTS:
            node = tree.bare(tree.parts(node)[-1])
        if node["kind"] != "CXXTypeidExpr":
            raise CannotSay(node, "a type as a value", "the language compares the type of an object with the name of a class")
        if "typeArg" in node:
            return "static", self.canonical(node["typeArg"].get("desugaredQualType", node["typeArg"]["qualType"]))
        inside = tree.parts(node)[0]
        shape = self.shape(inside)
        if shape.sort == "object" and self.program.is_polymorphic(shape.record) and inside.get("valueCategory") != "prvalue":
            return "object", self.named(self.address(inside), self.pointer_word(inside))
        return "static", self.canonical(tree.type_of(inside))

    def canonical(self, text):
        text = re.sub(r"\s*&+$", "", text)
        shape = self.program.shapes.of(text)
        return shape.record.name if shape.sort == "object" else re.sub(r"^(?:const|volatile)\s+", "", text)
