"""Expressions: each becomes statements with one operation each, and what is left is one right side or one operand of our language."""
from . import order, tree
from .lines import is_operand
from .numbers import CASTS
from .places import DERIVED
from .refusal import CannotSay

SWAPPED = {">": "<", ">=": "<="}
HELPED = {"/": "divide", "%": "remainder", "&": "and", "|": "or", "^": "exclusive", "<<": "left", ">>": "right"}


class Expressions:
    """The part of a body that says expressions."""

    def right(self, node):
        """One right side of our language, as of an assignment to a variable of the expression's type."""
        node = tree.bare(node)
        value = self.constant(node)
        if value is not None:
            return self.number(value, self.shape(node))
        shape = self.shape(node)
        if shape.sort == "object":
            raise CannotSay(node, "an object as a value", "it is used where a number or pointer is wanted")
        if shape.floating and (node["kind"] in ("BinaryOperator", "CompoundAssignOperator") and node["opcode"] not in ("=", ",") or node["kind"] == "UnaryOperator" and node["opcode"] != "*"):
            raise CannotSay(node, "a calculation with floating-point numbers", "the language has none")
        if node["kind"] in CASTS:
            return self.of_cast(node)
        method = getattr(self, "of_" + node["kind"], None)
        if method is None:
            raise CannotSay(node, f"the expression ({node['kind']})", "the language has nothing that does the same")
        return method(node)

    def operand(self, node):
        """The name or number of an expression's value, in a variable of its type."""
        return self.hold_typed(node)

    def hold_typed(self, node):
        text = self.right(node)
        if is_operand(text):
            return text
        return self.hold(text, self.word(node))

    def word(self, node):
        shape = self.shape(node)
        if shape.sort in ("unsayable", "void", "array"):
            raise CannotSay(node, f"a value of the type {tree.type_of(node)}", shape.word or "it is no number and no pointer")
        return self.program.shapes.pointer(shape).word if shape.sort == "object" else shape.word

    def assigned(self, node):
        """A right side for a variable of exactly the expression's type, which converts by itself."""
        node = tree.bare(node)
        if node["kind"] in CASTS and node["castKind"] in ("IntegralCast", *DERIVED) and self.constant(node) is None and not tree.type_of(node).endswith("&"):
            inside = tree.bare(tree.parts(node)[-1])
            if inside["kind"] not in CASTS or inside["castKind"] == "LValueToRValue":
                return self.right(inside)
        return self.right(node)

    def argument(self, node):
        """An operand that converts to the type of a parameter by itself."""
        text = self.assigned(node)
        return text if is_operand(text) else self.hold(text, self.word(node))

    def steady(self, text, node, later):
        """An operand that keeps its value while `later` operands are calculated: that of a variable is copied where one of them changes something."""
        if not self.is_plain_name(text) or not any(order.changes(one) for given in later for one in tree.within(given)):
            return text
        return self.hold_as(text, self.word(node))

    def is_plain_name(self, text):
        """Whether an operand is the name of a variable of the user's that holds a number or pointer itself."""
        return any(one.name == text and one.mode == "plain" for one in self.variables.values()) or self.program.globals.is_plain(text)

    def effect(self, node):
        """Says an expression for what it does, and drops its value."""
        node = tree.bare(node)
        kind = node["kind"]
        if kind in ("BinaryOperator", "CompoundAssignOperator") and (node["opcode"] == "=" or kind != "BinaryOperator"):
            self.assign(node)
        elif kind == "BinaryOperator" and node["opcode"] == ",":
            for part in tree.parts(node):
                self.effect(part)
        elif kind == "UnaryOperator" and node["opcode"] in ("++", "--"):
            self.step(node)
        elif kind in ("CallExpr", "CXXMemberCallExpr", "CXXOperatorCallExpr"):
            self.call_for_effect(node)
        elif kind in CASTS and node["castKind"] in ("ToVoid", "NoOp", "LValueToRValue", "IntegralCast"):
            self.effect(tree.parts(node)[-1])
        elif kind == "ConditionalOperator":
            self.branches(tree.parts(node), self.effect)
        elif kind == "CXXDeleteExpr":
            self.delete(node)
        elif kind == "CXXThrowExpr":
            raise CannotSay(node, "throw", "the language has no exceptions")
        elif kind not in ("DeclRefExpr", "CXXThisExpr", "StringLiteral", "CXXPseudoDestructorExpr"):
            self.drop(node)

    def drop(self, node):
        if self.shape(node).sort == "object":
            self.address(node)
        elif node["kind"] == "MemberExpr":
            self.effect(tree.parts(node)[0])
        elif self.shape(node).sort != "void":
            text = self.right(node)
            if not is_operand(text):
                self.hold(text, self.word(node))
        else:
            self.right(node)

    # Conversions.

    def of_cast(self, node):
        inside, sort = tree.bare(tree.parts(node)[-1]), node["castKind"]
        if sort == "LValueToRValue":
            if inside["kind"] == "ConditionalOperator":
                return self.chosen(inside, self.word(node), lambda part: self.hold(self.place(part), self.word(node)))
            return self.place(inside)
        if sort == "NoOp":
            if self.shape(node).word != self.shape(inside).word:
                raise CannotSay(node, f"a conversion from {tree.type_of(inside)} to {tree.type_of(node)}", "a text is no array of characters in the language")
            return self.right(inside)
        if sort == "IntegralCast":
            return self.of_integral_cast(node, inside)
        if sort in DERIVED:
            return self.converted(self.operand(inside), node, inside)
        if sort == "NullToPointer":
            return "0"
        if sort == "BaseToDerived":
            return f"static_cast<{self.word(node)}>({self.pointer(inside)})"
        if sort in ("PointerToBoolean", "IntegralToBoolean"):
            return f"{self.operand(inside)} != 0"
        if sort == "ArrayToPointerDecay":
            return self.decayed(node, inside)
        if sort == "Dynamic":
            return self.dynamic(node, inside)
        if sort == "UserDefinedConversion":
            return self.right(inside)
        reason = "nothing is calculated with floating-point numbers" if "Floating" in sort else "the language has no such conversion"
        raise CannotSay(node, f"a conversion from {tree.type_of(inside)} to {tree.type_of(node)}", reason)

    def of_integral_cast(self, node, inside):
        source, target = self.shape(inside), self.shape(node)
        if source.word == target.word or (target.word == "int" and source.bits < 32):
            return self.right(inside)
        name = self.temporary(target.word)
        self.put(f"{name} = {self.assigned_from(inside)};")
        return name

    def assigned_from(self, node):
        """A right side whose own type is the expression's, so that a variable of another type may take it."""
        return self.operand(node) if node["kind"] in CASTS and node["castKind"] != "LValueToRValue" else self.right(node)

    def decayed(self, node, inside):
        if inside["kind"] == "StringLiteral":
            return self.text_of(inside)
        holder, name, declared = self.array(inside)
        if self.shape_of(declared).inner.sort != "object" and not self.program.is_boxed(declared["id"]):
            raise CannotSay(node, "an array as a pointer", "no pointer of the language leads to a number")
        return f"&{holder}->{name}[0]"

    def dynamic(self, node, inside):
        if self.shape(node).sort != "pointer":
            raise CannotSay(node, "dynamic_cast to void*", "the language can print its value alone")
        return f"dynamic_cast<{self.word(node)}>({self.pointer(inside)})"

    def of_CXXDynamicCastExpr(self, node):
        return self.dynamic(node, tree.bare(tree.parts(node)[-1]))

    # What is calculated.

    def of_BinaryOperator(self, node):
        sign = node["opcode"]
        if sign == "=":
            return self.assign(node)
        left, right = tree.parts(node)
        if sign == ",":
            self.effect(left)
            return self.right(right)
        if sign in ("&&", "||"):
            return self.logical(node, left, right)
        if "pointer" in (self.shape(left).sort, self.shape(right).sort) and sign not in ("==", "!="):
            raise CannotSay(node, f"{sign} of pointers", "the language has no arithmetic on pointers, and no order of them")
        if self.shape(left).floating or self.shape(right).floating:
            raise CannotSay(node, "a comparison of floating-point numbers", "the language has none")
        first = self.steady(self.operand(left), left, [right])
        return self.calculated(sign, first, self.operand(right), self.shape(left), node)

    def calculated(self, sign, left, right, shape, node):
        """One operation; what the language does not have is a function that does it."""
        if sign in SWAPPED:
            return f"{right} {SWAPPED[sign]} {left}"
        if sign in HELPED:
            return self.helped(HELPED[sign], left, right, shape, node)
        return f"{left} {sign} {right}"

    def helped(self, word, left, right, shape, node):
        name = self.program.helper(word, shape)
        if self.program.placed and word in ("divide", "remainder"):
            self.ask_divisor(right)
        return f"{self.functions(node)}->{name}({left}, {right})"

    def ask_divisor(self, divisor):
        """Ends the run at the place of a division by zero."""
        self.open(f"if ({self.hold_as(f'{divisor} == 0', 'bool')})")
        nothing = self.hold_as("0", self.program.names.helpers["functions"] + "*")
        self.put(f"{nothing}->{self.program.division_end()}();")
        self.close()

    def of_UnaryOperator(self, node):
        sign, inside = node["opcode"], tree.parts(node)[0]
        if sign == "-":
            return f"0 - {self.operand(inside)}"
        if sign == "~":
            return f"-1 - {self.operand(inside)}"
        if sign == "!":
            return self.negated(tree.bare(inside))
        if sign == "&":
            return self.address(inside)
        if sign in ("++", "--"):
            return self.step_value(node)
        if sign in ("+", "__extension__"):
            return self.right(inside)
        return self.place(node)

    def negated(self, node):
        if node["kind"] in CASTS and node["castKind"] in ("PointerToBoolean", "IntegralToBoolean"):
            return f"{self.operand(tree.parts(node)[-1])} == 0"
        return f"!{self.operand(node)}"

    def logical(self, node, left, right):
        """`&&` and `||`: the right side is asked in a block of its own."""
        result = self.temporary("bool")
        self.begin_branch()
        self.put(f"{result} = {self.right(left)};")
        if node["opcode"] == "&&":
            self.open(f"if ({result})")
        else:
            asked = self.temporary("bool")
            self.put(f"{asked} = !{result};")
            self.open(f"if ({asked})")
        self.put(f"{result} = {self.right(right)};")
        self.close()
        self.end_branch()
        return result

    def of_ConditionalOperator(self, node):
        return self.chosen(node, self.word(node), self.operand)

    def chosen(self, node, word, say):
        """The operand that one of two branches gives."""
        result = self.temporary(word)
        self.branches(tree.parts(node), lambda part: self.put(f"{result} = {say(part)};"))
        return result

    def branches(self, parts, say):
        condition, first, second = parts
        self.begin_branch()
        self.open(f"if ({self.condition(condition)})")
        say(first)
        self.close("} else {")
        self.depth += 1
        say(second)
        self.close()
        self.end_branch()

    def condition(self, node):
        """The operand of an `if` or `while`."""
        return self.operand(node)

    # What is changed.

    def assign(self, node):
        """An assignment; the place that it gives."""
        target, source = tree.parts(node)
        if node["kind"] == "CompoundAssignOperator":
            return self.compound(node, target, source)
        if self.shape(target).sort == "object":
            raise CannotSay(node, "an assignment of an object", "it is none of a class")
        value = self.steady(self.argument(source), source, [target])
        place = self.place(target)
        if place != value:
            self.put(f"{place} = {value};")
        return place

    def compound(self, node, target, source):
        shape = self.shape(target)
        if shape.sort != "number" or shape.floating:
            raise CannotSay(node, f"{node['opcode']} on what is no whole number", "the language calculates with whole numbers alone")
        value = self.steady(self.operand(source), source, [target])
        place = self.place(target)
        wide = self.program.shapes.of(node["computeLHSType"].get("desugaredQualType", node["computeLHSType"]["qualType"]))
        if wide.floating:
            raise CannotSay(node, "a calculation with floating-point numbers", "the language has none")
        left = self.hold(place, shape.word)
        if wide.word != shape.word and not (wide.word == "int" and shape.bits < 32):
            name = self.temporary(wide.word)
            self.put(f"{name} = {left};")
            left = name
        self.store(place, self.calculated(node["opcode"][:-1], left, value, wide, node), wide.word)
        return place

    def store(self, place, text, word):
        """Puts a right side into a place; behind `->` an operand alone is taken."""
        self.put(f"{place} = {self.hold(text, word) if '->' in place else text};")

    def step(self, node):
        """`++` or `--`; the place that it changed."""
        target = tree.parts(node)[0]
        shape = self.shape(target)
        if shape.sort != "number" or shape.floating:
            raise CannotSay(node, f"{node['opcode']} on what is no whole number", "the language has no arithmetic on pointers, and none with floating-point numbers")
        place = self.place(target)
        self.store(place, f"{self.hold(place, shape.word)} {node['opcode'][0]} 1", shape.word)
        return place

    def step_value(self, node):
        if not node.get("isPostfix"):
            return self.step(node)
        shape = self.shape(node)
        if shape.sort != "number" or shape.floating:
            raise CannotSay(node, f"{node['opcode']} on what is no whole number", "the language has no arithmetic on pointers, and none with floating-point numbers")
        old = self.temporary(shape.word)
        place = self.place(tree.parts(node)[0])
        self.put(f"{old} = {place};")
        self.store(place, f"{old} {node['opcode'][0]} 1", shape.word)
        return old

    def of_CompoundAssignOperator(self, node):
        return self.assign(node)

    # What is named.

    def of_CXXThisExpr(self, node):
        if not self.this:
            raise CannotSay(node, "`this` in an initialiser of a base or member", "what is under construction has no pointer yet that the language gives")
        return self.this

    def of_MaterializeTemporaryExpr(self, node):
        return self.right(tree.parts(node)[0])

    def of_ArraySubscriptExpr(self, node):
        return self.place(node)

    of_DeclRefExpr = of_MemberExpr = of_ArraySubscriptExpr

    def of_ImplicitValueInitExpr(self, node):
        self.word(node)
        return "0"

    of_CXXScalarValueInitExpr = of_GNUNullExpr = of_CXXNullPtrLiteralExpr = of_ImplicitValueInitExpr

    def of_CXXDefaultInitExpr(self, node):
        raise CannotSay(node, "a default member initialiser", "clang's tree does not show it at this place")

    def of_StringLiteral(self, node):
        return self.text_of(node)

    def text_of(self, node):
        """A pointer that stands for a text literal."""
        number = self.program.printing.literal(node)
        return self.hold(f"&{self.program.names.texts}->e[{number}]", self.program.names.text() + "*")

    def of_CXXNewExpr(self, node):
        return self.new(node)

    def of_CXXTypeidExpr(self, node):
        raise CannotSay(node, "typeid as a value", "the language compares it with the name of a class, or prints it")
