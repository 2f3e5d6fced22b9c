"""Numbers that are known before the run: literals, constants of enums, and what is calculated of them."""
import struct

from . import tree
from .shapes import wrapped

CASTS = {"ImplicitCastExpr", "CStyleCastExpr", "CXXStaticCastExpr", "CXXFunctionalCastExpr", "CXXConstCastExpr", "CXXReinterpretCastExpr"}
ZEROS = {"CXXScalarValueInitExpr", "ImplicitValueInitExpr", "GNUNullExpr", "CXXNullPtrLiteralExpr"}


def quotient(a, b):
    return abs(a) // abs(b) * (1 if (a < 0) == (b < 0) else -1) if b else None


TWO = {
    "+": lambda a, b: a + b, "-": lambda a, b: a - b, "*": lambda a, b: a * b, "/": quotient,
    "%": lambda a, b: a - quotient(a, b) * b if b else None,
    "&": lambda a, b: a & b, "|": lambda a, b: a | b, "^": lambda a, b: a ^ b,
    "<<": lambda a, b: a << b if 0 <= b < 64 else None, ">>": lambda a, b: a >> b if 0 <= b < 64 else None,
    "<": lambda a, b: int(a < b), ">": lambda a, b: int(a > b), "<=": lambda a, b: int(a <= b), ">=": lambda a, b: int(a >= b),
    "==": lambda a, b: int(a == b), "!=": lambda a, b: int(a != b),
    "&&": lambda a, b: int(bool(a) and bool(b)), "||": lambda a, b: int(bool(a) or bool(b)),
}
ONE = {"-": lambda a: -a, "+": lambda a: a, "~": lambda a: ~a, "!": lambda a: int(not a)}


class Numbers:
    """The part of a body that calculates constants."""

    def shape(self, node):
        return self.program.shapes.of(tree.type_of(node))

    def constant(self, node):
        """The value of an expression of a number type where it is a constant; else None."""
        node = tree.bare(node)
        shape = self.shape(node)
        if shape.sort != "number":
            return None
        if shape.floating:
            value = self.floating(node)
            if value is None:
                return None
            return struct.unpack("<q" if shape.word == "long" else "<i", struct.pack("<d" if shape.word == "long" else "<f", value))[0]
        value = self.integer(node)
        if value is None or wrapped(value, shape) == value:
            return value
        return None if shape.signed and node["kind"] in ("BinaryOperator", "UnaryOperator") else wrapped(value, shape)

    def integer(self, node):
        kind = node["kind"]
        if kind in ("IntegerLiteral", "CharacterLiteral", "CXXBoolLiteralExpr"):
            return int(node["value"])
        if kind in ZEROS:
            return 0
        if kind in ("DeclRefExpr", "MemberExpr"):
            return self.named_constant(node)
        if kind == "UnaryExprOrTypeTraitExpr":
            return self.program.size_of(node)
        if kind in CASTS and node["castKind"] in ("IntegralCast", "NoOp", "IntegralToBoolean", "LValueToRValue"):
            value = self.constant(tree.parts(node)[-1])
            return int(value != 0) if node["castKind"] == "IntegralToBoolean" and value is not None else value
        if kind == "UnaryOperator" and node["opcode"] in ONE:
            value = self.constant(tree.parts(node)[0])
            return None if value is None else ONE[node["opcode"]](value)
        if kind == "BinaryOperator" and node["opcode"] in TWO:
            values = [self.constant(part) for part in tree.parts(node)]
            return None if None in values else TWO[node["opcode"]](*values)
        return None

    def named_constant(self, node):
        """The value of a constant of an enum, or of a constant variable that begins with a constant."""
        number = node["referencedDecl"]["id"] if node["kind"] == "DeclRefExpr" else node["referencedMemberDecl"]
        if number in self.program.tree.constants:
            return self.program.tree.constants[number]
        return self.program.constant_variable(number, self)

    def floating(self, node):
        """The value of a floating-point constant; nothing is calculated with such numbers but a sign and a conversion."""
        kind = node["kind"]
        if kind == "FloatingLiteral":
            return float(node["value"])
        if kind in ZEROS:
            return 0.0
        if kind in CASTS and node["castKind"] in ("IntegralToFloating", "FloatingCast", "NoOp"):
            inside = tree.bare(tree.parts(node)[-1])
            return self.floating(inside) if self.shape(inside).floating else self.constant(inside)
        if kind == "UnaryOperator" and node["opcode"] == "-":
            value = self.floating(tree.bare(tree.parts(node)[0]))
            return None if value is None else -value
        return None

    def number(self, value, shape):
        """The text of a constant, which converts to its type by itself."""
        if shape.signed or shape.word == "bool" or value < 1 << (shape.bits - 1) or shape.bits < 32:
            if value == -(1 << 63):
                return self.hold(f"-{(1 << 63) - 1} - 1", "long")
            return str(value)
        if value == 1 << (shape.bits - 1):
            return self.hold(self.half(shape), shape.word)
        return str(value - (1 << shape.bits))

    def half(self, shape):
        """The right side that gives an unsigned type its highest bit alone."""
        name = self.temporary(shape.word)
        self.put(f"{name} = {(1 << (shape.bits - 1)) - 1};")
        return f"{name} + 1"
