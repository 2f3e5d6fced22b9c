"""What an expression may touch, by its form alone: 0 constants and parameters, 1 it reads what others may change, 2 it calls or changes something."""
from . import tree
from .numbers import CASTS

CALLS = {"CallExpr", "CXXMemberCallExpr", "CXXOperatorCallExpr", "CXXNewExpr", "CXXDeleteExpr", "CXXConstructExpr", "CXXTemporaryObjectExpr", "LambdaExpr", "CXXThrowExpr"}


def changes(node):
    kind = node.get("kind")
    return kind in CALLS or kind == "CompoundAssignOperator" or kind == "BinaryOperator" and node["opcode"] == "=" or kind == "UnaryOperator" and node["opcode"] in ("++", "--")


def is_elided(node):
    return node.get("kind") == "CXXConstructExpr" and node.get("elidable")


def level(node, parameters):
    """The level of an expression in a constructor with these parameters."""
    if any(changes(one) and not is_elided(one) for one in tree.within(node)):
        return 2
    return 1 if any(reads(one, parameters) for one in tree.within(node)) else 0


def reads(node, parameters):
    """Whether a node reads a place that is no parameter."""
    if node.get("kind") not in CASTS or node.get("castKind") != "LValueToRValue":
        return False
    inside = tree.bare(tree.parts(node)[-1])
    if inside["kind"] != "DeclRefExpr":
        return True
    text = inside.get("type", {}).get("qualType", "")
    return inside["referencedDecl"]["id"] not in parameters and not text.startswith("const ")
