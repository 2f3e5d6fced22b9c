"""Which numbers and pointers have to lie in boxes: those whose address is taken, or which a reference names."""
from . import tree
from .numbers import CASTS

PASSED_OVER = {"UnaryExprOrTypeTraitExpr", "CXXTypeidExpr", "TemplateArgument", "CXXNoexceptExpr"}
STEPS = {"++", "--"}


def boxed(program_tree):
    """The numbers of the declarations whose values are named by more than their own name."""
    found = set()

    def mark(node):
        if node["kind"] == "DeclRefExpr":
            found.add(program_tree.first_of(node["referencedDecl"]["id"]))
        elif node["kind"] == "MemberExpr" and "referencedMemberDecl" in node:
            found.add(program_tree.first_of(node["referencedMemberDecl"]))

    def element(node, direct):
        base, index = tree.parts(node)
        inside = tree.bare(base)
        if inside["kind"] == "ImplicitCastExpr" and inside.get("castKind") == "ArrayToPointerDecay":
            array = tree.bare(tree.parts(inside)[0])
            if not direct or tree.bare(index)["kind"] != "IntegerLiteral":
                mark(array)
            walk(array, True)
        else:
            walk(base, False)
        walk(index, False)

    def walk(node, direct):
        kind = node.get("kind")
        if kind in PASSED_OVER:
            return
        if kind in ("DeclRefExpr", "MemberExpr") and not direct:
            mark(node)
        if kind == "ArraySubscriptExpr":
            element(node, direct)
            return
        children = tree.parts(node)
        for position, child in enumerate(children):
            walk(child, is_direct(node, kind, position, direct) and not is_changed_choice(kind, child, position))
        for child in node.get("array_filler", []):
            walk(child, False)

    walk(program_tree.top, True)
    return found


def is_changed_choice(kind, child, position):
    """Whether a place is changed that a condition chooses: no path of the language leads to one of two."""
    if position or kind not in ("BinaryOperator", "CompoundAssignOperator", "UnaryOperator"):
        return False
    child = tree.bare(child)
    while child["kind"] == "BinaryOperator" and child["opcode"] == ",":
        child = tree.bare(tree.parts(child)[1])
    return child["kind"] == "ConditionalOperator" and child.get("valueCategory") == "lvalue"


def is_direct(node, kind, position, direct):
    """Whether a part is read or written at once, so that it needs no address."""
    if kind in ("BinaryOperator", "CompoundAssignOperator", "UnaryOperator") and node.get("valueCategory") == "lvalue" and not direct and node["opcode"] != "*":
        return False
    if kind in CASTS:
        return node["castKind"] in ("LValueToRValue", "ToVoid") or node["castKind"] == "NoOp" and direct
    if kind in ("BinaryOperator", "CompoundAssignOperator"):
        return node["opcode"].endswith("=") and node["opcode"] not in ("==", "<=", ">=", "!=") and position == 0 or node["opcode"] == "," and (position == 0 or direct)
    if kind == "UnaryOperator":
        return node["opcode"] in STEPS
    if kind in ("ParenExpr", "ExprWithCleanups", "ConstantExpr", "ConditionalOperator", "MaterializeTemporaryExpr"):
        return direct
    return kind == "MemberExpr" or kind.endswith("Stmt") and kind not in ("ReturnStmt", "DeclStmt")
