"""Loops and `switch`: our language has `while` alone, so what leaves one early sets a variable, and the rest of the body asks it."""
from dataclasses import dataclass

from . import tree
from .refusal import CannotSay

LOOPS = {"WhileStmt", "DoStmt", "ForStmt"}
LABELS = {"CaseStmt", "DefaultStmt"}


@dataclass
class Loop:
    """A loop or switch at work. `turn` is asked before each turn, `go` behind each statement that may leave; `scopes` is how many were open."""

    turn: str
    go: str
    scopes: int
    is_switch: bool = False
    last: int = 0


def leaving(node, in_loop=False, in_switch=False):
    """Whether a statement has a `break` or `continue` that leaves it."""
    kind = node.get("kind")
    if kind == "BreakStmt":
        return not in_loop and not in_switch
    if kind == "ContinueStmt":
        return not in_loop
    if kind in ("LambdaExpr", "CXXRecordDecl"):
        return False
    return any(leaving(part, in_loop or kind in LOOPS, in_switch or kind == "SwitchStmt") for part in tree.parts(node))


def has_label(node):
    """Whether a label of a switch stands in a statement that is none of an inner switch."""
    return node.get("kind") in LABELS or node.get("kind") != "SwitchStmt" and any(has_label(part) for part in tree.parts(node))


class Loops:
    """The part of a body that says loops."""

    def leaves(self, node):
        return bool(self.loops) and leaving(node)

    def say_WhileStmt(self, node):
        *declared, condition, body = tree.parts(node)
        self.loop(declared[0] if declared else None, condition, body, None)

    def say_ForStmt(self, node):
        first, declared, condition, step, body = tree.inner(node)
        self.scopes.append([])
        if first.get("kind"):
            self.statement(first)
        self.loop(declared if declared.get("kind") else None, condition if condition.get("kind") else None, body, step if step.get("kind") else None)
        self.end_scope()

    def begin_loop(self, body):
        """A loop that goes on while `turn` holds."""
        turn = self.kept("bool")
        early = any(leaving(part) for part in [body])
        loop = Loop(turn, self.kept("bool") if early else "", len(self.scopes))
        self.put(f"{turn} = true;")
        self.open(f"while ({turn})")
        if early:
            self.put(f"{loop.go} = true;")
        return loop

    def loop(self, declared, condition, body, step):
        """`while` and `for`: the condition is asked inside the loop."""
        loop = self.begin_loop(body)
        self.scopes.append([])
        loop.scopes = len(self.scopes)  # what is declared in the condition ends behind the turn, on each way
        if declared:
            self.statement(declared)
        if condition is not None:
            with self.full():
                self.put(f"{loop.turn} = {self.condition(condition)};")
            self.open(f"if ({loop.turn})")
        self.loops.append(loop)
        self.block(body)
        self.loops.pop()
        if step is not None:
            if loop.go:
                self.open(f"if ({loop.turn})")
            with self.full():
                self.effect(step)
            if loop.go:
                self.close()
        if condition is not None:
            self.close()
        self.end_scope()
        self.close()

    def say_DoStmt(self, node):
        body, condition = tree.parts(node)
        loop = self.begin_loop(body)
        self.loops.append(loop)
        self.block(body)
        self.loops.pop()
        if loop.go:
            self.open(f"if ({loop.turn})")
        with self.full():
            self.put(f"{loop.turn} = {self.condition(condition)};")
        if loop.go:
            self.close()
        self.close()

    def say_CXXTryStmt(self, node):
        """A `try` is its block: no program with `throw` is said, so no handler runs."""
        self.scopes.append([])
        self.sequence([tree.parts(node)[0]])

    def say_BreakStmt(self, node):
        loop = self.loops[-1]
        self.end_scopes(len(self.scopes) - loop.scopes)
        self.put(f"{loop.go} = false;")
        self.put(f"{loop.turn} = {'false' if not loop.is_switch else loop.last};")

    def say_ContinueStmt(self, node):
        at = next(position for position in reversed(range(len(self.loops))) if not self.loops[position].is_switch)
        self.end_scopes(len(self.scopes) - self.loops[at].scopes)
        for loop in self.loops[at:]:
            self.put(f"{loop.go} = false;")
            if loop.is_switch:
                self.put(f"{loop.turn} = {loop.last};")

    # switch

    def say_SwitchStmt(self, node):
        """A number says at which section the switch is entered; each section from there on runs, until one is left."""
        self.scopes.append([])
        statements = tree.parts(node)
        while statements[0]["kind"] == "DeclStmt":
            self.statement(statements.pop(0))
        value = self.kept(self.word(statements[0]))
        with self.full():
            self.put(f"{value} = {self.right(statements[0])};")
        sections = self.sections(statements[1])
        entry, early = self.kept("int"), any(leaving(part) for _, body in sections for part in body)
        loop = Loop(entry, self.kept("bool") if early else "", len(self.scopes), True, len(sections))
        default = next((position for position, (labels, _) in enumerate(sections) if None in labels), len(sections))
        self.put(f"{entry} = {default};")
        self.enter(sections, value, entry)
        if early:
            self.put(f"{loop.go} = true;")
        self.loops.append(loop)
        for position, (_, body) in enumerate(sections):
            self.section(entry, position, body)
        self.loops.pop()
        self.end_scope()

    def enter(self, sections, value, entry):
        """Finds the section of a value."""
        asked = self.kept("bool")
        for position, (labels, _) in enumerate(sections):
            for label in labels:
                if label is not None:
                    self.put(f"{asked} = {value} == {label};")
                    self.open(f"if ({asked})")
                    self.put(f"{entry} = {position};")
                    self.close()

    def section(self, entry, position, body):
        if body:
            asked = self.kept("bool")
            self.put(f"{asked} = {entry} <= {position};")
            self.open(f"if ({asked})")
            self.scopes.append([])
            self.sequence(body)
            self.close()

    def sections(self, body):
        """The sections of a switch: labels, where None is the default, and the statements behind them. Variables that stand before a label are declared before all sections."""
        found, statements = [], tree.parts(body) if body["kind"] == "CompoundStmt" else [body]
        last = max([at for at, one in enumerate(statements) if one["kind"] in LABELS] or [-1])
        for at, one in enumerate(statements):
            labels = []
            while one["kind"] in LABELS:
                labels.append(self.label(one))
                one = tree.parts(one)[-1]
            if labels:
                found.append((labels, []))
            if one["kind"] == "DeclStmt" and at < last:
                self.between_labels(one)
                continue
            if not found or has_label(one):
                raise CannotSay(one, "a switch with statements before its first label, or labels in inner statements", "its sections do not stand one behind the other")
            found[-1][1].append(one)
        return found

    def between_labels(self, node):
        """Declares what stands before a label of a switch, where C++ lets a run jump past it: it has no initialiser, and making it does nothing."""
        for one in tree.parts(node):
            shape = self.shape_of(one) if one["kind"] == "VarDecl" else None
            inside = shape.inner if shape and shape.sort == "array" else shape
            made = shape and (self.initial(one) is not None and shape.sort != "object" or one.get("storageClass") == "static")
            if made or inside and inside.sort == "object" and (self.program.constructions.runs_code(inside.record) or self.program.has_destructor(inside.record)):
                raise CannotSay(one, "a variable that is made between the labels of a switch", "each section is a block of its own; put braces around it")
        self.statement(node)

    def label(self, node):
        if node["kind"] == "DefaultStmt":
            return None
        if len(tree.parts(node)) > 2:
            raise CannotSay(node, "a range of labels", "C++ has none")
        return self.constant(tree.parts(node)[0])
