"""Variables outside of functions, static members and static locals: globals of our language, made before `main` and ended after it."""
from dataclasses import dataclass, field

from . import order, tree
from .places import Variable, is_reference
from .refusal import CannotSay, place_of


@dataclass
class Global:
    """One variable: where it stands in the order of the source, its name, what sets it before all others, and what makes it."""

    position: int
    variable: object
    word: str
    node: object
    early: list = field(default_factory=list)
    maker: str = ""
    ends: bool = False
    counter: str = ""


class Globals:
    """The globals of a program, in the order in which they are asked for."""

    def __init__(self, program):
        self.program = program
        self.found = {}
        self.count, self.guards, self.end_words = None, [], None

    def is_global(self, node):
        return node["kind"] == "VarDecl" and (node["id"] in {one["id"] for one in self.program.tree.variables} or node.get("storageClass") == "extern")

    def is_plain(self, name):
        """Whether a name is that of a variable that holds a number or pointer itself."""
        return any(one.variable.name == name and one.variable.mode == "plain" for one in self.found.values())

    def definition(self, first):
        """The declaration of a variable that makes it, and its position among all."""
        found = [(at, one) for at, one in enumerate(self.program.tree.variables) if self.program.tree.first_of(one["id"]) == first]
        owned = [(at, one) for at, one in found if "init" in one]
        return (owned or found[-1:] or [(0, self.program.tree.nodes[first])])[-1]

    def mandatory(self):
        """Asks for the variables whose making does something, whether or not a function names them."""
        for node in self.program.tree.variables:
            shape = self.program.shapes.of(tree.type_of(node))
            made = [one for one in tree.parts(node) if not one["kind"].endswith("Attr")]
            if node.get("storageClass") == "extern" or not made and not self.has_code(shape):
                continue
            if self.in_header(node):
                continue
            if self.has_code(shape) or made and order.level(made[-1], set()) == 2 and not (tree.bare(made[-1])["kind"] in ("CXXConstructExpr", "InitListExpr") and not self.has_code(shape) and not self.calls(made[-1])):
                self.variable(node)

    def calls(self, node):
        return any(one.get("kind") in order.CALLS - {"CXXConstructExpr", "CXXTemporaryObjectExpr"} for one in tree.within(node))

    def in_header(self, node):
        return place_of(node)[0].startswith(tree.HEADERS)

    def has_code(self, shape):
        shape = shape.inner if shape.sort == "array" else shape
        return shape is not None and shape.sort == "object" and shape.record.name in self.program.tree.record_nodes and (self.program.constructions.runs_code(shape.record) or self.program.constructions.needs_plan(shape.record) or self.program.has_destructor(shape.record))

    def variable(self, node):
        """The variable of a declaration outside of functions."""
        first = self.program.tree.first_of(node["id"])
        if first not in self.found:
            position, defined = self.definition(first)
            self.found[first] = self.declared(position, defined, self.program.names.variables.get(first) or self.program.names.added(node.get("name", "unnamed")))
            self.make(first, defined)
        return self.found[first].variable

    def declared(self, position, node, name):
        owner = self.program.tree.variable_owner(node)
        shape = self.program.shapes.of(tree.type_of(node), owner)
        if shape.sort in ("unsayable", "void"):
            raise CannotSay(node, f"a variable of the type {tree.type_of(node)}", shape.word)
        own = name
        if is_reference(node):
            return Global(position, Variable(own, "reference", shape), shape.word, node)
        if shape.sort == "object":
            return Global(position, Variable(own, "object", shape), self.program.names.record(shape.record) + "*", node)
        if shape.sort == "array":
            return Global(position, Variable(own, "array", shape), self.program.array_class(node, shape) + "*", node)
        if self.program.is_boxed(node["id"]):
            return Global(position, Variable(own, "boxed", shape), self.program.names.box(shape.word) + "*", node)
        return Global(position, Variable(own, "plain", shape), shape.word, node)

    def make(self, first, node):
        """What sets a variable: constants before all else, the rest by a function in the order of the source."""
        one = self.found[first]
        made = [part for part in tree.parts(node) if not part["kind"].endswith("Attr")]
        body = self.program.new_body(True, None)
        body.place_now = place_of(node)
        body.scopes.append([])
        constant = body.constant(made[-1]) if made and one.variable.shape.sort == "number" else None
        if one.variable.mode == "boxed":
            one.early += [f"{one.variable.name} = new {one.word[:-1]};", f"{one.variable.name}->v = {constant or 0};"]
        elif one.variable.mode == "plain" and constant:
            one.early.append(f"{one.variable.name} = {body.number(constant, one.variable.shape)};")
        if one.variable.mode in ("plain", "boxed") and (not made or constant is not None):
            one.early = [text for text, _ in body.text()] + one.early if len(body.lines) else one.early
            return
        self.program.later(("global", first), lambda: self.say_maker(one, body, made[-1] if made else None))

    def say_maker(self, one, body, given):
        self.set(one, body, given)
        one.maker = self.program.names.function_words.new(f"make_{one.variable.name}")
        one.ends = self.has_end(one.variable.shape)
        self.counted(one, body)
        self.program.functions.append(body.function(f"void {one.maker}()"))

    def counted(self, one, body):
        """Where a static local of a class may be made between others, each that is made counts, for the order of their ends."""
        if one.ends and self.needs_count():
            one.counter = self.program.names.added(f"{one.variable.name}_at")
            body.put(f"{self.count} = {self.count} + 1;")
            body.put(f"{one.counter} = {self.count};")

    def needs_count(self):
        if self.count is None:
            statics = [node for node in self.program.tree.nodes.values() if node["kind"] == "VarDecl" and node.get("storageClass") == "static" and not self.is_global(node)]
            ending = any(self.has_end(self.program.shapes.of(tree.type_of(node))) for node in statics)
            self.count = self.program.names.added("made_count") if ending else ""
        return self.count

    def has_end(self, shape):
        inside = shape.inner if shape.sort == "array" else shape
        return shape.sort in ("object", "array") and inside.sort == "object" and self.program.has_destructor(inside.record)

    def set(self, one, body, given):
        """The statements that make or set a variable."""
        name, mode, shape = one.variable.name, one.variable.mode, one.variable.shape
        with body.full():
            if mode == "reference":
                self.check_kept(one.node, given)
                body.put(f"{name} = {body.address(given)};")
            elif mode == "object":
                self.set_object(one, body, given)
            elif mode == "array":
                self.program.constructions.array(body, one.node, shape, name, given)
                if given is None and shape.inner.sort != "object":
                    body.array_from(one.node, shape, f"{name}->e", {"kind": "ImplicitValueInitExpr", "type": one.node["type"]})
            else:
                place = name + "->v" if mode == "boxed" else name
                body.put(f"{place} = {body.argument(given)};")

    def check_kept(self, node, given):
        """Refuses a temporary that a global reference keeps until the program ends, where its end does something."""
        for part in tree.within(given):
            if part.get("kind") == "MaterializeTemporaryExpr" and part.get("storageDuration") == "static" and self.has_end(self.program.shapes.of(tree.type_of(part))):
                raise CannotSay(node, "a global reference to a temporary object", "its end would have to come after main")

    def set_object(self, one, body, given):
        name, record = one.variable.name, one.variable.shape.record
        plain = not self.has_code(one.variable.shape)
        if given is None or plain and tree.bare(given)["kind"] == "CXXConstructExpr" and not tree.parts(tree.bare(given)):
            self.program.constructions.blank(body, one.node, record, name)
            if plain:
                body.zero(record, name)
        else:
            body.object(given, name)

    def static_local(self, body, node):
        """A static local: it is made when a run first comes to its declaration."""
        if node["id"] not in self.found:
            self.found[node["id"]] = self.declared(1 << 30, node, self.program.names.added(node.get("name", "unnamed")))
        one = self.found[node["id"]]
        body.variables[node["id"]] = one.variable
        made = [part for part in tree.parts(node) if not part["kind"].endswith("Attr")]
        constant = body.constant(made[-1]) if made and one.variable.shape.sort == "number" else None
        if one.variable.mode == "boxed":
            one.early = [f"{one.variable.name} = new {one.word[:-1]};", f"{one.variable.name}->v = {constant or 0};"]
        elif one.variable.mode == "plain" and constant:
            one.early = [f"{one.variable.name} = {constant};"]
        if one.variable.mode in ("plain", "boxed") and (not made or constant is not None):
            return
        guard, asked = self.program.names.added(f"{one.variable.name}_made"), body.temporary("bool")
        self.guards.append(guard)
        body.put(f"{asked} = !{guard};")
        body.open(f"if ({asked})")
        self.set(one, body, made[-1] if made else None)
        body.put(f"{guard} = true;")
        one.ends = self.has_end(one.variable.shape)
        self.counted(one, body)
        body.close()

    # The text.

    def declarations(self):
        """Type and name of each global."""
        said = [(one.word, one.variable.name) for one in self.found.values()] + [("bool", guard) for guard in self.guards]
        said += [("int", one.counter) for one in self.found.values() if one.counter]
        return said + ([("int", self.count)] if self.count else [])

    def ordered(self):
        return sorted(self.found.values(), key=lambda one: one.position)

    def start(self):
        """The statements of `main` that make all: what is constant first."""
        early = [(text.strip(), place_of(one.node)) for one in self.ordered() for text in one.early]
        return early + [(f"{self.program.names.all}->{one.maker}();", place_of(one.node)) for one in self.ordered() if one.maker]

    def finish(self):
        """The statements that end the globals, the last that was made first."""
        ending = [one for one in reversed(self.ordered()) if one.ends]
        if not self.count:
            return [f"delete {one.variable.name};" for one in ending]
        turn, is_last, last = self.end_words = self.end_words or [self.program.names.added(word) for word in ("turn", "is_last", "last")]
        lines = [f"bool {turn} = 0 < {self.count};", f"bool {is_last};", f"while ({turn}) {{", f"  int {last} = {self.count};", f"  {self.count} = {last} - 1;"]
        for one in ending:
            lines += [f"  {is_last} = {one.counter} == {last};", f"  if ({is_last}) {{", f"    {one.counter} = 0;", f"    delete {one.variable.name};", "  }"]
        return [*lines, f"  {turn} = 0 < {self.count};", "}"]
