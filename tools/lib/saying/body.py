"""The body of one function: what all parts of this package say together, and what they know of the function."""
from . import tree
from .calls import Calls
from .expressions import Expressions
from .lines import Lines
from .loops import Loops
from .numbers import Numbers
from .objects import Objects
from .places import Places, Variable, is_reference
from .refusal import CannotSay, place_of
from .statements import Statements


class Body(Lines, Numbers, Places, Expressions, Calls, Objects, Loops, Statements):
    """A function at work. `this` is what stands for the object: an empty text in a plan, where there is none yet."""

    def __init__(self, program, in_functions, record=None):
        super().__init__(program)
        self.in_functions, self.record = in_functions, record
        self.this = "this" if record else ""
        self.variables, self.initialisers, self.handed = {}, {}, {}
        self.ends, self.scopes, self.loops, self.returned = [[]], [], [], set()
        self.branch, self.branch_depth, self.branches_open = None, 0, 0
        self.result, self.result_is_reference = None, False

    def shape_of(self, declaration):
        """The shape of a declared thing."""
        return self.program.shapes.of(tree.type_of(declaration), self.record)

    def take_parameters(self, node):
        """The parameters of a function in our language; a boxed one is copied into its box."""
        definition = self.program.tree.function(node["id"])[1] or node
        said, self.copied_in = [], []
        for one in tree.parameters(definition):
            shape = self.shape_of(one)
            if shape.sort in ("unsayable", "void", "array"):
                raise CannotSay(one, f"a parameter of the type {tree.type_of(one)}", shape.word or "it is an array")
            name = self.scope.new(one.get("name") or "unnamed")
            word = self.program.shapes.pointer(shape).word if shape.sort == "object" else shape.word
            mode = "reference" if is_reference(one) else "object" if shape.sort == "object" else "plain"
            if mode == "plain" and self.program.is_boxed(one["id"]):
                mode = "boxed"
                self.copied_in.append((one, shape, name))
            else:
                self.variables[one["id"]] = Variable(name, mode, shape)
            said.append(f"{word} {name}")
        return said

    def open_boxes(self):
        """Puts boxed parameters into their boxes, which end with the function."""
        for one, shape, name in self.copied_in:
            box, own = self.program.names.box(shape.word), self.scope.new(name)
            self.put(f"{box}* {own} = new {box};")
            self.put(f"{own}->v = {name};")
            self.variables[one["id"]] = Variable(own, "boxed", shape)
            self.scopes[-1].append(own)

    def set_result(self, node):
        """What a function gives, and the word for it."""
        text = result_text(node)
        self.result = self.program.shapes.of(text, self.record)
        if self.result.sort in ("unsayable", "array"):
            raise CannotSay(node, f"a function that gives a {text}", self.result.word or "it is an array")
        self.result_is_reference = text.rstrip().endswith("&")
        if self.result.sort == "object":
            return self.program.shapes.pointer(self.result).word
        return self.result.word

    def run(self, node):
        """Says the statements of a function's body."""
        self.place_now = place_of(node)
        self.scopes.append([])
        self.open_boxes()
        compound = tree.body_of(node)
        self.sequence(tree.parts(compound))
        end = compound["range"]["end"]
        self.place_now = (place_of(compound)[0], end.get("line", 0), end.get("col", 0))

    def function(self, head):
        """The whole text of the function."""
        first = self.lines[0][1] if self.lines else self.place_now
        return [(head + " {", first), *self.text(), ("}", self.place_now)]

    def in_elements(self, filler, count, say):
        """Says something as often as there are elements: one by one, or in a loop where there are many."""
        if count <= 4:
            for _ in range(count):
                say(filler)
            return
        number, turn = self.kept("int"), self.kept("bool")
        self.put(f"{number} = 0;")
        self.put(f"{turn} = true;")
        self.open(f"while ({turn})")
        say(filler)
        self.put(f"{number} = {number} + 1;")
        self.put(f"{turn} = {number} < {count};")
        self.close()


def result_text(node):
    """The type of a function's result, by its own type as clang writes it."""
    text = tree.type_of(node)
    if "->" in text:
        return text.rsplit("->", 1)[1].strip()
    depth = 0
    for at, letter in enumerate(text):
        if letter == "(" and depth == 0 and at:
            return text[:at].strip()
        depth += {"<": 1, ">": -1, "(": 1, ")": -1}.get(letter, 0)
    return text
