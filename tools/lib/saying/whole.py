"""A whole program: what `main` reaches is said, function by function, and put together as one source."""
from dataclasses import dataclass

from .. import clang
from . import boxes, tree
from .arithmetic import Arithmetic
from .body import Body
from .classes import Classes, ConstructorBody, returns_early
from .constructions import Constructions
from .early import Early
from .effects import Effects
from .globals import Globals
from .names import Names
from .plans import Plans
from .printing import Printing
from .refusal import CannotSay, place_of
from .shapes import Shapes

LIMIT_BYTES, LIMIT_CLASSES = 262144, 1024


@dataclass
class Said:
    """The text of a source, the place in the user's files of each of its lines, and what some of its lines stand for.

    `names` has the names in C++ of our classes, `functions` our name of the class of functions, `function_names` those of C++ of its functions.
    """

    text: str
    places: list
    notes: dict
    names: dict
    functions: str
    function_names: dict


class Program:
    """One program at work. Functions wait in a queue until their bodies are said. One that is `placed` asks each index and divisor at its place."""

    def __init__(self, text, flags, placed=False):
        self.text_of_unit, self.flags, self.placed = text, flags, placed
        self.tree = tree.Tree(text, flags)
        self.names = Names(self.tree)
        self.shapes = Shapes(self.tree.names, self.names)
        self.boxed = boxes.boxed(self.tree)
        self.printing, self.constructions = Printing(), Constructions(self)
        self.effects, self.early = Effects(self), Early(self)
        self.classes, self.plans, self.arithmetic, self.globals = Classes(self), Plans(self), Arithmetic(self), Globals(self)
        self.waiting, self.queued = [], set()
        self.functions, self.methods = [], {}
        self.constructor_texts, self.call_words, self.call_classes = {}, {}, {}
        self.files, self.sizes, self.accessors = {"<stdin>": text.encode("latin-1", "replace")}, {}, {}
        self.ends = {}

    def check_attributes(self):
        """Refuses functions that an attribute runs before or after `main`, and enums that one makes smaller."""
        for node in self.tree.nodes.values():
            if node["kind"] == "EnumDecl" and any(one["kind"] == "PackedAttr" for one in tree.parts(node)):
                raise CannotSay(node, f"the enum {node.get('name', '')}", "an attribute changes its size")
            if node["kind"] == "FunctionDecl" and any(one["kind"] in ("ConstructorAttr", "DestructorAttr") for one in tree.parts(node)):
                raise CannotSay(node, f"the function {node['name']}", "an attribute runs it before or after main")

    # What bodies ask.

    def new_body(self, in_functions, record=None):
        return Body(self, in_functions, record)

    def is_boxed(self, number):
        return self.tree.first_of(number) in self.boxed

    def fields(self, record):
        return [one for one in tree.parts(self.tree.record_nodes[record.name]) if one["kind"] == "FieldDecl"]

    def file_bytes(self, path):
        if path not in self.files:
            with open(path, "rb") as file:
                self.files[path] = file.read()
        return self.files[path]

    def is_polymorphic(self, record):
        return self.tree.record_nodes[record.name].get("definitionData", {}).get("isPolymorphic", False)

    def has_destructor(self, record):
        """Whether the end of an object does something."""
        own = record.destructor is not None
        return own or any(self.has_destructor(inside) for inside, _ in self.constructions.subobjects(record))

    def later(self, key, work):
        """Puts work at the end of the queue, once for each key."""
        if key not in self.queued:
            self.queued.add(key)
            self.waiting.append(work)

    def function(self, number):
        """The name of a free or static function, whose body will be said."""
        node, body = self.tree.function(number)
        name = self.names.function(node)
        self.later(("function", node["id"]), lambda: self.say_function(name, node, body))
        return name

    def method(self, number):
        node, body = self.tree.function(number)
        name = self.names.method(node)
        first = self.tree.first_of(number)
        self.later(("method", first), lambda: self.say_method(name, node, body, first))
        return name

    def pure_body(self, number):
        """The name of the body of a pure function, which a call with its class before it runs."""
        node, body = self.tree.function(number)
        name = self.names.method(node) + "_body"
        record = self.tree.owner(number)
        if body is None:
            raise CannotSay(node, f"a call of {node['name']}", "it is pure, and not defined in these files")
        self.later(("pure", node["id"]), lambda: self.classes.add(record.name, self.said_method(name, node, body, record, "")))
        return name

    def plan(self, record, constructor, complete, blank=False):
        return self.plans.name(record, constructor, complete, blank)

    def helper(self, word, shape):
        return self.arithmetic.name(word, shape)

    def call_class(self, record):
        """The class of the calls of a class's constructors, and the head of their list."""
        if record.name not in self.call_classes:
            word = self.names.record(record)
            self.call_classes[record.name] = (self.names.classes.new(f"{word}_call"), self.names.added(f"{word}_calls"))
        return (*self.call_classes[record.name], self.call_words.setdefault(record.name, {}))

    def constructor_name(self, record, number):
        return f"{self.names.record(record)}_{number}"

    def wanted_constructor(self, record, constructor, number):
        self.later(("constructor", record.name, number), lambda: self.say_constructor(record, constructor, number))

    def end(self):
        return self.ends.setdefault("end", self.names.function_words.new("end"))

    def division_end(self):
        return self.ends.setdefault("division", self.names.function_words.new("division_by_zero"))

    def exit(self):
        self.end()
        return self.ends.setdefault("exit", self.names.function_words.new("exit"))

    def check_lambda(self, node):
        if any(part["kind"] == "FieldDecl" for record in tree.parts(node) if record["kind"] == "CXXRecordDecl" for part in tree.parts(record)):
            raise CannotSay(node, "a lambda with captures", "only those without are said")

    def check_allocation(self, node, declared):
        """Refuses a `new` or `delete` by a function of the user's."""
        if declared and (declared["kind"] == "CXXMethodDecl" or self.tree.function(declared["id"])[1] is not None):
            raise CannotSay(node, declared["name"], "an own one of the program; the language allocates by itself")
        if declared and declared["kind"] == "FunctionDecl" and declared["type"]["qualType"].count(",") and "nothrow" not in declared["type"]["qualType"]:
            raise CannotSay(node, "placement new", "the language chooses the places of objects itself")

    def is_plain_assignment(self, record):
        """Whether the implicit assignment of a class is one of all leaves."""
        node = self.tree.record_nodes[record.name]
        own = any(one["kind"] == "CXXMethodDecl" and one.get("name") == "operator=" and not one.get("isImplicit") and not one.get("explicitlyDefaulted") for one in tree.parts(node))
        return not own and all(self.is_plain_assignment(inside) for inside, _ in self.constructions.subobjects(record))

    @property
    def ends_by_status(self):
        """Whether `main` may give a status that is not 0."""
        body = self.tree.function(main_of(self.tree)["id"])[1]
        given = [tree.parts(one) for one in tree.within(body) if one.get("kind") == "ReturnStmt"]
        asked = self.new_body(True)
        return any(one and asked.constant(one[0]) != 0 for one in given)

    def constant_variable(self, number, body):
        node = self.tree.nodes.get(number)
        if node is None or node["kind"] != "VarDecl" or not node["type"]["qualType"].startswith("const ") or node["type"]["qualType"].rstrip().endswith(("&", "*", "]")):
            return None
        given = [part for part in tree.parts(node) if not part["kind"].endswith("Attr")]
        return body.constant(given[-1]) if given else None

    def global_variable(self, node):
        return self.globals.variable(node)

    def is_global(self, node):
        return self.globals.is_global(node)

    def static_local(self, body, node):
        self.globals.static_local(body, node)

    def size_of(self, node):
        """The size of a type in bytes, as clang lays it out."""
        if node.get("name") != "sizeof":
            return None
        text = node["argType"].get("desugaredQualType", node["argType"]["qualType"]) if "argType" in node else tree.type_of(tree.parts(node)[0])
        return self.bytes_of(self.shapes.of(text), node)

    def bytes_of(self, shape, node):
        if shape.sort == "number":
            return max(1, shape.bits // 8)
        if shape.sort in ("pointer", "text"):
            return 8
        if shape.sort == "array":
            return shape.length * self.bytes_of(shape.inner, node)
        if shape.sort == "object":
            if not self.sizes:
                named = [one.name for one in self.tree.names.order if "(unnamed" not in one.name]
                found = clang.layouts(self.text_of_unit, named, ["-nostdinc", "-nostdinc++", "-isystem", tree.HEADERS, *self.flags])
                self.sizes = {name: layout.size for name, layout in found.items()}
            if shape.record.name in self.sizes:
                return self.sizes[shape.record.name]
        raise CannotSay(node, "sizeof", "clang gives no layout of the type to read it from")

    def element_word(self, declared, shape):
        """Our type of the elements of an array."""
        if shape.inner.sort == "object":
            return self.names.record(shape.inner.record)
        return self.names.box(shape.inner.word) if self.is_boxed(declared["id"]) else shape.inner.word

    def array_class(self, declared, shape):
        """The class that holds a local or global array."""
        return self.names.array(self.element_word(declared, shape), shape.length)

    def accessor(self, declared, name, node):
        """The function that gives the element of an array by a number that the run calculates."""
        shape = self.shapes.of(tree.type_of(declared), self.tree.record_of_field(declared, node) if declared["kind"] == "FieldDecl" else None)
        owner = self.tree.record_of_field(declared, node).name if declared["kind"] == "FieldDecl" else self.array_class(declared, shape)
        if (owner, name) not in self.accessors:
            word = self.element_word(declared, shape)
            self.accessors[owner, name] = f"at_{name}"
            self.classes.add(owner, accessor_lines(f"at_{name}", word, name, shape.length, place_of(declared)))
            if self.placed:
                holder = self.names.record(self.tree.record_of_field(declared, node)) if declared["kind"] == "FieldDecl" else owner
                self.classes.add(owner, asking_lines(f"in_{name}", holder, shape.length, place_of(declared)))
        return self.accessors[owner, name]

    # Saying functions.

    def say_function(self, name, node, body):
        if body is None:
            raise CannotSay(node, f"the function {node['name']}", "it is not defined in these files")
        said = self.new_body(True, None)
        word = said.set_result(node)
        parameters = said.take_parameters(node)
        if node["name"] == "main":
            if any(one.get("isUsed") or one.get("isReferenced") for one in tree.parameters(body)):
                raise CannotSay(node, "the parameters of main", "a run has no words")
            parameters = []
        said.run(body)
        if node["name"] == "main":
            said.put("return 0;")
        self.functions.append(said.function(f"{word} {name}({', '.join(parameters)})"))

    def say_method(self, name, node, body, first):
        record = self.tree.owner(node["id"])
        virtual = "virtual " if name in self.classes.virtual_words(record) else ""
        if node.get("pure") or body is None:
            said = self.new_body(False, record)
            word, parameters = said.set_result(node), said.take_parameters(node)
            self.methods[first] = [(f"virtual {word} {name}({', '.join(parameters)}) = 0;", place_of(node))]
            return
        self.methods[first] = self.said_method(name, node, body, record, virtual)

    def said_method(self, name, node, body, record, virtual):
        said = self.new_body(False, record)
        word = said.set_result(node)
        parameters = said.take_parameters(node)
        said.run(body)
        return said.function(f"{virtual}{word} {name}({', '.join(parameters)})")

    def say_constructor(self, record, constructor, number):
        self.names.record(record)
        one = ConstructorBody(self, record, constructor)
        name = self.constructor_name(record, number)
        if self.constructions.is_told(record):
            words, lines = one.lines(name)
            self.call_words.setdefault(record.name, {})[number] = words
            self.classes.add(record.name, lines)
        elif returns_early(one.definition):
            _, lines = one.lines(name)
            self.classes.add(record.name, lines)
            self.constructor_texts.setdefault(record.name, {})[1] = ("", [(f"  this->{name}();", lines[0][1])])
        else:
            self.constructor_texts.setdefault(record.name, {})[1] = one.inline()

    def say_destructor(self, record):
        """The destructor of a class, where it has one of its own."""
        node = next((one for one in tree.parts(self.tree.record_nodes[record.name]) if one["kind"] == "CXXDestructorDecl" and not one.get("isImplicit")), None)
        if node is None:
            return
        _, body = self.tree.function(node["id"])
        name = self.names.record(record)
        head = f"{'virtual ' if node.get('virtual') else ''}~{name}()"
        if body is None:
            if not node.get("explicitlyDefaulted"):
                raise CannotSay(node, f"the destructor of {record.name}", "it is not defined in these files")
            self.methods[node["id"]] = [(f"{head} {{}}", place_of(node))]
            return
        said = self.new_body(False, record)
        said.result = self.shapes.of("void")
        said.take_parameters(node)
        said.run(body)
        if returns_early(body):
            self.classes.add(record.name, said.function(f"void {name}_end()"))
            self.methods[node["id"]] = [(f"{head} {{", place_of(node)), (f"  this->{name}_end();", place_of(node)), ("}", place_of(node))]
        else:
            self.methods[node["id"]] = said.function(head)

    def work(self):
        """Says all that waits, and the classes that it names, until nothing is left."""
        checked = 0
        while self.waiting or checked < len(self.names.records) or self.plans.wanted:
            while self.waiting:
                self.waiting.pop(0)()
            while self.plans.wanted:
                self.functions.append(self.plans.write(*self.plans.wanted.pop(0)))
            while checked < len(self.names.records):
                record = self.names.records[checked]
                checked += 1
                self.classes.check(record)
                self.say_destructor(record)
                self.default_code(record)

    def default_code(self, record):
        """The code of a class's only constructor runs whenever an object of it is made."""
        made = self.constructions
        constructor = made.default(record)
        if not made.is_told(record) and constructor is not None and made.has_code(constructor, record) and (made.body(constructor) is not None):
            made.number(record, constructor)


def accessor_lines(name, word, member, length, place):
    """A function that finds an element by halving; behind the last one it ends without a result, which a run refuses."""
    lines = [f"{word}* {name}(long i) {{", f"  {word}* r;", "  bool b;"]

    def half(low, high, depth):
        front = "  " * depth
        if high - low == 1:
            lines.extend([f"{front}b = i == {low};", f"{front}if (b) {{", f"{front}  r = &this->{member}[{low}];", f"{front}  return r;", front + "}"])
            return
        middle = (low + high) // 2
        lines.extend([f"{front}b = i < {middle};", f"{front}if (b) {{"])
        half(low, middle, depth + 1)
        lines.append(front + "} else {")
        half(middle, high, depth + 1)
        lines.append(front + "}")

    half(0, length, 1)
    lines.append("}")
    return [(line, place) for line in lines]


def asking_lines(name, word, length, place):
    """A function that gives its object where there is an element of this number, and null else."""
    lines = [f"{word}* {name}(long i) {{", f"  {word}* r = 0;", "  bool b = i < 0;", "  if (b) {", "    return r;", "  }", f"  b = i < {length};", "  if (b) {", "    r = this;", "  }", "  return r;", "}"]
    return [(line, place) for line in lines]


def main_of(program_tree):
    """The user's `main`."""
    for node in program_tree.nodes.values():
        if node["kind"] == "FunctionDecl" and node.get("name") == "main" and tree.body_of(node) is not None:
            return node
    return None
