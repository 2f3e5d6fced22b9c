"""The names of our language: of classes, boxes, arrays, globals, functions and members, each once in its scope."""
import re

from ..overriding import Functions, safe
from ..restate import plain
from . import tree


class Scope:
    """Names of one scope, each given once."""

    def __init__(self, taken=()):
        self.taken = set(taken)

    def new(self, wanted):
        word = name = safe(re.sub(r"\W+", "_", wanted, flags=re.ASCII).strip("_"))
        count = 1
        while name in self.taken:
            count += 1
            name = f"{word}_{count}"
        self.taken.add(name)
        return name


class Method:
    """A function as the table of signatures takes it."""

    def __init__(self, node):
        self.name, self.mangled, self.type = node["name"], node.get("mangledName", ""), node["type"]["qualType"]


class Names:
    """The names of one program. What is asked for is kept in the order of asking, so that all of it is said."""

    def __init__(self, program_tree):
        self.tree = program_tree
        functions = [node for node in program_tree.nodes.values() if node["kind"] in tree.FUNCTIONS and "name" in node]
        self.signatures = Functions([type("All", (), {"methods": [Method(node) for node in functions]})])
        self.classes = Scope(["opaque"])
        self.record_names, self.boxes, self.arrays, self.text_class = {}, {}, {}, None
        self.records = []
        self.words = {node["name"] for node in program_tree.nodes.values() if node["kind"] in ("VarDecl", "ParmVarDecl") and "name" in node}
        self.globals = Scope()
        self.variables = {}
        for node in program_tree.variables:
            first = program_tree.first_of(node["id"])
            self.variables[first] = self.variables.get(first) or self.globals.new(node.get("name", "unnamed"))
        self.functions, self.function_words = {}, Scope()
        self.helpers = {name: self.classes.new(name) for name in ("functions", "texts", "text")}
        self.all = self.added("all")
        self.texts = self.added("texts")
        self.members = {}
        self.methods = {}

    def added(self, wanted):
        """The name of a global that is none of the program's; no variable of the program has it."""
        while wanted in self.words:
            wanted += "_"
        return self.globals.new(wanted)

    def record(self, record):
        if record.name not in self.record_names:
            self.record_names[record.name] = self.classes.new(plain(record))
            self.records.append(record)
        return self.record_names[record.name]

    def box(self, word):
        if word not in self.boxes:
            self.boxes[word] = self.classes.new("box_" + word.replace("*", "_pointer"))
        return self.boxes[word]

    def array(self, word, length):
        """The class of a local or global array of elements of our type: one member `e`."""
        key = (word, length)
        if key not in self.arrays:
            self.arrays[key] = self.classes.new(f"{word.replace('*', '_pointer')}_{length}")
        return self.arrays[key]

    def text(self):
        return self.helpers["text"]

    def method(self, node):
        """The name of a member function: one for all functions that override each other."""
        return self.signatures.word(self.methods.setdefault(node["id"], Method(node)))

    def function(self, node):
        """The name of a free or static function, as a member of the class of functions."""
        first = self.tree.first_of(node["id"])
        if first not in self.functions:
            owner = self.tree.owner(first)
            word = f"{self.record(owner)}_{node['name']}" if owner else node["name"]
            self.functions[first] = self.function_words.new(word)
        return self.functions[first]

    def shown(self, first):
        """A free or static function as C++ writes it."""
        node, _ = self.tree.function(first)
        return self.signatures.plain.get(node.get("mangledName", ""), node["name"])

    def member(self, record, field):
        """The name of a data member, by the number of its declaration."""
        if field not in self.members:
            taken = {self.record(record), *self.method_words(record)}
            scope = Scope(taken)
            for child in tree.parts(self.tree.record_nodes[record.name]):
                if child["kind"] == "FieldDecl":
                    self.members[child["id"]] = scope.new(child.get("name") or "unnamed")
        return self.members[field]

    def method_words(self, record):
        node = self.tree.record_nodes[record.name]
        return [self.method(child) for child in tree.parts(node) if child["kind"] in ("CXXMethodDecl", "CXXConversionDecl")]
