"""The text of a class: its bases, members, one constructor, functions and destructor."""
from . import constructions, effects, tree
from .body import result_text
from .places import is_reference
from .refusal import CannotSay, place_of

RETURNS = "ReturnStmt"


class Classes:
    """Writes the classes of a program. `extra` has functions of a class that are no functions of C++, by the class's name."""

    def __init__(self, program):
        self.program = program
        self.extra = {}
        self.said = {}

    def add(self, record_name, lines):
        self.extra.setdefault(record_name, []).append(lines)

    # What a class has to say before its text is made.

    def check(self, record):
        """Refuses a class that cannot be said, and asks for all that its text needs."""
        node = self.program.tree.record_nodes[record.name]
        reason = "it is a union" if record.tag == "union" else record.attribute
        if reason:
            raise CannotSay(node, f"the class {record.name}", reason)
        for base in record.bases:
            self.program.names.record(self.inside(base.type, record).record)
        for field in self.program.fields(record):
            self.field_word(record, field)
        for method in self.virtual_methods(record):
            self.program.method(method["id"])
        for one in tree.parts(node):
            if one["kind"] == "CXXMethodDecl" and one.get("isImplicit") and self.program.names.method(one) in self.virtual_words(record):
                raise CannotSay(node, f"the class {record.name}", "its implicit assignment overrides a virtual function")

    def inside(self, text, record):
        return self.program.shapes.of(text, record)

    def virtual_methods(self, record):
        """The functions of a class that are virtual, by their own word or by that of a base."""
        words = self.virtual_words(record)
        node = self.program.tree.record_nodes[record.name]
        return [one for one in tree.parts(node) if one["kind"] in ("CXXMethodDecl", "CXXConversionDecl") and one.get("storageClass") != "static" and self.program.names.method(one) in words
                and not one.get("isImplicit")]

    def virtual_words(self, record):
        if record.name not in self.said:
            found = set()
            for base in record.bases:
                found |= self.virtual_words(self.inside(base.type, record).record)
            for one in tree.parts(self.program.tree.record_nodes[record.name]):
                if one["kind"] in ("CXXMethodDecl", "CXXConversionDecl") and one.get("virtual"):
                    found.add(self.program.names.method(one))
            self.said[record.name] = found
        return self.said[record.name]

    def field_word(self, record, field):
        """Type of a member in our language, and what stands behind its name: the length of an array, or the width of a bit-field."""
        shape = self.inside(tree.type_of(field), record)
        if field.get("isBitfield"):
            return shape.word, f" : {width(field, shape)}"
        length = ""
        if shape.sort == "array" and not is_reference(field):
            length = f"[{shape.length}]"
            if shape.length == 0:
                raise CannotSay(field, f"the member {field.get('name', '')}", "it is an array of length 0 or without length")
            shape = shape.inner
        if shape.sort in ("unsayable", "void"):
            raise CannotSay(field, f"the member {field.get('name', '')}", f"its type is {shape.word}")
        if shape.sort == "object":
            return self.program.names.record(shape.record), length
        if self.program.is_boxed(field["id"]) and not is_reference(field):
            return self.program.names.box(shape.word), length
        return shape.word, length

    # The text.

    def text(self, record, methods):
        """The lines of one class. `methods` has the functions that were said, by the numbers of their declarations."""
        node = self.program.tree.record_nodes[record.name]
        name, place = self.program.names.record(record), place_of(node)
        bases = ", ".join(f"{'virtual ' if base.virtual else ''}{base.access} {self.program.names.record(self.inside(base.type, record).record)}" for base in record.bases)
        lines = [(f"struct {name}{' : ' + bases if bases else ''} {{", place)]
        for field in self.program.fields(record):
            word, length = self.field_word(record, field)
            lines.append((f"  {word} {self.program.names.member(record, field['id'])}{length};", place_of(field)))
        lines += indented(self.constructor(record, name, place))
        for one in tree.parts(node):
            if one["kind"] == "CXXDestructorDecl":
                lines += indented(methods.get(one["id"], []))
            elif one["kind"] in ("CXXMethodDecl", "CXXConversionDecl", "FunctionTemplateDecl"):
                for inner in [one] if one["kind"] != "FunctionTemplateDecl" else tree.parts(one):
                    lines += indented(methods.get(self.program.tree.first_of(inner.get("id", "")), []))
        for extra in self.extra.get(record.name, []):
            lines += indented(extra)
        return [*lines, ("};", place)]

    def constructor(self, record, name, place):
        """The one constructor of our class: it does what the first call of its list says."""
        made = self.program.constructions
        variants = self.program.constructor_texts.get(record.name, {})
        if not made.is_told(record):
            if variants:
                head, lines = variants[1]
                return [(f"{name}(){head} {{", place), *lines, ("}", lines[-1][1] if lines else place)]
            return [(f"{name}() {{}}", place)] if not record.is_pod and not record.bases else []
        call, head, _ = self.program.call_class(record)
        lines = [(f"{name}() {{", place), (f"  {call}* call = {head};", place), (f"  {head} = call->next;", place), ("  int number = call->c;", place), ("  bool now = false;", place)]
        for number, words in sorted(self.program.call_words.get(record.name, {}).items()):
            lines += [(f"  now = number == {number};", place), ("  if (now) {", place)]
            given = []
            for position, word in enumerate(words):
                lines.append((f"    {word} a{number}_{position} = call->a{number}_{position};", place))
                given.append(f"a{number}_{position}")
            lines += [(f"    this->{self.program.constructor_name(record, number)}({', '.join(given)});", place), ("  }", place)]
        return [*lines, ("}", place)]


def width(field, shape):
    """The width of a bit-field, which our language has where its type holds it."""
    if "name" not in field:
        raise CannotSay(field, "an unnamed bit-field", "each member has a name in the language")
    member, most = f"the bit-field {field['name']}", 0 if shape.sort != "number" else shape.bits
    if not most:
        raise CannotSay(field, member, f"its type is {shape.word or tree.type_of(field)}")
    value = int(tree.parts(field)[0]["value"])
    if value > most:
        raise CannotSay(field, member, f"its width is {value}, and {shape.word} has {most} bit{'' if most == 1 else 's'}")
    return value


def indented(lines):
    return [("  " + text, place) for text, place in lines]


class ConstructorBody:
    """What a constructor does beside making its bases and members: it sets the others, then come its statements."""

    def __init__(self, program, record, constructor):
        self.program, self.record, self.constructor = program, record, constructor
        self.definition = program.constructions.body(constructor) or constructor
        self.body, self.handed = program.new_body(False, record), {}

    def lines(self, name):
        """The constructor as a function of its class, with its parameters."""
        said = self.body.take_parameters(self.constructor)
        for number in self.program.early.fields(self.record, self.constructor):
            field = self.program.tree.nodes[number]
            self.handed[number] = self.body.scope.new(field.get("name", "unnamed"))
            said.append(f"{self.body.shape_of(field).word} {self.handed[number]}")
        if len(said) > 16:
            raise CannotSay(self.definition, f"the constructor of {self.record.name}", "it has more than 16 parameters, with the values of members that are handed over")
        words = [one.rsplit(" ", 1)[0] for one in said]
        self.say()
        return words, self.body.function(f"void {name}({', '.join(said)})")

    def say(self):
        body = self.body
        body.result = self.program.shapes.of("void")
        body.place_now = place_of(self.definition)
        body.take_parameters(self.constructor) if not hasattr(body, "copied_in") else None
        for one in effects.initialisers(self.definition):
            if tree.parts(one):
                with body.full():
                    self.initialise(one, tree.bare(tree.parts(one)[-1]))
        if tree.body_of(self.definition) is not None:
            body.run(self.definition)

    def initialise(self, initialiser, given):
        """Sets a member that is no object made by a constructor, or copies a base or member leaf by leaf."""
        if given["kind"] == "CXXConstructExpr":
            self.copied_part(initialiser, given)
        if "anyInit" not in initialiser:
            record = self.body.shape(given).record
            if record is not None and (given.get("zeroing") or given["kind"] == "ImplicitValueInitExpr"):
                self.body.zero(record, self.body.hold_as("this", self.program.names.record(record) + "*"), False)
            return
        field = self.program.tree.nodes[initialiser["anyInit"]["id"]]
        while given["kind"] == "CXXDefaultInitExpr":
            given = tree.bare(tree.parts(field)[-1])
        shape = self.body.shape_of(field)
        place = f"this->{self.program.names.member(self.record, field['id'])}"
        if field["id"] in self.handed:
            self.body.put(f"{place}{'.v' if self.program.is_boxed(field['id']) and not is_reference(field) else ''} = {self.handed[field['id']]};")
            return
        if given["kind"] == "ArrayInitLoopExpr":
            raise CannotSay(self.definition, "a copy of an array in a constructor", "it is none of all leaves of the object")
        if given["kind"] == "CXXConstructExpr" and shape.sort in ("object", "array") and not is_reference(field):
            if given.get("zeroing"):
                self.body.member_from(field, place, {"kind": "ImplicitValueInitExpr", "type": field["type"]})
            return
        self.body.member_from(field, place, given)

    def copied_part(self, initialiser, given):
        """A base or member whose implicit copy is one of all leaves."""
        body, made = self.body, self.program.constructions
        record = body.shape(given).record
        if record is None:
            return
        constructor = made.constructor_of(record, given)
        if constructor is None or not constructions.is_copy(constructor) or made.has_code(constructor, record):
            return
        source = body.hold_as(body.address(tree.parts(given)[0]), self.program.names.record(record) + "*")
        to = body.temporary(self.program.names.record(record) + "*")
        if "anyInit" in initialiser:
            body.put(f"{to} = &this->{self.program.names.member(self.record, initialiser['anyInit']['id'])};")
        else:
            body.put(f"{to} = this;")
        body.put(f"*{to} = *{source};")

    def inline(self):
        """The lines of a constructor without parameters, for the constructor itself; constants that fit go before its body."""
        self.say()
        return "", self.body.text()


def returns_early(node):
    """Whether a body has a `return`, which a constructor or destructor of our language has not."""
    return any(one.get("kind") == RETURNS for one in tree.within(node))


__all__ = ["Classes", "ConstructorBody", "indented", "result_text", "returns_early"]
