"""Constructors: a class of our language has one without parameters, so what it is to do is handed over before the `new`.

A class with several constructors, or with one that has parameters, is *told*: for each class there is a list of calls, of
which its constructor takes the first. A call has the number of a constructor and its arguments; the number 0 is that of none, for an
object that is copied leaf by leaf. A *plan* is a function that puts the calls of an object, of its bases and of its members
into their lists, in the order in which they are built. So bases and members are made in the order of C++, and only the
arguments are calculated earlier; `early` refuses those where that could be seen.
"""
import re

from . import effects, tree
from .refusal import CannotSay


def plain_type(text):
    return re.sub(r"\s*(?:noexcept\(?\w*\)?|throw\([^()]*\))\s*$", "", text)


def is_copy(constructor, record_type=None):
    """Whether a constructor is one that copies or moves."""
    wanted = tree.parameters(constructor)
    if not wanted:
        return False
    name = tree.type_of(wanted[0])
    return name.rstrip().endswith("&") and re.sub(r"\b(?:const|volatile)\b|[&\s]", "", name).split("<")[0].split("::")[-1] == constructor["name"].split("<")[0] and \
        all(tree.parts(one) for one in wanted[1:])


class Constructions:
    """Which constructors a program's classes have, and what the making of an object takes."""

    def __init__(self, program):
        self.program = program
        self.variants = {}
        self.known = {}

    # What a class has.

    def constructors(self, record):
        """The constructors of a class, with the instances of those that are templates."""
        found = []
        for child in tree.parts(self.program.tree.record_nodes[record.name]):
            if child["kind"] == "CXXConstructorDecl":
                found.append(child)
            elif child["kind"] == "FunctionTemplateDecl":
                found += [one for one in tree.parts(child) if one["kind"] == "CXXConstructorDecl" and tree.is_instance(one)]
        return found

    def constructor_of(self, record, node):
        """The constructor that an expression calls; None for an implicit one that does nothing."""
        wanted = plain_type(node["ctorType"]["qualType"])
        for one in self.constructors(record):
            if plain_type(one["type"]["qualType"]) == wanted:
                return one
        if wanted in ("void ()", "void (void)"):
            return None
        raise CannotSay(node, f"the constructor {wanted}", "clang's tree does not show which one it is")

    def default(self, record):
        """The constructor without arguments; None where it is an implicit one that is not there."""
        for one in self.constructors(record):
            if all(self.program.tree.default(one["id"], position) is not None for position in range(len(tree.parameters(one)))):
                return one
        return None

    def is_own(self, constructor):
        """Whether a constructor is the user's."""
        return constructor is not None and not constructor.get("isImplicit") and not constructor.get("explicitlyDefaulted")

    def body(self, constructor):
        return self.program.tree.function(constructor["id"])[1]

    def subobjects(self, record):
        """The classes of direct bases and members, virtual bases of all depths first; each with its count."""
        found = [(self.base(record, base), 1) for base in record.bases]
        for field in self.program.fields(record):
            shape = self.program.shapes.of(tree.type_of(field), record)
            if shape.sort == "object":
                found.append((shape.record, 1))
            elif shape.sort == "array" and shape.inner.sort == "object":
                found.append((shape.inner.record, shape.length))
        return [(inside, count) for inside, count in found if inside is not None]

    def base(self, record, base):
        """The class of a base."""
        found = self.program.shapes.of(base.type, record).record
        if found is None:
            raise CannotSay(self.program.tree.record_nodes[record.name], f"the base {base.type} of {record.name}", "clang's tree does not show the class by this name")
        return found

    def virtual_bases(self, record):
        """The virtual bases of a class in the order in which they are built."""
        found = []
        for base in record.bases:
            inside = self.program.shapes.of(base.type, record).record
            for one in self.virtual_bases(inside) + ([inside] if base.virtual else []):
                if one not in found:
                    found.append(one)
        return found

    def copies_plainly(self, record):
        """Whether the implicit copy of a class is one of all leaves: no class in it has a copy constructor of the user's."""
        own = any(is_copy(one) and self.is_own(one) for one in self.constructors(record))
        return not own and all(self.copies_plainly(inside) for inside, _ in self.subobjects(record))

    def is_copied(self, record):
        """Whether the implicit copy constructor of a class is used, so that objects are made without any other one."""
        return any(is_copy(one) and not self.is_own(one) and (one.get("isUsed") or one.get("isReferenced")) for one in self.constructors(record))

    def has_code(self, constructor, record):
        """Whether a constructor itself does something: it is the user's, or sets members."""
        if constructor is None:
            return False
        if self.is_own(constructor):
            return True
        if is_copy(constructor):
            return not self.copies_plainly(record)
        return any(not self.makes_alone(one) for one in effects.initialisers(constructor))

    def is_plain_copy(self, constructor, record):
        """Whether a constructor copies leaf by leaf, and runs nothing."""
        return constructor is not None and is_copy(constructor) and not self.has_code(constructor, record)

    def makes_alone(self, initialiser):
        """Whether an initialiser only makes a base or member by its constructor."""
        given = tree.bare(tree.parts(initialiser)[-1]) if tree.parts(initialiser) else {"kind": ""}
        return given["kind"] == "CXXConstructExpr" and not given.get("zeroing")

    def is_told(self, record):
        """Whether the constructor of a class has to be told what to do."""
        if record.name not in self.known:
            coded = [one for one in self.constructors(record) if self.has_code(one, record) and (self.body(one) is not None or self.is_own(one))]
            parameters = any(tree.parameters(one) for one in coded)
            self.known[record.name] = bool(coded) and (len(coded) > 1 or parameters or self.is_copied_within(record) or not self.default_coded(record, coded) or
                                                      any(self.program.early.fields(record, one) for one in coded))
        return self.known[record.name]

    def default_coded(self, record, coded):
        return self.default(record) is coded[0]

    def is_copied_within(self, record):
        """Whether an object of a class, or one that has it as a part, is copied leaf by leaf."""
        return any(self.is_copied(one) and self.contains(one, record) for one in self.program.tree.names.order)

    def contains(self, whole, part):
        return whole is part or any(self.contains(inside, part) for inside, _ in self.subobjects(whole) if inside is not None)

    def number(self, record, constructor):
        """The number of a constructor in the calls of its class, from 1."""
        known = self.variants.setdefault(record.name, [])
        first = self.program.tree.first_of(constructor["id"])
        if first not in [self.program.tree.first_of(one["id"]) for one in known]:
            known.append(constructor)
            self.program.wanted_constructor(record, constructor, len(known))
        return next(at for at, one in enumerate(known, 1) if self.program.tree.first_of(one["id"]) == first)

    def needs_plan(self, record):
        """Whether something has to be told before an object of a class is made."""
        return self.is_told(record) or any(self.needs_plan(inside) for inside, _ in self.subobjects(record))

    # Making objects.

    def make(self, body, node, record, constructor, arguments, target):
        """A new object by a constructor, in a variable."""
        word = self.program.names.record(record)
        if constructor is not None and is_copy(constructor) and not self.has_code(constructor, record):
            source = body.address(arguments[0])
            if body.shape(arguments[0]).record is not record:
                source = body.hold_as(source, word + "*")
            name = self.blank(body, node, record, target)
            body.put(f"*{name} = *{source};")
            return name
        self.use(node, record, constructor)
        given = body.operands(node, constructor["id"], arguments) if constructor is not None else []
        if self.needs_plan(record):
            self.call_plan(body, self.program.plan(record, constructor, True), given)
        name = body.set(target, word + "*", f"new {word}")
        if node.get("zeroing") and not self.is_own(constructor):
            body.zero(record, name)
        return name

    def use(self, node, record, constructor):
        """A constructor is used: it has to be defined here."""
        if self.is_own(constructor) and self.body(constructor) is None:
            raise CannotSay(node, f"the constructor of {record.name}", "it is not defined in these files")
        if self.has_code(constructor, record) and not self.is_told(record):
            self.number(record, constructor)
        elif constructor is None and record.has_constructor:
            raise CannotSay(node, f"the constructor of {record.name}", "clang's tree does not show it")

    def call_plan(self, body, plan, given):
        body.put(f"{body.functions(None)}->{plan}({', '.join(given)});")

    def blank(self, body, node, record, target):
        """A new object of which no constructor runs."""
        word = self.program.names.record(record)
        if self.needs_plan(record):
            self.call_plan(body, self.program.plan(record, None, True, blank=True), [])
        elif any(self.runs_code(inside) for inside in [record]):
            raise CannotSay(node, f"a copy of a {record.name}", "its constructor would run, and it is told nothing")
        return body.set(target, word + "*", f"new {word}")

    def runs_code(self, record):
        """Whether the making of an object runs a constructor with statements."""
        return self.has_code(self.default(record), record) or any(self.runs_code(inside) for inside, _ in self.subobjects(record))

    def array(self, body, node, shape, declaration, initial):
        """A local or global array: an object with the elements as its member."""
        holder, inside = self.program.array_class(node, shape), shape.inner
        initial = tree.bare(initial) if initial is not None else None
        values = listed(initial) if initial is not None and initial["kind"] == "InitListExpr" else None
        if inside.sort != "object" or not self.runs_code(inside.record) and not self.needs_plan(inside.record):
            name = body.set(declaration, holder + "*", f"new {holder}")
            if initial is not None and not (initial["kind"] == "CXXConstructExpr" and not initial.get("zeroing")):
                body.array_from(node, shape, f"{name}->e", initial)
            return name
        filler, given = values if values is not None else (initial, [])
        rest = shape.length - len(given)
        if rest:
            body.in_elements([filler], rest, lambda one: self.elements(body, inside.record, one))
        self.elements(body, inside.record, given)
        return body.set(declaration, holder + "*", f"new {holder}")

    def elements(self, body, record, given):
        """Tells the constructors of elements what to do: the arguments are calculated in order, and the last element is told first."""
        said = [self.element(body, record, tree.bare(one)) for one in given]
        done = effects.NOTHING
        for one in map(self.made_by, map(tree.bare, given)):
            asked, constructor = self.program.effects, self.constructor_of(record, one)
            value = frozenset().union(asked.of_defaults(constructor, tree.parts(one)), *(asked.of(part, set(), False) for part in tree.parts(one)))
            if not effects.commute(done, value):
                raise CannotSay(one, "this argument of an element of an array", "it would be calculated before the constructor of an earlier element runs, and that could be seen")
            done |= asked.of_constructor(record, constructor)
        for plan, operands in reversed(said):
            if plan:
                self.call_plan(body, plan, operands)

    def made_by(self, node):
        """The constructor's expression of an element: no copy of it is made."""
        while node["kind"] in ("MaterializeTemporaryExpr", "ImplicitCastExpr", "CXXFunctionalCastExpr") or node.get("elidable"):
            node = tree.bare(tree.parts(node)[-1])
        return node

    def element(self, body, record, node):
        """The plan of one element and its operands; no plan where nothing is to be told."""
        node = self.made_by(node)
        if node["kind"] not in ("CXXConstructExpr", "CXXTemporaryObjectExpr"):
            raise CannotSay(node, "an element of an array that no constructor makes", "what a function gives is an object of its own, and no element")
        constructor = self.constructor_of(record, node)
        self.use(node, record, constructor)
        if constructor is not None and is_copy(constructor) and not self.has_code(constructor, record):
            raise CannotSay(node, "an element of an array that is a copy", "the language makes all elements by one new")
        given = body.operands(node, constructor["id"], tree.parts(node)) if constructor is not None else []
        return (self.program.plan(record, constructor, True), given) if self.needs_plan(record) else (None, given)


def listed(node):
    """What fills the rest of an array, and the elements that a list gives."""
    if "array_filler" in node:
        return node["array_filler"][0], [part for part in node["array_filler"][1:] if part.get("kind")]
    return None, tree.parts(node)
