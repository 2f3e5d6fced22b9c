"""Plans: functions that tell the constructors of an object, of its bases and of its members what to do."""
from . import constructions, effects, tree
from .numbers import CASTS
from .places import is_reference
from .refusal import CannotSay, place_of


class Part:
    """A base or member that a constructor makes: its class, its constructor, the arguments, and how often."""

    def __init__(self, record, constructor, arguments, count, is_base, node):
        self.record, self.constructor, self.arguments, self.count, self.is_base, self.node = record, constructor, arguments, count, is_base, node
        self.blank = False


class Plans:
    """Writes the plans that are asked for."""

    def __init__(self, program):
        self.program, self.made = program, program.constructions
        self.names, self.wanted = {}, []

    def name(self, record, constructor, complete, blank):
        complete = complete and any(self.made.needs_plan(one) for one in self.made.virtual_bases(record))
        first = self.program.tree.first_of(constructor["id"]) if constructor else ""
        key = (record.name, first, complete, blank)
        if key not in self.names:
            word = f"plan_{'all_' if complete else ''}{'blank_' if blank else ''}{self.program.names.record(record)}"
            self.names[key] = self.program.names.function_words.new(word)
            self.wanted.append((self.names[key], record, constructor, complete, blank))
        return self.names[key]

    def write(self, name, record, constructor, complete, blank):
        """The function of one plan."""
        body = self.program.new_body(in_functions=True)
        body.this = ""
        parameters = body.take_parameters(constructor) if constructor and not blank else []
        if constructor is not None:
            body.place_now = place_of(constructor)
        parts = self.parts(record, constructor, complete, blank)
        body.initialisers = {} if blank or constructor is None else self.initial_values(constructor)
        items = [] if blank else self.program.early.items(record, constructor)
        if items:
            self.program.early.check(record, constructor)
        given = self.calculated(body, parts, items)
        self.own_call(body, record, constructor, blank, [*(one.split()[-1] for one in parameters), *body.handed.values()])
        for part, operands in reversed(list(zip(parts, given))):
            self.tell(body, part, operands)
        return body.function(f"void {name}({', '.join(parameters)})")

    def calculated(self, body, parts, items):
        """The arguments of the parts, and the early values of members between them, in the order of C++."""
        given, done = [], 0
        for part in parts:
            at = next((at for at, one in enumerate(items) if one.given is part.node), done)
            self.hand(body, items[done:at])
            done = max(done, at)
            given.append(self.arguments(body, part))
        self.hand(body, items[done:])
        return given

    def hand(self, body, items):
        """Calculates early values, each in a variable from which it is handed over."""
        for one in items:
            if one.is_early:
                shape = body.shape_of(one.field)
                name = body.kept(shape.word)
                with body.full():
                    body.put(f"{name} = {body.address(one.given) if is_reference(one.field) else body.argument(one.given)};")
                body.handed[one.field["id"]] = name

    def initial_values(self, constructor):
        """What each member is set to, by the number of its declaration."""
        definition = self.made.body(constructor) or constructor
        return {one["anyInit"]["id"]: tree.parts(one)[-1] for one in effects.initialisers(definition) if "anyInit" in one and tree.parts(one)}

    def own_call(self, body, record, constructor, blank, given):
        """Puts the call of the class itself in front of the list of its class."""
        if not self.made.is_told(record):
            return
        coded = not blank and self.made.has_code(constructor, record)
        number = self.made.number(record, constructor) if coded else 0
        call, head, members = self.program.call_class(record)
        name = body.temporary(call + "*")
        body.put(f"{name} = new {call};")
        body.put(f"{name}->c = {number};")
        if coded:
            for position, operand in enumerate(given):
                body.put(f"{name}->a{number}_{position} = {operand};")
        body.put(f"{name}->next = {head};")
        body.put(f"{head} = {name};")

    # The parts of an object in the order in which they are built.

    def parts(self, record, constructor, complete, blank):
        found = self.blank_parts(record) if blank else self.told_parts(record, constructor)
        shared = [one for one in found if one.is_base and one.virtual]
        if complete:
            listed = [one.record for one in shared]
            shared += [self.default_part(one, True) for one in self.made.virtual_bases(record) if one not in listed]
            wanted = self.made.virtual_bases(record)
            for one in shared:
                one.blank = blank
            shared.sort(key=lambda one: wanted.index(one.record))
        direct = [one for one in found if not (one.is_base and one.virtual)]
        every = (shared if complete else []) + direct
        return [one for one in every if self.made.needs_plan(one.record)] if blank else every

    def default_part(self, record, virtual):
        part = Part(record, self.made.default(record), [], 1, True, None)
        part.virtual = virtual
        return part

    def blank_parts(self, record):
        found = []
        virtual = [self.program.shapes.of(base.type, record).record for base in record.bases if base.virtual]
        bases = [self.program.shapes.of(base.type, record).record for base in record.bases]
        for inside, count in self.made.subobjects(record):
            part = Part(inside, None, [], count, False, None)
            part.is_base = len(found) < len(bases)
            part.blank, part.virtual = True, part.is_base and inside in virtual
            found.append(part)
        return found

    def told_parts(self, record, constructor):
        """The bases and members that a constructor makes, by its initialisers in clang's tree."""
        definition = (self.made.body(constructor) or constructor) if constructor is not None else None
        listed = effects.initialisers(definition) if definition is not None else []
        if not listed:
            return self.default_parts(record)
        found, shared = [], self.made.virtual_bases(record)
        for one in listed:
            if "delegatingInit" in one:
                raise CannotSay(definition, "a constructor that calls another one of its class", "one constructor is told for one object")
            part = self.told_part(record, one, definition)
            if part is not None:
                direct = [base.virtual for base in record.bases if self.program.shapes.of(base.type, record).record is part.record]
                part.virtual = part.is_base and part.record in shared and (True in direct or not direct)
                found.append(part)
        return found

    def default_parts(self, record):
        found = self.blank_parts(record)
        for part in found:
            part.blank, part.constructor = False, self.made.default(part.record)
        return found

    def told_part(self, record, initialiser, definition):
        """One base or member of class type; None for a number or pointer."""
        given = tree.bare(tree.parts(initialiser)[-1])
        while given["kind"] == "CXXDefaultInitExpr" and "anyInit" in initialiser:
            given = tree.bare(tree.parts(self.program.tree.nodes[initialiser["anyInit"]["id"]])[-1])
        shape = self.program.shapes.of(tree.type_of(given), record)
        if "anyInit" in initialiser and is_reference(self.program.tree.nodes[initialiser["anyInit"]["id"]]):
            return None
        count = shape.length if shape.sort == "array" else 1
        shape = shape.inner if shape.sort == "array" else shape
        if shape is None or shape.sort != "object":
            return None
        while given.get("elidable") or given["kind"] in ("MaterializeTemporaryExpr", *CASTS):
            given = tree.bare(tree.parts(given)[-1])
        is_base = "baseInit" in initialiser
        if given["kind"] in ("ImplicitValueInitExpr", "InitListExpr", "CXXScalarValueInitExpr"):
            part = Part(shape.record, None, [], count, is_base, given)
            part.blank = True
            return part
        if given["kind"] not in ("CXXConstructExpr", "CXXTemporaryObjectExpr"):
            raise CannotSay(given if given.get("range", {}).get("begin") else definition, "an initialiser that is no constructor", "what a function gives is an object of its own, and no base or member")
        constructor = self.made.constructor_of(shape.record, given)
        self.made.use(given, shape.record, constructor)
        part = Part(shape.record, constructor, tree.parts(given), count, is_base, given)
        part.blank = constructor is not None and constructions.is_copy(constructor) and not self.made.has_code(constructor, shape.record)
        return part

    def arguments(self, body, part):
        if part.blank or part.constructor is None or not self.made.needs_plan(part.record):
            return []
        for one in part.arguments:
            self.check_temporaries(one)
        return body.operands(part.node or part.constructor, part.constructor["id"], part.arguments)

    def check_temporaries(self, node):
        """Refuses an argument with a temporary object that would have to live until the base or member is made, where its end does something."""
        for one in tree.within(node):
            if one.get("kind") == "CXXBindTemporaryExpr" and self.program.effects.ends(one):
                raise CannotSay(one, "a temporary object in an argument of a base or member", "it ends behind the constructor of the base or member, and that could be seen")

    def tell(self, body, part, operands):
        if not self.made.needs_plan(part.record):
            return
        name = self.program.plan(part.record, None if part.blank else part.constructor, not part.is_base, blank=part.blank)
        body.in_elements(None, part.count, lambda _: body.put(f"{body.functions(None)}->{name}({', '.join(operands)});"))
