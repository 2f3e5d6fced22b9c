"""A run of `main` as a list of moments: each event of a plan, call and printed line, with the line of the source and what it changes."""
from collections import deque
from dataclasses import dataclass, field

from . import marked_run, plans, pointers

PHASES = {"begin": "bases", "ready": "building", "done": "complete", "ending": "ending", "bases": "ending-bases", "end": "ended"}
MOST = 2_000


@dataclass
class Moment:
    """`phases` and `pointers` say what changes, by the number of a subobject and by place; a pointer that is unset again leads to ''."""

    sort: str
    text: str
    line: int
    object: int
    phases: dict = field(default_factory=dict)
    pointers: dict = field(default_factory=dict)
    table: str = ""
    places: list = field(default_factory=list)
    thunk: str = ""


@dataclass
class HeapObject:
    number: int
    class_name: str
    whole: object
    parts: list
    pointers: dict = field(default_factory=dict)


@dataclass
class Plan:
    """What is left of a plan; `depth` is how many bodies were open when it began, `part` the subobject of its last event."""

    object: object
    events: object
    depth: int
    ends: bool
    part: object = None


@dataclass
class TimeLine:
    objects: list = field(default_factory=list)
    moments: list = field(default_factory=list)
    is_cut: bool = False


class Full(Exception):
    """There are as many moments as are told."""


def read(text, classes, layouts, tables, steps=None):
    """The time line of the run of a source; `marked_run.NoMarks` where there is none."""
    bodies, told = marked_run.run(text, steps)
    teller = _Teller(bodies, plans.Objects(classes, layouts), pointers.Pointers(classes, tables))
    try:
        for one in told:
            teller.tell(one)
        teller.close()
    except Full:
        teller.line.is_cut = True
    return teller.line


class _Teller:
    def __init__(self, bodies, objects, rule):
        self.bodies, self.objects, self.rule = bodies, objects, rule
        self.line = TimeLine()
        self.frames = []
        self.plans = []
        self.deletes = None

    def add(self, *words, **more):
        if len(self.line.moments) == MOST:
            raise Full
        self.line.moments.append(Moment(*words, **more))

    def tell(self, one):
        self.leave(one)
        if one.sort == "step":
            self.step(one.statement)
        elif one.sort in ("call", "built", "ending"):
            self.event(one)
        elif one.sort == "last":
            self.add("last", one.text, int(one.text.split()[-1]) if " line " in one.text else one.statement.line if one.statement else 0, 0)
        else:
            self.add("printed", one.text, one.statement.line, 0)

    def leave(self, one):
        """Ends the plans of destruction whose last events are still to come: the trace tells none of those."""
        while self.is_left() and not self.goes_on(one):
            self.finish()

    def is_left(self):
        return bool(self.plans) and self.plans[-1].ends and self.plans[-1].depth == len(self.frames)

    def goes_on(self, one):
        """The next destructor of the plan at work begins, or its body."""
        if one.sort == "ending":
            return self.deletes is None and f" #{self.plans[-1].object.number}+" in one.text
        return one.sort == "step" and one.statement.kind == "begin" and one.statement.body.kind == "destructor"

    def finish(self):
        self.advance(lambda event, part: False)

    def step(self, statement):
        self.deletes = statement if statement.kind == "delete" else None
        body = statement.body
        if statement.kind == "begin" and body.kind == "constructor":
            self.frames.append(self.reach_body(body.owner))
        elif statement.kind == "begin" and body.kind != "function":
            self.frames.append(self.plans[-1].part if self.plans else None)
        elif statement.kind in ("end", "return"):
            self.frames.pop()
        elif statement.kind == "new":
            self.make(statement)

    def make(self, statement):
        whole, parts = self.objects.object_of(statement.made)
        one = HeapObject(len(self.line.objects) + 1, statement.made, whole, parts)
        self.line.objects.append(one)
        self.add("new", f"new {statement.made}: object #{one.number}", statement.line, one.number)
        self.plans.append(Plan(one, deque(self.objects.built(whole)), len(self.frames), False))

    def event(self, one):
        words, _, at = one.text.rpartition(" #")
        number, place = map(int, at.split("+"))
        name = words.split()[1]
        if one.sort == "call":
            self.call(one, name, number, place)
            return
        if self.deletes is not None:
            self.begin_delete(number)
        self.advance(lambda event, part: event == ("done" if one.sort == "built" else "ending") and (part.class_name, part.place) == (name, place))

    def begin_delete(self, number):
        one, statement = self.line.objects[number - 1], self.deletes
        self.deletes = None
        entry = self.rule.deleting_entry(statement.receiver)
        found = self.read_by(statement, statement.receiver, entry, one, (f"{one.class_name}::~{one.class_name}", 0))
        self.add("delete", f"delete {statement.variable}: object #{number}", statement.line, number, **found)
        self.plans.append(Plan(one, deque(self.objects.ended(one.whole)), len(self.frames), True))

    def advance(self, is_last):
        """Tells the events of the plan at work, up to the one that is asked for."""
        plan = self.plans[-1]
        while plan.events:
            event, part = plan.events.popleft()
            plan.part = part
            self.plan_event(plan.object, event, part)
            if is_last(event, part):
                if event == "done" and part is plan.object.parts[0]:
                    self.plans.pop()
                return
        self.plans.pop()

    def reach_body(self, owner):
        """Tells the events before the body of a constructor: what follows the body is that its subobject is built."""
        plan = self.plans[-1]
        while True:
            event, part = plan.events[0]
            if event == "done" and part.class_name == owner:
                return part
            self.plan_event(plan.object, *plan.events.popleft())

    def plan_event(self, one, event, part):
        changed = {}
        if event in ("ready", "ending"):
            led = self.rule.set_by(part)
            one.pointers.update(led)
            changed = {place: leads.text for place, leads in led.items()}
        if event == "end" and part is one.parts[0]:
            changed = {place: "" for place in one.pointers}
            one.pointers = {}
        words = {"begin": "the bases of {} come first", "ready": "{} is ready", "done": "{} is built", "ending": "{} begins to end", "bases": "the bases of {} end", "end": "{} has ended"}
        self.add(event, words[event].format(part.text), self.line_of(event, part.class_name), one.number, {part.number: PHASES[event]}, changed)

    def line_of(self, event, name):
        """The constructor or destructor of a class, at its end for the last event; the class itself where it has none."""
        body = self.bodies.body(name, "constructor" if event in ("begin", "ready", "done") else "destructor")
        if body is None:
            return self.bodies.class_lines[name]
        return body.last_line if event in ("done", "end", "bases") else body.line

    def call(self, one, name, number, place):
        made = self.line.objects[number - 1]
        owner = name.split("::")[0]
        statement = one.statement
        if statement.qualifier:
            found = {"thunk": "called by the class's name: no table is read"}
        else:
            declaring = self.declaring(statement.receiver, statement.function)
            found = self.read_by(statement, declaring, self.rule.entry_of(declaring, statement.function), made, (name, place))
        self.add("call", f"call {name} on #{number}+{place}", statement.line, number, **found)
        self.frames.append(next((part for part in made.parts if (part.class_name, part.place) == (owner, place)), None))

    def declaring(self, name, function):
        """The class in which a function of a class is found: its own, or that of a base which no other one hides."""
        one = self.objects.classes[name]
        if any(own.name == function and own.kind == "function" for own in one.functions):
            return name
        found = {self.declaring(base.name, function) for base in one.bases} - {None}
        hidden = {other for other in found for nearer in found if nearer != other and self.has_base(nearer, other)}
        return min(found - hidden, default=None)

    def has_base(self, name, other):
        return any(base.class_name == other for base in self.objects.layouts[name].bases)

    def read_by(self, statement, owner, entry, one, target):
        """What a call of the function that a class declares reads of an object, where it runs this function with this place as `this`.

        These are the pointers that may be meant, the table and the thunk. More than one pointer is told as it is.
        """
        if entry is None:
            return {"thunk": "not virtual: no table is read"}
        found = {}
        for part in one.parts:
            led = one.pointers.get(part.place)
            word = led.table.word(entry) if led and part.class_name == owner else None
            if word and (word.names, pointers.adjusted(part.place, word, one.pointers)) == target and self.is_meant(statement, part):
                found[part.place] = (led, word)
        if not found:
            return {}
        led, word = next(iter(found.values()))
        if len(found) > 1:
            return {"places": sorted(found), "thunk": f"entry {entry} of one of these tables"}
        return {"places": list(found), "table": led.text, "thunk": f"entry {entry}: {word.text}" + (", through a thunk" if word.is_thunk else "")}

    def is_meant(self, statement, part):
        """Where the call is on `this`, the subobject is the one of the body, or a base of it."""
        around = self.frames[-1] if statement.variable == "this" and self.frames else None
        if around is None:
            return True
        return part.whole is around.whole and (part.shared or (part.path + "/").startswith(around.path + "/" if around.path else ""))

    def close(self):
        while self.is_left():
            self.finish()
