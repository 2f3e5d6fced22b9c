"""The bodies of a source: each statement with its place, its line, and what it calls, makes or ends.

It reads sources that the program takes, so that it looks no further than it has to.
"""
from dataclasses import dataclass, field

from .source import SCALAR_WORDS, TOKEN


@dataclass
class Statement:
    """Kind: begin and end for the braces of a body; new, delete, call, print, dump, return, if, while or other.

    `made` is the class of a `new`. `receiver` is the class of the pointer of a call or a `delete`, and `variable` its name.
    """

    number: int
    kind: str
    at: int
    line: int
    text: str
    body: object
    made: str = ""
    receiver: str = ""
    variable: str = ""
    function: str = ""
    qualifier: str = ""


@dataclass
class Body:
    """Kind: constructor, destructor, function or main; the line is that of its name, and the last one that of its closing brace."""

    owner: str
    name: str
    kind: str
    line: int
    last_line: int = 0
    statements: list = field(default_factory=list)


@dataclass
class Bodies:
    bodies: list = field(default_factory=list)
    statements: list = field(default_factory=list)
    class_lines: dict = field(default_factory=dict)

    def body(self, owner, kind, name=None):
        return next((one for one in self.bodies if one.owner == owner and one.kind == kind and name in (None, one.name)), None)


def read(text):
    """The bodies of a source, in its order."""
    reader = _Reader(text)
    reader.globals = reader.all_globals()
    while reader.ahead():
        reader.item()
    return reader.found


class _Reader:
    def __init__(self, text):
        self.text = text
        self.tokens = [(match["token"], match.start("token")) for match in TOKEN.finditer(text) if match["token"]]
        self.ends = [at for at, letter in enumerate(text) if letter == "\n"]
        self.at = 0
        self.scopes = []
        self.globals = {}
        self.found = Bodies()
        self.body = None

    def ahead(self, steps=0):
        return self.tokens[self.at + steps][0] if self.at + steps < len(self.tokens) else ""

    def place(self):
        return self.tokens[self.at][1]

    def line(self, at):
        low, high = 0, len(self.ends)
        while low < high:
            middle = (low + high) // 2
            low, high = (middle + 1, high) if self.ends[middle] < at else (low, middle)
        return low + 1

    def take(self):
        self.at += 1
        return self.tokens[self.at - 1][0]

    def skip(self, wanted):
        if self.ahead() == wanted:
            self.at += 1
            return True
        return False

    def past(self, end):
        """The tokens up to the one that is asked for, at this depth of parentheses, which is passed over."""
        taken, depth = [], 0
        while depth or self.ahead() != end:
            token = self.take()
            depth += {"(": 1, ")": -1}.get(token, 0)
            taken.append(token)
        self.take()
        return taken

    def all_globals(self):
        """The pointers outside of all braces: they are seen in each body, also before their line."""
        found, depth = {}, 0
        for number, (token, _) in enumerate(self.tokens):
            depth += {"{": 1, "}": -1}.get(token, 0)
            after = [one for one, _ in self.tokens[number + 1:number + 4]]
            if depth == 0 and after[:1] == ["*"] and after[2:] == [";"]:
                found[after[1]] = token
        return found

    def item(self):
        if self.ahead() in ("struct", "class"):
            self.one_class()
        elif self.ahead(1) == "main":
            self.function("")
        else:
            self.past(";")

    def one_class(self):
        line = self.line(self.place())
        self.take()
        name = self.take()
        if self.skip(";"):
            return
        self.found.class_lines[name] = line
        while self.take() != "{":
            pass
        while not self.skip("}"):
            if self.ahead(1) == ":" and self.ahead() in ("public", "protected", "private"):
                self.at += 2
            elif self.is_field():
                self.past(";")
            else:
                self.function(name)
        self.take()

    def is_field(self):
        steps = 0
        while self.ahead(steps) not in (";", "("):
            steps += 1
        return self.ahead(steps) == ";"

    def function(self, owner):
        front = []
        while self.ahead() != "(":
            front.append(self.ahead())
            self.take()
        at = self.tokens[self.at - 1][1]
        self.take()
        parameters = _pointers(" ".join(self.past(")")))
        kind = "main" if not owner else "destructor" if "~" in front else "constructor" if front == [owner] else "function"
        while self.ahead() not in ("{", ";"):
            self.take()
        if self.skip(";"):
            return
        self.body = Body(owner, ("~" if kind == "destructor" else "") + front[-1], kind, self.line(at))
        self.found.bodies.append(self.body)
        self.scopes = [parameters]
        self.block(True)

    def block(self, outermost=False):
        if outermost:
            self.add("begin", self.place(), "")
        self.take()
        self.scopes.append({})
        while self.ahead() != "}":
            self.statement()
        self.scopes.pop()
        if outermost:
            self.body.last_line = self.line(self.place())
            self.add("end", self.place(), "")
        self.take()

    def add(self, kind, at, text, **more):
        one = Statement(len(self.found.statements), kind, at, self.line(at), text, self.body, **more)
        self.found.statements.append(one)
        self.body.statements.append(one)

    def statement(self):
        at = self.place()
        if self.ahead() in ("if", "while"):
            kind = self.take()
            self.take()
            self.add(kind, at, f"{kind} ({' '.join(self.past(')'))})")
            self.block()
            if kind == "if" and self.skip("else"):
                self.block()
            return
        words = self.past(";")
        self.declare(words)
        self.add(at=at, text=self.text[at:self.tokens[self.at - 1][1] + 1], **self.told(words))

    def declare(self, words):
        if len(words) > 2 and words[1] == "*" and words[0] != "return":
            self.scopes[-1][words[2]] = words[0]

    def class_of(self, variable):
        if variable == "this":
            return self.body.owner
        for scope in reversed(self.scopes):
            if variable in scope:
                return scope[variable]
        return self.globals.get(variable, "")

    def told(self, words):
        """What a statement without blocks does, as arguments of `Statement`."""
        if words[0] in ("print", "dump", "return"):
            return {"kind": words[0]}
        if words[0] == "delete":
            return {"kind": "delete", "receiver": self.class_of(words[1]), "variable": words[1]}
        if "new" in words:
            return {"kind": "new", "made": words[-1]}
        if words[-1] == ")" and "->" in words and "(" in words[words.index("->"):]:
            arrow = words.index("->")
            is_qualified = words[arrow + 2] == "::"
            return {"kind": "call", "receiver": self.class_of(words[arrow - 1]), "variable": words[arrow - 1],
                    "function": words[arrow + (3 if is_qualified else 1)], "qualifier": words[arrow + 1] if is_qualified else ""}
        return {"kind": "other"}


def _pointers(text):
    """The parameters that point to a class, by name."""
    found = {}
    for one in text.split(","):
        words = one.split()
        if len(words) == 3 and words[1] == "*" and words[0] not in SCALAR_WORDS:
            found[words[2]] = words[0]
    return found
