"""Writes the statements of one function of our language: lines with the places from which they come, blocks, and temporaries."""
import re

from .names import Scope

OPERAND = re.compile(r"-?\d+|\w+")


def is_operand(text):
    return re.fullmatch(OPERAND, text) is not None


class Lines:
    """The lines of a body. A temporary is free again behind the statement of C++ that took it."""

    def __init__(self, program):
        self.program = program
        self.lines = []
        self.place_now = None
        self.depth = 1
        self.scope = Scope(program.names.globals.taken)
        self.free, self.taken, self.declared = {}, [], []

    def put(self, text):
        self.lines.append(("  " * self.depth + text, self.place_now))

    def open(self, text):
        self.put(text + " {")
        self.depth += 1

    def close(self, text="}"):
        self.depth -= 1
        self.put(text)

    def temporary(self, word):
        """A variable of a type, free again at `release`."""
        if self.free.get(word):
            name = self.free[word].pop()
        else:
            name = self.fresh()
            self.declared.append((word, name))
        self.taken.append((word, name))
        return name

    def fresh(self):
        """A name that no variable of the program has."""
        name = self.scope.new("t")
        while name in self.program.names.words:
            name = self.scope.new("t")
        return name

    def kept(self, word):
        """A variable of a type for the rest of the body."""
        name = self.fresh()
        self.declared.append((word, name))
        return name

    def release(self, count):
        """Gives back the temporaries that were taken behind so many."""
        while len(self.taken) > count:
            word, name = self.taken.pop()
            self.free.setdefault(word, []).append(name)

    def hold(self, text, word):
        """An operand with the value of a right side."""
        if is_operand(text):
            return text
        name = self.temporary(word)
        self.put(f"{name} = {text};")
        return name

    def text(self):
        """The declarations of temporaries, and the lines."""
        first = self.lines[0][1] if self.lines else None
        return [(f"  {word} {name};", first) for word, name in self.declared] + self.lines
