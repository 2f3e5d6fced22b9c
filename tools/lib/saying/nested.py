"""Writes a random program of our language again as C++ with nested expressions, so that it can be said again."""
import re

from .. import problem
from . import runs, source
from .refusal import CannotSay

AT_ONCE = 20
FLAGS = ["-std=gnu++98", "-fno-access-control"]
HEAD = "#include <cstdio>\n#include <typeinfo>\n"
POINTER = re.compile(r"(K\d+)\* (\w+) = (.*);")
NUMBER = re.compile(r"(long|bool) (\w+) = (.*);")


class Nesting:
    """One program at work. `known` has the expressions of variables that are written where they are used."""

    def __init__(self, source):
        self.lines = source.splitlines()
        self.classes = re.findall(r"^struct (K\d+)", source, re.M)
        self.known, self.kinds = {}, {}

    def text(self):
        """The program, with its `main` as a function `run`; functions of classes stand behind all classes, where each class is complete."""
        classes, bodies, name, depth = [], [], "", 0
        for one in self.lines:
            line, outside = self.line(one), depth == 0
            if re.match(r"struct K\d+", one):
                name = re.match(r"struct (K\d+)", one)[1]
                classes.append(line)
            elif one == "};" and outside:
                classes.append(line)
                name = ""
            elif name and outside and one.endswith("{"):
                classes.append(re.sub(r"\) ?(?::.*)?\{$", ");", line))
                bodies.append(re.sub(r"(~?\w+\(\))", rf"{name}::\1", line.replace("virtual ", ""), count=1))
                depth = 1
            else:
                (classes if name and outside else bodies).append(line)
                depth += line_depth(one) if name else 0
        return "".join(line + "\n" for line in classes + bodies if line)

    def inside(self, text):
        """An expression with what its variables stand for."""
        return re.sub(r"\bv\d+\w*\b", lambda found: self.known.get(found[0], found[0]), text)

    def line(self, line):
        pointer, number = POINTER.fullmatch(line), NUMBER.fullmatch(line)
        if line.startswith(("int main()", "struct ", "virtual ", "~", "K")) and line.endswith("{"):
            self.known, self.kinds = {}, {}
            return line.replace("int main()", "int run()")
        if pointer and not pointer[3].startswith("new ") and not pointer[3].endswith("->g()"):
            self.known[pointer[2]] = f"static_cast<{pointer[1]} *>({self.inside(pointer[3])})"
            return ""
        if number:
            self.kinds[number[2]] = "%ld" if number[1] == "long" else "%d"
            self.known[number[2]] = f"static_cast<long>({self.inside(number[3])})" if number[1] == "long" else f"({self.inside(number[3])})"
            return ""
        printed = re.fullmatch(r"print\((.*)\);", line)
        return self.printed(printed[1]) if printed else self.inside(line)

    def printed(self, what):
        """A `print` as a `printf`: the name of a class by a chain of conditions."""
        asked = re.fullmatch(r"typeid\(\*(\w+)\)", what)
        if asked:
            pointer = self.inside(asked[1])
            chain = "".join(f"typeid(*{pointer}) == typeid({name}) ? {name[1:]} : " for name in self.classes)
            return f'printf("K%d\\n", {chain}-1);'
        return f'printf("{self.kinds.get(what, "%d")}\\n", {self.inside(what)});'


def line_depth(line):
    """How many blocks a line opens, or closes below zero."""
    return line.endswith("{") - (line == "}" or line.startswith("} else"))


def together(programs):
    """Programs by their names as one of C++, which runs one after the other."""
    parts = [f"namespace {name} {{\n{with_end(Nesting(source).text())}}}\n" for name, source in programs]
    return HEAD + "".join(parts) + "int main() {\n" + "".join(f"    {name}::run();\n" for name, _ in programs) + "}\n"


def printed(programs):
    """What programs print one after the other, written as nested C++, said and run."""
    ran = runs.run(source.said(together(programs), FLAGS))
    return ran.why or ran.output.text


def each(programs, wanted):
    """For each program, by its name and source, what it prints when it is said again, and whether that is why it cannot be said.

    They are said as one program. Where that prints something else than all of what is wanted, or cannot be said, or has no room, each half is tried.
    """
    try:
        text, refused = printed(programs), False
    except problem.Problem as error:
        text, refused = told(error), True
    if text == "".join(wanted) and not refused:
        return [(one, False) for one in wanted]
    if len(programs) == 1:
        return [(text, refused)]
    half = len(programs) // 2
    return each(programs[:half], wanted[:half]) + each(programs[half:], wanted[half:])


def told(error):
    """Why a program cannot be said, as compilers tell an error; without its place, which is none of the program's own."""
    return f"error: {error.construct}: {error.reason}" if isinstance(error, CannotSay) else f"error: {error}"


def with_end(text):
    """The text whose `run`, which stands last, returns 0."""
    return text.rstrip()[:-1] + "return 0;\n}\n"
