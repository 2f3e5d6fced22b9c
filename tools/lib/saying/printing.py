"""What a program prints: numbers as lines of their own, all else by a template of a table, of which the line names the number.

A template stands in the source as a comment: `// #1+3 "sum %d\\n"`. The line `#1+3` of a run stands for it, and the lines behind
it fill its holes. A number that is printed with a line end behind it, and nothing else, needs no template.
"""
import json
import re

from . import tree
from .numbers import CASTS
from .refusal import CannotSay

HOLE = re.compile(r"%([-+ #0]*)(\d*)(?:\.(\d+))?(hh|h|ll|l|z)?([a-zA-Z%])")
WIDTHS = {"hh": 8, "h": 16, "": 32, "l": 64, "ll": 64, "z": 64}
STREAMED = {"bool": "%d", "char": "%c", "signed char": "%c", "unsigned char": "%c"}


def text_value(literal):
    """The text of a literal as clang writes it."""
    body = literal[literal.index('"') + 1:literal.rindex('"')]
    simple = {"n": "\n", "t": "\t", "r": "\r", "0": "\0", "a": "\a", "b": "\b", "f": "\f", "v": "\v"}

    def one(found):
        word = found[1]
        if word[0] == "x":
            return chr(int(word[1:], 16))
        return chr(int(word, 8)) if word[0] in "01234567" else simple.get(word, word)

    return re.sub(r"\\(x[0-9a-fA-F]+|[0-7]{1,3}|.)", one, body, flags=re.S)


class Printing:
    """The table of templates of one program."""

    def __init__(self):
        self.rows = []
        self.numbers = {}

    def number(self, row):
        if row not in self.numbers:
            self.numbers[row] = len(self.rows)
            self.rows.append(row)
        return self.numbers[row]

    def comments(self):
        """The table as lines: the number of a template, a word where it is no text of the output, and the text."""
        said = [([] if row[0] == "text" else [row[0]]) + [json.dumps(part) for part in row[1:]] for row in self.rows]
        return [f"// #1+{number} {' '.join(words)}" for number, words in enumerate(said)]

    def value_of(self, node):
        if node["kind"] != "StringLiteral":
            raise CannotSay(node, "a text that is no literal", "the language has no texts")
        return text_value(node["value"])

    def literal(self, node):
        return self.number(("text", self.value_of(node).replace("%", "%%")))

    def template(self, body, row, operands, is_number=False):
        """Prints a template and what fills its holes; one that is a number as it stands, and a line end, needs no template."""
        if is_number:
            body.put(f"print({operands[0]});")
            return
        mark = body.temporary(body.program.names.text() + "*")
        body.put(f"{mark} = &{body.program.names.texts}->e[{self.number(row)}];")
        body.put(f"print({mark});")
        for operand in operands:
            body.put(f"print({operand});")

    def printf(self, body, node, arguments):
        """`printf` with a literal as its format."""
        said = tree.bare(arguments[0])
        while said["kind"] in CASTS:
            said = tree.bare(tree.parts(said)[-1])
        text = self.value_of(said)
        holes = [found for found in HOLE.finditer(text) if found[5] != "%"]
        if len(holes) != len(arguments) - 1:
            raise CannotSay(node, "printf", "its format does not fit the number of its arguments")
        operands = [body.steady(self.filled(body, hole, given), given, arguments[at + 2:]) for at, (hole, given) in enumerate(zip(holes, arguments[1:]))]
        is_number = len(holes) == 1 and re.fullmatch(r"%(?:hh|h|ll|l|z)?[dui]\n", text) is not None and keeps(holes[0], body.shape(arguments[1]))
        self.template(body, ("text", text), operands, is_number)
        return ""

    def filled(self, body, hole, given):
        """The operand for one hole of a format."""
        shape = body.shape(given)
        if hole[5] in "diuxXoc" and shape.sort == "number" and not shape.floating:
            return self.typed(body, given, shape)
        if hole[5] == "s" and shape.sort == "text":
            return body.named(body.operand(given), shape.word)
        raise CannotSay(given, f"printf of {hole[0]}", f"a value of the type {tree.type_of(given)} cannot be printed so")

    def typed(self, body, given, shape):
        text = body.operand(given)
        value = body.constant(given)
        if value is not None and text != str(value):
            name = body.temporary(shape.word)
            body.put(f"{name} = {text};")
            return name
        return text

    def puts(self, body, node, arguments):
        said = tree.bare(arguments[0])
        while said["kind"] in CASTS:
            said = tree.bare(tree.parts(said)[-1])
        if said["kind"] == "StringLiteral":
            self.template(body, ("text", self.value_of(said).replace("%", "%%") + "\n"), [])
        else:
            self.template(body, ("text", "%s\n"), [body.named(body.operand(arguments[0]), body.word(arguments[0]))])
        return ""

    def putchar(self, body, node, arguments):
        self.template(body, ("text", "%c"), [body.operand(arguments[0])])
        return ""

    # std::cout

    def stream(self, body, node, wanted):
        """A chain of `<<`: each part is said in its turn, and neighbours that call nothing make one template."""
        links = []
        while node["kind"] in ("CXXOperatorCallExpr", "CXXMemberCallExpr") and body.known_name(node) in ("operator<<", "flush"):
            _, *operands = tree.parts(node)
            if node["kind"] == "CXXMemberCallExpr":
                raise CannotSay(node, "a call of a member of a stream", "the language prints by statements of its own")
            links.append(operands[1])
            node = tree.bare(operands[0])
        standard = node["kind"] == "DeclRefExpr" and node["referencedDecl"].get("name") in ("cout", "cerr", "clog")
        target = body.address(node) if wanted or not standard else ""
        aside = standard and node["referencedDecl"]["name"] != "cout"
        text, filled = "", []
        for link in reversed(links):
            if filled and not is_calm(link):
                self.streamed(body, text, filled, aside)
                text, filled = "", []
            piece, operands = self.piece(body, link)
            text, filled = text + piece, filled + operands
        self.streamed(body, text, filled, aside)
        return target

    def streamed(self, body, text, filled, aside):
        if text:
            self.template(body, ("aside" if aside else "text", text), filled, not aside and text in ("%d\n", "%ld\n", "%lu\n"))

    def piece(self, body, link):
        """The template and the operands of one thing that is put into a stream."""
        node = tree.bare(link)
        while node["kind"] in CASTS and node["castKind"] in ("ArrayToPointerDecay", "FunctionToPointerDecay", "NoOp"):
            node = tree.bare(tree.parts(node)[-1])
        if node["kind"] == "StringLiteral":
            return self.value_of(node).replace("%", "%%"), []
        if node["kind"] == "DeclRefExpr" and node["referencedDecl"]["kind"] in tree.FUNCTIONS:
            return {"endl": "\n", "flush": ""}[node["referencedDecl"]["name"]], []
        shape = body.shape(node)
        if shape.sort == "text":
            return "%s", [body.named(body.operand(node), shape.word)]
        if shape.sort != "number" or shape.floating:
            raise CannotSay(link, f"<< of a value of the type {tree.type_of(link)}", "numbers, characters and literals alone can be printed")
        return STREAMED.get(shape.word, "%ld" if shape.signed else "%lu"), [self.typed(body, link, shape)]


def keeps(hole, shape):
    """Whether a conversion of `printf` writes each value of a type as it is: `%u` does not for an int, nor `%d` for a long."""
    signed, width = hole[5] in "di", WIDTHS[hole[4] or ""]
    return shape.bits <= width if shape.signed == signed else signed and shape.bits < width


def is_calm(node):
    """Whether an expression calls nothing and changes nothing."""
    return not any(one.get("kind") in ("CallExpr", "CXXMemberCallExpr", "CXXOperatorCallExpr", "CXXConstructExpr", "CXXNewExpr", "CompoundAssignOperator") or
                   one.get("opcode") in ("=", "++", "--") for one in tree.within(node))
