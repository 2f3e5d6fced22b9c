"""One name for each virtual function of C++: functions that override each other have one name, overloads have several."""
import re

from . import clang
from .cpp_tree import spelled

OPERATORS = {
    "()": "call", "[]": "index", "==": "equal", "!=": "not_equal", "<": "less", ">": "greater", "<=": "less_equal", ">=": "greater_equal", "+": "plus", "-": "minus",
    "*": "times", "/": "divide", "=": "assign", "->": "arrow", "!": "not", "++": "increment", "--": "decrement", "<<": "left", ">>": "right", "+=": "add", "-=": "subtract",
    ",": "comma", "&": "and", "|": "or", "%": "modulo", "~": "complement",
}


class Functions:
    """The signatures of the methods of a source. A signature is the name, the parameters and the qualifiers, by the mangled name."""

    def __init__(self, records):
        mangled = sorted({method.mangled for record in records for method in record.methods if method.mangled})
        output, _, _ = clang.call(["c++filt"], "\n".join(mangled) + "\n") if mangled else ("", "", True)
        # a mark of the library's version is no part of a name that overrides another
        self.plain = dict(zip(mangled, re.sub(r"\[abi:\w+\]", "", output).splitlines()))
        self.names = {}
        self.taken = {}
        self.known = {}
        self.parameters = {}
        self.results = {}

    def signature(self, method):
        """The text of the demangled name behind the class."""
        if id(method) not in self.known:
            self.known[id(method)] = self.found_signature(method)
        return self.known[id(method)]

    def found_signature(self, method):
        text = self.plain.get(method.mangled, method.mangled or method.name + method.type)
        at = text.find("::" + method.name + "(")
        if at < 0:
            at = text.find("::operator ")
        if text.startswith("_Z"):  # c++filt takes no letters beyond ASCII
            return spelled(method.name + method.type)
        return spelled(text[at + 2:]) if at >= 0 else spelled(text)

    def word(self, method):
        """The name in our language: the function's own, with a number behind it for another signature of that name."""
        signature = self.signature(method)
        if signature not in self.names:
            word = plain_word(method.name)
            self.taken[word] = self.taken.get(word, 0) + 1
            count = self.taken[word]
            self.names[signature] = word if count == 1 else f"{word}_{count}"
        return self.names[signature]


def plain_word(name):
    """A name that the grammar takes, for a function, an operator or a conversion."""
    if name.startswith("operator") and not re.match(r"\w", name[8:9] or "x"):
        rest = name[8:].strip()
        return "operator_" + OPERATORS.get(rest, re.sub(r"\W+", "_", rest, flags=re.ASCII).strip("_") or "other")
    return safe(re.sub(r"\W+", "_", name, flags=re.ASCII).strip("_"))


# The words of our language, and those of C++ that it leaves out: none of them is a name.
RESERVED = set("""struct class public protected private virtual bool char short int long signed unsigned void return new delete if else while this true false
static_cast dynamic_cast typeid main print dump alignas alignof asm auto break case catch const const_cast continue default do double enum explicit export extern
float for friend goto inline mutable namespace nullptr operator register reinterpret_cast sizeof static switch template throw try typedef typename union using
volatile wchar_t""".split())


def safe(word):
    """A word that is a name: not a word of the language, at most 200 bytes, and not empty."""
    word = word[:200] or "unnamed"
    return word + "_" if word in RESERVED or word[0].isdigit() else word


def virtual_signatures(records, bases_of, functions):
    """The signatures that are virtual in each class, its own or its bases', by the name of the class."""
    found = {}

    def of(record):
        if record.name not in found:
            found[record.name] = set()
            for base in bases_of(record):
                found[record.name] |= of(base)
            for method in record.methods:
                if method.virtual:
                    found[record.name].add(functions.signature(method))
        return found[record.name]

    for record in records:
        of(record)
    return found
