"""Which construct of C++ stands at the place of a refusal, and what to write instead: the table of docs/LANGUAGE.md."""
import functools
import re
from collections import namedtuple

from . import grammar

Row = namedtuple("Row", "what refused instead")
TYPE = r"(?:bool|char|short|int|long|signed|unsigned)"
OP = r"(?:[-+*<>&|/%^=!]|==|!=|<=)"

# For a word that is left out (E21): the rows by their words.
WORDS = {
    "for": "for", "nullptr": "nullptr", "enum": "enum", "union": "union", "operator": "operator",
    **dict.fromkeys(["do", "switch", "case", "default", "break", "continue", "goto"], "do, switch, break, continue, goto"),
    **dict.fromkeys(["const", "mutable", "volatile"], "const, mutable, volatile"),
    **dict.fromkeys(["static", "inline", "friend", "explicit", "extern", "register"], "static, inline, friend, explicit, extern"),
    **dict.fromkeys(["float", "double", "wchar_t"], "float, double, wchar_t"), **dict.fromkeys(["template", "typename", "export"], "template, typename"),
    **dict.fromkeys(["namespace", "using", "typedef"], "namespace, using, typedef"), **dict.fromkeys(["throw", "try", "catch"], "throw, try, catch"),
    **dict.fromkeys(["sizeof", "alignof", "alignas"], "sizeof, alignof"), **dict.fromkeys(["const_cast", "reinterpret_cast", "auto"], "const_cast, reinterpret_cast, auto"),
}

# For a byte where no token begins (E1): the rows by the byte.
LETTERS = {"#": "a line for the preprocessor", '"': "a text or a letter in quotes", "'": "a text or a letter in quotes",
           **dict.fromkeys("/%^|?", "/, %, ^ and the like")}

# For a token that does not go on (E2), in this order: where it stands, what the statement or member has before it, what follows from it on, and the row.
# `T` stands for the words of a number's type, and `O` for an operator.
SHAPES = [
    ("any", r".*", r"(override|final)\b", "override or final"),
    ("any", r".*\)", r"= (default|delete)\b", "= default, = delete"),
    ("any", r".*", r"std ::", "std::"),
    ("any", r".*\bstd", r"::", "std::"),
    ("any", r".*\w \*", r"\*", "a pointer to a pointer"),
    ("any", r"(.*[(,] )?(\w+ )*T", r"\*", "a pointer to a number"),
    ("any", r"(.*[(,] )?(\w+ )*\w+( \*)?", r"& \w", "a reference"),
    ("any", r"(T )+\*?", r"&", "a reference"),
    ("any", r".*\]", r"\[", "an array of arrays"),
    ("top", r"int main \(", r"[^)]", "parameters of main"),
    ("top", r"", r"void \w+ ::", "a function defined outside its class"),
    ("top", r".*\w", r"::", "a function defined outside its class"),
    ("top", r"", r"void", "a free function"),
    ("top", r".*\w", r"\(", "a free function"),
    ("top", r".*\w", r"=", "a global with a value"),
    ("top", r"\w+", r"\w+ [;\[=(]", "a global object or array"),
    ("top", r".*\w", r"\[", "a global object or array"),
    ("top", r".*\}", r".*", "a `;` behind a class"),
    ("top", r"[^({]*\w", r",", "several declarators"),
    ("class", r"(T )+\w+ : \d+", r",", "several bit-fields in one declaration"),
    ("class", r"(T )*T", r":", "an unnamed bit-field"),
    ("class", r"(?!T\b)\w+( \*)? \w+", r":", "a bit-field that is no number"),
    ("class", r"[^(]*\]", r":", "an array of bit-fields"),
    ("class", r"(T )+\w+ :", r".*", "a width that is no number"),
    ("class", r"(T )+\w+ : \d+", r"(?!= )O", "a width that is no number"),
    ("class", r"", r"(struct|class)\b", "a nested class"),
    ("class", r"OWN \(", r"[^)]", "a constructor with parameters"),
    ("class", r".*\) : .*\(", r"\)", "a base or member object initialized by name"),
    ("class", r".*\) : (.*, )?\w+ \([^()]*", r".*", "an initializer that is no constant"),
    ("class", r"(\w+ )*\w+( \*)? \w+ \(.*\)", r";", "a function that is only declared"),
    ("class", r"(OWN|~ OWN|virtual ~ OWN) \( \)", r";", "a function that is only declared"),
    ("class", r".*\(.*\w", r"=", "a default argument"),
    ("class", r"(.*\()?(.*,)? ?(\w+ )*(T|\w+ \*)", r"[,)]", "an unnamed parameter"),
    ("class", r".*\((.*,)? ?\w+", r"\w+ [,)]", "an object as a parameter or result"),
    ("class", r"(virtual )?\w+ \w+", r"\(", "an object as a parameter or result"),
    ("class", r"[^(]*\w( \])?", r",", "several declarators"),
    ("class", r"[^(]*\w( \])?", r"=", "a value of a member in its class"),
    ("block", r"", r"(struct|class)\b", "a class inside a function"),
    ("block", r"", r"\{", "a block alone"),
    ("block", r".*\belse", r"if\b", "else if"),
    ("block", r"(.*\} else|if \(.*\)|while \(.*\))", r"[^{]", "a block without braces"),
    ("block", r"(if|while) \( \w+", r"(->|\.|\(|\[)", "a condition that reads a member or calls"),
    ("block", r"(if|while) \(.*", r".*", "a condition with an operator"),
    ("block", r".*\bnew", r"(T|void)", "a new number"),
    ("block", r".*\bnew \w+", r"[(\[]", "parentheses or brackets behind new"),
    ("block", r"delete( \w+)?", r"(\[|->|\.)", "delete of a member"),
    ("block", r"return( .*)?", r".*", "a value that is returned"),
    ("block", r"print \(.*", r".*", "a value that is printed"),
    ("block", r"(\w+ )?\w+", r"([-+*/%&|^<>] =|\+ \+|- -|< <|> >)", "+=, ++ and the like"),
    ("block", r"", r"(\+ \+|- -)", "+=, ++ and the like"),
    ("block", r"[^=]*-> \w+", r"([-+*] =|\+ \+|- -)", "+=, ++ and the like"),
    ("block", r".*\[", r"\w", "an index that is no number"),
    ("block", r"(T )+\w+", r"\[", "a local array"),
    ("block", r"\w+ \* \w+", r"\[", "a local array"),
    ("block", r"(.* )?[\w]+ = \w+|\w+", r"\[", "an element without a pointer before it"),
    ("block", r"[^(]*\w", r",", "several declarators"),
    ("block", r"\w+", r"\w+ [;=({,]", "a local object"),
    ("block", r"(.*= )?\w+", r"\.", "a member of an object by a dot"),
    ("block", r"(.*= )?\w+", r"\(", "a call without an object"),
    ("block", r".*-> \w+ \(.*\)", r"->", "a call of a call"),
    ("block", r".*-> (\w+ :: )?\w+ \([^)]*", r"(->|O|\(|\.|new\b|[sd]\w+_cast)", "a value that is passed"),
    ("block", r".*-> \w+( \])?", r"->", "a way through two pointers"),
    ("block", r".*-> [\w. \[\]]+ = .*", r".*", "an expression given to a member"),
    ("block", r".*= .*", r"& &", "&&"),
    ("block", r".*= \w+", r">", "> or >="),
    ("block", r".*= \( ?\w*", r".*", "parentheses around an expression"),
    ("block", r".*= .*", r"(O|->|\()", "an expression inside another"),
]


@functools.cache
def rows():
    """The rows of the table, by their first cells."""
    text = re.search(r"^## Write this instead\n(.*?)(?=^## |\Z)", grammar.page(), re.S | re.M)[1]
    cells = [[cell.strip() for cell in re.split(r"(?<!\\)\|", line)[1:-1]] for line in text.splitlines() if line.startswith("| ")]
    plain = [[cell.replace("\\|", "|") for cell in line] for line in cells[1:]]
    return {what: Row(what, _code(refused), _code(instead)) for what, refused, instead in plain}


def _code(cell):
    return cell.strip("` ")


def at(code, source, place):
    """The row of the construct at the place of an E1, E2 or E21; None where it is none of them."""
    token = re.compile(r"\w+|.|\Z", re.S).match(source, place)[0]
    if code == "E21":
        return rows().get(WORDS.get(token))
    if code == "E1":
        return rows().get(LETTERS.get(token))
    where, own, before = _around(source, place)
    after = " ".join(word.text for word in grammar.tokens(source[place:place + 400])[:12])
    for context, front, back, what in SHAPES:
        if context in ("any", where) and re.fullmatch(_filled(front, own), before) and re.match(_filled(back, own), after):
            return rows().get(what)
    return None


def _filled(shape, own):
    return re.sub(r"\bOWN\b", lambda _: re.escape(own), re.sub(r"\bT\b", lambda _: TYPE, re.sub(r"\bO\b", lambda _: OP, shape)))


def _around(source, place):
    """Whether a place stands outside the classes, in a class or in a block; the class's name; and the words before it there."""
    levels = grammar.levels([token.text for token in grammar.tokens(source) if token.place < place])
    in_class = levels[0][:1] in (["struct"], ["class"]) and len(levels) > 1
    where = "top" if len(levels) == 1 else "class" if in_class and len(levels) == 2 else "block"
    return where, levels[0][1] if in_class else "", " ".join(levels[-1])
