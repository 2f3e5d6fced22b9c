"""What may stand at a place of a source: reads the grammar of docs/LANGUAGE.md, and follows all its readings of the tokens before the place."""
import functools
import itertools
import os
import re
from collections import namedtuple

from .problem import Problem
from .program import TOP

PAGE = os.path.join(TOP, "docs", "LANGUAGE.md")
OWN = "the name of the class"  # stands in the rules of constructors and destructors, where the grammar says `name`
END = "the end of the source"
PIECE = re.compile(r'"([^"]+)"|(\w+)|([\[\]{}()|=])')
TOKEN = re.compile(r"\s+|//[^\n]*|/\*.*?\*/|(?P<token>\w+|::|==|!=|->|<=|.)", re.S)
TYPES = ["bool", "char", "short", "int", "long", "signed", "unsigned"]

Token = namedtuple("Token", "text place")
Item = namedtuple("Item", "rule form dot start")


def tokens(source):
    """The tokens of a source with their places, read without judging them."""
    return [Token(match["token"], match.start("token")) for match in TOKEN.finditer(source) if match["token"]]


@functools.cache
def page():
    try:
        with open(PAGE, encoding="utf-8") as file:
            return file.read()
    except OSError as error:
        raise Problem(f"{PAGE} cannot be read: {error.strerror}; run this tool inside the repository", 2) from None


@functools.cache
def rules():
    """The forms of each rule: lists of rules and of tokens in quotes. A group of the grammar is a rule of its own."""
    found, text = {}, re.search(r"^## The grammar\n.*?^```\n(.*?)^```", page(), re.S | re.M)[1]
    for head, body in re.findall(r"^(\w+) +=(.*?)(?=^\w|\Z)", text, re.S | re.M):
        pieces = [f'"{word}"' if word else name or sign for word, name, sign in PIECE.findall(body)]
        if head in ("ctor", "dtor"):
            pieces = [OWN if piece == "name" else piece for piece in pieces]
        found[head] = _forms(head, pieces, found)
    return found


def _forms(head, pieces, found):
    """The forms that pieces say, up to the bracket that closes them; what is in brackets becomes a rule."""
    forms = [[]]
    while pieces:
        piece = pieces.pop(0)
        if piece in "])}":
            break
        if piece == "|":
            forms.append([])
        elif piece in "[({":
            group = f"{head} {len(found)} {len(pieces)}"
            inner = _forms(head, pieces, found)
            more = {"[": [[]], "(": [], "{": [[]]}[piece]
            found[group] = more + ([[group, *form] for form in inner] if piece == "{" else inner)
            forms[-1].append(group)
        else:
            forms[-1].append(piece)
    return forms


@functools.cache
def _nullable():
    """The rules that have the empty text as a form."""
    names, grown = set(), True
    while grown:
        more = {name for name, forms in rules().items() if any(all(part in names for part in form) for form in forms)}
        grown, names = more != names, more
    return names


def expected(source, place):
    """The tokens that some source goes on with at a place; those before it are the beginning of a source."""
    front = _shortened([token.text for token in tokens(source) if token.place < place])
    sets = [_closed({Item("source", form, 0, 0) for form in range(len(rules()["source"]))}, [], 0)]
    for number, token in enumerate(front, 1):
        own = front[1] if front[0] in ("struct", "class") and len(front) > 1 else ""
        moved = {item._replace(dot=item.dot + 1) for item in sets[-1] if _stands(_next(item), token, own)}
        sets.append(_closed(moved, sets, number))
    found = {_next(item) for item in sets[-1] if _next(item) and _next(item) not in rules()}
    ended = any(item.rule == "source" and _next(item) is None and item.start == 0 for item in sets[-1])
    return {part.strip('"') if part.startswith('"') else part for part in found} | ({END} if ended else set())


def _next(item):
    form = rules()[item.rule][item.form]
    return form[item.dot] if item.dot < len(form) else None


def _stands(part, token, own):
    """Whether a part of a form is this token."""
    if part is None or part in rules():
        return False
    if part == OWN:
        return token == own
    if part == "name":
        return bool(re.match(r"[A-Za-z_]", token)) and f'"{token}"' not in _words()
    return token.isdecimal() if part == "number" else part == f'"{token}"'


@functools.cache
def vocabulary():
    """All words and signs that stand in the grammar, in their order."""
    return sorted(part.strip('"') for part in _words())


@functools.cache
def _words():
    return {part for forms in rules().values() for part in itertools.chain(*forms) if part.startswith('"')}


def _closed(items, sets, here):
    """The items with all that they foretell and complete (Earley)."""
    found, waiting = set(items), list(items)
    while waiting:
        item = waiting.pop()
        part = _next(item)
        if part is None:
            before = found if item.start == here else sets[item.start]
            more = [one._replace(dot=one.dot + 1) for one in before if _next(one) == item.rule]
        elif part in rules():
            more = [Item(part, form, 0, here) for form in range(len(rules()[part]))]
            more += [item._replace(dot=item.dot + 1)] if part in _nullable() else []
        else:
            continue
        fresh = [one for one in more if one not in found]
        found.update(fresh)
        waiting += fresh
    return found


def _shortened(words):
    """A front of a source without what is complete in it."""
    return [word for number, level in enumerate(levels(words)) for word in (["{"] if number else []) + level]


def levels(words):
    """A front of a source as the words before each open brace and behind the last one. What ends before is left out: statements, members, classes."""
    found = [[]]
    for word in words:
        if word == "{":
            found.append([])
        elif word == "}" and len(found) > 1:
            found.pop()
            found[-1] += ["{", "}"]
            in_class = len(found) == 2 and found[0][:1] in (["struct"], ["class"])
            if in_class or found[-1][:2] == ["int", "main"] and len(found) == 1:
                found[-1] = []
        elif word == ";" or word == ":" and found[-1] in (["public"], ["protected"], ["private"]):
            found[-1] = []
        else:
            found[-1].append(word)
    return found


def told(found):
    """The expected tokens as words of a sentence; the types and the constants by one name each."""
    left = set(found)
    texts = []
    for group, text in ((TYPES, "a type of numbers"), (["number", "-", "true", "false"], "a constant")):
        if left.issuperset(group):
            left -= set(group)
            texts.append(text)
    named = {"name": "a name", "number": "a number", OWN: OWN, END: END}
    texts = [named[word] for word in named if word in left] + texts
    words = sorted(word for word in left if word[0].isalpha() and word not in named)
    signs = sorted(word for word in left if not word[0].isalnum())
    texts += [f"`{word}`" for word in words + signs + sorted(word for word in left if word.isdecimal())]
    return " or ".join([", ".join(texts[:-1]), texts[-1]] if len(texts) > 1 else texts)
