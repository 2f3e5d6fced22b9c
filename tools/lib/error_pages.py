"""Reads docs/ERRORS.md: for each answer its sentence, its section, what to do, and examples."""
import os
import re
from dataclasses import dataclass, field

from .problem import Problem
from .program import TOP

PAGE = os.path.join(TOP, "docs", "ERRORS.md")


@dataclass
class Example:
    """A source, or the command that prints one; the words that the program is given; whether it meets the answer."""

    language: str
    words: list
    text: str
    meets: bool


@dataclass
class Entry:
    code: str
    name: str
    sentence: str
    section: str
    advice: str
    examples: list = field(default_factory=list)


def entries():
    """The entries of the page, by code."""
    try:
        with open(PAGE, encoding="utf-8") as file:
            text = file.read()
    except OSError as error:
        raise Problem(f"{PAGE} cannot be read: {error.strerror}; run this tool inside the repository", 2) from None
    found = {}
    for head, body in re.findall(r"^## ([EULMAFI]\d+[^\n]*)\n(.*?)(?=^## |\Z)", text, re.S | re.M):
        entry = _entry(head.split(), body)
        found[entry.code] = entry
    return found


def _entry(head, body):
    plain = body.split("Meets it:")[0]
    paragraphs = [" ".join(part.split()) for part in plain.split("\n\n") if part.strip()]
    section = next((part[len("Section: "):] for part in paragraphs if part.startswith("Section: ")), "")
    rest = [part for part in paragraphs[1:] if not part.startswith("Section: ")]
    entry = Entry(head[0], head[1] if len(head) > 1 else "", paragraphs[0], section, " ".join(rest))
    blocks = re.findall(r"(Meets it|Does not):\n```(\w+)([^\n]*)\n(.*?)```", body, re.S)
    entry.examples = [Example(language, words.split() or ["check"], text, which == "Meets it") for which, language, words, text in blocks]
    return entry
