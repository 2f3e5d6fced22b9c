"""The commands of the program as tools/fuzz tries them: their words, what comes on standard input, and the form of their lines.

A command of the program is one line of `COMMANDS`. One that the tried program does not have is left out, and tools/fuzz says so.
"""
import re
from collections import namedtuple

from . import changes

SOURCE, LISTING, DUMP, NOTHING = "a source", "a listing and a source", "a dump and a source", "nothing"

Command = namedtuple("Command", "name words takes form")

NAME = r"[A-Za-z_][A-Za-z0-9_]{0,254}"
PATH = rf"\*?{NAME}(?:/{NAME})*"
TYPE = rf"(?:{NAME} )*{NAME}\*?(?:\[\d+\])?"
ELEMENT = rf"(?:{PATH}::)?{NAME}(?:\[\d+\])?"
PLACE = rf"{ELEMENT}(?:\.{ELEMENT})*"
TABLE = rf"{NAME}@\d+"
GROUP = rf"(?:{TABLE} in )?{NAME}"
POINTER = r"(?:null|#\d+\+\d+)"
FUNCTION = rf"{NAME}::~?{NAME}"

LAYOUT = "|".join([rf"class {NAME} size \d+ align \d+ dsize \d+ nvsize \d+ nvalign \d+", rf"primary (?:none|(?:virtual )?{NAME})", rf"\d+ base {PATH}",
                   rf"\d+ field {TYPE} {NAME}", rf"\d+ bits [0-7] \d+ {TYPE} {NAME}"])
TABLES = "|".join([rf"group {GROUP}", rf"table {TABLE}", rf"vtt {NAME} \d+", rf"\d+ {TABLE} of {GROUP}", rf"-\d+ v(?:base|call) -?\d+ (?:{FUNCTION}|{NAME})",
                   r"-2 top -?\d+", rf"-1 typeinfo {NAME}", rf"\d+ (?:unused|(?:pure|func|complete|deleting) {FUNCTION}(?: this -?\d+(?: vcall -?\d+)?)?(?: return (?:vbase -?\d+ )?-?\d+)?)",
                   rf"typeinfo {NAME} (?:class|si {NAME}|vmi flags [0-3] bases \d+)", rf"base {NAME} -?\d+"])
DUMPED = "|".join([rf"dump #\d+ {NAME} \d+", rf"\d+ vptr {TABLE} of {NAME}", rf"\d+ (?:(?:--|[0-9a-f]{{2}})+|{POINTER}) {TYPE} {PLACE}", rf"\d+ bits [0-7] \d+ (?:--|-?\d+) {TYPE} {PLACE}",
                   r"\d+ pad \d+"])
TOLD = rf"-?\d+|{POINTER}|{NAME}|{DUMPED}"
TRACED = rf"{TOLD}|call {FUNCTION} #\d+\+\d+|(?:built|ending) {NAME} #\d+\+\d+"
ELEMENTS = r"region \d+|cookie \d+|count [0-9a-f]{16}|(?:element|end) \d+ at \d+"
MEMBERS = rf"data \d+|bytes [0-9a-f]{{16}}|function (?:virtual \d+|code {FUNCTION}) adj \d+|calls {FUNCTION} at \d+|pure {FUNCTION}(?: at \d+)?"
INSPECTED = rf"object \d+ class {NAME}|{PLACE} (?:unset|-?\d+|{POINTER})"

CLASS, MEMBER, WORD = re.compile(rf"\b(?:struct|class) ({NAME})"), re.compile(rf"\b({NAME})[;(\[]"), re.compile(rf"\b{NAME}")
STEPS = ["1", "2", "3", "10", "37", "200", "1000", "20000"]


def alone(name):
    """The command without any further word."""
    return lambda random, text: [name]


def of_class(name):
    """The command, of all classes or of one of the text."""
    return lambda random, text: [name, class_in(random, text)] if random.random() < 0.3 else [name]


def with_steps(name, *more):
    """The command with a number of steps, or with the usual one."""
    return lambda random, text: shuffled(random, [name], list(more), ["--steps", random.choice(STEPS)] if random.random() < 0.9 else [])


def of_number(name):
    """The command and how many classes it makes."""
    return lambda random, text: [name, str(random.choice([1, 2, 3, 10, random.randrange(1, 60), 1000 if random.random() < 0.02 else 5]))]


def of_elements(name):
    """The command, and a class with a number of elements."""
    return lambda random, text: [name, f"{class_in(random, text)}@{random.choice([1, 2, 3, random.randrange(1, 4097), 4096])}"]


def of_member(name):
    """The command, and a member of a class, in that class or in one that is derived."""
    def words(random, text):
        found = changes.near(random, text, MEMBER)
        member = f"{class_in(random, text)}::{found[1] if found and random.random() < 0.8 else name_in(random, text)}"
        return [name, f"{member}@{class_in(random, text)}" if random.random() < 0.5 else member]
    return words


def class_in(random, text):
    """A name that stands where a class is named, if there is one; now and then another name."""
    found = changes.near(random, text, CLASS)
    return found[1] if found and random.random() < 0.9 else name_in(random, text)


def name_in(random, text):
    """A name or word of the text, if it has one."""
    found = changes.near(random, text, WORD)
    return found[0] if found else "A"


def shuffled(random, *parts):
    """The words of all parts, which come in any order."""
    chosen = list(parts)
    random.shuffle(chosen)
    return [word for part in chosen for word in part]


COMMANDS = [Command(name, words, takes, re.compile(line)) for name, words, takes, line in [
    ("check", alone("check"), SOURCE, r"\d+ classes"),
    ("layout", of_class("layout"), SOURCE, LAYOUT),
    ("tables", of_class("tables"), SOURCE, TABLES),
    ("run", with_steps("run"), SOURCE, TOLD),
    ("run --trace", with_steps("run", "--trace"), SOURCE, TRACED),
    ("paths", with_steps("paths"), SOURCE, TOLD),
    ("gen", of_number("gen"), NOTHING, r"(?:classes|steps|lines|last) \d+"),
    ("array", of_elements("array"), SOURCE, ELEMENTS),
    ("memptr", of_member("memptr"), SOURCE, MEMBERS),
    ("foreign", with_steps("foreign"), LISTING, TOLD),
    ("inspect", alone("inspect"), DUMP, INSPECTED),
]]
