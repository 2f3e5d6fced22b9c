"""Commands for gdb: objects of a stopped process or of a core file, by the layouts and tables of this workbench.

    gdb -x tools/gdb/tagymelur.py ./program        or, in gdb:  source tools/gdb/tagymelur.py

    tagymelur dump EXPRESSION      the object as the text of a dump, with its classes behind it: the input of `inspect`
    tagymelur inspect EXPRESSION   the value of each field, named by the program
    tagymelur vptr EXPRESSION      which table of which group each virtual pointer leads to
    set tagymelur-source FILE      take the classes from this source, which tools/from-cpp made, and not from the debug information

docs/DEBUGGING.md has an example of each.
"""
import os
import sys

import gdb

sys.path.insert(0, os.path.join(os.path.dirname(os.path.abspath(__file__)), ".."))
from lib import debugged, dumps, listing, problem, program  # noqa: E402

SOURCE = "tagymelur-source"


class SourceFile(gdb.Parameter):
    """The source whose classes `tagymelur` takes, as tools/from-cpp makes it; without one they are said by the debug information."""

    set_doc = "Set the source whose classes `tagymelur` takes."
    show_doc = "Show the source whose classes `tagymelur` takes."

    def __init__(self):
        super().__init__(SOURCE, gdb.COMMAND_DATA, gdb.PARAM_OPTIONAL_FILENAME)

    def get_set_string(self):
        return ""

    def get_show_string(self, value):
        return f"the classes are those of {value}" if value else "the classes are said by the debug information"


class Tagymelur(gdb.Command):
    """Objects by the layouts of the Itanium C++ ABI: tagymelur dump, inspect or vptr, and an expression."""

    def __init__(self):
        super().__init__("tagymelur", gdb.COMMAND_DATA, prefix=True)


class Asking(gdb.Command):
    """A command with one expression. What the user can mend ends in a sentence."""

    def __init__(self):
        super().__init__(f"tagymelur {self.word}", gdb.COMMAND_DATA, gdb.COMPLETE_EXPRESSION)

    def invoke(self, argument, from_tty):
        if not argument.strip():
            raise gdb.GdbError(f"tagymelur {self.word} needs an expression: an object, or a pointer or reference to one")
        try:
            self.answer(debugged.Object(argument, gdb.parameter(SOURCE)))
        except problem.Problem as found:
            raise gdb.GdbError(f"tagymelur: {found}") from None
        except (gdb.error, OSError, RecursionError) as error:
            raise gdb.GdbError(f"tagymelur: {argument}: {error}") from None


def dumped(one):
    """The text of a dump of an object, and the sentences on what no text of one can say."""
    values = dumps.Values(one.content, one.start)
    text = dumps.text(1, one.name, one.layout.size, one.leaves(), values.of)
    targets = [f"#{number} is {address:#x}{debugged.shown(address)}" for address, number in values.targets.items()]
    return text, [*one.notes, *values.odd, *one.states()], targets


class Dump(Asking):
    """Write an object as the text of a dump, with its classes behind it: the input of `inspect`."""

    word = "dump"

    def answer(self, one):
        text, notes, targets = dumped(one)
        gdb.write(text + listing.PROGRAM + "\n" + "".join(f"// {line}\n" for line in [f"#1 is {one.start:#x}", *targets, *notes]) + one.classes.text)


class Inspect(Asking):
    """Name the value of each field of an object, by the program."""

    word = "inspect"

    def answer(self, one):
        text, notes, targets = dumped(one)
        answer = program.text_of(["inspect"], listing.with_program(text, one.classes.text))
        gdb.write(answer + "".join(f"{line}\n" for line in [f"#1 is {one.start:#x}", *targets, *notes]))


class Vptr(Asking):
    """Say which table of which group each virtual pointer of an object leads to."""

    word = "vptr"

    def answer(self, one):
        lines = [f"object at {one.start:#x} class {one.name}"]
        count = 0
        for leaf, led, (text, table) in one.pointers():
            count += 1
            lines.append(f"{leaf.place} vptr {text}: {led.symbol}" if text else f"{leaf.place} vptr {led.address:#x}")
            lines += [f"  {words}" for words in one.words_apart(led, table)] if table else []
        gdb.write("".join(f"{line}\n" for line in [*lines, *(["it has no virtual pointer"] if not count else []), *one.notes, *one.states()]))


SourceFile()
Tagymelur()
Dump()
Inspect()
Vptr()
