# Runs inside gdb, on a program that tools/tests/pointers.cc is linked with. At each call of print(int) it tells to which table each virtual
# pointer of the object leads: a line with the number, then for each place the symbol, the word before the type information, the class of the
# type information, and the functions of so many entries. PLACES has words `place:entries`.
import os

import gdb

PLACES = [tuple(map(int, word.split(":"))) for word in os.environ["PLACES"].split()]


def word(address):
    return int.from_bytes(gdb.selected_inferior().read_memory(address, 8).tobytes(), "little", signed=True)


def symbol(address):
    """The name of what lies at an address, without the distance and the section."""
    said = gdb.execute(f"info symbol {address & (2 ** 64 - 1)}", to_string=True).strip()
    return said.split(" in section ")[0].split(" + ")[0]


def told(start, place, entries):
    point = word(start + place)
    if point == 0:
        return "0"
    functions = [symbol(word(point + 8 * number)) for number in range(entries)]
    return "|".join([symbol(point), str(word(point - 16)), symbol(word(point - 8)), *functions])


class Print(gdb.Breakpoint):
    def stop(self):
        start = int(gdb.parse_and_eval("(long)object"))
        number = int(gdb.parse_and_eval("number"))
        print("at", number, *(told(start, place, entries) for place, entries in PLACES), sep="\t")
        return False


gdb.execute("set pagination off")
Print("print(int)")
gdb.execute("run")
