"""What tools/timings runs by interpreters: the loops of the runs in their own languages, and what is wanted of our machines beside them."""
import shutil
from dataclasses import dataclass

TURNS = 5_000_000
LUA = {
    "loop": "",
    "calls": "local m = o:f(n) ",
    "news": "local p = setmetatable({x = 1}, C) ",
}
PYTHON = {"loop": "", "calls": "m = o.f(n)", "news": "p = C()"}


@dataclass
class Wanted:
    """A row of the runs, the interpreters' loop beside it, and which part of Lua's rate is wanted of it."""

    row: str
    loop: str
    part: int


WANTED = [Wanted("run-loop", "loop", 4), Wanted("run-calls", "calls", 4), Wanted("run-thunks", "calls", 4), Wanted("run-shared-thunks", "calls", 4),
          Wanted("run-small-news", "news", 1)]
PATHS = 2  # `paths` at a half of the rate of `run`, in each row
MISSED = 3  # a bound that is missed by more than a third of it makes the status 1


def lua(loop):
    """A loop of so many turns in Lua."""
    front = "local C = {} C.__index = C function C:f(n) return n end local o = setmetatable({}, C) local n = 0 local t = true "
    return f"{front}while t do {LUA[loop]}n = n + 1 t = n < {TURNS} end print(n)\n"


def python(loop):
    """The same in Python."""
    body = f"        {PYTHON[loop]}\n" if PYTHON[loop] else ""
    front = "class C:\n    def __init__(self):\n        self.x = 1\n    def f(self, n):\n        return n\n"
    return f"{front}def main():\n    o, n, t = C(), 0, True\n    while t:\n{body}        n = n + 1\n        t = n < {TURNS}\n    print(n)\nmain()\n"


def there():
    """The interpreters on the path, each with what makes a loop in its language."""
    return [(command, make) for command, make in (("lua5.4", lua), ("python3", python)) if shutil.which(command)]


def holds(rate, wanted):
    """Whether a rate misses what is wanted by no more than a third."""
    return rate * MISSED >= wanted * (MISSED - 1)
