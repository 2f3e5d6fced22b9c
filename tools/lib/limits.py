"""Sources at each limit and one past it, with what each command answers to them by the rules of docs/LANGUAGE.md and docs/RUNS.md."""
from dataclasses import dataclass

SOURCE_BYTES = 262_144
TEXT_BYTES = 16_777_216
NAME = 255  # the most letters of a name
MAIN = "int main() { print(1); }"

# what a command answers: its text and its status
TOLD = ("1\n", 0)


@dataclass
class Row:
    """A limit: what is counted, a source at the number and one past it, and what is answered at the number.

    `listed` is a class with its layout and its tables; `told` the answer of a run, of which `steps` may be the words."""

    limit: str
    what: str
    at: str
    past: str
    classes: int
    listed: tuple
    told: tuple = TOLD
    steps: tuple = ()

    def answers(self):
        """The words of each command, with the source, the text and the status."""
        name, layout, tables = self.listed
        at = {("check",): (f"{self.classes} classes\n", 0)}
        if name:
            at.update({("layout", name): (layout, 0), ("tables", name): (tables, 0)})
        at.update({("run", *self.steps): self.told, ("paths", *self.steps): self.told})
        for words, (text, status) in at.items():
            yield words, self.at, text, status
            yield words, self.past, f"limit {self.limit}\n", 5


def joined(pieces, between=" "):
    return between.join(pieces)


def classes(name, count):
    """So many empty classes."""
    return joined(f"struct {name}{number} {{}};" for number in range(count))


def plain_layout(name, size, align, *lines):
    """The layout of a class without bases that is laid out as C does it."""
    return f"class {name} size {size} align {align} dsize {size} nvsize {size} nvalign {align}\nprimary none\n" + "".join(line + "\n" for line in lines)


def empty(name):
    """An empty class with its layout and its tables."""
    return name, plain_layout(name, 1, 1), f"typeinfo {name} class\n"


def number_class(name, kind, size):
    """A class of one number or array with its layout and its tables."""
    align = {"char": 1, "int": 4, "long": 8}[kind.split("[")[0]]
    return name, plain_layout(name, size, align, f"0 field {kind} {'c' if kind == 'char' else 'a'}"), f"typeinfo {name} class\n"


def source_bytes():
    """A source with white space up to the limit."""
    front = f"struct A {{}}; {MAIN}"
    return Row("L1", "262,144 bytes", front.ljust(SOURCE_BYTES), front.ljust(SOURCE_BYTES + 1), 1, empty("A"))


def class_definitions():
    return Row("L2", "1,024 classes", f"{classes('A', 1024)} {MAIN}", f"{classes('A', 1025)} {MAIN}", 1024, empty("A1023"))


def direct_bases():
    source = lambda count: f"{classes('B', 65)} struct D : {joined((f'B{number}' for number in range(count)), ', ')} {{}}; {MAIN}"
    return Row("L3", "64 direct bases", source(64), source(65), 66, empty("B64"))


def parts_of_a_class():
    source = lambda count: f"struct B {{ char c; }}; struct A {{ public: {joined(f'int a{number};' for number in range(count))} private: }}; {MAIN}"
    return Row("L3", "1,024 parts of a class, access labels not counted", source(1024), source(1025), 2, number_class("B", "char", 1))


def parameters():
    source = lambda count: f"struct A {{ void f({joined((f'int p{number}' for number in range(count)), ', ')}) {{}} }}; {MAIN}"
    return Row("L3", "16 parameters", source(16), source(17), 1, ("A", plain_layout("A", 1, 1), "typeinfo A class\n"))


def locals_of_a_body():
    source = lambda count: f"struct A {{}}; int main() {{ {joined(f'int x{number};' for number in range(count))} print(1); }}"
    return Row("L3", "256 declarations in a body", source(256), source(257), 1, empty("A"))


def globals_of_a_source():
    source = lambda count: f"struct A {{}}; {joined(f'int g{number};' for number in range(count))} {MAIN}"
    return Row("L3", "1,024 globals", source(1024), source(1025), 1, empty("A"))


def open_blocks():
    """The block of `main` is the first of those that are open."""
    source = lambda count: f"struct A {{}}; int main() {{ {'while (true) { ' * count}{'} ' * count}}}"
    return Row("L3", "64 open blocks", source(63), source(64), 1, empty("A"), ("out of steps 10\n", 4), ("--steps", "10"))


def array_length():
    source = lambda length: f"struct A {{ char a[{length}]; }}; {MAIN}"
    return Row("L4", "an array length of 4,096", source(4096), source(4097), 1, number_class("A", "char[4096]", 4096))


def no_array_length():
    source = lambda length: f"struct A {{ char a[{length}]; }}; {MAIN}"
    return Row("L4", "an array length of 1, and of 0", source(1), source(0), 1, number_class("A", "char[1]", 1))


def parts():
    source = lambda length: f"struct A {{ char a[4096]; }}; struct B {{ A b[15]; char c[{length}]; }}; {MAIN}"
    return Row("L5", "65,536 parts", source(4080), source(4081), 2, number_class("A", "char[4096]", 4096))


def subobjects():
    """Eight diamonds on each other have 1,021 subobjects."""
    level = lambda n: f"struct L{n} : S{n - 1} {{}}; struct R{n} : S{n - 1} {{}}; struct S{n} : L{n}, R{n} {{}};"
    source = lambda more: f"struct S0 {{ char c; }}; {joined(level(n) for n in range(1, 9))} {classes('X', 3)} struct D : S8, {more} {{}}; {MAIN}"
    return Row("L5", "1,024 subobjects", source("X0, X1"), source("X0, X1, X2"), 29, number_class("S0", "char", 1))


def size_of_a_class():
    source = lambda length: f"struct A {{ long a[4096]; }}; struct B {{ A b[15]; long c[{length}]; }}; {MAIN}"
    return Row("L6", "a size of 500,000", source(1060), source(1061), 2, number_class("A", "long[4096]", 32768))


def words_of_tables():
    """A class with so many virtual functions, and 1,023 classes over it."""
    source = lambda count: f"struct B {{ {joined(f'virtual void f{number}() {{}}' for number in range(count))} }}; {joined(f'struct D{number} : B {{}};' for number in range(1023))} {MAIN}"
    entries = "".join(f"{number} func B::f{number}\n" for number in range(1022))
    return Row("L7", "1,048,576 words", source(1022), source(1023), 1024, ("B", plain_layout("B", 8, 8), f"group B\ntable B@0\n-2 top 0\n-1 typeinfo B\n{entries}typeinfo B class\n"))


ROWS = [source_bytes, class_definitions, direct_bases, parts_of_a_class, parameters, locals_of_a_body, globals_of_a_source, open_blocks, array_length, no_array_length, parts, subobjects,
        size_of_a_class, words_of_tables]


def heap(count):
    """Makes so many objects of 262,144 bytes; 256 of them fill the heap."""
    return f"struct A {{ long a[4096]; }}; struct B {{ A b[8]; }}; int main() {{ int i = 0; bool c = true; while (c) {{ B* p = new B; i = i + 1; c = i < {count}; }} print(i); }}"


def heap_trace(count):
    """The lines of a trace of so many of these objects: the elements are built before the whole."""
    return "".join("".join(f"built A #{number}+{32_768 * element}\n" for element in range(8)) + f"built B #{number}+0\n" for number in range(1, count + 1))


def calls(count):
    """A function that calls itself: so many calls, and the first one, are open at once."""
    return f"struct R {{ void f(int n) {{ bool c = n == 0; if (c) {{ return; }} int m = n - 1; this->f(m); }} }}; int main() {{ R* r = new R; r->f({count}); print(1); }}"


def call_trace(count):
    return "built R #1+0\n" + "call R::f #1+0\n" * count


# a run that prints lines of eight bytes without an end
LINES = "int main() { int x = 1234567; while (true) { " + "print(x); " * 8 + "} }"


def run_answers():
    """The words, the source, the text and the status of runs at the limits of runs, and one past them."""
    for machine in (["run"], ["paths"]):
        yield machine, heap(256), "256\n", 0
        yield machine, heap(257), "limit L8\n", 5
        yield machine, calls(4095), "1\n", 0
        yield machine, calls(4096), "limit L10\n", 5
    yield ["run", "--trace"], heap(256), heap_trace(256) + "256\n", 0
    yield ["run", "--trace"], heap(257), heap_trace(256) + "limit L8\n", 5
    yield ["run", "--trace"], calls(4095), call_trace(4096) + "1\n", 0
    yield ["run", "--trace"], calls(4096), call_trace(4096) + "limit L10\n", 5


def long_runs():
    """The same of the limit on the text of a run: 2,097,152 lines of eight bytes are 16,777,216 bytes."""
    for machine in (["run"], ["run", "--trace"], ["paths"]):
        yield [*machine, "--steps", "4000000"], LINES, "1234567\n" * (TEXT_BYTES // 8) + "limit L9\n", 5


def letters(length, number):
    """A name of so many letters."""
    return f"n{number}".ljust(length, "x")


def chain_names(depth):
    """The names of a chain of classes, each as long as a name can be."""
    return [letters(NAME, number) for number in range(depth)]


def chain_layout(name, bases):
    """The layout of an empty class over a chain of empty ones, the nearest base first."""
    lines = "".join(f"0 base {joined(bases[:number], '/')}\n" for number in range(1, len(bases) + 1))
    return f"class {name} size 1 align 1 dsize {0 if bases else 1} nvsize 1 nvalign 1\nprimary none\n{lines}"


def long_layout(more):
    """A source whose layout has 16,777,216 bytes and so many more, and that layout."""
    chain, depth = chain_names(20), 20
    made = [(name, chain[:number][::-1]) for number, name in enumerate(chain)]
    left = TEXT_BYTES + more - sum(len(chain_layout(*one)) for one in made)
    while left >= len(chain_layout("n" * 254, [])):
        size = len(chain_layout(letters(8, len(made)), chain[:depth][::-1]))
        rest = left - size
        if depth and rest < len(chain_layout("n", [])):
            depth -= 1
        elif depth:
            made.append((letters(8, len(made)), chain[:depth][::-1]))
            left = rest
        else:
            break
    made.append((letters(left - len(chain_layout("", [])), "z"), []))
    source = joined((f"struct {name}{f' : {bases[0]}' if bases else ''} {{}};" for name, bases in made), "\n")
    return source, "".join(chain_layout(*one) for one in made)


def group(name, functions, of):
    """The tables of a class whose virtual functions are those of one class."""
    entries = "".join(f"{number} func {of}::{function}\n" for number, function in enumerate(functions))
    return f"group {name}\ntable {name}@0\n-2 top 0\n-1 typeinfo {name}\n{entries}typeinfo {name} {'class' if name == of else f'si {of}'}\n"


def long_tables(more):
    """A source whose tables have 16,777,216 bytes and so many more, and these tables."""
    functions = [letters(NAME, number) for number in range(100)]
    made = [("B", functions, "B")]
    left = TEXT_BYTES + more - len(group(*made[0]))
    while left >= 2 * len(group("D1000", functions, "B")):
        made.append((f"D{len(made)}", functions, "B"))
        left -= len(group(*made[-1]))
    while left > NAME + len(group("E1000", [""], "E1000")):
        few = [letters(NAME, number) for number in range(20)] if left > 20_000 else ["f"]
        made.append((f"E{len(made)}", few, f"E{len(made)}"))
        left -= len(group(*made[-1]))
    made.append(("Z", [letters(left - len(group("Z", [""], "Z")), 0)], "Z"))
    definition = lambda name, own, of: f"struct {name} : {of} {{}};" if name != of else f"struct {name} {{ {joined(f'virtual void {function}() {{}}' for function in own)} }};"
    return joined((definition(*one) for one in made), "\n"), "".join(group(*one) for one in made)


def long_texts():
    """The words, the source, the text and the status of `layout` and `tables` at the limit on the text, and one byte past it."""
    for word, made in (("layout", long_layout), ("tables", long_tables)):
        source, text = made(0)
        yield [word], source, text, 0
        yield [word], made(1)[0], "limit L9\n", 5
