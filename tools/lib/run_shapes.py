"""Programs with long runs, of which the number of steps is known; each function is given the part of its size, as 2 for a half."""
from dataclasses import dataclass

COLUMNS, HEIGHT = 27, 37


@dataclass
class Run:
    """A source, the steps that its run takes to the end of `main`, and how often it does what it is timed for."""

    source: str
    steps: int
    turns: int


@dataclass
class Piece:
    """Statements, and the steps that they take."""

    text: str = ""
    steps: int = 0


def turns(declarations, before, body, number):
    """A loop of so many turns over the statements of `body`."""
    main = f"long n = 0; bool t = true; {before.text}while (t) {{ {body.text}n = n + 1; t = n < {number}; }} print(n);"
    return Run(f"{declarations}int main() {{ {main} }}\n", number * (body.steps + 3) + before.steps + 5, number)


def made(subobjects):
    """The steps of a `new`, and those of a `delete`, where no constructor and no destructor has a body."""
    return 1 + 3 * subobjects


def loop(part):
    """A loop of arithmetic."""
    return turns("", Piece(), Piece(), 1_333_000 // part)


def calls(part):
    """A virtual call that returns a number."""
    return turns("struct A { virtual long f(long n) { return n; } };\n", Piece("A* p = new A; ", made(1)), Piece("long m = p->f(n); ", 2), 660_000 // part)


def thunks(part):
    """A virtual call through a thunk, which moves `this` by a number."""
    classes = "struct A { long a; virtual long g() { return 1; } };\nstruct B { virtual long f(long n) { return 2; } };\nstruct C : A, B { virtual long f(long n) { return n; } };\n"
    return turns(classes, Piece("B* p = new C; ", made(3)), Piece("long m = p->f(n); ", 2), 660_000 // part)


def shared_thunks(part):
    """A virtual call through a thunk that finds the way from a virtual base by a word of the table."""
    classes = "struct V { long v; virtual long f(long n) { return 2; } };\nstruct A : virtual V { long a; virtual long f(long n) { return n; } };\n"
    return turns(classes, Piece("V* p = new A; ", made(2)), Piece("long m = p->f(n); ", 2), 660_000 // part)


def columns():
    """A class D with 1,000 subobjects: 27 bases, each the last class of a chain of 37."""
    chains = ["".join([f"struct C{c}_0 {{ virtual void f{c}() {{}} }};\n", *(f"struct C{c}_{n} : C{c}_{n - 1} {{}};\n" for n in range(1, HEIGHT))]) for c in range(COLUMNS)]
    return "".join(chains) + f"struct D : {', '.join(f'C{c}_{HEIGHT - 1}' for c in range(COLUMNS))} {{}};\n"


def casts_to(name, number):
    before = Piece("D* d = new D; C0_0* p = d; ", made(COLUMNS * HEIGHT + 1) + 1)
    return turns(columns(), before, Piece(f"{name}* q = dynamic_cast<{name}*>(p); ", 1), number)


def casts(part):
    """A dynamic_cast from an innermost base to the class of an object with 1,000 subobjects."""
    return casts_to("D", 500_000 // part)


def cross_casts(part):
    """A dynamic_cast from an innermost base of the first column to that of the last, in the same object."""
    return casts_to(f"C{COLUMNS - 1}_0", 10_000 // part)


def small_news(part):
    """Objects of a class without bases, each made and deleted."""
    return turns("struct P { int x; };\n", Piece(), Piece("P* p = new P; delete p; ", 2 * made(1)), 360_000 // part)


def news(part):
    """Objects of a class with 60 subobjects in a chain, each made and deleted; its destructor is virtual and has a body."""
    chain = "".join(f"struct K{n} : K{n - 1} {{ int x{n}; }};\n" for n in range(1, 60))
    return turns(f"struct K0 {{ int x; virtual ~K0() {{}} }};\n{chain}", Piece(), Piece("K59* p = new K59; delete p; ", 2 * made(60) + 1), 10_000 // part)


def deep_news(part):
    """Objects of a class with 1,000 subobjects in a chain, each made and deleted."""
    chain = "".join(f"struct K{n} : K{n - 1} {{ int x{n}; }};\n" for n in range(1, 1000))
    return turns(f"struct K0 {{ int x; }};\n{chain}", Piece(), Piece("K999* p = new K999; delete p; ", 2 * made(1000)), 660 // part)


def pairs(count):
    """Classes K0, K1 and so on, each with a virtual base of its own and over the one before: 2 * count subobjects in the last."""
    base = lambda n: f"K{n - 1}, " if n else ""
    return "".join(f"struct V{n} {{ long v{n}; virtual long f{n}() {{ return {n}; }} }};\nstruct K{n} : {base(n)}virtual V{n} {{ int k{n}; }};\n" for n in range(count))


def shared_news(part):
    """Objects, each made and deleted, of a class with 60 subobjects, 30 of them virtual bases; the part divides the class, and not the number of objects."""
    count = 30 // part
    return turns(pairs(count), Piece(), Piece(f"K{count - 1}* p = new K{count - 1}; delete p; ", 2 * made(2 * count)), 10_000)


def copies(part):
    """Copies of an object of a class with 60 subobjects, 30 of them virtual bases."""
    return turns(pairs(30), Piece("K29* p = new K29; K29* q = new K29; ", 2 * made(60)), Piece("*p = *q; ", 1), 100_000 // part)


def dumps(part):
    """Dumps of such an object, each behind a copy."""
    return turns(pairs(30), Piece("K29* p = new K29; K29* q = new K29; q->k0 = 7; ", 2 * made(60) + 1), Piece("*p = *q; dump(p); ", 2), 3_000 // part)


def many_objects(part):
    """60,000 small objects that are all kept, then a loop."""
    kept, last = 60_000 // part, 1_230_000 // part
    loops = f"while (t) {{ A* p = new A; n = n + 1; t = n < {kept}; }} t = true; while (t) {{ n = n + 1; t = n < {last}; }}"
    source = f"struct A {{ int x; A() : x(1) {{}} }};\nint main() {{ long n = 0; bool t = true; {loops} print(n); }}\n"
    return Run(source, 8 * kept + 3 * (last - kept) + 7, kept)


def text(part):
    """Lines of 20 bytes each, up to 16,777,200 bytes."""
    lines, first = 838_860 // part, 10 ** 18
    source = f"int main() {{ long n = {first}; bool t = true; while (t) {{ print(n); n = n + 1; t = n < {first + lines}; }} }}\n"
    return Run(source, 4 * lines + 4, lines)


def dump(part):
    """A dump of an object with 65,536 parts, which stays unset."""
    classes = f"struct A {{ char a[4096]; }};\nstruct B {{ A b[{15 // part}]; char c[{4080 // part}]; }};\n"
    return Run(f"{classes}int main() {{ B* p = new B; dump(p); }}\n", made(1 + 15 // part) + 2, 1)


def large_arrays(part):
    """Objects of arrays of bool, of which nothing is set, until the heap is full."""
    members = "".join(f" bool b{n}[4096];" for n in range(15 // part))
    return f"struct A {{{members} }};\nint main() {{ while (true) {{ A* p = new A; }} }}\n"


def deep_members(part):
    """Objects of 60 elements of a chain of empty classes, each made by the base of the one before, until 4,096 are open."""
    count = 1_000 // part
    chain = "struct C0 {};\n" + "".join(f"struct C{n} : C{n - 1} {{}};\n" for n in range(1, count))
    return f"{chain}struct H {{ H() {{ X* p = new X; }} }};\nstruct X : H {{ C{count - 1} m[60]; }};\nint main() {{ X* p = new X; }}\n"


def open_bases(part):
    """Objects of a chain of 960 classes, each made by the constructor of the last base of the one before, until 4,096 are open: the most parts that are known to be open at once."""
    count = 960 // part
    chain = "".join(f"struct C{n} : C{n - 1} {{}};\n" for n in range(1, count))
    return f"struct C0 {{ C0() {{ X* p = new X; }} }};\n{chain}struct X : C{count - 1} {{}};\nint main() {{ X* p = new X; }}\n"


def open_members(part):
    """Objects of 480 classes, by turns one that is a member of the next and one that is its base, each made by the constructor of the innermost of the one before."""
    pairs = "".join(f"struct B{n} {{ bool b; M{n - 1} m; }};\nstruct M{n} : B{n} {{}};\n" for n in range(1, 480 // part))
    return f"struct M0 {{ M0() {{ X* p = new X; }} }};\n{pairs}struct X : M{480 // part - 1} {{}};\nint main() {{ X* p = new X; }}\n"


def open_behind_others(part):
    """The objects of open_bases with 30 virtual bases, which are constructed first and lie behind all others."""
    virtual = [f"V{n}" for n in range(30)]
    held = "".join(f"struct {name} {{ bool v; }};\n" for name in virtual)
    classes, main = open_bases(part).split("struct X : ")
    return held + f"{classes}struct X : {', '.join(f'virtual {name}' for name in virtual)}, {main}"


def spread_objects(part):
    """Objects of 250 bytes, of which nothing is set, until the heap is full: parts with many leaves between them."""
    return f"struct A {{ bool b[{250 * part}]; }};\nint main() {{ while (true) {{ A* p = new A; }} }}\n"


SET_CLASSES = "struct A { bool b[4096]; };\nstruct B { A a[15]; };\n"


def set_object():
    """Statements that make an object of 61,440 bytes and set each leaf of it."""
    each = "".join(f"a->b[{n}] = true; " for n in range(4096))
    copies = "".join(f"A* a{n} = &b->a[{n}]; *a{n} = *a; " for n in range(15))
    return f"A* a = new A; {each}B* b = new B; {copies}"


def set_leaves(part):
    """Objects of 61,440 bytes, each set by a copy, until the heap is full."""
    turns = f"long n = 0; bool more = true; while (more) {{ B* c = new B; *c = *b; n = n + 1; more = n < {1092 // part}; }}"
    return f"{SET_CLASSES}int main() {{ {set_object()}{turns} }}\n"


def fill_and_open(opened, part):
    """A heap that is full of set leaves, and then the objects of another shape with as many steps as are left."""
    turns = f"long n = 0; bool more = true; while (more) {{ B* c = new B; *c = *b; n = n + 1; more = n < {1060 // part}; }}"
    classes, main = opened(part).split("int main() { ")
    return f"{SET_CLASSES}{classes}int main() {{ {set_object()}{turns} {main}"


def set_and_open(part):
    """A heap that is full of set leaves, and as many open bases as steps are left."""
    return fill_and_open(open_bases, part)


def set_and_open_members(part):
    """The same with the objects of open_members."""
    return fill_and_open(open_members, part)


def set_bits(part):
    """Objects of 1,024 bit-fields of one bit, each set by a copy: the most leaves that can be set with so many steps."""
    count = 1024 // part
    fields = "".join(f" bool b{n} : 1;" for n in range(count))
    each = "".join(f"a->b{n} = true; " for n in range(count))
    return f"struct A {{{fields} }};\nint main() {{ A* a = new A; {each}while (true) {{ A* c = new A; *c = *a; }} }}\n"


WORST = [open_bases, open_members, open_behind_others, spread_objects, set_leaves, set_bits, set_and_open, set_and_open_members]
RUNS = [loop, calls, thunks, shared_thunks, casts, cross_casts, small_news, news, deep_news, shared_news, copies, many_objects, text, dump, dumps]
