"""The deepest shapes of each command: blocks, bases, members in members, open calls, and long texts of one class."""
from dataclasses import dataclass

from . import chance_layouts, limits, listing, run_shapes, shapes
from . import source as sources

DEPTH = 1023  # members in members, or bases


@dataclass
class Deep:
    """The words of a command and a source, and what of it is deep."""

    what: str
    words: tuple
    source: str

    def name(self):
        return " ".join(self.words)


def members(body):
    """Classes, each with a member of the one before: the last one has 1,023 members in each other."""
    return "struct M0 { int m; };\n" + "".join(f"struct M{n} {{ M{n - 1} m; }};\n" for n in range(1, DEPTH + 1)) + f"int main() {{ M{DEPTH}* p = new M{DEPTH}; {body} }}\n"


def innermost():
    """The place of the number in the innermost member."""
    return "p->" + ".".join(["m"] * (DEPTH + 1))


def made_by_constructors():
    """Objects that are made by the constructors of others, until 4,096 are open."""
    return "struct A { A() { A* p = new A; } }; int main() { A* p = new A; }"


def ended_by_destructors(count):
    """A list of so many objects, of which each deletes the next."""
    loop = f"while (t) {{ A* q = new A; q->next = p; p = q; n = n + 1; t = n < {count}; }}"
    return f"struct A {{ A* next; A() : next(0) {{}} ~A() {{ A* p = this->next; delete p; }} }}; int main() {{ A* p = 0; long n = 0; bool t = true; {loop} delete p; print(n); }}"


def virtual_members():
    """A chain of 200 classes over a virtual base, a member of each."""
    return shapes.construction_chain(1) + "struct M { " + " ".join(f"K{n} m{n};" for n in range(60)) + " };\n" + "int main() { M* p = new M; M* q = new M; *p = *q; dump(p); delete q; }\n"


def listed(source):
    """A source behind a listing of its classes, which is sound and none of a compiler: the input of `foreign`."""
    classes = sources.classes(source)
    return listing.with_program(listing.text(classes, chance_layouts.Chance(classes, 1).seen), source)


def dumped_elements():
    """A dump of 8,192 numbers with its source: more have no room in 262,144 bytes."""
    lines = "".join(f"{at} -- char b[{at // 4096}].a[{at % 4096}]\n" for at in range(8192))
    return listing.with_program(f"dump #1 B 8192\n{lines}", "struct A { char a[4096]; };\nstruct B { A b[2]; };\n")


def dumped_members():
    """A dump of the number in the innermost member, with its source."""
    place = ".".join(["m"] * (DEPTH + 1))
    return listing.with_program(f"dump #1 M{DEPTH} 4\n0 07000000 int {place}\n", members("dump(p);"))


def over_more_than_a_source():
    """The commands of arrays, pointers to members, listings and dumps."""
    chain, overriding = shapes.chain(1), shapes.overriding_chain(1)
    return [
        Deep("elements with 1,022 bases in a chain", ("array", "K1022@3"), chain),
        Deep("elements of 65,536 parts", ("array", "B@15"), shapes.parts(1)),
        Deep("4,096 elements that are ended", ("array", "A@4096"), "struct A { ~A() {} };"),
        Deep("a member of the innermost of 1,022 bases", ("memptr", "K0::x@K1022"), chain),
        Deep("a function of the innermost of 1,022 bases, which each overrides", ("memptr", "K0::f@K1022"), overriding),
        Deep("a listing of 65,536 parts", ("foreign",), listed(shapes.with_main(shapes.parts(1)))),
        Deep("a listing of 1,021 subobjects in diamonds", ("foreign",), listed(shapes.with_main(shapes.diamonds(1)))),
        Deep("a listing of 1,023 members in each other", ("foreign",), listed(members("print(1);"))),
        Deep("a dump of 8,192 numbers", ("inspect",), dumped_elements()),
        Deep("a dump of a number in 1,023 members", ("inspect",), dumped_members()),
    ]


def over_one_source(what, source, class_name, *more):
    """The commands that read a source, on one, and further ones."""
    words = [("check",), ("layout",), ("layout", class_name), ("tables",), ("tables", class_name), ("run",), ("run", "--trace"), ("paths",), *more]
    return [Deep(what, each, source) for each in words]


def over_a_run(what, source, *more):
    """The commands that run a source."""
    return [Deep(what, (*each, *more), source) for each in (("run",), ("run", "--trace"), ("paths",))]


def rows():
    """All shapes with all commands."""
    chain, overriding = shapes.with_main(shapes.chain(1)), shapes.with_main(shapes.overriding_chain(1))
    virtual = shapes.with_main(shapes.construction_chain(1))
    return [
        *over_one_source("64 blocks", limits.open_blocks().at, "A"),
        Deep("65 blocks", ("check",), limits.open_blocks().past),
        Deep("blocks up to 262,144 bytes", ("check",), shapes.blocks(1)),
        *over_one_source("a chain of 1,023 bases", chain, "K1022"),
        *over_one_source("a chain of 1,023 bases, each overriding a function", overriding, "K1022"),
        *over_one_source("a chain of 200 classes over a virtual base", virtual, "K199"),
        Deep("a chain of 1,000 virtual bases", ("check",), shapes.silent_chain(1)),
        *over_one_source("1,021 subobjects in diamonds", shapes.with_main(shapes.diamonds(1)), "S8"),
        *over_one_source("65,536 parts", shapes.with_main(shapes.parts(1)), "B"),
        *over_one_source("1,024 direct and shared bases", shapes.with_main(shapes.shared(1)), "A59"),
        *over_one_source("1,023 members in each other", members(f"{innermost()} = 7; int x = {innermost()}; print(x);"), f"M{DEPTH}"),
        *over_a_run("a copy and a dump of 1,023 members in each other", members(f"{innermost()} = 7; M{DEPTH}* q = new M{DEPTH}; *q = *p; dump(q);")),
        *over_a_run("a dump of 65,536 parts", run_shapes.dump(1).source),
        *over_a_run("4,096 open calls", limits.calls(4095)),
        *over_a_run("4,097 open calls", limits.calls(4096)),
        *over_a_run("4,096 objects made by constructors", made_by_constructors()),
        *over_a_run("4,096 objects ended by destructors", ended_by_destructors(4096), "--steps", "4000000"),
        *over_a_run("members with virtual bases, copied, dumped and ended", virtual_members()),
        *over_a_run("casts among 1,000 subobjects", run_shapes.cross_casts(10).source),
        Deep("1,000 classes", ("gen", "1000"), ""),
        *over_more_than_a_source(),
    ]
