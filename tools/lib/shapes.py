"""Sources at or near a limit, long texts and large hierarchies; each function is given the part of its size, as 2 for a half."""
import re

SOURCE_BYTES = 262_144


def filled(head, piece, tail, part):
    """The head, as many pieces as there is room for, and the tail."""
    text, left, number = [head], SOURCE_BYTES // part - len(head) - len(tail), 0
    while len(piece(number)) <= left:
        text.append(piece(number))
        left -= len(piece(number))
        number += 1
    return "".join(text) + " " * left + tail


def writes(part):
    """One object, and writes to one field."""
    head = "struct P { int x; char c; }; int main() { P* p = new P; "
    return filled(head, lambda n: f"p->x = {n % 100}; ", "int y = p->x; print(y); }", part)


def base_writes(part):
    """An object of a class with 60 subobjects, and writes through its innermost base."""
    chain = "".join(f" struct K{n} : K{n - 1} {{ int x{n}; }};" for n in range(1, 60))
    head = f"struct K0 {{ int x; }};{chain} int main() {{ K59* p = new K59; K0* q = p; "
    return filled(head, lambda n: f"q->x = {n % 100}; ", "int y = q->x; print(y); }", part)


def objects(part):
    """Many objects, writes to each in turn, and prints."""
    made = "".join(f"P* p{n} = new P; " for n in range(254))
    head = f"struct P {{ int x; char c; }}; int main() {{ {made}"
    return filled(head, lambda n: f"p{n % 254}->x = {n % 100}; print(p{n % 254}); ", "int y = p0->x; print(y); }", part)


def comment(part):
    return filled("/*", lambda n: "*/ /*" if n % 50 == 0 else " text, * and / ", "*/", part)


def words(part):
    return filled("struct A { int x; }; int main() { int a = 1; ", lambda n: "a = a; ", "}", part)


def statements(part):
    head = "struct A { int x; A* next; }; int main() { A* p = new A; int a = 1; "
    return filled(head, lambda n: "if (a) { p->x = a; } else { a = a + 1; } ", "}", part)


def blocks(part):
    nest = "while (a) { " * 63 + "a = a; " + "} " * 63
    return filled("int main() { int a = 0; ", lambda n: nest, "}", part)


def classes(part):
    return "".join(f"struct K{n} {{ char a; int b; short c[3]; }};\n" for n in range(1024 // part))


def chain(part):
    """Each class the base of the next; the last one has as many subobjects as there are classes."""
    return "struct K0 { int x; };\n" + "".join(f"struct K{n} : K{n - 1} {{ char c{n}; }};\n" for n in range(1, 1023 // part))


def overriding_chain(part):
    """The same with a virtual function that each class overrides."""
    rest = "".join(f"struct K{n} : K{n - 1} {{ virtual void f() {{}} char c; }};\n" for n in range(1, 1023 // part))
    return "struct K0 { virtual void f() {} };\n" + rest


def wide(part):
    """A class with 64 direct bases of 16 virtual functions each."""
    count = 64 // part
    functions = lambda n: "".join(f"virtual void f{n}_{m}() {{}} " for m in range(16))
    bases = "".join(f"struct B{n} {{ int x{n}; {functions(n)}}};\n" for n in range(count))
    return bases + f"struct D : {', '.join(f'B{n}' for n in range(count))} {{}};\n"


def nearly_empty(part):
    """A class with 64 virtual bases, each with a virtual function and no data."""
    count = 64 // part
    bases = "".join(f"struct V{n} {{ virtual void f{n}() {{}} }};\n" for n in range(count))
    return bases + f"struct D : {', '.join(f'virtual V{n}' for n in range(count))} {{ int x; }};\n"


def diamonds(part):
    """Eight diamonds on each other without virtual bases: 1,021 subobjects."""
    levels = {1: 8, 2: 7, 4: 6}.get(part, 5)
    level = lambda n: f"struct L{n} : S{n - 1} {{}}; struct R{n} : S{n - 1} {{}}; struct S{n} : L{n}, R{n} {{}};\n"
    return "struct S0 { char c; };\n" + "".join(level(n) for n in range(1, levels + 1))


def shared(part):
    """Classes that share up to 16 virtual bases among all that came before."""
    bases = lambda n: "".join(f", virtual A{m}" for m in range(max(0, n - 15), n))
    rest = "".join(f"struct A{n} : virtual V{bases(n)} {{ int a{n}; virtual long f() {{ return {n}; }} }};\n" for n in range(60 // part))
    return "struct V { long v; virtual long f() { return 0; } };\n" + rest


def empty_tower(part):
    """A tower of empty bases, and classes in which every place meets conflicts."""
    height = 160 // part
    tower = "struct E0 {};\n" + "".join(f"struct E{n} : E{n - 1} {{}};\n" for n in range(1, height))
    member = lambda n: f"struct M{n} : E{height - 1} {{ E{height - 1 - n} a; E0 b; E{n} c[4]; }};\n"
    return tower + "".join(member(n) for n in range(1, 20 // part + 1))


def parts(part):
    """A class with 65,536 parts."""
    return f"struct A {{ char a[4096]; }};\nstruct B {{ A b[{15 // part}]; char c[{4080 // part}]; }};\n"


def pairs(part):
    """Pairs of classes over one virtual base."""
    base = lambda n: f"A{n - 1}, " if n % 2 else ""
    rest = "".join(f"struct A{n} : {base(n)}virtual V {{ long x{n}; virtual long f() {{ return {n}; }} }};\n" for n in range(1000 // part))
    return "struct V { long v; virtual long f() { return 0; } };\n" + rest


def many_entries(part):
    """A class with 1,022 virtual functions, and 1,023 classes over it: 1,048,576 words of tables, as many as there may be."""
    functions = "".join(f"virtual void f{n}() {{}} " for n in range(1022 // part))
    return f"struct B {{ {functions}}};\n" + "".join(f"struct D{n} : B {{}};\n" for n in range(1023))


def construction_chain(part):
    """A chain over one virtual base: each class has a construction group for each class below it."""
    rest = "".join(f"struct K{n} : K{n - 1} {{ virtual void f() {{}} char c; }};\n" for n in range(1, 200 // part))
    return "struct V { long v; virtual void f() {} };\nstruct K0 : virtual V { char c; };\n" + rest


def member_subobjects(part):
    """Classes over a base of 28,673 class subobjects, nearly all of them elements of its members."""
    members = "".join(f"E e{n}[4096]; " for n in range(7))
    return f"struct E {{}};\nstruct B {{ {members}}};\n" + "".join(f"struct D{n} : B {{ int x{n}; }};\n" for n in range(1000 // part))


def virtual_chain(part, functions):
    """A chain of 1,000 classes, each a virtual base of the next; `functions` gives what the class of a number declares."""
    rest = "".join(f"struct K{n} : virtual K{n - 1} {{ {functions(n)}}};\n" for n in range(1, 1000 // part))
    return f"struct K0 {{ {functions(0)}}};\n{rest}"


def silent_chain(part):
    """A chain of virtual bases: the lower half override eight functions each, and the upper half declare nothing."""
    eight = "".join(f"virtual void f{m}() {{}} " for m in range(8))
    return virtual_chain(part, lambda n: eight if n < 500 // part else "")


def own_functions(part):
    """A chain of virtual bases, each with seven virtual functions of its own."""
    return virtual_chain(part, lambda n: "".join(f"virtual void f{n}_{m}() {{}} " for m in range(7)))


def generated(part):
    """The source that `gen` makes of 1,000 classes (docs/RUNS.md): an object of each class, and a call."""
    count = 1000 // part
    base = lambda n: f"A{n - 1}, " if n % 2 else ""
    classes = "".join(f"struct A{n} : {base(n)}virtual V {{ long x{n}; virtual long f() {{ return {n}; }} }};\n" for n in range(count))
    calls = "".join(f"q = new A{n}; r = q->f(); print(r);\n" for n in range(count))
    return f"struct V {{ long v; virtual long f() {{ return 0; }} }};\n{classes}V* q;\nlong r;\nint main() {{\n{calls}}}\n"


SHAPES = [writes, base_writes, objects, comment, words, statements, blocks, classes, chain, overriding_chain, wide, nearly_empty, diamonds, shared, empty_tower, parts, pairs, many_entries, construction_chain, member_subobjects, silent_chain, own_functions, generated]


def names_in(text):
    """The classes that a text defines, in their order."""
    return re.findall(r"struct (\w+)(?=[ :]*[^;*]*\{)", text)


def without_main(text):
    return re.sub(r"int main\(\).*", "", text, flags=re.S)


def with_main(text):
    """The classes, with a `main` that makes an object of the last one."""
    name = names_in(text)[-1]
    return f"{without_main(text)}int main() {{ {name}* p = new {name}; print(1); }}\n"


def with_uses(text, use):
    """The classes alone, each with a use."""
    declarations = without_main(text)
    return declarations + "".join(use(name) for name in names_in(declarations))


def as_cpp(text):
    """The classes, with what makes a compiler lay out each."""
    return with_uses(text, lambda name: f"{name}* use_{name};\nunsigned long size_{name} = sizeof({name});\n")


def as_objects(text):
    """The classes, with what makes a compiler write the tables of each."""
    return with_uses(text, lambda name: f"void* make_{name}() {{ return new {name}; }}\n")


def as_program(text):
    """The whole text, with the `print` that it calls."""
    return f'#include <cstdio>\nvoid print(long n) {{ std::printf("%ld\\n", n); }}\n{text}'
