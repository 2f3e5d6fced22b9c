"""tools/padding: holes and leaves make up the object, the best order is one of all, and each kind is what the rules and g++ say."""
import itertools
import re
import unittest
from dataclasses import replace
from unittest import mock

import leaves
import support
from lib import clang, compilers, cpp_text, holes, kinds, layout_text, orders, parts, program, random_source

MEMBERS = """struct P { char c; int i; bool b; };
struct Q : P { char t; P p[3]; char text[10]; short last; Q* q[2]; char y; };
struct Z { char a; Q q; long c; };
"""
KINDS = """struct E {}; struct F : E { private: int x; }; struct G { E e[2]; F* f; }; struct H { F f; };
struct C { C() {} }; struct D { ~D() {} int d; }; struct V { virtual void f() {} }; struct N : V { void g() {} }; struct W : virtual V {}; struct X : virtual N { long x; };
struct B1 : E {}; struct B2 : E {}; struct M : B1, B2 {}; struct Y : M { virtual void f() {} }; struct L : virtual Y { long l; }; struct R : W, virtual V {};
"""


def asked(text, *words):
    done = support.run("padding", *words, text=text)
    return done.returncode, done.stdout.splitlines(), done.stderr


@support.needs_program
class Padding(unittest.TestCase):
    def test_the_holes_of_members_and_elements(self):
        status, lines, _ = asked(MEMBERS, "Q")
        self.assertEqual(status, 0)
        self.assertEqual([line.strip() for line in lines if " between " in line], [
            "1: 3 bytes between c and i", "9: 3 bytes between b and t", "13: 3 bytes between t and p[0].c", "17: 3 bytes between p[0].c and p[0].i; 3 times, 9 bytes",
            "25: 3 bytes between p[0].b and p[1].c; 2 times, 6 bytes", "49: 3 bytes between p[2].b and text", "81: 7 bytes between y and the end"])

    def test_holes_and_leaves_make_up_random_objects(self):
        for _, text in [*random_source.sources(150, 5), *random_source.sources(150, 6, 50)]:
            objects = parts.Objects.of_text(text)
            for name, layout in objects.layouts.items():
                found = leaves.of_class(objects.classes, objects.layouts, name)
                taken = {bit for leaf in found for bit in leaves.bits(leaf)}
                self.assertEqual(8 * holes.taken(objects, name), len(taken))
                self.assertEqual(8 * sum(hole.total for hole in holes.holes(objects, name)), 8 * layout.size - len(taken), name)
                for hole in holes.holes(objects, name):
                    self.assertFalse(taken & set(leaves.bits(hole)))

    def test_the_holes_beside_bit_fields(self):
        text = "struct S { S() {} int x : 25; }; struct R : S { int z : 2; bool y : 1; char c; }; struct T { long a : 3; int b : 31; R r[2]; };"
        _, lines, _ = asked(text, "R")
        self.assertEqual(lines[0], "R: size 8, align 4, dsize 6, nvsize 6; 4 bytes and 4 bits of members and virtual pointers, 3 bytes and 4 bits of padding")
        self.assertEqual([line.strip() for line in lines if " between " in line], ["3.1: 7 bits between x and z", "4.3: 5 bits between y and c", "6: 2 bytes between c and the end"])
        _, lines, _ = asked(text, "T")
        self.assertIn("  0.3: 3 bytes and 5 bits between a and b", lines)
        self.assertIn("  11.1: 7 bits between r[0].x and r[0].z; 2 times, 1 byte and 6 bits", lines)
        _, lines, _ = asked("struct F { bool a : 1; char c; bool b : 1; char d; bool e : 1; char f; };")
        self.assertIn("  in the order a, b, e, c, d, f its size is 4, 2 bytes less: no order is smaller, since its bases, members and virtual pointer take 4 bytes, and a size is a multiple of 1", lines)

    def test_the_best_order_is_the_best_of_all(self):
        judged = smaller = 0
        for _, text in [*random_source.sources(80, 9), *random_source.sources(60, 10, 60)]:
            objects = parts.Objects.of_text(text)
            for name, one in objects.classes.items():
                if 2 <= len(one.fields) <= 4:
                    best = orders.best(objects, name)
                    self.assertEqual(best.size, min(self.sizes(objects, one)), text)
                    self.assertEqual(best.size, self.sizes(objects, one, [best.names])[0])
                    self.assertTrue(best.reason)
                    judged, smaller = judged + 1, smaller + (best.size < objects.layouts[name].size)
        self.assertGreater(judged, 10)
        self.assertGreater(smaller, 1)

    def test_orders_of_many_classes(self):
        """Those of all classes together are as good as those of each; and the classes that can become smaller are asked for in few calls."""
        for _, text in random_source.sources(25, 31):
            objects = parts.Objects.of_text(text)
            for name, best in orders.best_of_all(objects, list(objects.layouts)).items():
                if best.reason:
                    self.assertEqual((best.size, best.reason), (orders.best(objects, name).size, orders.best(objects, name).reason), text)
        text = "".join(f"struct C{number}{f' : C{number - 1}' if number % 5 else ''} {{ char a; long b; char c; int d; }}; struct D{number} {{ long a; C{number}* b; }};\n" for number in range(100))
        objects = parts.Objects.of_text(text)
        with mock.patch.object(program, "answer", wraps=program.answer) as asked:
            found = orders.best_of_all(objects, list(objects.layouts))
        self.assertLessEqual(asked.call_count, 3)
        self.assertEqual(sum(call.args[1].count("struct o") for call in asked.call_args_list), 100)  # the first one tried is best, and D0 to D99 cannot be smaller
        self.assertEqual([found[name].size for name in ("C0", "C4", "D7")], [16, 4 * 24 + 16, 16])
        self.assertTrue(all(best.reason for best in found.values()))

    def test_orders_that_are_past_a_limit(self):
        objects = parts.Objects.of_text(MEMBERS)
        with mock.patch.object(program, "answer", return_value=("limit L1\n", 5)):
            best = orders.best(objects, "P")
        self.assertEqual((best.size, best.names, best.reason, best.least), (12, ["c", "i", "b"], "", 8))

    def sizes(self, objects, one, orders_of_names=None):
        """The size of the class for each order of its members, each as a class of its own."""
        variants = []
        for number, names in enumerate(orders_of_names or itertools.permutations(field.name for field in one.fields)):
            fields = [next(field for field in one.fields if field.name == name) for name in names]
            functions = [replace(part, name=part.name.replace(one.name, f"V{number}")) for part in one.functions]
            variants.append(replace(one, name=f"V{number}", parts=[*functions, *fields]))
        text = cpp_text.source_text({**objects.classes, **{variant.name: variant for variant in variants}})
        layouts = layout_text.read(program.text_of(["layout"], text))
        return [layouts[variant.name].size for variant in variants]

    def test_an_order_that_saves(self):
        _, lines, _ = asked(MEMBERS, "P")
        self.assertIn("  in the order i, c, b its size is 8, 4 bytes less: no order is smaller, since its bases, members and virtual pointer take 6 bytes, and a size is a multiple of 4", lines)
        many = "struct S { " + " ".join(f"char c{n}; short s{n}; int i{n}; long l{n};" for n in range(8)) + " };"
        _, lines, _ = asked(many)
        self.assertRegex("\n".join(lines), r"in the order l0, .* its size is 120, \d+ bytes less: no order is smaller")

    def test_orders_that_no_bound_settles(self):
        """The room of D's empty members: two elements of one class need two places, so no order takes the bytes alone."""
        text = "struct E {}; struct B : E { char b; B() {} }; struct D : B { E e; int x; char y; };"
        _, lines, _ = asked(text, "D")
        self.assertTrue(any("no order is smaller" in line for line in lines), lines)

    def test_primary_bases_are_those_of_the_layout(self):
        seen = set()
        for text in [KINDS, *(text for _, text in random_source.sources(200, 3))]:
            objects = parts.Objects.of_text(text)
            kind = kinds.Kinds(objects)
            for name, layout in objects.layouts.items():
                self.assertEqual(kind.primary(name)[0], layout.primary, f"{name} of {text}")
                seen.add(kind.primary(name)[1].split(":")[0])
        self.assertGreaterEqual(len(seen), 4)

    def test_why(self):
        _, lines, _ = asked(KINDS)
        told = {}
        for line in lines:
            if re.match(r"\w+: size", line):
                name = line.split(":")[0]
            told.setdefault(name, []).append(line.strip())
        self.assertIn("nearly empty: no, the empty base M/B2 lies at 1 and not at 0", told["Y"])
        self.assertIn("primary none: no direct base is dynamic and not virtual; Y is not nearly empty: the empty base M/B2 lies at 1 and not at 0; the class has a virtual pointer of its own", told["L"])
        self.assertIn("POD: no, x is private", [line for line in asked("struct F { private: int x; };")[1] for line in [line.strip()]])
        self.assertIn("POD: no, the class F of f is no POD", told["H"])
        self.assertIn("nearly empty: yes, it is a virtual pointer and nothing else", told["N"])
        self.assertIn("primary W: the first direct base that is dynamic and not virtual", told["R"])
        self.assertIn("dynamic: yes, V is a virtual base", told["W"])

    @support.needs("g++")
    def test_empty_and_pod_classes_are_those_of_gcc(self):
        texts = {f"n{number}": text for number, (_, text) in enumerate([("", KINDS), *random_source.sources(150, 21)])}
        found = {name: parts.Objects.of_text(text) for name, text in texts.items()}
        unit = "".join(cpp_text.in_namespace(name, cpp_text.source_text(objects.classes)) for name, objects in found.items())
        rows = [(name, one) for name, objects in found.items() for one in objects.classes]
        unit += "int empty[] = {" + ", ".join(f"__is_empty({name}::{one})" for name, one in rows) + "};\nint pod[] = {" + ", ".join(f"__is_pod({name}::{one})" for name, one in rows) + "};\n"
        unit += '#include <cstdio>\nint main() { for (unsigned n = 0; n < sizeof empty / sizeof *empty; n++) std::printf("%d%d\\n", empty[n], pod[n]); }\n'

        def work(folder):
            _, said, good = clang.call(["g++", *compilers.FLAGS, "-x", "c++", "-o", f"{folder}/kinds", "-"], unit, folder)
            self.assertTrue(good, said)
            return clang.call([f"{folder}/kinds"])[0].splitlines()

        for (name, one), said in zip(rows, clang.in_folder(work), strict=True):
            kind = kinds.Kinds(found[name])
            self.assertEqual(f"{kind.empty(one)[0]:d}{kind.pod(one)[0]:d}", said, f"{one} of {texts[name]}")

    def test_bad_input(self):
        for words, text, said in ((["Nobody"], MEMBERS, "no class Nobody"), ([], "", "no class"), ([], "struct A { A a; };", "refused E5")):
            status, lines, told = asked(text, *words)
            self.assertEqual((status, lines), (1, []))
            self.assertIn(said, told)


if __name__ == "__main__":
    unittest.main()
