"""tools/draw: each leaf has its box, no padding lies over a leaf, boxes of one lane do not overlap, and bad input is told."""
import os
import re
import tempfile
import unittest
import xml.etree.ElementTree as tree

import leaves
import support
from lib import array_parts, member_parts, parts, picture, program, random_source, table_picture, table_text

EXAMPLES = os.path.join(program.TOP, "examples")
STREAMS = os.path.join(os.path.dirname(os.path.abspath(__file__)), "streams.cc")
SVG = "{http://www.w3.org/2000/svg}"
HELD = "struct A { virtual void f() {} }; struct B : virtual A { int b; }; struct C : virtual A { int c; }; struct D : B, C {};"
MANY = "".join(f"struct B{n} {{ {['int x;', 'virtual void f() {} char c;', '', 'long a; short b;'][n % 4]} }};" for n in range(20)) + "struct D : " + ", ".join(f"B{n}" for n in range(20)) + " { int own; };"
EMPTY = """struct E {}; struct E2 : E {}; struct A : E2 { int x; };
struct B1 : E {}; struct B2 : E {}; struct M : B1, B2 {}; struct X : M { virtual void f() {} }; struct D : virtual X { long d; };
"""
BITS = """struct P { int a : 3; int b : 5; char c; }; struct Q { Q() {} char c; int x : 25; short y : 9; };
struct S { S() {} int x : 25; }; struct R : S { int z : 2; }; struct H { Q q[3]; unsigned k : 3; bool l : 1; R r; };
"""
ARRAYS = "struct P { char c; int i; }; struct Q { P p[3]; char text[200]; short last; P* q[20]; E e[2]; };"

DIAMOND_TEXT = """D: size 56, align 8, dsize 56, nvsize 40, primary B1
0       8       16      24      32      40      48      56
| vptr  | b1    | vptr  | b2    | d     | vptr  | v     |
'- B1 ---------''- B2 ---------'        '- *V ---------'
"""

TABLES = """group D
table D@0
-3 vbase 16 V
-2 top 0
-1 typeinfo D
0 func D::f
table V@16
-3 vcall -16 V::f
-2 top -16
-1 typeinfo D
0 func D::f this 0 vcall -24
vtt D 2
0 D@0 of D
1 V@16 of D
typeinfo D vmi flags 0 bases 1
base V -6141
"""


def objects_of(text):
    return parts.Objects(text, program.text_of(["layout"], text))


def groups(document):
    return [one for one in document.iter(SVG + "g") if one.find(SVG + "title") is not None]


def boxes_of_rows(document):
    """Each box as its class, its tooltip, the bits that it covers in its row, and where it is drawn."""
    for row in document.iter(SVG + "g"):
        if row.get("class") == "row":
            start, unit = int(row.get("data-start")), float(row.get("data-unit"))
            for one in row.iter(SVG + "g"):
                box = one.find(SVG + "rect")
                if box is not None and one.get("class") != "row":
                    x, wide = float(box.get("x")) - picture.MARGIN, float(box.get("width"))
                    first = round(8 * (start + x / unit))
                    yield one.get("class"), one.find(SVG + "title").text, range(first, first + round(8 * wide / unit)), (float(box.get("y")), x, x + wide)


def example(name):
    with open(os.path.join(EXAMPLES, name), encoding="utf-8") as file:
        return file.read()


@support.needs_program
class Draw(unittest.TestCase):
    def drawn(self, text, *words):
        done = support.run("draw", *words, text=text)
        self.assertEqual(done.returncode, 0, done.stderr)
        return done.stdout

    def test_one_box_for_each_part_of_the_diamond(self):
        document = tree.fromstring(self.drawn(example("diamond.cpp"), "D"))
        kinds = sorted(one.get("class") for one in groups(document))
        self.assertEqual(kinds, sorted(["whole", "base", "base", "shared-base"] + ["virtual-pointer"] * 3 + ["member"] * 4))
        tips = [one.find(SVG + "title").text for one in groups(document)]
        self.assertIn("virtual pointer of V: 8 bytes at 40", tips)
        self.assertIn("long v: 8 bytes at 48", tips)

    def judge(self, objects, name):
        """Each leaf of a class has its box, or lies among elements that are alike; padding and leaves make up the object."""
        whole, found = objects.whole(name), leaves.of_class(objects.classes, objects.layouts, name)
        boxes, alike, padding = set(), [], []
        for part in whole.all():
            if part.sort in ("member", "virtual pointer"):
                boxes.add((part.place, part.size, part.told))
            elif part.sort == "repeat":
                alike.append(leaves.bits(part))
            elif part.is_padding:
                padding += leaves.bits(part)
        taken = set()
        for leaf in found:
            bits = leaves.bits(leaf)
            taken.update(bits)
            self.assertTrue((leaf.place, leaf.size, leaf.told) in boxes or any(bits[0] in one and bits[-1] in one for one in alike), f"{leaf} of {name} has no box")
        hidden = [bit for one in alike for bit in one]
        self.assertEqual(len(padding), len(set(padding)), name)
        self.assertFalse(taken & set(padding), f"padding of {name} lies over a leaf")
        self.assertEqual(taken | set(padding) | set(hidden), set(range(8 * objects.layouts[name].size)), name)
        self.assertLessEqual({(place, size, told) for place, size, told in boxes}, {(leaf.place, leaf.size, leaf.told) for leaf in found}, name)

    def test_leaves_and_padding_of_two_thousand_random_classes(self):
        count = 0
        for _, text in random_source.sources(2000, 7):
            objects = objects_of(text)
            for name in objects.layouts:
                self.judge(objects, name)
                count += 1
        self.assertGreaterEqual(count, 2000)

    def test_leaves_and_padding_of_random_classes_with_bit_fields(self):
        for text in [BITS, *(text for _, text in random_source.sources(600, 13, 50))]:
            objects = objects_of(text)
            for name in objects.layouts:
                self.judge(objects, name)

    def test_bit_fields_are_shown_by_bit(self):
        objects = objects_of(BITS)
        self.assertEqual([part.tip for part in objects.whole("P").parts], ["int a : 3: 3 bits at 0", "int b : 5: 5 bits at 0.3", "char c: 1 byte at 1", "padding of P: 2 bytes at 2"])
        self.assertEqual([part.tip for part in objects.whole("R").all()], [
            "object of R: 8 bytes at 0", "base S: 4 bytes at 0", "int x : 25: 3 bytes and 1 bit at 0", "padding of S: 7 bits at 3.1", "int z : 2: 2 bits at 4",
            "padding of R: 6 bits at 4.2", "tail padding of R: 3 bytes at 5"])
        self.assertEqual(self.drawn(BITS, "R", "--text"), "R: size 8, align 4, dsize 5, nvsize 5, primary none\n0     3.1 4     4.2 5   8\n| x   |...| z   |...|...|\n'- S ----'\n")
        # a small mark for each bit of the bytes that bit-fields share, or end in: 7 between the borders of each byte
        marks = [one.get("d").count("M") for one in tree.fromstring(self.drawn(BITS, "P")).iter(SVG + "path") if one.get("class") == "bits"]
        self.assertEqual(marks, [7])
        marks = [one.get("d").count("M") for one in tree.fromstring(self.drawn(BITS, "Q")).iter(SVG + "path") if one.get("class") == "bits"]
        self.assertEqual(marks, [7] * 6)

    @support.needs("clang++")
    def test_leaves_and_padding_of_the_streams(self):
        done = support.run("from-cpp", "--all", STREAMS)
        self.assertEqual(done.returncode, 0, done.stderr)
        objects = objects_of(done.stdout)
        self.assertGreater(len(objects.layouts), 100)
        for name in objects.layouts:
            self.judge(objects, name)

    def test_empty_bases_cover_nothing(self):
        objects = objects_of(EMPTY + ARRAYS)
        for name in objects.layouts:
            self.judge(objects, name)
        self.assertEqual([part.sort for part in objects.whole("A").parts], ["member", "empty base"])
        self.assertEqual([(part.tip) for part in objects.whole("D").all() if part.sort == "virtual pointer"], ["virtual pointer of D: 8 bytes at 0", "virtual pointer of X: 8 bytes at 16"])
        self.assertIn("0   4\n| x |\n^ E2, E (empty)\n", self.drawn(EMPTY, "A", "--text"))
        marks = [one for one in groups(tree.fromstring(self.drawn(EMPTY, "A"))) if one.get("class") == "empty-base"]
        self.assertEqual([one.find(SVG + "title").text for one in marks], ["empty base E2: no bytes, at 0", "empty base E: no bytes, at 0"])
        self.assertEqual([one.find(SVG + "rect") for one in marks], [None, None])

    def test_arrays_show_one_element_and_its_padding(self):
        whole = objects_of(EMPTY + ARRAYS).whole("Q")
        array = whole.parts[0]
        self.assertEqual([part.tip for part in array.all()], ["P[3] p: 24 bytes at 0", "P p[0]: 8 bytes at 0", "char c: 1 byte at 0", "padding of P: 3 bytes at 1", "int i: 4 bytes at 4", "P p[1] to p[2], each as p[0]: 16 bytes at 8"])

    def test_the_boxes_of_a_picture_are_the_parts(self):
        for text in (HELD, MANY, EMPTY + ARRAYS, BITS, example("diamond.cpp"), example("layout.cpp")):
            objects = objects_of(text)
            for name in objects.layouts:
                document, covered = tree.fromstring(self.drawn(text, name)), {}
                for sort, tip, row, _ in boxes_of_rows(document):
                    covered.setdefault((sort, tip), set()).update(row)
                for part in objects.whole(name).all():
                    if not part.is_mark:
                        shown = covered[part.sort.replace(" ", "-"), part.tip]
                        self.assertLessEqual(shown, {bit for one in objects.whole(name).all() if one.tip == part.tip for bit in leaves.bits(one)})
                        self.assertIn(int(8 * part.place), shown)

    def test_boxes_do_not_overlap_and_stay_inside(self):
        for text in (HELD, MANY, EMPTY + ARRAYS, BITS, example("diamond.cpp"), example("layout.cpp")):
            document = tree.fromstring(self.drawn(text))
            width, height = float(document.get("width")), float(document.get("height"))
            drawn = [one for _, _, _, one in boxes_of_rows(document)]
            for index, (y, x, end) in enumerate(drawn):
                self.assertTrue(x >= 0 and y >= 0 and end + picture.MARGIN <= width and y + picture.ROW <= height)
                for other_y, other_x, other_end in drawn[:index]:
                    self.assertTrue(other_y != y or x + 0.15 >= other_end or other_x + 0.15 >= end)

    def test_rows_of_64_bytes_and_names_without_room(self):
        text = "struct A { " + " ".join(f"char flag_with_a_name{n};" for n in range(70)) + " long end; };"
        document = tree.fromstring(self.drawn(text))
        self.assertEqual([row.get("data-start") for row in document.iter(SVG + "g") if row.get("class") == "row"], ["0", "64"])
        told = " ".join("".join(one.itertext()) for one in document.iter(SVG + "text") if one.get("class") == "names")
        for number in range(70):
            self.assertRegex(told, rf"\b{number} char flag_with_a_name{number}\b")
        self.assertEqual(len(re.findall(r"\bchar\b", told)), 70)
        self.assertIn(".. 64 to 192: char[200] text goes on\n", self.drawn(EMPTY + ARRAYS, "Q", "--text"))

    def test_a_holder_has_an_arrow(self):
        document = tree.fromstring(self.drawn(HELD, "D"))
        self.assertEqual([one.get("class") for one in groups(document)].count("held-base"), 1)
        self.assertEqual(len([one for one in document.iter(SVG + "path") if one.get("marker-end")]), 1)

    def test_a_terminal(self):
        self.assertEqual(self.drawn(example("diamond.cpp"), "--text", "D"), DIAMOND_TEXT)

    def test_a_file_for_each_class(self):
        with tempfile.TemporaryDirectory() as folder:
            self.drawn(HELD, "--folder", folder)
            self.drawn(HELD, "--tables", "--folder", folder)
            self.assertEqual(sorted(os.listdir(folder)), [name + ending for name in "ABCD" for ending in (".svg", ".tables.svg")])

    def test_an_array_has_its_cookie_and_its_elements(self):
        """The parts of random arrays lie where `array` tells them, and fill the region but for what is behind the elements."""
        counts = {True: 0, False: 0}
        for _, text in random_source.sources(40, 17):
            objects = objects_of(text)
            for name in objects.layouts:
                answer, status = program.answer(["array", f"{name}@3"], text)
                if status:
                    self.assertEqual(answer, "refused A1 Abstract\n")
                    continue
                whole, _, below = array_parts.of_array(objects, f"{name}@3")
                cookie = [part for part in whole.parts if part.sort == "cookie"]
                counts[bool(cookie)] += 1
                self.assertEqual(below[1] == "delete[] ends the elements 2, 1, 0", bool(cookie), name)
                elements = [part for part in whole.parts if part.sort == "element"]
                self.assertEqual([f"element {number} at {part.place}" for number, part in enumerate(elements)], re.findall(r"element.*", answer))
                self.assertEqual([one.end for one in [*cookie, *elements]], [one.place for one in elements[0 if cookie else 1:]] + [whole.size], name)
        self.assertGreater(min(counts.values()), 5)
        far = array_parts.of_array(objects_of("struct E { int x; };"), "E@0040")[0]
        self.assertEqual([part.tip for part in far.parts][-2:], ["E [15]: 4 bytes at 60", "E [16] to [39], each as [0]: 96 bytes at 64"])

    def test_a_pointer_to_a_member_marks_where_it_leads(self):
        """Of random classes the marked part is the member at the place that `memptr` tells, or the subobject that a function gets."""
        marked = {"member": 0, "function": 0}
        for _, text in random_source.sources(30, 19, plain=True):
            objects = objects_of(text)
            for name in objects.layouts:
                for owner in objects.layouts:
                    fields = {field.name for field in objects.classes[owner].fields}
                    for member in sorted(fields | {function.name for function in objects.classes[owner].functions if function.kind == "function"}):
                        answer, status = program.answer(["memptr", f"{owner}::{member}@{name}"], text)
                        if status == 0:
                            whole, _, below = member_parts.of_member(objects, f"{owner}::{member}@{name}")
                            one, = [part for part in whole.all() if part.note]
                            self.assertEqual(one.place, int(re.search(r"(?:data|adj) (\d+)", answer)[1]), answer)
                            self.assertEqual(one.name.lstrip("*"), member if member in fields else owner)
                            self.assertEqual(len(below), 1 if member in fields else 2)
                            marked["member" if member in fields else "function"] += 1
        self.assertGreater(min(marked.values()), 20)

    def test_a_dump_has_its_values(self):
        lines = """dump #3 H 32
0 01 bool q[0].b
1 bits 0 3 -2 int q[0].i
1 bits 3 5 -- int q[0].j
2 pad 2
4 00 bool q[1].b
5 bits 0 3 3 int q[1].i
5 bits 3 5 -7 int q[1].j
6 pad 2
8 null H* to[0]
16 #2+40 H* to[1]
24 ff char c[0]
25 -- char c[1]
26 pad 6
program
struct Q { bool b; int i : 3; int j : 5; }; struct H { Q q[2]; H* to[2]; char c[2]; };
"""
        with tempfile.TemporaryDirectory() as folder:
            path = os.path.join(folder, "dumped")
            with open(path, "w", encoding="utf-8") as file:
                file.write(lines)
            document = tree.fromstring(self.drawn("", "--dump", path))
            text = self.drawn("", "--dump", path, "--text")
        tips = [one.find(SVG + "title").text for one in groups(document)]
        for told in ("bool b = 1: 1 byte at 0", "int i : 3 = -2: 3 bits at 1", "int j : 5 = unset: 5 bits at 1.3", "bool b = 0: 1 byte at 4", "int i : 3 = 3: 3 bits at 5", "int j : 5 = -7: 5 bits at 5.3",
                     "H*[2] to = null, #2+40: 16 bytes at 8", "char[2] c = -1, unset: 2 bytes at 24"):
            self.assertIn(told, tips)
        self.assertIn("  8: H*[2] to = null, #2+40\n", text)

    def test_options_between_the_words(self):
        with tempfile.TemporaryDirectory() as folder:
            source = os.path.join(folder, "held.src")
            with open(source, "w", encoding="utf-8") as file:
                file.write(HELD)
            self.drawn("", "D", "--folder", folder, source)
            self.assertEqual(sorted(os.listdir(folder)), ["D.svg", "held.src"])

    def test_bad_input(self):
        for words, text, status, said in ((["Nobody"], HELD, 1, "no class Nobody is in the source"), (["--tables", "Nobody"], HELD, 1, "no class Nobody is in the source"), ([], "struct A { A a; };", 1, "refused E5"), ([], "", 1, "no class"), (["D", "/nowhere"], "", 2, "cannot be read")):
            done = support.run("draw", *words, text=text)
            self.assertEqual(done.returncode, status)
            self.assertIn(said, done.stderr)
            self.assertNotIn("Traceback", done.stderr)


class Tables(unittest.TestCase):
    def test_the_words_of_tables(self):
        one, = table_text.read(TABLES)
        self.assertEqual([(table.group, table.name, len(table.words)) for table in one.tables], [("D", "D@0", 4), ("D", "V@16", 4)])
        self.assertEqual(one.tables[1].words[3], table_text.Word(0, "func D::f this 0 vcall -24"))
        self.assertEqual((len(one.vtt), len(one.typeinfo)), (2, 2))

    def test_what_each_word_leads_to(self):
        one, = table_text.read(TABLES)
        told = [table_text.leads(word, table, one.tables) for table in one.tables for word in table.words]
        self.assertEqual(told, [
            "V lies 16 bytes from here, at 16", "the start of the view, at 0", "the type information of D, which typeid names", "runs D::f, this at 0",
            "what runs for V::f lies -16 bytes from here, at 0", "the start of the view, at 0", "the type information of D, which typeid names",
            "a thunk adds 0 to this, then the word -3 of the table there, and runs D::f, this at 0"])
        self.assertEqual([table_text.typeinfo_told(line) for line in one.typeinfo], ["D has 1 base", "V: virtual, public, as far as the word -3 of the object's table says"])

    def test_one_box_for_each_word(self):
        document = tree.fromstring(table_picture.picture(table_text.read(TABLES)))
        counts = {sort: len([one for one in document.iter(SVG + "g") if one.get("class") == sort]) for sort in ("word", "vtt", "typeinfo")}
        self.assertEqual(counts, {"word": 8, "vtt": 2, "typeinfo": 2})
        names = {one.get("id") for one in document.iter(SVG + "text")}
        for link in document.iter(SVG + "a"):
            self.assertIn(link.get("href")[1:], names)
        self.assertIn("->    0 | func D::f this 0 vcall -24 | a thunk adds 0", table_picture.plain(table_text.read(TABLES)))

    @support.needs_program
    def test_the_place_of_this_is_that_of_the_overrider(self):
        """A thunk leads to a subobject of the class whose function runs, for all entries of random classes."""
        entries = 0
        for _, text in random_source.sources(200, 11):
            objects = objects_of(text)
            for one in table_text.read(program.text_of(["tables"], text)):
                for table in one.tables:
                    for word in table.words:
                        told = table_text.leads(word, table, one.tables)
                        runs = re.search(r"runs (\w+)::.* this at (\d+)", told)
                        if runs:
                            bases = [(base.class_name, base.place) for base in objects.layouts[one.name].bases] + [(one.name, 0)]
                            self.assertIn((runs[1], int(runs[2])), bases, f"{one.name} {table.name} {word.text}")
                            entries += 1
        self.assertGreater(entries, 150)

    @support.needs_program
    def test_a_class_without_tables(self):
        done = support.run("draw", "--tables", "--text", text="struct A { int x; };")
        self.assertEqual(done.stdout, "the type information of A\n          | typeinfo A class | A has no base\n")


if __name__ == "__main__":
    unittest.main()
