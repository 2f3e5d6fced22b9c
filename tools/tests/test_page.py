"""tools/page: links and anchors, the time line against docs/CONSTRUCTION.md, and the page in a browser without a screen."""
import html.parser
import os
import re
import subprocess
import sys
import tempfile
import unittest

import browser
import support
from lib import class_tables, layout_text, marked_run, program, source, statements, time_line

EXAMPLES = os.path.join(program.TOP, "examples")
HERE = os.path.dirname(os.path.abspath(__file__))
SHOWN = "Array.from(document.querySelectorAll('.index tbody tr')).filter((row) => !row.hidden).map((row) => row.querySelector('a').textContent).join(' ')"
NOW = "document.querySelector('.now').textContent + ' / ' + document.querySelector('.count').textContent"
ROWS = "Array.from(document.querySelectorAll('.stage:not([hidden]) tr[data-%s]')).map((row) => row.textContent).join('; ')"
LAID = "new Promise((done) => { const look = () => (document.querySelector('[data-late]') ? setTimeout(look, 20) : done()); look(); })"  # waits until all is laid out
NAMELESS = ("button", "link", "slider", "searchbox", "image", "region")


def example(name):
    with open(os.path.join(EXAMPLES, name), encoding="utf-8") as file:
        return file.read()


def made(*words, text=""):
    done = support.run("page", *words, text=text)
    if done.returncode:
        raise AssertionError(done.stderr)
    return done.stdout


def line_of(text):
    return time_line.read(text, source.classes(text), layout_text.read(program.text_of(["layout"], text)), class_tables.read(program.text_of(["tables"], text)))


class Anchors(html.parser.HTMLParser):
    """All anchors and links of a page, and the elements that need a text beside them."""

    def __init__(self, text):
        super().__init__()
        self.ids, self.links, self.silent, self.open, self.heads = [], [], [], [], []
        self.feed(text)

    def handle_starttag(self, tag, attributes):
        found = dict(attributes)
        self.ids += [found["id"]] if "id" in found else []
        self.links += [found["href"][1:]] if found.get("href", "").startswith("#") else []
        self.heads += [int(tag[1])] if re.match(r"h[1-6]$", tag) else []
        if tag == "svg" and found.get("aria-hidden") != "true" and not found.get("aria-label"):
            self.silent.append(found)
        if found.get("src") or (found.get("href", "#")[:1] != "#" and not found["href"].startswith("data:")):
            self.silent.append(found)


@support.needs_program
class Text(unittest.TestCase):
    def test_each_link_has_its_anchor(self):
        found = Anchors(made(os.path.join(EXAMPLES, "construction.cpp"), os.path.join(EXAMPLES, "diamond.cpp"), os.path.join(EXAMPLES, "layout.cpp")))
        self.assertEqual(len(found.ids), len(set(found.ids)))
        self.assertGreater(len(found.links), 100)
        self.assertEqual(set(found.links) - set(found.ids), set())
        self.assertEqual(found.silent, [])
        self.assertTrue(all(behind - front <= 1 for front, behind in zip(found.heads, found.heads[1:])))

    def test_a_text_is_no_mark_of_the_page(self):
        page = made(text="struct A { int x; }; int main() { print(1); } // </script><b>& ü\n")
        self.assertIn("// &lt;/script&gt;&lt;b&gt;&amp; ü", page)
        self.assertEqual(page.count("</script>"), 3)

    def test_names_that_are_parts_of_words(self):
        """A class may be called as a part of `vbase` or `typeinfo`: the link is on its name."""
        found = re.findall(r"<td>((?:vbase|typeinfo|func) .*?)</td>", made(text="struct a { virtual void f() {} }; struct t : virtual a { virtual void v() {} };"))
        plain = {re.sub(r"<a href=\"#s1-([^\"]*)\">([^<]*)</a>", r"[\1 \2]", one) for one in found}
        self.assertEqual(plain, {"vbase 0 [class-a a]", "typeinfo [typeinfo-a a]", "typeinfo [typeinfo-t t]", "func [function-a-f a::f]", "func [function-t-v t::v]"})

    def test_padding_beside_bit_fields_is_counted_in_bits(self):
        page = made(text="struct S { S() {} int x : 25; }; struct R : S { int z : 2; bool y : 1; char c; };\nint main() { R* r = new R; r->z = 3; int z = r->z; print(z); }\n")
        self.assertIn("<h4>Padding: 3 bytes and 4 bits of 8 bytes</h4>", page)
        for row in ("<td class=\"number\">3.1</td><td class=\"number\">7 bits</td><td>x</td><td>z</td>", "<td class=\"number\">4.3</td><td class=\"number\">5 bits</td><td>y</td><td>c</td>",
                    "<td class=\"number\">6</td><td class=\"number\">2</td><td>c</td><td>the end</td>", "<td class=\"number\">3 bytes and 4 bits</td>"):
            self.assertIn(row, page)
        self.assertIn("Members: int z : 2 at 4; bool y : 1 at 4.2; char c at 5.", page)
        self.assertIn("<title>int z : 2: 2 bits at 4</title>", page)

    def test_bad_input(self):
        for words, text, status, said in [((), "", 1, "has no class"), ((), "struct A {", 1, "is not taken"), (("/nowhere/file",), "", 2, "cannot be read"), ((EXAMPLES,), "", 2, "cannot be read")]:
            done = support.run("page", *words, text=text)
            self.assertEqual((done.returncode, done.stdout), (status, ""))
            self.assertIn(said, done.stderr)
            self.assertNotIn("Traceback", done.stderr)

    @unittest.skipUnless(os.path.exists("/dev/full"), "/dev/full missing")
    def test_no_room_for_the_text(self):
        for words in (["page", os.path.join(EXAMPLES, "diamond.cpp")], ["as-json", "layout", "--source", os.path.join(EXAMPLES, "diamond.cpp")]):
            with open("/dev/full", "w", encoding="utf-8") as full:
                done = subprocess.run([sys.executable, os.path.join(support.TOOLS, words[0]), *words[1:]], stdout=full, stderr=subprocess.PIPE, encoding="utf-8")
            self.assertEqual((done.returncode, done.stderr), (2, f"{words[0]}: standard output cannot be used: No space left on device\n"))

    def test_no_program(self):
        done = support.run("page", text="struct A {};", environment={**os.environ, "TAGYMELUR": "/nowhere/program"})
        self.assertEqual((done.returncode, done.stdout), (2, ""))
        self.assertIn("cannot be run", done.stderr)


@support.needs_program
class Runs(unittest.TestCase):
    def test_the_events_of_the_page_on_construction(self):
        """The table of docs/CONSTRUCTION.md has for each event the group of each pointer."""
        with open(os.path.join(program.TOP, "docs", "CONSTRUCTION.md"), encoding="utf-8") as file:
            text = file.read()
        rows = [[cell.strip() for cell in line.strip("|").split("|")] for line in text[text.index("| Step | Event |"):].split("\n\n")[0].splitlines()[2:]]
        wanted = [(cells[1].replace("`", ""), cells[7:]) for cells in rows if re.match(r"\w+ `(begin|ready|done|ending|bases|end)`", cells[1])]
        self.assertEqual(len(wanted), 24)
        pointers, found = {}, []
        names = {"B1@0 in D": "B1", "B2@16 in D": "B2", "": "closed"}
        for moment in line_of(example("construction.cpp")).moments:
            pointers.update(moment.pointers)
            if moment.sort in time_line.PHASES:
                part = re.search(r"\b(V|B1|B2|D)\b", moment.text)[1]
                groups = [pointers[place].partition(" of ")[2] if place in pointers else "." for place in (0, 16, 40)]
                found.append((f"{part} {moment.sort}", [names.get(group, group) for group in groups]))
        self.assertEqual(found, wanted)

    def test_lines_and_thunks(self):
        found = [(moment.line, moment.text, moment.thunk) for moment in line_of(example("construction.cpp")).moments if moment.sort in ("call", "delete") and "thunk" in moment.thunk]
        self.assertEqual(found, [(26, "call D::f on #1+0", "entry 0: func D::f this 0 vcall -24, through a thunk"),
                                 (27, "delete p: object #1", "entry 2: deleting D::~D this 0 vcall -32, through a thunk")])

    def test_a_number_like_a_mark(self):
        text = "int main() { int n = 1000000001; print(n); }"
        with self.assertRaises(marked_run.NoMarks):
            line_of(text)
        self.assertIn("There is no time line", made(text="struct A {}; " + text))

    def test_blocks_and_early_ends(self):
        text = ("struct N { N* next; int n;\n N() : n(3) {}\n int count() { if (this) { print(7); return 1; } else { print(8); } return 2; } };\n"
                "int main() { N* p = new N; int i = 2; while (i) { i = i - 1; int k = p->count(); print(k); } delete p; delete 0; }").replace("if (this)", "int m = this->n; if (m)").replace(" delete 0;", "")
        told = [(moment.sort, moment.text, moment.line) for moment in line_of(text).moments]
        self.assertEqual([one for one in told if one[0] in ("call", "printed")], 2 * [("call", "call N::count on #1+0", 4), ("printed", "7", 3), ("printed", "1", 4)])
        self.assertEqual(told[-1], ("end", "N has ended", 1))

    def test_an_undefined_step_is_the_last(self):
        told = line_of("struct A { int x; };\nint main() { A* p = new A;\n int y = p->x; }").moments
        self.assertEqual((told[-1].sort, told[-1].text, told[-1].line), ("last", "undefined U5 Unset line 3", 3))

    def test_the_bodies_of_a_source(self):
        found = statements.read("class A { int x; public: A() : x(1) { } virtual long f(A* a, int b) { a->f(a, b); return 3; } virtual void g() = 0; };")
        self.assertEqual([(body.name, body.kind, [one.kind for one in body.statements]) for body in found.bodies],
                         [("A", "constructor", ["begin", "end"]), ("f", "function", ["begin", "call", "return", "end"])])
        self.assertEqual(found.statements[3].receiver, "A")


@support.needs_program
class Padding(unittest.TestCase):
    def test_holes_and_orders_by_hand(self):
        page = made(text="struct A { char a; long b; char c; }; struct B : A { char d; short e; }; struct P { char a; short b; char c; }; struct Q { P p[3]; int i; };")
        rows = [re.findall(r"<td[^>]*>([^<]*)</td>", row) for row in re.findall(r"<tr>(<td .*?)</tr>", page)]
        self.assertEqual(rows[:2], [["1", "7", "a", "b"], ["17", "7", "c", "the end"]])
        self.assertIn(["1", "1, 3 times", "p[0].a", "p[0].b"], rows)
        self.assertIn('Padding: 14 of 24 bytes</h4><p class="padding">In the order b, a, c its size is 16, 8 bytes less: no order is smaller', page)
        self.assertIn("The order of the members is best: no order is smaller", page)
        saved = dict(re.findall(r'>(\w)</a></th><td class="number">\d+</td><td class="number">\d+</td><td class="number">\d+</td><td class="number">(\d*)</td>', page))
        self.assertEqual(saved, {"A": "8", "B": "", "P": "2", "Q": ""})


@support.needs_program
@support.needs("chromium")
class Browser(unittest.TestCase):
    """The page as a user has it: real keys and clicks, in a window and on a telephone, on a light, a dark and a printed ground."""

    @classmethod
    def setUpClass(cls):
        cls.room = tempfile.TemporaryDirectory()
        cls.addClassCleanup(cls.room.cleanup)
        cls.path = cls.written("construction.html", made(os.path.join(EXAMPLES, "construction.cpp")))

    @classmethod
    def written(cls, name, text):
        path = os.path.join(cls.room.name, name)
        with open(path, "w", encoding="utf-8") as file:
            file.write(text)
        return path

    def test_the_search(self):
        with browser.Page(self.path) as page:
            page.click("#search")
            page.type("b1")
            self.assertEqual((page.value(SHOWN), page.value("document.getElementById('found').textContent")), ("B1 D", "2 of 4 classes"))
            page.key("Enter")
            self.assertEqual(page.value("location.hash"), "#s1-class-B1")
            self.assertTrue(page.value("(() => { const box = document.getElementById('s1-class-B1').getBoundingClientRect(); return box.top > -1 && box.top < innerHeight; })()"))
            page.type(" nothing such")
            self.assertEqual(page.value(SHOWN), "")
            self.assertEqual(page.told, [])

    def test_steps_by_buttons_and_keys(self):
        for width in (1200, 390):
            with browser.Page(self.path, width) as page:
                page.click("[data-go=forward]")
                self.assertEqual(page.value(NOW), "Line 20: the bases of D come first. / 2 of 44")
                for name in ["ArrowRight"] * 8 + ["ArrowLeft"]:
                    page.key(name)
                self.assertEqual(page.value(NOW), "Line 9: B1 is ready. The pointer at 0 leads to B1@0 of B1@0 in D; the pointer at 40 leads to V@40 of B1@0 in D. / 9 of 44")
                self.assertEqual(page.value(ROWS % "place"), "0B1@0 of B1@0 in D; 16not set; 40V@40 of B1@0 in D")
                self.assertEqual(page.value(ROWS % "part"), "D0bases; B10ready, building; *V40complete; B216raw")
                for go, key, at in (("last", "End", 44), ("back", "ArrowLeft", 43), ("first", "Home", 1)):
                    page.click(f"[data-go={go}]")
                    self.assertTrue(page.value(NOW).endswith(f"/ {at} of 44"))
                    page.key("ArrowRight")
                    page.key(key)
                    self.assertTrue(page.value(NOW).endswith(f"/ {at} of 44"), (go, key))
                self.assertTrue(page.value("document.documentElement.scrollWidth <= innerWidth"))
                self.assertEqual(page.told, [])

    def test_the_phases_have_the_colours_of_their_key(self):
        """At each moment each bar has the colour that the list of phases gives to the phase in its row."""
        script = """(() => { const key = {}, wrong = [], seen = new Set();
          for (const one of document.querySelectorAll(".phases li")) { key[one.textContent] = getComputedStyle(one).backgroundColor; }
          for (const button of document.querySelectorAll("[data-moment]")) { button.click();
            for (const row of document.querySelectorAll(".stage:not([hidden]) tr[data-part]")) {
              const name = row.querySelector(".phase").textContent, bar = document.querySelector(`.stage:not([hidden]) g[data-part="${row.dataset.part}"] rect`);
              seen.add(name); if (getComputedStyle(bar).fill !== key[name]) { wrong.push(name); } } }
          return [Object.values(key).length, new Set(Object.values(key)).size, Array.from(seen).sort().join(), wrong.join()]; })()"""
        with browser.Page(self.path) as page:
            self.assertEqual(page.value(script), [7, 7, "bases,complete,ended,ending bases,raw,ready, building,ready, ending", ""])

    def test_it_opens_at_a_moment_and_asks_for_no_other_file(self):
        with browser.Page(self.path + "#s1-run-9") as page:
            self.assertIn(" / 9 of 44", page.value(NOW))
            self.assertEqual([one["params"]["url"].partition("#")[0] for one in page.events if one["method"] == "asked"], ["file://" + self.path])

    def test_contrast(self):
        """On each ground each text is told from what lies behind it; one that is too faint is seen."""
        with open(os.path.join(HERE, "contrast.js"), encoding="utf-8") as file:
            script = file.read()
        several = self.written("several.html", made(*(os.path.join(EXAMPLES, name) for name in ("construction.cpp", "covariant.cpp", "padding.cpp", "delete.cpp"))))
        with browser.Page(several) as page:
            for dark, kind in ((False, "screen"), (True, "screen"), (True, "print")):
                page.media(dark, kind)
                for place in ("", "#s1-class-D", "#s1-function-V-f", "#s1-run-24"):
                    page.open(several + place)
                    page.value("document.querySelector('[data-moment=\"24\"]').click()")
                    found = page.value(script)
                    self.assertGreater(found["count"], 400)
                    self.assertEqual(found["low"], [], (dark, kind, place))
            page.value("document.querySelector('.now').style.color = '#777777'")
            page.media(False)
            self.assertEqual(len(page.value(script)["low"]), 1)

    def test_what_a_screen_reader_is_given(self):
        with browser.Page(self.path) as page:
            page.value(LAID)
            found = self.read_aloud(page)
        self.assertEqual([one for one in found if one[0] in NAMELESS and not one[1]], [])
        roles = [role for role, _ in found]
        self.assertTrue({"banner", "main", "contentinfo", "searchbox", "slider", "table", "image"} <= set(roles))
        self.assertIn(("table", "All moments"), found)
        self.assertTrue(any(role == "image" and name.startswith("D: size 56") and "Members: long d at 32" in name for role, name in found))

    @staticmethod
    def read_aloud(page):
        """The roles and names that a screen reader is given."""
        nodes = [one for one in page.call("Accessibility.getFullAXTree")["nodes"] if not one.get("ignored")]
        return [(one["role"]["value"], one.get("name", {}).get("value", "")) for one in nodes]

    def test_the_printed_page_has_all_classes_and_moments(self):
        with browser.Page(self.path) as page:
            page.click("#search")
            page.type("b1")
            page.media(kind="print")
            self.assertEqual(page.value("Array.from(document.querySelectorAll('.index tbody tr')).filter((row) => row.getClientRects().length).length"), 4)
            self.assertEqual(page.value("Array.from(document.querySelectorAll('.moments tbody tr')).filter((row) => row.getClientRects().length).length"), 44)
            self.assertEqual(page.value("Array.from(document.querySelectorAll('.controls, .search')).filter((one) => one.getClientRects().length).length"), 0)
            path = os.path.join(self.room.name, "page.pdf")
            page.printed(path)
            with open(path, "rb") as file:
                self.assertEqual(file.read(5), b"%PDF-")


if __name__ == "__main__":
    unittest.main()
