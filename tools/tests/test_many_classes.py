"""tools/page on many classes: each is made when it is opened, by its heading, a link, an address or for paper, and is then as on a page of few."""
import json
import os
import re
import tempfile
import unittest

import browser
import support
import test_page
from lib import packed
from test_page import HERE, LAID, SHOWN, made

COUNT = 101
MADE = "document.querySelectorAll('section.class > .body').length"
OPEN = "Array.from(document.querySelectorAll('section.class > .body:not([hidden])')).map((one) => one.parentElement.id.replace('s1-class-', '')).join(' ')"
IN_SIGHT = "(() => { const box = document.querySelector(':target')?.getBoundingClientRect(); return Boolean(box) && box.top > -1 && box.top < innerHeight && box.height > 0; })()"


def classes(count):
    """Chains of four classes; their functions are virtual, and their names are no HTML."""
    return "".join(f"struct C{n}{f' : virtual C{n - 1}' if n % 4 else ''} {{ char a; long b; virtual void f{n % 4}() {{}} }};\n" for n in range(count))


def read_packed(page):
    """The texts that a page has packed, put together again."""
    data = json.loads(re.search(r'<script type="application/json" class="packed">(.*?)</script>', page, re.S)[1])
    numbers = {packed.letter(number): piece for number, piece in enumerate(data["pieces"])}
    return ["".join(numbers[letter] for letter in text) for text in data["texts"]]


class Packed(unittest.TestCase):
    def test_texts_come_back(self):
        """Also where there are more pieces than letters below the halves of a letter, and below 65,536."""
        texts = ["", "plain", "<b>a</b> \n<i>b</i>", "".join(f"<p id=\"{n}\">" + f"{n} &lt; \\ ü</p>\n" for n in range(70_000))]
        text = packed.packed(texts)
        self.assertNotIn("</", text)
        self.assertEqual(read_packed(f'<script type="application/json" class="packed">{text}</script>'), texts)
        self.assertFalse(any(0xD800 <= ord(letter) < 0xE000 for letter in text))
        self.assertTrue(any(ord(letter) > 0xFFFF for letter in text))

    def test_texts_that_differ_by_numbers(self):
        """They are cut around these, but an anchor stays whole: page_closed.js looks for it."""
        texts = [f'<h5 id="s1-group-C{n}">C{n}</h5>' + "".join(f'<rect x="{n * m / 8}" y="{m}"/>' for m in range(40)) for n in range(300)]
        text = packed.packed(texts)
        self.assertEqual(read_packed(f'<script type="application/json" class="packed">{text}</script>'), texts)
        self.assertLess(len(text), len(packed.packed_by(packed.TAGS, texts)) / 2)
        self.assertLessEqual({f' id="s1-group-C{n}"' for n in range(300)}, set(json.loads(text)["pieces"]))


@support.needs_program
class Text(unittest.TestCase):
    def test_each_link_has_its_anchor(self):
        page = made(text=classes(COUNT) + "int main() { C7* p = new C7; p->f0(); delete p; }")
        bodies = read_packed(page)
        found = test_page.Anchors(page + "".join(bodies))
        self.assertEqual(len(bodies), COUNT)
        self.assertEqual(len(found.ids), len(set(found.ids)))
        self.assertEqual(set(found.links) - set(found.ids), set())
        self.assertEqual(found.silent, [])

    def test_a_hundred_classes_are_open(self):
        page = made(text=classes(COUNT - 1))
        self.assertEqual((page.count('<div class="body">'), page.count('class="packed"')), (COUNT - 1, 0))


@support.needs_program
@support.needs("chromium")
class InTheBrowser(unittest.TestCase):
    @classmethod
    def setUpClass(cls):
        cls.room = tempfile.TemporaryDirectory()
        cls.addClassCleanup(cls.room.cleanup)
        cls.few = cls.written("few.html", made(text=classes(8)))
        cls.path = cls.written("many.html", made(text=classes(COUNT) + "int main() { C7* p = new C7; }"))

    written = classmethod(test_page.Browser.written.__func__)

    def test_headings_open_and_close(self):
        with browser.Page(self.path) as page:
            self.assertEqual(page.value(MADE), 0)
            for shown in ("C7", "", "C7"):
                page.click("#s1-class-C7 h3 button")
                self.assertEqual(page.value(OPEN), shown)
                self.assertEqual(page.value("document.querySelector('#s1-class-C7 h3 button').getAttribute('aria-expanded')"), "true" if shown else "false")
            self.assertEqual(page.told, [])

    def test_an_opened_class_is_as_on_a_page_of_few(self):
        text = "Array.from(document.querySelectorAll('section.class')).slice(0, 8).map((one) => one.querySelector('.body').innerHTML)"
        with browser.Page(self.few) as page:
            wanted = page.value(text)
        with browser.Page(self.path) as page:
            for number in range(8):
                page.click(f"#s1-class-C{number} h3 button")
            self.assertEqual(page.value(text), wanted)
            self.assertEqual(len(set(wanted)), 8)

    def test_links_and_addresses_open_their_class(self):
        """From the index, from an opened class, from the time line, from the search, as it is typed, and from the start."""
        def opened(shown):
            wanted = [shown, True]
            self.assertEqual(page.until(f"[{OPEN}, {IN_SIGHT}]", wanted), wanted)
        with browser.Page(self.path) as page:
            for link, shown in (('.index a[href="#s1-class-C2"]', "C2"), ('#s1-class-C2 .tables a[href^="#s1-function-C1"]', "C1 C2"), (".stage:not([hidden]) .leads a", "C1 C2 C7")):
                if "leads" in link:
                    page.click("[data-go=last]")
                page.click(link)
                opened(shown)
            page.click("#search")
            page.type("c50")
            page.key("Enter")
            opened("C1 C2 C7 C50")
            page.open(self.path + "#s1-group-C60")
            opened("C1 C2 C7 C50 C60")
            page.click("#s1-class-C60 h3 button")
            self.assertEqual(page.until(OPEN, "C1 C2 C7 C50"), "C1 C2 C7 C50")
            page.value("history.back()")
            self.assertEqual(page.until("location.hash", "#s1-class-C50"), "#s1-class-C50")
            page.value("history.forward()")
            opened("C1 C2 C7 C50 C60")
            self.assertEqual(page.told, [])
        for place, shown in (("#s1-typeinfo-C100", ["C100", True]), ("#nothing", ["", False])):
            with browser.Page(self.path + place) as page:
                self.assertEqual((page.until(f"[{OPEN}, {IN_SIGHT}]", shown), page.told), (shown, []))

    def test_all_are_opened_at_once(self):
        with browser.Page(self.path) as page:
            page.click("[data-all]")
            self.assertEqual(len(page.value(OPEN).split()), COUNT)

    def test_on_paper_all_are_open(self):
        count = f"{OPEN}.split(' ').filter(Boolean).length"
        with browser.Page(self.path) as page:
            page.click("#s1-class-C3 h3 button")
            page.value(f"addEventListener('beforeprint', () => {{ window.seen = {count}; }})")
            page.printed(os.path.join(self.room.name, "many.pdf"))
            self.assertEqual((page.value("window.seen"), page.value(OPEN), page.told), (COUNT, "C3", []))

    def test_what_a_screen_reader_is_given(self):
        """Each heading with its button, closed or open, each row of the index, and the parts of an opened class."""
        with browser.Page(self.path) as page:
            page.value(LAID)
            page.click("#s1-class-C100 h3 button")
            found = test_page.Browser.read_aloud(page)
            buttons = [one for one in page.call("Accessibility.getFullAXTree")["nodes"] if not one.get("ignored") and one["role"]["value"] == "button" and one["name"]["value"].startswith("struct C")]
        self.assertEqual(sum(role == "heading" and bool(re.fullmatch(r"struct C\d+", name)) for role, name in found), COUNT)
        self.assertEqual([next(word["value"]["value"] for word in one["properties"] if word["name"] == "expanded") for one in buttons], [False] * (COUNT - 1) + [True])
        self.assertEqual({name for role, name in found if role == "rowheader" and re.fullmatch(r"C\d+", name)}, {f"C{number}" for number in range(COUNT)})
        self.assertTrue(any(role == "image" and name.startswith("C100: size") for role, name in found))

    def test_rows_that_are_not_found_take_no_room(self):
        """Also while they wait to be laid out; the printed index has them all."""
        height = "document.querySelector('.index').getBoundingClientRect().height"
        with browser.Page(self.path) as page:
            whole = page.value(height)
            page.click("#search")
            page.type("c77")
            self.assertLess(page.value(height), whole / 20)
            again = page.value(f"document.getElementById('search').value = ''; document.getElementById('search').dispatchEvent(new Event('input')); {height}")
            self.assertLess(abs(again - whole), 3)
            page.type("c77")
            page.media(kind="print")
            self.assertEqual(page.value("Array.from(document.querySelectorAll('.index tbody tr')).filter((row) => row.getClientRects().length).length"), COUNT)

    def test_the_index_is_a_table_to_the_eye(self):
        """The cells of each column begin at one place, and a page that waits takes the room that it has when it is laid out."""
        columns = "JSON.stringify(Array.from(new Set(Array.from(document.querySelectorAll('.index tr')).map((row) => Array.from(row.cells, (cell) => Math.round(cell.getBoundingClientRect().left)).join(' ')))))"
        height = "Array.from(document.querySelectorAll('.index, .heads, .source ol')).map((one) => one.getBoundingClientRect().height)"
        for width in (1200, 390):
            with browser.Page(self.path, width) as page:
                before = page.settled(height)
                page.value(LAID)
                self.assertEqual(len(json.loads(page.value(columns))), 1)
                self.assertTrue(all(abs(one - other) < 3 for one, other in zip(before, page.value(height))), (before, page.value(height)))
                self.assertTrue(page.value("document.documentElement.scrollWidth <= innerWidth"))

    def test_contrast(self):
        with open(os.path.join(HERE, "contrast.js"), encoding="utf-8") as file:
            script = file.read()
        with browser.Page(self.path) as page:
            page.click("#s1-class-C7 h3 button")
            for dark, kind in ((False, "screen"), (True, "screen"), (True, "print")):
                page.media(dark, kind)
                found = page.value(script)
                self.assertGreater(found["count"], 8 * COUNT)
                self.assertEqual(found["low"], [], (dark, kind))

    def test_where_scripts_are_off(self):
        """Nothing waits: index, headings, the source and all moments are there, and a sentence says what is missing."""
        with browser.Page(self.path) as page:
            page.call("Emulation.setScriptExecutionDisabled", value=True)
            page.open(self.few)
            page.open(self.path)
            found = test_page.Browser.read_aloud(page)
        self.assertEqual(sum(role == "rowheader" and bool(re.fullmatch(r"C\d+", name)) for role, name in found), COUNT)
        self.assertEqual(sum(role == "heading" and bool(re.fullmatch(r"struct C\d+", name)) for role, name in found), COUNT)
        self.assertTrue(any("scripts have to be allowed" in name for _, name in found))
        self.assertGreater(sum(role == "row" for role, _ in found), COUNT + 10)

    def test_a_thousand_classes_open(self):
        """In half a second of a quiet processor; the bound leaves room for a slow one with other work. The best of three goes counts."""
        text = "".join(f"struct C{n}{f' : C{n - 1}' if n % 10 else ''} {{ char a; long b; {'virtual ' if n % 3 else ''}void f() {{}} }};\n" for n in range(1000)) + "int main() { C9* p = new C9; }"
        path = self.written("thousand.html", made(text=text))
        took = []
        for _ in range(3):
            with browser.Page(self.written("empty.html", "<title>empty</title>")) as page:
                page.call("Accessibility.disable")
                page.call("Performance.enable")
                start = self.processor_seconds(page)
                page.open(path)
                page.value("new Promise((done) => requestAnimationFrame(() => requestAnimationFrame(done)))")
                took.append(self.processor_seconds(page) - start)
                self.assertLess(page.value("document.querySelectorAll('*').length"), 20_000)
                page.click("#search")
                page.type("c77")
                self.assertEqual(page.value(SHOWN), "C77 C78 " + " ".join(f"C{n}" for n in range(770, 780)))
                page.value(LAID)
                self.assertEqual(page.told, [])
        self.assertLess(min(took), 3, took)

    def test_what_is_not_seen_waits(self):
        """When a page of many is there, its far rows and headings are not laid out yet; a little later they are, without a hand."""
        path = self.written("three.html", made(text=classes(301)))
        laid = "Array.from(document.querySelectorAll('%s')).filter((one) => one.checkVisibility({ contentVisibilityAuto: true })).length"
        with browser.Page(self.written("empty.html", "<title>empty</title>")) as page:
            page.call("Page.addScriptToEvaluateOnNewDocument", source=f"addEventListener('load', () => requestAnimationFrame(() => setTimeout(() => {{ window.first = [{laid % '.index tbody tr'}, {laid % 'section.class'}]; }})))")
            page.open(path)
            page.value(LAID)
            first = page.value("window.first")
            self.assertTrue(all(count < 301 for count in first), first)
            self.assertEqual(page.value(f"[{laid % '.index tbody tr'}, {laid % 'section.class'}]"), [301, 301])

    @staticmethod
    def processor_seconds(page):
        """What the process of the page has taken so far."""
        return next(one["value"] for one in page.call("Performance.getMetrics")["metrics"] if one["name"] == "ProcessTime")


if __name__ == "__main__":
    unittest.main()
