"""tools/as-json against its schema, and the Python module: values, errors, and many sources."""
import doctest
import io
import json
import os
import re
import sys
import unittest
import unittest.mock

import support
from lib import program

sys.path.insert(0, os.path.join(program.TOP, "python"))
import tagymelur  # noqa: E402

with open(os.path.join(program.TOP, "docs", "answers.schema.json"), encoding="utf-8") as file:
    SCHEMA = json.load(file)
TYPES = {"object": dict, "array": list, "string": str, "integer": int, "boolean": bool, "null": type(None)}


def faults(value, schema, where="answer"):
    """What of a value does not fit a schema; the few words of JSON Schema that ours has."""
    if "$ref" in schema:
        return faults(value, SCHEMA["$defs"][schema["$ref"].rpartition("/")[2]], where)
    if "anyOf" in schema:
        return [] if any(not faults(value, one, where) for one in schema["anyOf"]) else [f"{where} fits none"]
    if "enum" in schema:
        return [] if value in schema["enum"] else [f"{where} is {value!r}"]
    kinds = schema["type"] if isinstance(schema["type"], list) else [schema["type"]]
    if not any(isinstance(value, TYPES[kind]) and (kind == "boolean" or not isinstance(value, bool)) for kind in kinds):
        return [f"{where} is no {schema['type']}"]
    found = []
    if isinstance(value, dict):
        found += [f"{where}.{name} is missing" for name in schema.get("required", []) if name not in value]
        found += [f"{where}.{name} is not known" for name in value if name not in schema["properties"]]
        found += [fault for name, one in value.items() if name in schema["properties"] for fault in faults(one, schema["properties"][name], f"{where}.{name}")]
    if isinstance(value, list):
        found += [fault for number, one in enumerate(value) for fault in faults(one, schema["items"], f"{where}[{number}]")]
    return found


# the sources and answers of docs/ARRAYS.md, docs/MEMBER_POINTERS.md, docs/INSPECT.md and docs/FOREIGN.md
X = "struct X { long a; virtual ~X() {} };"
MEMBERS = "struct X { long a; virtual void x() {} };\nstruct A { long b; virtual A* clone() { return this; } void plain() {} virtual void none() = 0; };\nstruct B : X, A { virtual B* clone() { return this; } };\n"
DUMPED = "struct X { char a; virtual void f() {} };\nstruct Y { int b; virtual void g() {} };\nstruct Z : X, Y { Z* next; short s[2]; };\n"
DUMP = "dump #1 Z 48\n0 vptr Z@0 of Z\n8 -- char X::a\n9 pad 7\n16 vptr Y@16 of Z\n24 02010000 int Y::b\n28 pad 4\n32 #1+0 Z* next\n40 ---- short s[0]\n42 0700 short s[1]\n44 pad 4\n"
LISTING = "class P size 16 align 4 dsize 16 nvsize 16 nvalign 4\nprimary none\n8 field int x\n3 field char c\n"
LISTED = "struct P { int x; char c; }; int main() { P* p = new P; p->x = 5; int y = p->x; print(y); }"


def example(name):
    with open(os.path.join(program.TOP, "examples", name), encoding="utf-8") as file:
        return file.read()


@support.needs_program
class Json(unittest.TestCase):
    def said(self, *words, text, status=0):
        done = support.run("as-json", *words, text=text)
        self.assertEqual((done.returncode, done.stderr), (status, ""))
        found = json.loads(done.stdout)
        self.assertEqual(faults(found, SCHEMA), [])
        return found

    def test_the_schema_refuses(self):
        good = self.said("layout", text=example("first.cpp"))
        self.assertTrue(faults({}, SCHEMA))
        self.assertTrue(faults({**good, "more": 1}, SCHEMA))
        self.assertTrue(faults({**good, "classes": [{**good["classes"][0], "size": "8"}]}, SCHEMA))

    def test_a_layout(self):
        found = self.said("layout", "D", text=example("diamond.cpp"))["classes"][0]
        self.assertEqual((found["size"], found["nvsize"], found["primary"]), (56, 40, "B1"))
        self.assertEqual([(base["place"], base["names"], base["shared"]) for base in found["bases"]], [(0, ["B1"], False), (40, ["V"], True), (16, ["B2"], False)])
        self.assertEqual(found["members"], [{"place": 32, "type": "long", "length": None, "name": "d", "first": 0, "width": None}])

    def test_a_layout_with_bit_fields(self):
        found = self.said("layout", text="struct P { int a : 3; int b : 5; char c[2]; };")["classes"][0]
        self.assertEqual([(one["place"], one["first"], one["width"], one["length"], one["name"]) for one in found["members"]], [(0, 0, 3, None, "a"), (0, 3, 5, None, "b"), (1, 0, None, 2, "c")])

    def test_tables(self):
        found = {one["name"]: one for one in self.said("tables", text=example("construction.cpp"))["classes"]}
        self.assertEqual(list(found), ["V", "B1", "B2", "D"])
        word = found["D"]["groups"][0]["tables"][2]["words"][4 + 1]
        self.assertEqual((word["text"], word["this"], word["vcall"], word["result"]), ("complete D::~D this 0 vcall -32", 0, -32, None))
        self.assertEqual(found["D"]["info"], {"name": "D", "sort": "vmi", "flags": 2, "bases": [{"name": "B1", "offset_flags": 2}, {"name": "B2", "offset_flags": 4098}]})

    def test_a_run_and_a_trace(self):
        self.assertEqual(self.said("run", text=example("first.cpp"))["lines"], ["5"])
        events = self.said("trace", text=example("construction.cpp"))["events"]
        self.assertEqual([(one["kind"], one["name"], one["place"], one["line"]) for one in events[:3]], [("call", "V::f", 40, 3), ("printed", None, None, 4), ("built", "V", 40, 3)])
        self.assertEqual(self.said("run", "--steps", "2", text=example("construction.cpp"), status=4)["end"]["kind"], "out of steps")

    def test_a_refusal(self):
        found = self.said("layout", text=example("overriders.cpp"), status=1)
        self.assertEqual(list(found), ["end"])
        end = found["end"]
        self.assertEqual((end["rule"], end["at"], end["line"], end["column"]), ("E13", 133, 4, 8))
        self.assertEqual(end["section"], "ISO C++03 10.3 p10")

    def test_an_array(self):
        found = self.said("array", "X@3", text=X)["array"]
        self.assertEqual((found["region"], found["cookie"], found["count"]), (56, 8, 3))
        self.assertEqual([(one["number"], one["place"]) for one in found["elements"]], [(0, 8), (1, 24), (2, 40)])
        self.assertEqual([(one["number"], one["place"]) for one in found["ended"]], [(2, 40), (1, 24), (0, 8)])
        plain = self.said("array", "P@3", text="struct P { int x; char c; };")["array"]
        self.assertEqual((plain["cookie"], plain["count"], plain["ended"]), (0, None, []))
        self.assertEqual(self.said("array", "A@1", text="struct A { virtual void f() = 0; };", status=1)["end"]["rule"], "A1")

    def test_pointers_to_members(self):
        nothing = {name: None for name in ("place", "bytes", "entry", "code", "adj", "calls", "this")}
        for word, wanted in (("A::b@B", {"sort": "data", "place": 24, "bytes": "1800000000000000", "is_pure": False}),
                             ("A::clone@B", {"sort": "function", "entry": 1, "adj": 16, "calls": "B::clone", "this": 0, "is_pure": False}),
                             ("A::plain@B", {"sort": "function", "code": "A::plain", "adj": 16, "calls": "A::plain", "this": 16, "is_pure": False}),
                             ("A::none", {"sort": "function", "entry": 9, "adj": 0, "calls": "A::none", "this": 0, "is_pure": True})):
            self.assertEqual(self.said("memptr", word, text=MEMBERS)["pointer"], {**nothing, **wanted})
        end = self.said("memptr", "A::c", text=MEMBERS, status=1)["end"]
        self.assertEqual((end["rule"], end["name"], end["at"], end["line"]), ("M1", "NoSuchMember", None, None))

    def test_a_dump(self):
        found = self.said("inspect", text=DUMP + "program\n" + DUMPED)["dump"]
        self.assertEqual((found["number"], found["class_name"]), (1, "Z"))
        self.assertEqual([tuple(one.values()) for one in found["fields"]], [("X::a", "unset", None, None, None), ("Y::b", "number", 258, None, None), ("next", "pointer", None, 1, 0),
                                                                       ("s[0]", "unset", None, None, None), ("s[1]", "number", 7, None, None)])
        end = self.said("inspect", text=DUMP.replace("02010000", "0201") + "program\n" + DUMPED, status=1)["end"]
        self.assertEqual((end["rule"], end["line"], end["column"]), ("I2", 6, None))

    def test_a_run_over_a_listing(self):
        self.assertEqual(self.said("foreign", text=LISTING + "program\n" + LISTED)["lines"], ["5"])
        end = self.said("foreign", text=LISTING.replace("3 field", "9 field") + "program\n" + LISTED, status=1)["end"]
        self.assertEqual((end["rule"], end["name"], end["line"]), ("F6", "Overlap", 1))
        end = self.said("foreign", text=LISTING + "program\n" + LISTED.replace("print(y)", "\nprint(n)"), status=1)["end"]
        self.assertEqual((end["rule"], end["line"], end["column"]), ("E22", 2, 7))  # of the source, whose line it is
        self.assertEqual(self.said("foreign", text=LISTING, status=1)["end"]["rule"], "F1")

    def test_a_program_that_is_none(self):
        for other in ("/bin/cat", "/bin/true"):
            for words in (["layout"], ["tables"], ["array", "A@2"], ["memptr", "A::x"], ["inspect"], ["trace"]):
                done = support.run("as-json", *words, text="struct A { int x; };\n", environment={**os.environ, "TAGYMELUR": other})
                self.assertNotIn("Traceback", done.stderr, (other, words))

    def test_bad_words(self):
        for words in ((), ("nothing",), ("run", "D"), ("layout", "--steps", "3"), ("run", "--steps", "0"), ("array",), ("memptr",), ("inspect", "D"), ("foreign", "D"), ("array", "A@1", "--steps", "3")):
            done = support.run("as-json", *words, text="")
            self.assertEqual((done.returncode, done.stdout), (2, ""))
            self.assertIn("usage: ", done.stderr)
        for words in (("layout", "--source", "/nowhere/file"), ("layout", "--source", program.TOP)):
            done = support.run("as-json", *words, text="")
            self.assertEqual((done.returncode, done.stdout), (2, ""))
            self.assertIn("cannot be read", done.stderr)


@support.needs_program
class Module(unittest.TestCase):
    def test_values(self):
        text = example("diamond.cpp")
        self.assertEqual(tagymelur.check(text), 4)
        self.assertEqual(tagymelur.layout(text)["B2"].size, 32)
        self.assertEqual(tagymelur.tables(text, "D").vtt[1].group, "B1@0 in D")
        self.assertEqual(tagymelur.paths(example("first.cpp")).lines, ["5"])
        run = tagymelur.run(example("construction.cpp"), trace=True)
        self.assertEqual(([event.text for event in run.events][:2], run.lines[:3]), (["call V::f #1+40", "1"], ["1", "2", "1"]))

    def test_arrays_pointers_dumps_and_listings(self):
        self.assertEqual([one.place for one in tagymelur.array(X, "X", 3).elements], [8, 24, 40])
        self.assertEqual((tagymelur.memptr(MEMBERS, "A::b").place, tagymelur.memptr(MEMBERS, "A::b", "B").place), (8, 24))
        self.assertEqual([one.value for one in tagymelur.inspect(DUMPED, DUMP).fields], [None, 258, None, None, 7])
        self.assertEqual(tagymelur.foreign(LISTED, LISTING).lines, ["5"])
        for call, rule, line in ((lambda: tagymelur.array(X, "X", 4000).region and tagymelur.array("struct A { char a[4096]; };", "A", 4096), "A2", None),
                                 (lambda: tagymelur.memptr(MEMBERS, "B::b"), "M1", None), (lambda: tagymelur.inspect(DUMPED, DUMP.replace("#1+0", "#1")), "I2", 8),
                                 (lambda: tagymelur.foreign(LISTED, LISTING.replace("3 field", "9 field")), "F6", 1), (lambda: tagymelur.array("struct A { int 2; };", "A", 2), "E2", 1)):
            with self.assertRaises(tagymelur.Refused) as raised:
                call()
            self.assertEqual((raised.exception.rule, raised.exception.line), (rule, line))
            self.assertTrue(raised.exception.sentence.endswith("."))
        with self.assertRaises(tagymelur.OutOfSteps):
            tagymelur.foreign(LISTED, LISTING, steps=1)
        with self.assertRaises(ValueError):
            tagymelur.memptr(MEMBERS, "A")

    def test_the_session_of_the_page(self):
        with open(os.path.join(program.TOP, "docs", "DATA.md"), encoding="utf-8") as file:
            shown = re.search(r"^    >>> (?:    .*\n|.+\n)+", file.read(), re.M)[0]
        session = doctest.DocTestParser().get_doctest(shown, {"open": lambda path: io.StringIO(example(os.path.basename(path)))}, "docs/DATA.md", None, 0)
        told = io.StringIO()
        doctest.DocTestRunner().run(session, out=told.write)
        self.assertEqual((told.getvalue(), len(session.examples)), ("", 6))

    def test_errors(self):
        with self.assertRaises(tagymelur.Refused) as raised:
            tagymelur.check(example("overriders.cpp"))
        self.assertEqual((raised.exception.rule, raised.exception.line, raised.exception.column), ("E13", 4, 8))
        self.assertIn("two final overriders", str(raised.exception))
        with self.assertRaises(tagymelur.Undefined) as raised:
            tagymelur.run("struct A { int x; }; int main() { print(4);\nA* p = new A; print(3);\nint y = p->x; }")
        self.assertEqual((raised.exception.rule, raised.exception.line, raised.exception.lines), ("U5", 3, ["4", "3"]))
        with self.assertRaises(tagymelur.OutOfSteps):
            tagymelur.paths(example("construction.cpp"), steps=3)
        with self.assertRaises(tagymelur.Limit) as raised:
            tagymelur.layout("struct A { char a[4097]; };")
        self.assertEqual(raised.exception.rule, "L4")
        with self.assertRaises(ValueError):
            tagymelur.run("int main() {}", steps=0)

    def test_what_is_no_text(self):
        for call, given in ((tagymelur.check, (b"",)), (tagymelur.layout, (None,)), (tagymelur.layout, ("struct A {};", 7)), (tagymelur.run, (b"int main() {}",)), (tagymelur.paths, (None,)),
                            (tagymelur.inspect, ("struct A {};", b"")), (tagymelur.foreign, ("struct A {};", None)), (tagymelur.memptr, (b"struct A {};", "A::x"))):
            with self.assertRaises(TypeError):
                call(*given)
        with self.assertRaises(ValueError):
            tagymelur.layout("struct A {};", "A\0")

    def test_no_program(self):
        before = os.environ.get("TAGYMELUR")
        os.environ["TAGYMELUR"] = "/nowhere/program"
        try:
            with self.assertRaises(tagymelur.Unavailable):
                tagymelur.check("")
        finally:
            os.environ.pop("TAGYMELUR") if before is None else os.environ.update(TAGYMELUR=before)

    def test_a_program_that_is_none(self):
        with unittest.mock.patch.dict(os.environ, TAGYMELUR="/bin/true"):
            for call, words in ((tagymelur.check, ()), (tagymelur.layout, ("A",)), (tagymelur.array, ("A", 2)), (tagymelur.memptr, ("A::x",)), (tagymelur.inspect, ("",))):
                with self.assertRaises(tagymelur.Unavailable):
                    call("struct A { int x; };", *words)

    def test_many(self):
        texts = [f"struct A {{ char a[{size}]; }};" for size in (1, 4097, 7)]
        found = list(tagymelur.many(texts, tagymelur.layout))
        self.assertEqual([one.source for one in found], texts)
        self.assertEqual([one.value["A"].size if one.value else one.error.rule for one in found], [1, "L4", 7])


if __name__ == "__main__":
    unittest.main()
