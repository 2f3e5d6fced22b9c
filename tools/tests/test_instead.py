"""What tools/explain says of syntax errors: what may stand at the place, judged by the program, and the form to write instead."""
import random
import re
import unittest

import support
from lib import grammar, instead, program

SOURCES = ["""struct V; class A : public V, virtual W { unsigned long x; A* p[3]; public: A() : x(1), p(-2) { this->x = 3; *q = *this; } virtual ~A() {}
virtual void f(int a, A* b) = 0; long g() { if (a) { return a; } else { while (true) { print(x); } } delete p; } };""",
           """signed char c; A* a; int main() { int x = a + 1; bool y = !x; A* q = new B; q = static_cast<B*>(q); q = (B*)this; x = q->p[1].m; a->B::f(1, x);
bool z = typeid(*q) == typeid(B); A* r = &q->m; print(typeid(*q)); print(dynamic_cast<void*>(q)); dump(q); if (z) { } x = -3; } struct S { }; unsigned u;"""]
# what a programmer writes, and the row of the page; besides the examples of the page
MORE = [
    ("int main() { int a = 1; int b = 2; if (a == b) { print(1); } }", "a condition with an operator"),
    ("int main() { bool a = true; if (!a) { print(1); } }", "a condition with an operator"),
    ("int main() { bool a = true; while (a && a) { print(1); } }", "a condition with an operator"),
    ("struct A { int n; A* p; void f() { this->n = this->p->n; } };", "an expression given to a member"),
    ("struct A { int n; void f() { this->n = 1 + 2; } };", "an expression given to a member"),
    ("struct A { int f() { return 1 + 2; } };", "a value that is returned"),
    ("struct A { A* f() { return new A; } };", "a value that is returned"),
    ("int main() { int a = 1; print(a + 1); }", "a value that is printed"),
    ("struct A { int n; }; int main() { A* a = new A; print(a->n); }", "a value that is printed"),
    ("struct A { int n; }; int main() { A a = 1; }", "a local object"),
    ("struct A { int n; }; int main() { A a(1); }", "a local object"),
    ("struct C {}; int main() { C* c = new C[3]; }", "parentheses or brackets behind new"),
    ("int twice(int a) { return a; }", "a free function"),
    ("struct A {}; A* make() { return 0; }", "a free function"),
    ("int main() { int* p = 0; }", "a pointer to a number"),
    ("struct A { void f(unsigned long* p) {} };", "a pointer to a number"),
    ("struct A { char* s; };", "a pointer to a number"),
    ("struct A { int a[3]; void f() { int i = 0; this->a[i] = 1; } };", "an index that is no number"),
    ("int main() { int x = 0; int y = x[0]; }", "an element without a pointer before it"),
    ("int main() { int a = 1, b = 2; }", "several declarators"),
    ("int a, b;", "several declarators"),
    ("struct A { A *x, *y; };", "several declarators"),
    ("struct A { bool a : 1, b : 1; };", "several bit-fields in one declaration"),
    ("struct A { long a : 1, b; };", "several bit-fields in one declaration"),
    ("struct A { int a : 3; int : 0; char c : 1; };", "an unnamed bit-field"),
    ("struct A { public: unsigned long : 3; };", "an unnamed bit-field"),
    ("struct B {}; struct A { B b : 1; };", "a bit-field that is no number"),
    ("struct A { A* b : 8; };", "a bit-field that is no number"),
    ("struct A { A* a[2] : 8; };", "an array of bit-fields"),
    ("struct A { int a : n; };", "a width that is no number"),
    ("struct A { int a : -1; };", "a width that is no number"),
    ("struct A { int a : (3); };", "a width that is no number"),
    ("struct A { unsigned int a : 3 * 2; };", "a width that is no number"),
    ("struct A { int a : 3 = 1; };", "a value of a member in its class"),
    ("struct A { void f(int, int b) {} };", "an unnamed parameter"),
    ("struct A { virtual void f(A*) = 0; };", "an unnamed parameter"),
    ("struct A { public: class B { int n; }; };", "a nested class"),
    ("int main() { bool a = true; while (a) a = false; }", "a block without braces"),
    ("int main() { bool a = true; if (a) { print(1); } else print(2); }", "a block without braces"),
    ("int main() { int x = 2; x += 1; }", "+=, ++ and the like"),
    ("int main() { int x = 2; ++x; }", "+=, ++ and the like"),
    ("struct A { int n; void f() { this->n++; } };", "+=, ++ and the like"),
    ("struct A { const int n; };", "const, mutable, volatile"),
    ("struct A { const A& f() { return 0; } };", "const, mutable, volatile"),
    ("struct A { A(A& other) {} };", "a constructor with parameters"),
    ("struct A { ~A(); };", "a function that is only declared"),
    ("struct A { virtual int f(int a); };", "a function that is only declared"),
    ("int main() { int a = 1; int b = a * 2 + 1; }", "an expression inside another"),
    ("struct A { int f() {} }; int main() { A* a = new A; int x = a->f() + 1; }", "an expression inside another"),
    ("struct A { A f() {} };", "an object as a parameter or result"),
    ("int main() { std::string s; }", "std::"),
    ("struct A { void f() {} void g() { int x = f(); } };", "a call without an object"),
]


@support.needs_program
class Instead(unittest.TestCase):
    def found(self, source):
        answer, _ = program.answer(["check"], source)
        refused = re.match(r"refused (E1|E2|E21) \w+ at (\d+)$", answer)
        self.assertTrue(refused, f"{source}: {answer}")
        row = instead.at(refused[1], source, int(refused[2]))
        return row.what if row else None

    def test_each_row_of_the_page(self):
        self.assertGreater(len(instead.rows()), 60)
        for what, row in instead.rows().items():
            self.assertEqual(self.found(row.refused), what, row.refused)
            answer, status = program.answer(["run" if "main()" in row.instead else "check"], row.instead)
            self.assertEqual(status, 0, f"{row.instead}: {answer}")

    def test_what_else_programmers_write(self):
        for source, what in MORE:
            with self.subTest(source):
                self.assertEqual(self.found(source), what)

    def test_each_shape_and_word_has_a_row(self):
        named = {shape[-1] for shape in instead.SHAPES} | set(instead.WORDS.values()) | set(instead.LETTERS.values())
        self.assertEqual(named, set(instead.rows()))

    def test_it_is_told(self):
        done = support.run("explain", "check", text="struct A { int n; A() { this->n = this->n + 1; } };\n")
        self.assertEqual((done.returncode, done.stdout), (1, "refused E2 Syntax at 38\n"))
        self.assertIn("Here may stand: `;`.\nNot taken is an expression given to a member. Write, for example: struct A { ", done.stderr)
        self.assertIn("Not taken is nullptr. Write, for example: ", support.run("explain", "check", text="int main() { A* a = nullptr; }").stderr)
        self.assertIn("Not taken is a line for the preprocessor.", support.run("explain", "check", text="#include <vector>\n").stderr)

    def test_a_class_that_is_not_there(self):
        for command in ("layout", "tables"):
            done = support.run("explain", command, "X", text="struct A {}; struct B : A { int x; };")
            self.assertIn("The source has no class X; it has A, B.", done.stderr)
        self.assertIn("The source has no main.", support.run("explain", "run", text="struct A {};").stderr)


@support.needs_program
class Expected(unittest.TestCase):
    def test_the_program_goes_on_with_what_may_stand_and_with_nothing_else(self):
        """At random places of sources each token is judged by the program: E2 at the place, or not."""
        chance, words = random.Random(4), sorted(word.strip('"') for word in grammar._words()) + ["other", "A", "7"]
        judged = {True: 0, False: 0}
        for _ in range(160):
            source = chance.choice(SOURCES)
            place = chance.choice(grammar.tokens(source)).place
            found = grammar.expected(source, place)
            word = chance.choice(words) if chance.random() < 0.6 else self.one_of(chance, found, source, place)
            own = grammar.levels([token.text for token in grammar.tokens(source[:place])])[0][1:2]
            stands = word in found or word.isdecimal() and "number" in found or word in ("A", "other") and "name" in found or [word] == own and grammar.OWN in found
            answer, _ = program.answer(["check"], f"{source[:place]} {word} ")
            self.assertEqual(answer != f"refused E2 Syntax at {place + 1}\n", stands, f"{source[:place]}{word}: {answer}")
            judged[stands] += 1
        self.assertGreater(min(judged.values()), 40)

    def one_of(self, chance, found, source, place):
        """A token that may stand there."""
        own = grammar.levels([token.text for token in grammar.tokens(source[:place])])[0][1:2]
        word = chance.choice(sorted(found - {grammar.END}))
        return {"name": "other", "number": "7", grammar.OWN: own[0] if own else ""}.get(word, word)

    def test_the_end_of_a_source(self):
        self.assertIn(grammar.END, grammar.expected("struct A {};", 12))
        self.assertIn(grammar.END, grammar.expected("int main() { print(1); }", 24))
        self.assertEqual(grammar.expected("struct A {}", 11), {";"})
        self.assertEqual(grammar.expected("", 0) - {"name", grammar.END}, {"struct", "class", *grammar.TYPES})

    def test_words(self):
        self.assertEqual(grammar.told({";", "[", "("}), "`(`, `;` or `[`")
        self.assertEqual(grammar.told({"number", "-", "true", "false", "name"}), "a name or a constant")


if __name__ == "__main__":
    unittest.main()
