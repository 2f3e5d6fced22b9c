"""Puts a program together: the classes in an order that has each behind those that it needs, the functions, the globals and `main`."""
import re

from .. import clang, problem
from .whole import LIMIT_BYTES, LIMIT_CLASSES, Program, Said, main_of


ACCESSOR = re.compile(r"( *)\w+\* at_\w+\(long i\) \{")


def said(text, flags, by="", placed=False):
    """The source that says a program of C++, with what is known of its lines; `by` names the file that the flags are from.

    One that is `placed` is longer, and refuses an index outside of its array and a division by zero where they stand.
    """
    program = Program(text, flags, placed)
    main = main_of(program.tree)
    if main is None:
        raise problem.Problem("the files have no main; --program says a whole program, and a program begins there")
    program.check_attributes()
    program.globals.mandatory()
    name = program.function(main["id"])
    program.work()
    return Text(program, name, clang.first_line(flags, by)).said()


class Text:
    """The source of one program, line by line."""

    def __init__(self, program, main, first):
        self.program, self.names, self.main = program, program.names, main
        self.lines, self.notes = [(first.rstrip(), None)], {}

    def add(self, text, place=None):
        self.lines.append((text, place))

    def said(self):
        self.bad_end = self.program.printing.number(("exit",)) if self.program.ends_by_status else None
        ordered = self.order()
        for comment in self.program.printing.comments():
            self.add(comment)
        if self.program.printing.rows:
            self.add(f"struct {self.names.helpers['text']} {{}};")
            self.add(f"struct {self.names.helpers['texts']} {{ {self.names.helpers['text']} e[{len(self.program.printing.rows)}]; }};")
        elif self.uses(self.names.helpers["text"]):
            self.add(f"struct {self.names.helpers['text']} {{}};")
        for box, name in self.program.names.boxes.items():
            self.add(f"struct {name} {{ {box} v; }};")
        for record in ordered:
            self.lines += self.program.classes.text(record, self.program.methods)
            self.calls(record)
            self.arrays(record)
        self.arrays(None)
        self.functions()
        for word, name in self.globals():
            self.add(f"{word} {name};")
        self.main_text()
        return self.checked(len(ordered))

    def uses(self, word):
        every = [lines for lines in [*self.program.functions, *self.program.methods.values()]] + [one for found in self.program.classes.extra.values() for one in found]
        return any(word + "*" in text for lines in every for text, _ in lines) or any(word + "*" in box for box in self.names.boxes)

    def order(self):
        """The classes, each behind its bases, the classes of its members, and those of covariant results."""
        found, seen = [], set()

        def visit(record):
            if record.name in seen:
                return
            seen.add(record.name)
            for one in self.needs(record):
                visit(one)
            found.append(record)

        for record in self.names.records:
            visit(record)
        return found

    def needs(self, record):
        needed = [inside for inside, _ in self.program.constructions.subobjects(record)]
        for method in self.program.classes.virtual_methods(record):
            lines = self.program.methods.get(self.program.tree.first_of(method["id"]))
            word = lines[0][0].removeprefix("virtual ").split()[0] if lines else ""
            if word.endswith("*"):
                needed += [one for one in self.names.records if self.names.record_names[one.name] == word[:-1] and not self.program.constructions.contains(one, record)]
        return needed

    def calls(self, record):
        """The class of the calls of a class's constructors."""
        if record.name not in self.program.call_classes:
            return
        call, head = self.program.call_classes[record.name]
        self.add(f"struct {call} {{")
        self.add("  int c;")
        for number, words in sorted(self.program.call_words.get(record.name, {}).items()):
            for position, word in enumerate(words):
                self.add(f"  {word} a{number}_{position};")
        self.add(f"  {call}* next;")
        self.add("};")

    def arrays(self, record):
        """The classes of local and global arrays: of a class's objects behind it, of numbers behind all."""
        word = self.names.record_names.get(record.name) if record else None
        known = set(self.names.record_names.values())
        for (element, length), name in self.names.arrays.items():
            if element == word or record is None and element not in known:
                self.add(f"struct {name} {{")
                self.add(f"  {element} e[{length}];")
                for lines in self.program.classes.extra.get(name, []):
                    self.lines += [("  " + text, place) for text, place in lines]
                self.add("};")

    def functions(self):
        """The class with the free functions, the plans and the helpers."""
        self.add(f"struct {self.names.helpers['functions']} {{")
        for lines in self.program.functions:
            self.lines += [("  " + text, place) for text, place in lines]
        for text in self.program.arithmetic.texts:
            for line in text.splitlines():
                self.add("  " + line)
        self.ends()
        self.add("};")

    def ends(self):
        """The functions that end a run: the language has no word for it, so they use a null pointer, which a run refuses."""
        functions = self.names.helpers["functions"]
        for sort, name in self.program.ends.items():
            self.add(f"  void {name}() {{")
            if sort == "exit":
                for line in self.program.globals.finish():
                    self.add("    " + line)
                self.add(f"    this->{self.program.ends['end']}();")
            else:
                self.add(f"    {functions}* n = 0;")
                self.add(f"    n->{name}();")
                self.notes[len(self.lines)] = sort
            self.add("  }")

    def globals(self):
        head = [(f"{self.names.helpers['functions']}*", self.names.all)]
        if self.program.printing.rows:
            head.append((f"{self.names.helpers['texts']}*", self.names.texts))
        calls = [(f"{call}*", head) for call, head in self.program.call_classes.values()]
        return head + calls + self.program.globals.declarations()

    def main_text(self):
        self.add("int main() {")
        if self.program.printing.rows:
            self.add(f"  {self.names.texts} = new {self.names.helpers['texts']};")
        self.add(f"  {self.names.all} = new {self.names.helpers['functions']};")
        for text, place in self.program.globals.start():
            self.add("  " + text, place)
        status, bad, mark = (self.names.added(word) for word in ("status", "bad", "mark"))
        self.add(f"  int {status} = {self.names.all}->{self.main}();")
        for line in self.program.globals.finish():
            self.add("  " + line)
        if self.bad_end is not None:
            self.add(f"  bool {bad} = {status} != 0;")
            self.add(f"  if ({bad}) {{")
            self.add(f"    {self.names.helpers['text']}* {mark} = &{self.names.texts}->e[{self.bad_end}];")
            self.add(f"    print({mark});")
            self.add(f"    print({status});")
            self.add("  }")
        self.add("}")

    def checked(self, count):
        """The source, where it is within the limits."""
        text = "".join(line + "\n" for line, _ in self.lines)
        if len(text) > LIMIT_BYTES:
            raise problem.Problem(f"the program needs {len(text)} bytes in the language, and {LIMIT_BYTES} are the most")
        classes = text.count("\nstruct ")
        if classes > LIMIT_CLASSES:
            raise problem.Problem(f"the program needs {classes} classes in the language, and {LIMIT_CLASSES} are the most")
        names = {ours: theirs for theirs, ours in self.names.record_names.items()}
        functions = {ours: self.names.shown(first) for first, ours in self.names.functions.items()}
        self.note_helpers()
        return Said(text, [place for _, place in self.lines], self.notes, names, self.names.helpers["functions"], functions)

    def note_helpers(self):
        """Notes the lines that a run refuses for an index outside of its array, or a division by zero."""
        division, end = self.program.ends.get("division", ""), None
        for number, (text, _) in enumerate(self.lines, 1):
            found = ACCESSOR.fullmatch(text)
            end = found[1] + "}" if found else end
            if end is not None or self.program.placed and re.fullmatch(r" *\w+ = \w+->at_\w+\(\w+\);", text):
                self.notes.setdefault(number, "index")
            elif division and text.endswith(f"->{division}();"):
                self.notes.setdefault(number, "division")
            end = None if text == end else end
