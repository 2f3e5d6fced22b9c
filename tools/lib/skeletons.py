"""Classes with what their layout depends on alone: bases, members, whether there is a virtual function, and what makes a class no POD.

Every name is a number, so that none hides another one; a pointer is one to the class itself. No other class is needed than those of bases
and members.
"""


class Skeletons:
    """The skeletons of the classes of a source."""

    def __init__(self, classes):
        self.classes = classes
        self.numbers = {name: number for number, name in enumerate(classes)}
        self.needed = {}  # the names of the bases and members of each class, and of theirs
        for name, one in classes.items():
            direct = [base.name for base in one.bases] + [field.type for field in one.fields if field.type in classes]
            self.needed[name] = set(direct).union(*(self.needed[inner] for inner in direct))

    def source(self, names):
        """The definitions of these classes, in source order."""
        return "".join(self.text(name, self.named(name), self.classes[name].fields) for name in sorted(names, key=self.numbers.get))

    def named(self, name):
        return f"c{self.numbers[name]}"

    def text(self, name, named, fields):
        """The definition of a class under a name that no other one has, with its members in this order."""
        one = self.classes[name]
        bases = ", ".join(f"{'virtual ' if base.virtual else ''}{base.access} {self.named(base.name)}" for base in one.bases)
        parts = [f"{field.access}: {self._type(field, named)} m{number}{'' if field.length is None else f'[{field.length}]'}{'' if field.width is None else f' : {field.width}'};" for number, field in enumerate(fields)]
        if any(function.virtual for function in one.functions):
            parts.append(f"public: virtual void of_{named}() {{}}")
        if any(function.kind != "function" for function in one.functions):
            parts.append(f"public: {named}() {{}}")
        return f"struct {named}{' : ' + bases if bases else ''} {{ {' '.join(parts)} }};\n"

    def _type(self, field, named):
        if field.type.endswith("*"):
            return f"{named}*"
        return self.named(field.type) if field.type in self.classes else field.type
