"""The object of a dump as parts, each number and pointer with the value that `inspect` names."""
from . import class_tables, dumps, listing, program
from .parts import Objects, Part

ELEMENTS = 16  # so many elements of an array of classes are drawn with their values


def of_dump(whole_text, name):
    """The parts of the object of a dump, given as the input of `inspect`, and a title."""
    said = program.text_of(["inspect"], whole_text).splitlines()
    _, source = listing.parted(whole_text, name)
    objects = Objects.of_text(source)
    _, number, _, class_name = said[0].split(" ")
    whole = objects.whole(class_name)
    _spread(objects, whole)
    found = dumps.leaves(objects.layouts, class_tables.read(program.text_of(["tables"], source)), class_name)
    values = dict(zip((leaf.text for leaf in found if not leaf.table), (line.rsplit(" ", 1)[1] for line in said[1:])))
    _put(whole, found, values)
    return whole, f"dump #{number}: an object of {objects.layouts[class_name].title}"


def _spread(objects, part):
    """Draws the elements of arrays of classes apart, since each has values of its own."""
    for inner in part.parts:
        _spread(objects, inner)
    first, rest = next((one for one in part.parts if one.sort == "element"), None), next((one for one in part.parts if one.sort == "repeat"), None)
    if not rest:
        return
    kind, name = first.told.split(" ")[0], first.name[:-len("[0]")]
    places = range(rest.place, rest.end, first.size)
    made = [Part("element", place, first.size, f"{name}[{number}]", f"{kind} {name}[{number}]", objects.whole(kind, place).parts) for number, place in enumerate(places, 1) if number < ELEMENTS]
    for one in made:
        _spread(objects, one)
    if len(made) < len(places):
        rest.place, rest.size = made[-1].end, rest.end - made[-1].end
        made.append(rest)
    part.parts = [first, *made]


def _put(whole, found, values):
    """Gives each member its value, an array its values, and each virtual pointer its table."""
    for part in whole.all():
        inside = [leaf for leaf in found if part.place <= leaf.place + leaf.first / 8 < part.end]
        if part.sort == "virtual pointer":
            part.told += f", to {next(leaf.table for leaf in inside if leaf.table)}"
        elif part.sort == "member":
            told = ", ".join(values[leaf.text] for leaf in inside if not leaf.table)
            part.name, part.told = f"{part.name} = {told}", f"{part.told} = {told}"
