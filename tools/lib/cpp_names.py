"""The classes of a source by their names of C++, as tools/from-cpp writes them in a comment before each class that it renames."""
import re

from .cpp_tree import spelled

RENAMED = re.compile(r"^// (.+)\n(?:struct|class) (\w+)\b", re.M)


def ours(text, name):
    """The name in a source of the class that C++ calls so, where the source says it of one class alone; else the name as it is."""
    if re.fullmatch(r"\w+", name):
        return name
    found = {own for original, own in RENAMED.findall(text) if spelled(original) == spelled(name)}
    return found.pop() if len(found) == 1 else name
