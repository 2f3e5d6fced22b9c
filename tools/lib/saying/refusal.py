"""What cannot be said: a sentence with the place in the user's file, the construct and the reason."""
import os

from ..problem import Problem


class CannotSay(Problem):
    def __init__(self, node, construct, reason):
        self.file, self.line, self.column = place_of(node)
        self.construct, self.reason = construct, reason
        where = f"{os.path.relpath(self.file)}:{self.line}:{self.column}: " if self.file else ""
        super().__init__(f"{where}{construct} cannot be said: {reason}", 1)


def place_of(node):
    """File, line and column at which a node of the tree begins; where a macro wrote it, the place of the macro's use."""
    place = node.get("range", {}).get("begin", {}) or node.get("loc", {})
    place = place.get("expansionLoc", place)
    if "line" not in place and "loc" in node:
        place = node["loc"].get("expansionLoc", node["loc"])
    return place.get("file", ""), place.get("line", 0), place.get("col", 0)
