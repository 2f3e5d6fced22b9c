"""The declarations of which classes are made, out of clang's JSON tree. All else, nine tenths of a tree and more, is passed over and never parsed.

Clang indents its tree, so a node ends at the next brace of its own indentation. What stands before its children is a small JSON text.
"""
import json
import re
from functools import lru_cache

from .problem import Problem

# The declarations of which classes are made. Of the others only the kind is kept, where they are counted.
KEPT = {
    b"NamespaceDecl", b"LinkageSpecDecl", b"CXXRecordDecl", b"ClassTemplateDecl", b"ClassTemplateSpecializationDecl", b"TemplateArgument", b"FieldDecl",
    b"CXXMethodDecl", b"CXXConstructorDecl", b"CXXDestructorDecl", b"CXXConversionDecl", b"AccessSpecDecl", b"EnumDecl", b"EnumConstantDecl", b"ConstantExpr",
    b"TypedefDecl", b"TypeAliasDecl", b"ParmVarDecl", b"TemplateTypeParmDecl", b"NonTypeTemplateParmDecl", b"TemplateTemplateParmDecl", b"FriendDecl",
}
COUNTED = {b"VarDecl", b"FunctionTemplateDecl"}
PLACED = {b"CXXRecordDecl", b"ClassTemplateDecl", b"ClassTemplateSpecializationDecl", b"EnumDecl"}  # those whose place is asked for
FIELDS = (
    "parentDeclContextId", "originalNamespace", "isInline", "isImplicit", "name", "mangledName", "completeDefinition", "tagUsed", "definitionData", "bases", "type",
    "access", "isBitfield", "virtual", "pure", "storageClass", "explicitlyDeleted", "fixedUnderlyingType", "scopedEnumTag", "defaultArg", "value", "isPack",
)
OF_DEFINITION = ("isPOD", "isAbstract")
TOP = 4  # the indentation of the declarations of a translation unit
BLOCK = 1 << 22
LONGEST = 1 << 12  # more than the two lines take with which a node begins
NUMBER = re.compile(rb"\d+")
FILE = re.compile(rb'"file": (".*),\n')  # that of a place; those of `includedFrom` have no comma behind them


@lru_cache(None)
def _start(indent):
    return re.compile(rb'\n {%d}\{\n(?: +"id": "(\w+)",\n)? +"kind": "(\w+)"' % indent)


@lru_cache(None)
def _end(indent):
    return re.compile(rb'\n(?: {%d}"inner": (\[)| {%d}\})' % (indent + 2, indent))


@lru_cache(None)
def _nothing(kind):
    """The node of what is passed over."""
    return {"kind": kind}


@lru_cache(None)
def _decoded(text):
    return json.loads(text.decode("utf-8", "replace"))


def _behind_range(text, indent):
    """What a node has behind its place and range."""
    start, end = text.find(b'"range": {\n'), b"\n" + b" " * (indent + 2) + b"}"
    return text[text.find(end, start) + len(end):] if start >= 0 else text


class Scanner:
    """Reads a tree from a stream. It stands before a line feed, or at a place in a node that it passes over."""

    def __init__(self, stream):
        self.stream, self.text, self.at = stream, b"", 0
        self.file, self.line = b'""', 0  # of the place before; clang writes them only where they change

    def declarations(self):
        """The declarations of the translation unit as nested dicts, in their order."""
        first = self.text.find(b'\n  "inner": [')
        while first < 0:
            if not self.more():
                return
            first = self.text.find(b'\n  "inner": [')
        self.at = first + len(b'\n  "inner": [')
        yield from self.nodes(TOP)

    def more(self):
        """Reads on, and forgets what is behind."""
        block = self.stream.read1(BLOCK)
        self.text, self.at = self.text[self.at:] + block, 0
        return bool(block)

    def need_more(self):
        if not self.more():
            raise Problem("clang++ ends amid its tree of the source; look whether there is memory enough")

    def nodes(self, indent, kind=b""):
        """The nodes of a list, of which the first begins here; `kind` is that of the node that has the list."""
        behind = b","
        while behind == b",":
            yield self.node(indent, kind)
            while self.at >= len(self.text):
                self.need_more()
            behind = self.text[self.at:self.at + 1]
            self.at += behind == b","

    def node(self, indent, around):
        """The next node, with what is kept of it."""
        start = self.start(indent)
        kind = start[2] if start else b""
        if kind not in KEPT and not (kind == b"ImplicitCastExpr" and around == b"EnumConstantDecl"):
            self.at = start.end() if start else self.at
            self.skip(indent)
            return _nothing(kind.decode() if kind in COUNTED or kind.endswith(b"Attr") else "")
        found = _end(indent).search(self.text, start.end())
        while not found:
            self.need_more()
            start = _start(indent).match(self.text)
            found = _end(indent).search(self.text, start.end())
        kept = self.kept(start, self.text[start.end():found.start()], indent)
        self.pass_over(found.start())
        if found[1]:
            self.at = found.end()
            kept["inner"] = list(self.nodes(indent + 4, kind))
        self.skip(indent)
        return kept

    def start(self, indent):
        """The match of the lines with which a node begins; None where it has no kind."""
        found = _start(indent).match(self.text, self.at)
        while not found and len(self.text) - self.at < LONGEST and self.more():
            found = _start(indent).match(self.text, self.at)
        return found

    def kept(self, start, text, indent):
        """The fields of a node that are needed, by the text before its children."""
        head = json.loads("{" + (text if start[2] in PLACED else _behind_range(text, indent)).decode("utf-8", "replace").strip(",") + "}")
        kept = {field: head[field] for field in FIELDS if field in head}
        kept["kind"] = start[2].decode()
        if start[1]:
            kept["id"] = start[1].decode()
        if "definitionData" in kept:
            kept["definitionData"] = {field: True for field in OF_DEFINITION if kept["definitionData"].get(field)}
        if start[2] in PLACED:
            kept["loc"] = self.place(head.get("loc", {}))
        return kept

    def place(self, place):
        """A place with its file and line; of the two places in a macro, the one that uses it."""
        before = {"file": _decoded(self.file), "line": self.line}
        for part in ("spellingLoc", "expansionLoc"):
            before.update({field: place[part][field] for field in before if field in place.get(part, {})})
        place = place.get("expansionLoc", place)
        return {"file": place.get("file", before["file"]), "line": place.get("line", before["line"]), "col": place.get("col", 0)} if place else {}

    def skip(self, indent):
        """Passes over the rest of a node, with the brace of its indentation."""
        if self.text.startswith(b"\n" + b" " * indent + b"{}", self.at):
            self.at += indent + 3
            return
        mark = b"\n" + b" " * indent + b"}"
        end = self.text.find(mark, self.at)
        while end < 0:
            # a place that the block cuts is read again
            cut = self.text.rfind(b'"offset"', self.at)
            self.pass_over(max(cut if cut >= 0 else self.text.rfind(b"\n"), self.at))
            self.need_more()
            end = self.text.find(mark, self.at)
        self.pass_over(end)
        self.at = end + len(mark)

    def pass_over(self, end):
        """Moves on to a place of the text, and remembers the last file and line before it."""
        line = self.text.rfind(b'"line": ', self.at, end)
        if line >= 0:
            self.line = int(NUMBER.match(self.text, line + len(b'"line": '))[0])
            if self.text.count(b'"file": ', self.at, end) > self.text.count(b'"includedFrom": ', self.at, end):
                self.file = (FILE.findall(self.text, self.at, end) or [self.file])[-1]
        self.at = end
