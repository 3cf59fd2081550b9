"""Tokens of VHDL texts of both profiles (IEEE 1076-1993 and -2019, lexical elements), and nodes of trees: forms and parts as in crates/vd_forms."""

import re

RESERVED = set(
    """abs access after alias all and architecture array assert attribute begin block body buffer bus case component configuration constant
    disconnect downto else elsif end entity exit file for function generate generic group guarded if impure in inertial inout is label library
    linkage literal loop map mod nand new next nor not null of on open or others out package port postponed procedure process pure range record
    register reject rem report return rol ror select severity shared signal sla sll sra srl subtype then to transport type unaffected units until
    use variable wait when while with xnor xor""".split()
)
NEWER = set(
    "assume context cover default fairness force parameter private property protected release restrict sequence strong view vmode vprop vunit".split()
)
TOKEN = re.compile(
    r"""(?P<space>\s+|--[^\n]*)|(?P<name>[A-Za-z]\w*)|(?P<number>\d[\d_]*)|(?P<quoted>"(?:[^"]|"")*")
    |(?P<mark>\?<=|\?>=|\?/=|\?\?|\?=|\?<|\?>|=>|\*\*|:=|/=|>=|<=|<>|[&'()*+,\-./:;<=>|?])""",
    re.X,
)


class Wrong(Exception):
    """A text that the script can't read or resolve."""


class Node:
    """A node of a tree: its form, text and parts; what it names or makes, its type and position; the number of the token that came next when it was made."""

    reader = None

    def __init__(self, form, parts=(), text=""):
        self.form, self.parts, self.text = form, list(parts), text
        self.made, self.first = Node.reader.at if Node.reader else 0, None
        self.declaration = self.mark = self.place = None
        self.position = 0

    def copy(self, parts):
        node = Node(self.form, parts, self.text)
        node.declaration, node.mark, node.position, node.place = self.declaration, self.mark, self.position, self.place
        return node


def absent():
    return Node("Absent")


def scanned(text, revision):
    """Pairs of a kind (name, word, number, letter, quoted, mark, end) and a text, each with the place where it begins."""
    reserved = RESERVED | (NEWER if revision == 2019 else set())
    at, before = 0, ("", "")
    while at < len(text):
        is_tick = text[at] == "'" and at + 2 < len(text) and text[at + 2] == "'"
        if is_tick and before[0] not in ("name", "letter", "quoted") and before[1] != ")":
            before = ("letter", text[at + 1])
            yield *before, at
            at += 3
            continue
        match = TOKEN.match(text, at)
        if not match:
            raise Wrong(f"line {text.count(chr(10), 0, at) + 1}: no token begins with {text[at]!r}")
        kind, piece = match.lastgroup, match.group()
        if kind == "name":
            piece = piece.lower()
            kind = "word" if piece in reserved else "name"
        elif kind == "quoted":
            piece = piece[1:-1].replace('""', '"')
        elif kind == "number":
            piece = str(int(piece.replace("_", "")))
        if kind != "space":
            before = (kind, piece)
            yield kind, piece, at
        at = match.end()
    yield "end", "", at


def tokens_of(text, revision):
    """The tokens, each with its line and column."""
    return [(kind, piece, (text.count("\n", 0, at) + 1, at - text.rfind("\n", 0, at))) for kind, piece, at in scanned(text, revision)]


class Reader:
    """The tokens of a text, taken one by one."""

    def __init__(self, text, revision):
        self.tokens, self.at, self.revision = tokens_of(text, revision), 0, revision

    # ---- tokens

    def now(self):
        return self.tokens[self.at][1] if self.tokens[self.at][0] in ("word", "mark") else None

    def kind(self):
        return self.tokens[self.at][0]

    def fail(self):
        kind, piece, place = self.tokens[self.at]
        raise Wrong(f"line {place[0]}: {kind} {piece!r} isn't expected here")

    def take(self, piece):
        if self.now() != piece:
            self.fail()
        self.at += 1

    def has(self, piece):
        if self.now() != piece:
            return False
        self.at += 1
        return True

    def newer(self):
        if self.revision != 2019:
            self.fail()

    def leaf(self, kind, form):
        if self.kind() != kind:
            self.fail()
        self.at += 1
        return Node(form, [], self.tokens[self.at - 1][1])

    def identifier(self):
        return self.leaf("name", "Identifier")

    def closing_name(self):
        return self.identifier() if self.kind() == "name" else absent()

    def designator(self):
        return self.leaf("quoted", "Quoted") if self.kind() == "quoted" else self.identifier()

    def word(self, piece, form):
        return Node(form) if self.has(piece) else absent()
