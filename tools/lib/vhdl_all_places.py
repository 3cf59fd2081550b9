"""Syntax trees with the places of all of their nodes: a node stands where its first token does, and one without tokens where the token behind it does."""

from vhdl_parser import Parser
from vhdl_tokens import Node

# calls that make no node of their own, and those whose node begins where they do
PLAIN = {"selected_waves", "now", "kind", "fail", "take", "has", "newer", "separated", "interfaces", "ended", "elements", "is_bracketed"}
WHOLE = {"main", "declaration"}

# how many tokens stand in front of the first part of a node
IN_FRONT = {"EnumerationType": 1, "ArrayType": 2, "RecordType": 1, "IndexConstraint": 1, "RangeConstraint": 1, "GenericClause": 2, "PortClause": 2}
# how many tokens a node without parts has, if not one
LENGTH = {"Box": 2, "ViewElements": 2}
LISTS = {"StatementPart", "Statements", "ElseBranch", "ElsifBranches", "ElsifGenerates", "CaseAlternatives", "GenerateAlternatives", "ContextClause"}


def placed(name, method):
    def call(self, *words):
        start, made = self.at, method(self, *words)
        if isinstance(made, Node) and (made.first is None or name in WHOLE):
            made.first = start
        return made

    return call


class Placed(Parser):
    """A reader whose calls note where their nodes begin."""


for name in dir(Parser):
    if not name.startswith("_") and name not in PLAIN and callable(getattr(Parser, name)) and name != "file":
        setattr(Placed, name, placed(name, getattr(Parser, name)))


def settle(node):
    """Gives each node the number of its first token."""
    if node.form in ("Closing", "FunctionClosing"):
        node.first += 1
        node.parts[0].first = node.first
    elif node.form == "PackageBody":
        node.first += 1
    for part in node.parts:
        settle(part)
    if node.first is None and node.parts:
        node.first = node.parts[0].first - IN_FRONT.get(node.form, 0)
    elif node.first is None:
        is_empty = node.form == "Absent" or node.form in LISTS
        node.first = node.made - (0 if is_empty else LENGTH.get(node.form, 1))
    elif node.parts:
        node.first = min(node.first, node.parts[0].first)


def read(text, revision):
    """The units of a text, whose nodes have places."""
    Node.reader = parser = Placed(text, revision)
    units = parser.file()
    Node.reader = None
    for unit in units:
        settle(unit)
        give_places(unit, parser.tokens)
    return units


def give_places(node, tokens):
    node.place = tokens[node.first][2]
    for part in node.parts:
        give_places(part, tokens)
