"""Names, ranges, elements in brackets and expressions as trees (IEEE 1076, names; expressions)."""

from vhdl_tokens import Node, Reader

RELATIONS = {
    "=": "Equal", "/=": "Unequal", "<": "Less", "<=": "AtMost", ">": "Greater", ">=": "AtLeast",
    "?=": "MatchEqual", "?/=": "MatchUnequal", "?<": "MatchLess", "?<=": "MatchAtMost", "?>": "MatchGreater", "?>=": "MatchAtLeast",
}
LOGIC = {"and": "And", "or": "Or", "xor": "Xor", "xnor": "Xnor", "nand": "Nand", "nor": "Nor"}
SHIFTS = {
    "sll": "ShiftLeftLogical", "srl": "ShiftRightLogical", "sla": "ShiftLeftArithmetic", "sra": "ShiftRightArithmetic",
    "rol": "RotateLeft", "ror": "RotateRight",
}
SUMS = {"+": "Add", "-": "Subtract", "&": "Concatenate"}
PRODUCTS = {"*": "Multiply", "/": "Divide", "mod": "Modulo", "rem": "Remainder"}
SIGNS = {"+": "Identity", "-": "Negation"}


class Terms(Reader):
    # ---- names, ranges, elements in brackets

    def bounds(self, left):
        form = "Ascending" if self.now() == "to" else "Descending"
        self.at += 1
        return Node(form, [left, self.expression()])

    def range_(self):
        first = self.expression()
        if self.now() in ("to", "downto"):
            return self.bounds(first)
        if self.has("range"):
            low = self.expression()
            return Node("DiscreteSubtype", [first, self.bounds(low)]) if self.now() in ("to", "downto") else self.fail()
        return first

    def name(self):
        return Node("Name", [self.identifier()] + self.suffixes())

    def suffixes(self):
        found = []
        while self.now() in (".", "(", "'"):
            found.append(self.suffix())
        return found

    def suffix(self):
        if self.has("."):
            return Node("Selection", [self.suffix_name()])
        if self.has("("):
            return Node("Arguments", self.elements())
        self.take("'")
        if self.has("("):
            return Node("Qualification", self.elements())
        return Node("RangeAttribute") if self.has("range") else Node("Attribute", [self.identifier()])

    def elements(self):
        found = self.separated(self.element)
        self.take(")")
        return found

    def element(self):
        if self.has("open"):
            return Node("Open")
        if self.has("others"):
            self.take("=>")
            return Node("OthersAssociation", [self.actual()])
        first = self.actual()
        if self.now() in ("to", "downto"):
            first = self.bounds(plain_of(first))
        if self.now() not in ("|", "=>"):
            return first
        choices = [plain_of(first)]
        while self.has("|"):
            choices.append(self.range_())
        self.take("=>")
        return Node("Association", [Node("AssociationChoices", choices), self.actual()])

    def actual(self):
        """An element alone: one that is wholly in brackets keeps a pair."""
        if self.has("open"):
            return Node("Open")
        start = self.at
        value = self.expression()
        return Node("Aggregate", [value]) if self.is_bracketed(start) and not is_list(value) else value

    def is_bracketed(self, start):
        depth = 0
        for at in range(start, self.at):
            piece = self.tokens[at][1] if self.tokens[at][0] == "mark" else ""
            depth += (piece == "(") - (piece == ")")
            if depth == 0:
                return piece == ")" and at == self.at - 1
        return False

    # ---- expressions

    def expression(self):
        if self.now() == "??":
            self.newer()
            self.take("??")
            return Node("Condition", [self.primary()])
        left, first = self.relation(), self.now()
        if first not in LOGIC:
            return left
        while self.now() == first and self.has(first):
            left = Node(LOGIC[first], [left, self.relation()])
            if first in ("nand", "nor"):
                break
        return left

    def relation(self):
        left = self.shift()
        if self.now() not in RELATIONS or (self.now().startswith("?") and self.revision == 1993):
            return left
        form = RELATIONS[self.now()]
        self.at += 1
        return Node(form, [left, self.shift()])

    def shift(self):
        left = self.simple()
        if self.now() not in SHIFTS:
            return left
        form = SHIFTS[self.now()]
        self.at += 1
        return Node(form, [left, self.simple()])

    def simple(self):
        sign = SIGNS.get(self.now())
        if sign:
            self.at += 1
        left = self.term()
        if sign:
            left = Node(sign, [left])
        while self.now() in SUMS:
            form = SUMS[self.now()]
            self.at += 1
            left = Node(form, [left, self.term()])
        return left

    def term(self):
        left = self.factor()
        while self.now() in PRODUCTS:
            form = PRODUCTS[self.now()]
            self.at += 1
            left = Node(form, [left, self.factor()])
        return left

    def factor(self):
        if self.now() in ("abs", "not"):
            form = {"abs": "Absolute", "not": "Not"}[self.now()]
            self.at += 1
            return Node(form, [self.primary()])
        if self.now() in LOGIC:
            self.newer()
            form = LOGIC[self.now()] + "Reduction"
            self.at += 1
            return Node(form, [self.primary()])
        left = self.primary()
        return Node("Power", [left, self.primary()]) if self.has("**") else left

    def primary(self):
        if self.kind() == "number":
            number = self.leaf("number", "Number")
            return Node("PhysicalLiteral", [number, self.identifier()]) if self.kind() == "name" else number
        if self.kind() == "letter":
            return self.leaf("letter", "Letter")
        if self.kind() == "quoted":
            text = self.leaf("quoted", "Quoted")
            further = self.suffixes()
            return Node("OperatorName", [text] + further) if further else text
        if self.has("("):
            found = self.elements()
            return plain_of(found[0]) if len(found) == 1 and is_expression(found[0]) else Node("Aggregate", found)
        return self.name()


def is_list(node):
    """Whether it is an aggregate of its own, and no expression in brackets."""
    return node.form == "Aggregate" and not (len(node.parts) == 1 and is_expression(node.parts[0]))


def is_expression(node):
    return node.form not in ("Association", "OthersAssociation", "Open", "Ascending", "Descending")


def plain_of(node):
    """Without the brackets round it."""
    while node.form == "Aggregate" and len(node.parts) == 1 and is_expression(node.parts[0]):
        node = node.parts[0]
    return node
