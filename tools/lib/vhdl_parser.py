"""Reads VHDL texts of both profiles as syntax trees (IEEE 1076, design units; declarations): a descent along the grammar of the profile."""

from vhdl_statements import Statements
from vhdl_tokens import Node, absent


class Parser(Statements):
    # ---- units

    def file(self):
        units = []
        while self.kind() != "end":
            units.append(self.unit())
        return units

    def unit(self):
        clauses = []
        while self.now() in ("library", "use"):
            clauses.append(self.clause())
        return Node("DesignUnit", [Node("ContextClause", clauses), self.main()])

    def clause(self):
        if self.now() == "use":
            return self.use()
        self.take("library")
        names = self.separated(self.identifier)
        self.take(";")
        return Node("LibraryClause", names)

    def use(self):
        self.take("use")
        names = self.separated(self.selected_name)
        self.take(";")
        return Node("UseClause", names)

    def separated(self, one, mark=","):
        found = [one()]
        while self.has(mark):
            found.append(one())
        return found

    def selected_name(self):
        parts = [self.identifier()]
        while self.has("."):
            parts.append(self.suffix_name())
        return Node("SelectedName", parts)

    def suffix_name(self):
        if self.has("all"):
            return Node("All")
        if self.kind() == "letter":
            return self.leaf("letter", "Letter")
        return self.designator()

    def main(self):
        if self.has("entity"):
            return self.entity()
        if self.has("architecture"):
            return self.architecture()
        self.take("package")
        return self.package_body() if self.has("body") else self.package()

    def closing(self, *words):
        self.take("end")
        word = absent()
        if self.now() == words[0]:
            for piece in words:
                self.take(piece)
            word = Node("ClosingWord")
        name = self.closing_name()
        self.take(";")
        return Node("Closing", [word, name])

    def entity(self):
        name = self.identifier()
        self.take("is")
        generics = self.generics()
        ports = absent()
        if self.has("port"):
            ports = Node("PortClause", self.interfaces(self.port))
            self.take(";")
        return Node("EntityDeclaration", [name, generics, ports, self.closing("entity")])

    def generics(self):
        if self.now() != "generic":
            return absent()
        self.take("generic")
        clause = Node("GenericClause", self.interfaces(self.generic))
        self.take(";")
        return clause

    def interfaces(self, one):
        self.take("(")
        found = [one()]
        while self.has(";"):
            if self.now() == ")" and self.revision == 2019:
                break
            found.append(one())
        self.take(")")
        return found

    def identifiers(self):
        names = Node("IdentifierList", self.separated(self.identifier))
        self.take(":")
        return names

    def mode(self):
        for piece, form in (("in", "In"), ("out", "Out"), ("inout", "InOut")):
            if self.has(piece):
                return Node(form)
        return absent()

    def default(self):
        return self.expression() if self.has(":=") else absent()

    def port(self):
        signal = self.word("signal", "SignalWord")
        names = self.identifiers()
        if self.now() == "view":
            self.newer()
            self.take("view")
            view = self.selected_name()
            converse = self.identifier() if self.has("'") else absent()
            subtype = self.subtype() if self.has("of") else absent()
            return Node("ViewPort", [signal, names, view, converse, subtype])
        mode = self.mode()
        return Node("PortDeclaration", [signal, names, mode, self.subtype(), self.default()])

    def generic(self):
        if self.has("type"):
            self.newer()
            return Node("GenericType", [self.identifier()])
        if self.now() in ("pure", "function"):
            self.newer()
            return self.generic_function()
        constant = self.word("constant", "ConstantWord")
        names = self.identifiers()
        mode = self.word("in", "In")
        return Node("GenericConstant", [constant, names, mode, self.subtype(), self.default()])

    def generic_function(self):
        pure = self.word("pure", "PureWord")
        self.take("function")
        name, parameters = self.designator(), self.parameters()
        self.take("return")
        result, box = self.selected_name(), absent()
        if self.has("is"):
            self.take("<>")
            box = Node("Box")
        return Node("GenericFunction", [pure, name, parameters, result, box])

    def parameters(self):
        return Node("ParameterList", self.interfaces(self.parameter)) if self.now() == "(" else absent()

    def parameter(self):
        constant = self.word("constant", "ConstantWord")
        names = self.identifiers()
        mode = self.word("in", "In")
        return Node("ParameterDeclaration", [constant, names, mode, self.subtype()])

    def subtype(self):
        mark, constraint = self.selected_name(), absent()
        if self.has("("):
            constraint = Node("IndexConstraint", self.elements())
        elif self.has("range"):
            constraint = Node("RangeConstraint", [self.range_()])
        return Node("SubtypeIndication", [mark, constraint])

    def architecture(self):
        name = self.identifier()
        self.take("of")
        entity = self.identifier()
        self.take("is")
        declarations = self.declarations()
        self.take("begin")
        statements = self.concurrent_statements()
        return Node("ArchitectureBody", [name, entity, declarations, Node("StatementPart", statements), self.closing("architecture")])

    def package_body(self):
        name = self.identifier()
        self.take("is")
        return Node("PackageBody", [name, self.declarations(), self.closing("package", "body")])

    def package(self):
        name = self.identifier()
        self.take("is")
        if self.now() == "new":
            self.newer()
            self.take("new")
            generic = self.selected_name()
            actuals = self.map("generic", "GenericMap")
            self.take(";")
            return Node("PackageInstantiation", [name, generic, actuals])
        if self.now() == "generic":
            self.newer()
        generics = self.generics()
        return Node("PackageDeclaration", [name, generics, self.declarations(), self.closing("package")])

    def map(self, piece, form):
        if self.now() != piece:
            return absent()
        self.take(piece)
        self.take("map")
        self.take("(")
        return Node(form, self.elements())

    # ---- declarations

    def declarations(self):
        found = []
        while self.now() in ("constant", "use", "signal", "variable", "type", "subtype", "view", "pure", "function"):
            found.append(self.declaration())
        return Node("DeclarativePart", found)

    def declaration(self):
        if self.now() == "use":
            return self.use()
        if self.now() in ("pure", "function"):
            return self.function()
        if self.now() == "view":
            return self.view()
        piece = self.now()
        self.at += 1
        if piece == "type":
            return self.type_()
        if piece == "subtype":
            name = self.identifier()
            self.take("is")
            return self.ended(Node("SubtypeDeclaration", [name, self.subtype()]))
        names, subtype = self.identifiers(), self.subtype()
        form = {"constant": "ConstantDeclaration", "signal": "SignalDeclaration", "variable": "VariableDeclaration"}[piece]
        return self.ended(Node(form, [names, subtype, self.default()]))

    def ended(self, node):
        self.take(";")
        return node

    def type_(self):
        name = self.identifier()
        self.take("is")
        if self.has("("):
            literals = self.separated(self.literal)
            self.take(")")
            return self.ended(Node("TypeDeclaration", [name, Node("EnumerationType", literals)]))
        if self.has("array"):
            self.take("(")
            index = self.index()
            self.take(")")
            self.take("of")
            return self.ended(Node("TypeDeclaration", [name, Node("ArrayType", [index, self.subtype()])]))
        self.take("record")
        elements = [self.record_element()]
        while self.now() != "end":
            elements.append(self.record_element())
        self.take("end")
        self.take("record")
        return self.ended(Node("TypeDeclaration", [name, Node("RecordType", [Node("RecordElements", elements), self.closing_name()])]))

    def literal(self):
        return self.leaf("letter", "Letter") if self.kind() == "letter" else self.identifier()

    def index(self):
        first = self.expression()
        if self.has("range"):
            if self.has("<>"):
                return Node("UnconstrainedIndex", [first])
            return Node("DiscreteSubtype", [first, self.bounds(self.expression())])
        return self.bounds(first) if self.now() in ("to", "downto") else first

    def record_element(self):
        names = self.identifiers()
        return self.ended(Node("RecordElement", [names, self.subtype()]))

    def view(self):
        self.newer()
        self.take("view")
        name = self.identifier()
        self.take("of")
        mark = self.selected_name()
        self.take("is")
        elements = []
        while self.now() != "end":
            names = self.identifiers()
            elements.append(self.ended(Node("ViewElement", [names, self.view_mode()])))
        self.take("end")
        self.take("view")
        return self.ended(Node("ViewDeclaration", [name, mark, Node("ViewElements", elements), self.closing_name()]))

    def view_mode(self):
        if self.has("view"):
            view = self.selected_name()
            return Node("ViewMode", [view, self.identifier() if self.has("'") else absent()])
        mode = self.mode()
        return self.fail() if mode.form == "Absent" else mode

    def function(self):
        pure = self.word("pure", "PureWord")
        self.take("function")
        name = self.designator()
        if self.now() == "is":
            self.newer()
            self.take("is")
            self.take("new")
            generic = self.selected_name()
            return self.ended(Node("FunctionInstantiation", [pure, name, generic, self.map("generic", "GenericMap")]))
        generics = absent()
        if self.now() == "generic":
            self.newer()
            self.take("generic")
            generics = Node("GenericClause", self.interfaces(self.generic))
        word = self.word("parameter", "ParameterWord")
        parameters = self.parameters()
        self.take("return")
        head = [pure, name, generics, word, parameters, self.selected_name()]
        if self.has(";"):
            return Node("FunctionDeclaration", head)
        self.take("is")
        declarations = self.declarations()
        self.take("begin")
        return Node("FunctionBody", head + [declarations, Node("Statements", self.statements()), self.function_closing()])

    def function_closing(self):
        self.take("end")
        word = self.word("function", "ClosingWord")
        name = self.designator() if self.kind() in ("name", "quoted") else absent()
        return self.ended(Node("FunctionClosing", [word, name]))


def read(text, revision):
    return Parser(text, revision).file()
