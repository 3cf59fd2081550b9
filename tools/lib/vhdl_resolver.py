"""Resolved trees of VHDL texts: each name gets the number of its declaration, each expression its type (IEEE 1076, design units; declarations).
The declarations of the text have numbers in the order of the text, behind those that are given."""

from vhdl_bodies import Bodies
from vhdl_expressions import describe
from vhdl_given import Table
from vhdl_parser import read
from vhdl_tokens import Node, Wrong
from vhdl_visibility import Scope


class Resolver(Bodies):
    def __init__(self, text, revision):
        self.revision = revision
        super().__init__(Table(revision))
        self.units = read(text, revision)
        self.given = len(self.table.all)
        self.packages = {3: self.table.regions["standard"], 4: self.table.regions["std_logic_1164"]}
        self.work, self.entities, self.architectures = {}, {}, {}
        self.package_scopes, self.of_generics, self.last_of, self.records, self.views = {}, set(), {}, [], {}
        self.root = Scope(None)
        self.root.own = {"work": [0], "std": [1]}
        self.root.uses = [(self.packages[3], None)]
        self.scope = self.root
        self.trees = [self.unit(u) for u in self.units]

    # ---- units

    def unit(self, node):
        context = Scope(self.root)
        self.inside(context, lambda: [self.clause(c) for c in node.parts[0].parts])
        main = node.parts[1]
        act = {
            "EntityDeclaration": self.entity, "ArchitectureBody": self.architecture, "PackageDeclaration": self.package, "PackageBody": self.package_body,
            "PackageInstantiation": self.package_instance,
        }
        if main.form not in act:
            raise Wrong(f"{main.form} isn't resolved by this script")
        act[main.form](main, context)
        return node

    def clause(self, node):
        if node.form == "UseClause":
            for name in node.parts:
                self.use(name)
            return
        for name in node.parts:
            numbers = {"work": 0, "std": 1, "ieee": 2}
            if name.text not in numbers:
                raise Wrong(f"there is no library {name.text}")
            self.declare("LibraryName", name, details=(numbers[name.text],))

    def use(self, name):
        package = Node("SelectedName", name.parts[:2])
        number = self.found(package)
        if number not in self.packages:
            raise Wrong(f"{describe(name)} is no package")
        last = name.parts[2]
        name.declaration = number if last.form == "All" else self.found(name)
        self.scope.uses.append((self.packages[number], None if last.form == "All" else self.word_of(last)))

    def make_unit(self, kind, node):
        node.declaration = self.table.add(kind, node.text, region=self.work if kind != "Architecture" else None)
        return node.declaration

    def entity(self, node, context):
        number = self.make_unit("Entity", node.parts[0])
        scope = Scope(context)
        self.entities[number] = (scope, node)
        self.inside(scope, lambda: self.interface(node))
        self.declared(number).generics = [k for k, mode in self.formals(node.parts[1])]
        self.declared(number).parameters = [k for k, mode in self.formals(node.parts[2])]

    def interface(self, node):
        if node.parts[1].form != "Absent":
            for generic in node.parts[1].parts:
                self.objects(generic, "GenericConstant", 1, 3, 4)
        if node.parts[2].form == "Absent":
            return
        ports = {}
        before = self.scope
        self.scope = Scope(before, ports)
        self.scope.own = {}
        for port in node.parts[2].parts:
            self.port(port)
        ports, self.scope = self.scope.own, before
        for name, numbers in ports.items():
            before.own.setdefault(name, []).extend(numbers)

    def port(self, node):
        """A port sees no other port of its list."""
        own, self.scope.own = self.scope.own, {}
        if node.form == "ViewPort":
            self.view_port(node)
        else:
            self.objects(node, "Port", 1, 3, 4)
        for name, numbers in self.scope.own.items():
            own.setdefault(name, []).extend(numbers)
        self.scope.own = own

    def view_port(self, node):
        view = self.named(node.parts[2])
        if node.parts[4].form != "Absent":
            self.subtype(node.parts[4])
        for name in node.parts[1].parts:
            self.declare("Port", name, self.views[view])

    def view(self, node):
        t = self.type_of_mark(node.parts[1])
        for element in node.parts[2].parts:
            for name in element.parts[0].parts:
                name.declaration = [k for k in self.declared(t).parameters if self.declared(k).name == name.text][0]
            if element.parts[1].form == "ViewMode":
                self.named(element.parts[1].parts[0])
        node.declaration = self.declare("View", node.parts[0])
        self.views[node.declaration] = t

    def objects(self, node, kind, names, subtype, initial):
        t = self.subtype(node.parts[subtype])
        if initial is not None and node.parts[initial].form != "Absent":
            node.parts[initial] = self.only(node.parts[initial], "value", t)
        return [self.declare(kind, n, t) for n in node.parts[names].parts]

    def subtype(self, node):
        t = self.type_of_mark(node.parts[0])
        constraint = node.parts[1]
        if constraint.form == "IndexConstraint":
            index = self.index(t)
            if index is None or len(constraint.parts) != 1:
                raise Wrong(f"an index constraint of {describe(node)}")
            constraint.parts = [self.only(constraint.parts[0], "discrete", index)]
        elif constraint.form == "RangeConstraint":
            constraint.parts = [self.only(constraint.parts[0], "range", t)]
        return t

    def architecture(self, node, context):
        numbers = [k for k in self.work.get(node.parts[1].text, []) if self.kind(k) == "Entity"]
        if len(numbers) != 1:
            raise Wrong(f"no entity {node.parts[1].text}")
        node.parts[1].declaration = numbers[0]
        architecture = self.make_unit("Architecture", node.parts[0])
        self.architectures.setdefault(numbers[0], {})[node.parts[0].text] = architecture
        context.outer = self.entities[numbers[0]][0]
        self.inside(Scope(context), lambda: self.region(node.parts[2], node.parts[3].parts))

    def region(self, declarations, statements):
        self.declarations(declarations)
        for at, statement in enumerate(statements):
            self.concurrent(statement)

    def package(self, node, context):
        is_generic = node.parts[1].form != "Absent"
        number = self.make_unit("UninstantiatedPackage" if is_generic else "Package", node.parts[0])
        scope = Scope(context)
        self.package_scopes[number] = scope
        if is_generic:
            self.declared(number).generics = self.inside(scope, lambda: self.generics(node.parts[1]))
        else:
            self.packages[number] = scope.own
        self.inside(scope, lambda: self.declarations(node.parts[2]))
        if is_generic:
            self.finish_package(number, scope)

    # ---- declarations

    def declarations(self, node):
        for declaration in node.parts:
            self.declaration(declaration)

    def declaration(self, node):
        kinds = {"ConstantDeclaration": "Constant", "VariableDeclaration": "Variable", "SignalDeclaration": "Signal"}
        if node.form in kinds:
            self.objects(node, kinds[node.form], 0, 1, 2)
            return
        act = {
            "UseClause": self.clause, "TypeDeclaration": self.type_, "SubtypeDeclaration": self.subtype_, "FunctionDeclaration": self.function,
            "FunctionBody": self.function, "FunctionInstantiation": self.function_instance, "ViewDeclaration": self.view,
        }
        if node.form not in act:
            raise Wrong(f"{node.form} isn't resolved by this script")
        act[node.form](node)

    def subtype_(self, node):
        t = self.subtype(node.parts[1])
        node.declaration = self.declare("Subtype", node.parts[0], t, (), (node.parts[1].parts[0].declaration,))

    def type_(self, node):
        name, definition = node.parts
        if definition.form == "EnumerationType":
            number = self.declare("EnumerationType", name)
            for literal in definition.parts:
                self.declare("EnumerationLiteral", literal, number)
        elif definition.form == "ArrayType":
            number = self.array_type_(name, definition)
        else:
            number = self.record_type(name, definition)
        node.declaration = number
        self.table.operators_of(number, self.scope.own)

    def array_type_(self, name, definition):
        index, element = definition.parts
        if index.form == "UnconstrainedIndex":
            marks = [(t, way) for t in self.all_types() if self.is_discrete(t) for way in self.ways(index.parts[0], "mark_", t)]
            if len(marks) != 1:
                raise Wrong(f"the index {describe(index)}")
            index_type, index.parts = marks[0][0], [marks[0][1]]
        else:
            definition.parts[0] = self.any_range(index)
            index_type = definition.parts[0].mark
        element_type = self.subtype(element)
        return self.declare("ArrayType", name, None, (), (index_type, element_type, element.parts[0].declaration))

    def record_type(self, name, definition):
        number = self.table.add("RecordType", name.text)
        scope, elements = Scope(self.scope), []
        for element in definition.parts[0].parts:
            elements += self.inside(scope, lambda: self.objects(element, "RecordElement", 0, 1, None))
        self.declared(number).parameters = elements
        self.scope.own.setdefault(name.text, []).append(number)
        name.declaration = number
        return number

    # ---- functions

    def function(self, node):
        scope = Scope(self.scope)
        is_generic = node.parts[2].form != "Absent"
        number = None if is_generic else self.inside(scope, lambda: self.earlier(node))
        if number is None:
            generics = self.inside(scope, lambda: self.generics(node.parts[2]))
            parameters = self.inside(scope, lambda: self.parameters(node.parts[4]))
            result = self.inside(scope, lambda: self.type_of_mark(node.parts[5]))
            number = self.declare("UninstantiatedFunction" if is_generic else "Function", node.parts[1], result, parameters)
            self.declared(number).generics = generics
        node.declaration = node.parts[1].declaration = number
        if node.form == "FunctionBody":
            self.inside(scope, lambda: self.function_body(node, self.declared(number).mark))

    def parameters(self, node):
        if node.form == "Absent":
            return []
        return [k for p in node.parts for k in self.objects(p, "Parameter", 1, 3, None)]

    def earlier(self, node):
        """The number of a function that is declared before its body, whose parameters have the numbers of those of the declaration."""
        if node.form != "FunctionBody":
            return None
        marks = [] if node.parts[4].form == "Absent" else [p for p in node.parts[4].parts]
        types = [self.type_meant(self.found(p.parts[3].parts[0])) for p in marks for n in p.parts[1].parts]
        result = self.type_meant(self.found(node.parts[5]))
        own = self.scope.outer.own.get(self.word_of(node.parts[1]), [])
        found = [k for k in own if self.kind(k) == "Function" and self.profile(k) == (types, result)]
        if not found:
            return None
        self.named(node.parts[5])
        numbers = list(self.declared(found[0]).parameters)
        for parameter in marks:
            self.subtype(parameter.parts[3])
            for name in parameter.parts[1].parts:
                name.declaration = numbers.pop(0)
                self.scope.own.setdefault(name.text, []).append(name.declaration)
        return found[0]

    def function_body(self, node, result):
        self.result = result
        self.declarations(node.parts[6])
        self.statements(node.parts[7])
