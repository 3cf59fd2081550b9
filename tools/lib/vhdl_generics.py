"""Generics of packages and functions, and instances: what an instance declares (IEEE 1076-2019, generic clauses; instantiation declarations)."""

from vhdl_expressions import describe
from vhdl_tokens import Wrong
from vhdl_visibility import Scope, Visibility


class Generics(Visibility):
    # ---- packages with generics, and their instances

    def generics(self, clause):
        """The numbers of generics that are constants, types and functions."""
        numbers = []
        for generic in clause.parts:
            if generic.form == "GenericConstant":
                numbers += self.objects(generic, "GenericConstant", 1, 3, 4)
            elif generic.form == "GenericType":
                numbers.append(self.generic_type(generic))
            else:
                numbers.append(self.generic_function(generic))
        return numbers

    def generic_type(self, node):
        node.declaration = self.declare("GenericType", node.parts[0])
        first = len(self.table.all)
        self.table.operators_of(node.declaration, self.scope.own)
        self.of_generics.update(range(first, len(self.table.all)))
        return node.declaration

    def generic_function(self, node):
        first = len(self.table.all)
        parameters = self.inside(Scope(self.scope), lambda: self.parameters(node.parts[2]))
        self.of_generics.update(range(first, len(self.table.all)))
        node.declaration = self.declare("GenericFunction", node.parts[1], self.type_of_mark(node.parts[3]), parameters)
        return node.declaration

    def finish_package(self, number, scope):
        """A package with generics lists what it declares besides them: what stands in its region, without what its generics bring."""
        left_out = self.of_generics | set(self.declared(number).generics)
        self.declared(number).parameters = sorted(k for numbers in scope.own.values() for k in numbers if k not in left_out)
        self.last_of[number] = len(self.table.all)

    def package_instance(self, node, context):
        self.scope = context
        generic = self.named(node.parts[1])
        if self.kind(generic) != "UninstantiatedPackage":
            raise Wrong(f"{describe(node.parts[1])} has no generics")
        marks = self.generic_actuals(node.parts[2], generic)
        number = self.make_unit("PackageInstance", node.parts[0])
        node.declaration = number
        self.packages[number] = {}
        self.scope = self.root
        self.copies(generic, number, marks)

    def generic_actuals(self, node, generic):
        """The actuals of types and functions, by the numbers of the generics. An actual sees the types in front of it."""
        marks = {}
        for at, number in enumerate(self.declared(generic).generics):
            element, place = self.element_of(node, at, number)
            if self.kind(number) == "GenericType":
                marks[number] = self.type_actual(element, place)
            elif self.kind(number) == "GenericFunction":
                marks[number] = self.function_actual(element.parts[place], number, marks)
            else:
                self.put(element, place, "value", self.type_as(self.declared(number).mark, marks, {}))
        return marks

    def type_actual(self, element, place):
        found = [way for t in self.all_types() for way in self.ways(element.parts[place], "mark_", t)]
        if len(found) != 1:
            raise Wrong(f"the actual {describe(element)}")
        element.parts[place] = found[0]
        return [p for p in found[0].parts if p.declaration is not None][-1].declaration

    def function_actual(self, node, number, marks):
        """An operator symbol, or the name of a function, of the profile that the generic has in the instance."""
        name = node if node.form == "Quoted" else node.parts[0]
        types, result = self.profile(number)
        wanted = ([self.type_as(t, marks, {}) for t in types], self.type_as(result, marks, {}))
        found = [k for k in self.visible(self.word_of(name)) if self.profile(k) == wanted]
        if len(found) != 1:
            raise Wrong(f"{len(found)} functions for {describe(node)}")
        name.declaration = found[0]
        return found[0]

    def element_of(self, node, at, number):
        """The node with the actual of a generic, and its place there."""
        for part in node.parts:
            choice = part.parts[0].parts[0] if part.form == "Association" else None
            if choice and self.word_of(choice if choice.form == "Quoted" else choice.parts[0]) == self.declared(number).name:
                choice.declaration = number
                return part, 1
        if at < len(node.parts) and node.parts[at].form != "Association":
            return node, at
        raise Wrong(f"no actual for {self.declared(number).name}")

    def type_as(self, t, marks, copied):
        """A type of the package as one of the instance."""
        return self.type_meant(marks[t]) if t in marks else copied.get(t, t)

    def copies(self, generic, number, marks):
        """What an instance declares: a copy of each declaration of the package, its generics first."""
        declared, region = self.declared(generic), self.packages[number]
        copied = self.generic_copies(declared.generics, marks, region)
        for k in range(generic + 1, self.last_of[generic]):
            if k not in self.of_generics and k not in declared.generics:
                self.copy(k, copied, marks, region if k in declared.parameters else None)
        self.declared(number).generics = [copied[k] for k in declared.generics]
        self.declared(number).parameters = [copied[k] for k in declared.parameters]

    def generic_copies(self, generics, marks, region):
        """A constant; of a type a subtype whose mark is the actual; of a function what names the actual."""
        copied = {}
        for k in generics:
            one = self.declared(k)
            if one.kind == "GenericType":
                copied[k] = self.table.add("Subtype", one.name, self.type_meant(marks[k]), (), (marks[k],), region)
            elif one.kind == "GenericFunction":
                actual = self.declared(marks[k])
                copied[k] = self.table.add("ActualFunction", one.name, actual.mark, actual.parameters, (marks[k],), region)
            else:
                copied[k] = self.table.add("GenericConstant", one.name, self.type_as(one.mark, marks, copied), region=region)
            self.declared(copied[k]).is_generic_copy = True
        return copied

    def function_instance(self, node):
        generic = self.named(node.parts[2])
        if self.kind(generic) != "UninstantiatedFunction":
            raise Wrong(f"{describe(node.parts[2])} has no generics")
        declared = self.declared(generic)
        marks = self.generic_actuals(node.parts[3], generic)
        copied = self.generic_copies(declared.generics, marks, None)
        parameters = [self.table.add("Parameter", self.declared(p).name, self.type_as(self.declared(p).mark, marks, {})) for p in declared.parameters]
        node.declaration = self.declare("Function", node.parts[1], self.type_as(declared.mark, marks, {}), parameters)
        self.declared(node.declaration).generics = [copied[k] for k in declared.generics]

    def copy(self, k, copied, marks, region):
        one = self.declared(k)
        kind = "InstanceFunction" if one.kind == "Function" else one.kind
        made = self.table.add(kind, one.name, None, (), (), region)
        copied[k] = made
        new = self.declared(made)
        new.mark = self.type_as(one.mark, marks, copied)
        new.parameters = [copied.get(p, p) for p in one.parameters]
        if kind == "View":
            self.views[made] = copied[self.views[k]]
        if kind == "RecordType":
            self.records.append((one, new, copied))
        if kind == "ArrayType":
            new.details = [self.type_as(one.details[0], marks, copied), self.type_as(one.details[1], marks, copied), copied.get(one.details[2], one.details[2])]
        elif kind == "Subtype":
            new.details = [copied.get(one.details[0], one.details[0])]
        for old, record, numbers in self.records:
            record.parameters = [numbers.get(p, p) for p in old.parameters]

    def package_body(self, node, context):
        number = self.work[node.parts[0].text][0]
        node.parts[0].declaration = number
        context.outer = self.package_scopes[number]
        scope = Scope(context, self.package_scopes[number].own)
        self.inside(scope, lambda: self.declarations(node.parts[1]))
