"""Regions, what names mean in them, and how declarations are entered (IEEE 1076, scope and visibility)."""

from vhdl_expressions import Expressions, describe
from vhdl_tokens import Wrong

OVERLOADABLE = ("EnumerationLiteral", "Function", "UninstantiatedFunction", "GenericFunction", "InstanceFunction", "ActualFunction", "PredefinedOperator")


class Scope:
    """A region: what it declares so far, the packages that its use clauses name, and the region round it."""

    def __init__(self, outer, own=None):
        self.outer, self.own, self.uses = outer, {} if own is None else own, []

    def chain(self):
        scope = self
        while scope is not None:
            yield scope
            scope = scope.outer


class Visibility(Expressions):
    # ---- visibility

    def profile(self, number):
        declared = self.declared(number)
        return ([self.declared(p).mark for p in declared.parameters], declared.mark)

    def hides(self, inner, outer):
        if self.kind(inner) not in OVERLOADABLE or self.kind(outer) not in OVERLOADABLE:
            return True
        return self.profile(inner) == self.profile(outer)

    def visible(self, name):
        direct = []
        for scope in self.scope.chain():
            here = scope.own.get(name, [])
            direct += [k for k in here if k not in direct and not any(self.hides(d, k) for d in direct if d not in here)]
        used = []
        for scope in self.scope.chain():
            for region, only in scope.uses:
                used += [k for k in region.get(name, []) if only in (None, name) and k not in used]
        if len(used) > 1 and any(self.kind(k) not in OVERLOADABLE for k in used):
            used = []
        return direct + [k for k in used if k not in direct and not any(self.hides(d, k) for d in direct)]

    def selected(self, number, name):
        kind = self.kind(number)
        if kind in ("Library", "LibraryName"):
            library = self.declared(number).details[0] if kind == "LibraryName" else number
            return {0: self.work, 1: {"standard": [3]}, 2: {"std_logic_1164": [4]}}[library].get(name, [])
        return self.packages[number].get(name, []) if number in self.packages else []

    def found(self, node):
        """What a selected name names."""
        numbers = self.visible(node.parts[0].text)
        for part in node.parts[1:]:
            if part.form == "All":
                break
            numbers = [k for n in numbers for k in self.selected(n, self.word_of(part))]
        if len(numbers) != 1:
            raise Wrong(f"{len(numbers)} declarations of {describe(node)}")
        return numbers[0]

    def word_of(self, node):
        return {"Identifier": node.text, "Letter": "'%s'" % node.text, "Quoted": '"%s"' % node.text.lower()}[node.form]

    # ---- declaring

    def declare(self, kind, node, mark=None, parameters=(), details=()):
        node.declaration = self.table.add(kind, self.word_of(node), mark, parameters, details, self.scope.own)
        return node.declaration

    def inside(self, scope, act):
        before, self.scope = self.scope, scope
        made = act()
        self.scope = before
        return made

    def named(self, node):
        """A mark, or another selected name."""
        node.declaration = self.found(node)
        return node.declaration

    def type_of_mark(self, node):
        t = self.type_meant(self.named(node))
        if t is None:
            raise Wrong(f"{describe(node)} is no type")
        return t
