"""Overload resolution of expressions (IEEE 1076, names; expressions; the context of overload resolution): all ways to give each node a declaration,
a type and a position, as the ways of crates/vd_ways do."""

from vhdl_terms import is_expression
from vhdl_tokens import Wrong

SYMBOLS = {
    "Condition": "??", "Nand": "nand", "Nor": "nor", "And": "and", "Or": "or", "Xor": "xor", "Xnor": "xnor",
    "Equal": "=", "Unequal": "/=", "Less": "<", "AtMost": "<=", "Greater": ">", "AtLeast": ">=",
    "MatchEqual": "?=", "MatchUnequal": "?/=", "MatchLess": "?<", "MatchAtMost": "?<=", "MatchGreater": "?>", "MatchAtLeast": "?>=",
    "ShiftLeftLogical": "sll", "ShiftRightLogical": "srl", "ShiftLeftArithmetic": "sla", "ShiftRightArithmetic": "sra",
    "RotateLeft": "rol", "RotateRight": "ror", "Identity": "+", "Negation": "-", "Add": "+", "Subtract": "-", "Concatenate": "&",
    "Multiply": "*", "Divide": "/", "Modulo": "mod", "Remainder": "rem", "Absolute": "abs", "Not": "not", "Power": "**",
    "AndReduction": "and", "OrReduction": "or", "XorReduction": "xor", "XnorReduction": "xnor", "NandReduction": "nand", "NorReduction": "nor",
}
OBJECTS = ("Constant", "GenericConstant", "Parameter", "LoopParameter", "GenerateParameter", "Variable")
FUNCTIONS = ("Function", "GenericFunction", "InstanceFunction", "ActualFunction", "PredefinedOperator")
TYPES = ("EnumerationType", "IntegerType", "PhysicalType", "ArrayType", "RecordType", "GenericType")
UNITS = ("Library", "LibraryName", "Package", "PackageInstance", "Entity")
DISCRETE = ("EnumerationType", "IntegerType")
BOUNDS = ("left", "right", "high", "low")


class Expressions:
    """Over a table of declarations; `visible` and `selected` say what a name means."""

    def __init__(self, table):
        self.table = table
        self.known = {}

    def visible(self, name):
        raise NotImplementedError

    def selected(self, number, name):
        raise NotImplementedError

    # ---- declarations

    def kind(self, number):
        return self.table.all[number].kind

    def declared(self, number):
        return self.table.all[number]

    def type_meant(self, number):
        if self.kind(number) in TYPES:
            return number
        return self.declared(number).mark if self.kind(number) == "Subtype" else None

    def element(self, t):
        return self.declared(t).details[1] if self.kind(t) == "ArrayType" else None

    def index(self, t):
        return self.declared(t).details[0] if t is not None and self.kind(t) == "ArrayType" else None

    def is_scalar(self, t):
        return self.kind(t) in DISCRETE + ("PhysicalType",)

    def is_discrete(self, t):
        return self.kind(t) in DISCRETE

    def all_types(self):
        return [d.number for d in self.table.all if d.kind in TYPES]

    def standard(self, name):
        return self.table.types[name]

    def literals(self, t):
        return [d for d in self.table.all if d.kind == "EnumerationLiteral" and d.mark == t]

    def position(self, t, number):
        return [d.number for d in self.literals(t)].index(number)

    def sources(self, t):
        """The types from which a conversion to a type is legal."""
        return [u for u in self.all_types() if u == t or self.are_close(t, u)]

    def are_close(self, t, u):
        if self.kind(t) != "ArrayType" or self.kind(u) != "ArrayType":
            return False
        return self.declared(t).details[:2] == self.declared(u).details[:2]

    # ---- wanted as a value, a range, a choice or a mark

    def ways(self, node, want, t):
        key = (id(node), want, t)
        if key not in self.known:
            self.known[key] = (node, list(getattr(self, want)(node, t)))
        return self.known[key][1]

    def only(self, node, want, t):
        found = self.ways(node, want, t)
        if len(found) != 1:
            raise Wrong(f"{len(found)} interpretations of {describe(node)} as {want} of {t and self.declared(t).name}")
        return found[0]

    def free(self, node, types):
        found = [way for t in types for way in self.ways(node, "value", t)]
        if len(found) != 1:
            raise Wrong(f"{len(found)} interpretations of {describe(node)}")
        return found[0]

    def any_range(self, node):
        integer = self.standard("integer")
        if node.form in ("Ascending", "Descending") and all(p.form == "Number" for p in node.parts):
            return self.only(node, "discrete", integer)
        found = [way for t in self.all_types() if self.is_discrete(t) for way in self.ways(node, "discrete", t)]
        if len(found) != 1:
            raise Wrong(f"{len(found)} interpretations of the range {describe(node)}")
        return found[0]

    def typed(self, node, t, parts=None, declaration=None, position=0):
        made = node.copy(node.parts if parts is None else parts)
        made.mark, made.declaration, made.position = t, declaration, position
        return made

    def combined(self, lists):
        """All choices of one of each list."""
        found = [[]]
        for one in lists:
            found = [before + [way] for before in found for way in one]
        return found

    def value(self, node, t):
        form = node.form
        if form in SYMBOLS:
            return self.operator(node, t)
        if form in ("Name", "OperatorName"):
            return self.name(node, "value", t)
        simple = {"Number": self.number, "PhysicalLiteral": self.physical, "Letter": self.letter, "Quoted": self.quoted, "Aggregate": self.aggregate}
        return simple[form](node, t) if form in simple else []

    def number(self, node, t):
        return [self.typed(node, t)] if t == self.standard("integer") else []

    def physical(self, node, t):
        if t != self.standard("time"):
            return []
        number = self.typed(node.parts[0], self.standard("integer"))
        units = [k for k in self.visible(node.parts[1].text) if self.kind(k) == "PhysicalUnit"]
        return [self.typed(node, t, [number, self.typed(node.parts[1], None, declaration=k)]) for k in units]

    def letter(self, node, t):
        found = [k for k in self.visible("'%s'" % node.text) if self.kind(k) == "EnumerationLiteral" and self.declared(k).mark == t]
        return [self.typed(node, t, declaration=k, position=self.position(t, k)) for k in found]

    def quoted(self, node, t):
        element = self.element(t)
        if element is None or self.kind(element) != "EnumerationType":
            return []
        names = {d.name for d in self.literals(element)}
        return [self.typed(node, t)] if all("'%s'" % c in names for c in node.text) else []

    def operator(self, node, t):
        found = []
        for k in self.visible('"%s"' % SYMBOLS[node.form]):
            declared = self.declared(k)
            if declared.mark == t and len(declared.parameters) == len(node.parts):
                marks = [self.declared(p).mark for p in declared.parameters]
                for parts in self.combined([self.ways(p, "value", m) for p, m in zip(node.parts, marks)]):
                    found.append(self.typed(node, t, parts, declaration=k))
        return found

    # ---- ranges and choices

    def range(self, node, t):
        if node.form in ("Ascending", "Descending") and self.is_scalar(t):
            return [self.typed(node, t, parts) for parts in self.combined([self.ways(p, "value", t) for p in node.parts])]
        return self.name(node, "range", t) if node.form == "Name" else []

    def discrete(self, node, t):
        if not self.is_discrete(t):
            return []
        if node.form == "DiscreteSubtype":
            return [self.typed(node, t, parts) for parts in self.combined([self.ways(node.parts[0], "mark_", t), self.ways(node.parts[1], "range", t)])]
        return self.name(node, "discrete", t) if node.form == "Name" else self.range(node, t)

    def choice(self, node, t):
        if node.form in ("Ascending", "Descending", "DiscreteSubtype"):
            return self.discrete(node, t)
        return self.name(node, "choice", t) if node.form == "Name" else self.value(node, t)

    def mark_(self, node, t):
        return self.name(node, "mark_", t) if node.form == "Name" else []

    # ---- aggregates, and expressions in brackets

    def aggregate(self, node, t):
        return [self.typed(node, t, parts) for parts in self.in_brackets(node.parts, t)]

    def in_brackets(self, parts, t):
        if len(parts) == 1 and is_expression(parts[0]):
            return [[way] for way in self.ways(parts[0], "value", t)]
        if self.kind(t) == "ArrayType":
            return self.combined([self.array_element(p, t) for p in parts])
        return self.fields(parts, t) if self.kind(t) == "RecordType" else []

    def array_element(self, node, t):
        index, element = self.declared(t).details[:2]
        if node.form == "Association":
            choices = self.combined([self.ways(c, "choice", index) for c in node.parts[0].parts])
            return [node.copy([node.parts[0].copy(cs), v]) for cs in choices for v in self.ways(node.parts[1], "value", element)]
        if node.form == "OthersAssociation":
            return [node.copy([v]) for v in self.ways(node.parts[0], "value", element)]
        return self.ways(node, "value", element) if is_expression(node) else []

    def fields(self, parts, t):
        elements = self.declared(t).parameters
        if any(p.form == "OthersAssociation" for p in parts):
            raise Wrong("`others` in a record aggregate isn't read by this script")
        lists = []
        for at, part in enumerate(parts):
            if part.form == "Association":
                lists.append(self.named_field(part, t))
            else:
                lists.append(self.ways(part, "value", self.declared(elements[at]).mark) if at < len(elements) else [])
        return self.combined(lists)

    def named_field(self, node, t):
        numbers = []
        for choice in node.parts[0].parts:
            named = [k for k in self.declared(t).parameters if choice.form == "Name" and self.declared(k).name == choice.parts[0].text]
            if len(named) != 1:
                return []
            numbers.append(named[0])
        marks = {self.declared(k).mark for k in numbers}
        if len(marks) != 1:
            return []
        choices = [self.field_choice(c, t, k) for c, k in zip(node.parts[0].parts, numbers)]
        return [node.copy([node.parts[0].copy(choices), v]) for v in self.ways(node.parts[1], "value", marks.pop())]

    def field_choice(self, node, t, number):
        return self.typed(node, None, declaration=number, position=self.declared(t).parameters.index(number))

    # ---- names: a first piece and suffixes, each with what it stands for up to it

    def name(self, node, goal, t):
        found = []
        for head, prefix in self.heads(node.parts[0]):
            for tail in self.suffixes(prefix, node.parts[1:], goal, t):
                found.append(self.typed(node, None if goal == "mark_" else t, [head] + tail))
        return found

    def heads(self, node):
        if node.form == "Quoted":
            name = '"%s"' % node.text.lower()
        else:
            name = node.text
        return [way for k in self.visible(name) for way in self.head(node, k)]

    def head(self, node, k):
        """Nodes of a declaration as a first piece, each with what it stands for."""
        declared = self.declared(k)
        kind = declared.kind
        if kind in OBJECTS + ("Signal", "Port"):
            return [(self.typed(node, declared.mark, declaration=k), ("valued", declared.mark, kind in ("Signal", "Port")))]
        if kind == "EnumerationLiteral":
            at = self.position(declared.mark, k)
            return [(self.typed(node, declared.mark, declaration=k, position=at), ("valued", declared.mark, False))]
        if kind in FUNCTIONS and not declared.parameters:
            return [(self.typed(node, declared.mark, declaration=k), ("valued", declared.mark, False))]
        if kind in FUNCTIONS + TYPES + UNITS + ("Subtype",):
            return [(self.typed(node, None, declaration=k), ("named", k, False))]
        return []

    def suffixes(self, prefix, nodes, goal, t):
        if not nodes:
            return [[]] if self.meets(prefix, goal, t) else []
        found = []
        for way, after in self.suffix(prefix, nodes[0]):
            found += [[way] + tail for tail in self.suffixes(after, nodes[1:], goal, t)]
        return found

    def meets(self, prefix, goal, t):
        kind, of = prefix[0], prefix[1]
        if kind == "valued":
            return goal in ("value", "choice") and of == t
        if kind == "ranged":
            return goal in ("range", "discrete", "choice") and of == t
        if kind == "named":
            return (goal == "mark_" or (goal in ("discrete", "choice") and self.is_discrete(t))) and self.type_meant(of) == t
        return False

    def suffix(self, prefix, node):
        steps = {
            "Selection": self.selection, "Arguments": self.arguments, "Attribute": self.attribute, "RangeAttribute": self.range_attribute,
            "Qualification": self.qualification,
        }
        return steps[node.form](prefix, node)

    def selection(self, prefix, node):
        part = node.parts[0]
        name = {"Identifier": part.text, "Letter": "'%s'" % part.text, "Quoted": '"%s"' % part.text.lower()}[part.form]
        if prefix[0] == "named" and self.kind(prefix[1]) in UNITS:
            return [way for k in self.selected(prefix[1], name) for way in self.head(node, k)]
        if prefix[0] != "valued" or self.kind(prefix[1]) != "RecordType":
            return []
        elements = self.declared(prefix[1]).parameters
        found = [k for k in elements if self.declared(k).name == name]
        return [
            (self.typed(node, self.declared(k).mark, declaration=k, position=elements.index(k)), ("valued", self.declared(k).mark, prefix[2])) for k in found
        ]

    def arguments(self, prefix, node):
        if prefix[0] == "attributed":
            ways = self.ways(node.parts[0], "value", prefix[1]) if len(node.parts) == 1 else []
            return [(self.typed(node, prefix[2], [way]), ("valued", prefix[2], False)) for way in ways]
        if prefix[0] == "named":
            k = prefix[1]
            return self.call(k, node) if self.kind(k) in FUNCTIONS else self.conversion(k, node)
        if prefix[0] != "valued" or self.kind(prefix[1]) != "ArrayType" or len(node.parts) != 1:
            return []
        index, element = self.declared(prefix[1]).details[:2]
        found = [(self.typed(node, element, [way]), ("valued", element, prefix[2])) for way in self.ways(node.parts[0], "value", index)]
        return found + [(self.typed(node, prefix[1], [way]), ("valued", prefix[1], prefix[2])) for way in self.ways(node.parts[0], "discrete", index)]

    def call(self, k, node):
        declared = self.declared(k)
        if len(declared.parameters) != len(node.parts):
            return []
        lists, named = [], set()
        for at, part in enumerate(node.parts):
            if part.form == "Association":
                number = self.parameter_named(declared, part, named)
                lists.append([] if number is None else self.named_argument(part, number))
            elif named or not is_expression(part):
                return []
            else:
                lists.append(self.ways(part, "value", self.declared(declared.parameters[at]).mark))
        return [(self.typed(node, declared.mark, parts, declaration=k), ("valued", declared.mark, False)) for parts in self.combined(lists)]

    def parameter_named(self, declared, node, named):
        choice = node.parts[0].parts[0]
        found = [p for p in declared.parameters if choice.form == "Name" and self.declared(p).name == choice.parts[0].text]
        if len(found) != 1 or found[0] in named:
            return None
        named.add(found[0])
        return found[0]

    def named_argument(self, node, number):
        formal = self.typed(node.parts[0].parts[0], None, declaration=number)
        choices = node.parts[0].copy([formal])
        return [node.copy([choices, way]) for way in self.ways(node.parts[1], "value", self.declared(number).mark)]

    def conversion(self, k, node):
        t = self.type_meant(k)
        if t is None or len(node.parts) != 1:
            return []
        found = [way for u in self.sources(t) for way in self.ways(node.parts[0], "value", u)]
        return [(self.typed(node, t, [way], declaration=k), ("valued", t, False)) for way in found]

    def array_type(self, prefix):
        t = self.type_meant(prefix[1]) if prefix[0] == "named" else prefix[1] if prefix[0] == "valued" else None
        return t if t is not None and self.kind(t) == "ArrayType" else None

    def attribute(self, prefix, node):
        name = node.parts[0].text
        if prefix[0] == "named" and self.type_meant(prefix[1]) is not None and self.is_scalar(self.type_meant(prefix[1])):
            return self.scalar_attribute(self.type_meant(prefix[1]), name, node)
        if prefix[0] == "valued" and prefix[2] and name == "event":
            return [(self.typed(node, self.standard("boolean")), ("valued", self.standard("boolean"), False))]
        index, integer = self.index(self.array_type(prefix)), self.standard("integer")
        if index is None:
            return []
        if name in BOUNDS:
            return [(self.typed(node, index), ("valued", index, False))]
        if name == "length":
            return [(self.typed(node, integer), ("valued", integer, False))]
        return [(self.typed(node, index), ("ranged", index))] if name == "reverse_range" else []

    def scalar_attribute(self, t, name, node):
        integer = self.standard("integer")
        if name in BOUNDS:
            return [(self.typed(node, t), ("valued", t, False))]
        shapes = {"pos": (t, integer), "val": (integer, t), "succ": (t, t), "pred": (t, t), "image": (t, self.standard("string"))}
        if name not in shapes or (name == "image" and t == self.standard("time")):
            return []
        return [(self.typed(node, None), ("attributed",) + shapes[name])]

    def range_attribute(self, prefix, node):
        index = self.index(self.array_type(prefix))
        return [] if index is None else [(self.typed(node, index), ("ranged", index))]

    def qualification(self, prefix, node):
        t = self.type_meant(prefix[1]) if prefix[0] == "named" else None
        if t is None:
            return []
        return [(self.typed(node, t, parts, declaration=prefix[1]), ("valued", t, False)) for parts in self.in_brackets(node.parts, t)]


def describe(node):
    """The words of a tree, for a message."""
    inner = " ".join(describe(p) for p in node.parts)
    return " ".join(x for x in (node.form, repr(node.text) if node.text else "", f"({inner})" if inner else "") if x)
