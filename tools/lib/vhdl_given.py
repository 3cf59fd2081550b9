"""What is given without a text, typed from the standards (IEEE 1076, predefined language environment; IEEE 1164), and numbered as the program
numbers it: units, types, and then operators and functions, each behind its parameters."""

NUMBER_OF_GIVEN = {2019: 463, 1993: 387}
LITERALS = {
    "boolean": ["false", "true"],
    "bit": ["'0'", "'1'"],
    "severity_level": ["note", "warning", "error", "failure"],
    "std_ulogic": ["'%s'" % c for c in "UX01ZWLH-"],
}
CONTROLS = """nul soh stx etx eot enq ack bel bs ht lf vt ff cr so si dle dc1 dc2 dc3 dc4 nak syn etb can em sub esc fsp gsp rsp usp""".split()
LITERALS["character"] = CONTROLS + ["'%s'" % chr(c) for c in range(32, 127)] + ["del"]
UNITS = ["fs", "ps", "ns", "us", "ms", "sec", "min", "hr"]
EQUALITY = [("=", "oo", "b"), ("/=", "oo", "b")]
ORDER = [(s, "oo", "b") for s in ("<", "<=", ">", ">=")]
LOGIC = [(s, "oo", "o") for s in ("and", "or", "nand", "nor", "xor", "xnor")] + [("not", "o", "o")]
SHIFTS = [(s, "oi", "o") for s in ("sll", "srl", "sla", "sra", "rol", "ror")]
JOINING = [("&", p, "o") for p in ("oo", "oe", "eo", "ee")]
ARITHMETIC = [(s, "o", "o") for s in ("+", "-", "abs")] + [(s, "oo", "o") for s in ("+", "-", "*", "/", "mod", "rem", "**")]
TIMES = [("+", "oo", "o"), ("-", "oo", "o"), ("*", "oi", "o"), ("*", "io", "o"), ("/", "oi", "o")]
CONDITION = [("??", "o", "b")]
MATCHING = [("?=", "oo", "o"), ("?/=", "oo", "o")]
MATCHING_ORDER = [(s, "oo", "o") for s in ("?<", "?<=", "?>", "?>=")]
ARRAY_MATCHING = [("?=", "oo", "e"), ("?/=", "oo", "e")]
ARRAY_MATCHING_ORDER = [(s, "oo", "e") for s in ("?<", "?<=", "?>", "?>=")]
MIXED = [(s, p, "o") for s in ("and", "or", "nand", "nor", "xor", "xnor") for p in ("oe", "eo")]
REDUCTIONS = [(s, "o", "e") for s in ("and", "or", "nand", "nor", "xor", "xnor")]
LOGIC_1164 = [(s, "oo", "o") for s in ("and", "nand", "or", "nor", "xor")] + [("not", "o", "o")]
XNOR_1164 = [("xnor", "oo", "o")]
SHIFTS_1164 = [(s, "oi", "o") for s in ("sll", "srl", "rol", "ror")]


class Declaration:
    def __init__(self, number, kind, name, mark=None, parameters=(), details=()):
        self.number, self.kind, self.name, self.mark = number, kind, name, mark
        self.parameters, self.details, self.generics = list(parameters), list(details), []
        self.is_generic_copy = False


class Table:
    """Declarations by their numbers, and the numbers of what is given by name and region."""

    def __init__(self, revision):
        self.revision, self.all = revision, []
        self.types = {}
        self.regions = {"standard": {}, "std_logic_1164": {}}
        for name in ("work", "std", "ieee"):
            self.add("Library", name)
        for name in ("standard", "std_logic_1164"):
            self.add("Package", name)
        self.region = self.regions["standard"]
        self.standard_types()
        self.region = self.regions["std_logic_1164"]
        self.logic_types()
        self.region = self.regions["standard"]
        self.standard_operators()
        self.region = self.regions["std_logic_1164"]
        self.logic_operators()
        assert len(self.all) == NUMBER_OF_GIVEN[revision], len(self.all)

    def add(self, kind, name, mark=None, parameters=(), details=(), region=None):
        number = len(self.all)
        self.all.append(Declaration(number, kind, name, mark, parameters, details))
        if region is not None:
            region.setdefault(name, []).append(number)
        return number

    def given(self, kind, name, mark=None, details=()):
        self.types[name] = self.add(kind, name, mark, (), details, self.region)
        return self.types[name]

    def enumeration(self, name):
        number = self.given("EnumerationType", name)
        for literal in LITERALS[name]:
            self.add("EnumerationLiteral", literal, number, region=self.region)

    def array(self, name, element, mark):
        self.given("ArrayType", name, None, (self.types["integer"], self.types[element], self.types[mark]))

    def subtype(self, name, mark):
        base = self.all[self.types[mark]]
        self.given("Subtype", name, base.mark if base.kind == "Subtype" else base.number, (base.number,))

    def standard_types(self):
        for name in ("boolean", "bit", "character", "severity_level"):
            self.enumeration(name)
        self.given("IntegerType", "integer")
        time = self.given("PhysicalType", "time")
        for name in UNITS:
            self.add("PhysicalUnit", name, time, region=self.region)
        self.subtype("delay_length", "time")
        self.subtype("natural", "integer")
        self.subtype("positive", "integer")
        self.array("string", "character", "character")
        self.array("bit_vector", "bit", "bit")

    def logic_types(self):
        self.enumeration("std_ulogic")
        self.array("std_ulogic_vector", "std_ulogic", "std_ulogic")
        self.subtype("std_logic", "std_ulogic")
        if self.revision == 2019:
            self.subtype("std_logic_vector", "std_ulogic_vector")
        else:
            self.array("std_logic_vector", "std_ulogic", "std_logic")
        for name in ("x01", "x01z", "ux01", "ux01z"):
            self.subtype(name, "std_ulogic")

    def pair(self, mark):
        return (self.add("Parameter", "l", mark), self.add("Parameter", "r", mark))

    def operators(self, kind, own, element, groups, region):
        """Operators on a type: its operands, those of its elements, those of INTEGER, and then the operators."""
        types = {"o": own, "e": element, "i": self.types["integer"], "b": self.types["boolean"]}
        pairs = {"o": self.pair(own)}
        if element is not None:
            pairs["e"] = self.pair(element)
        pairs["i"] = self.pair(types["i"])
        for symbol, operands, result in groups:
            numbers = [pairs[o][i] for i, o in enumerate(operands)]
            self.add(kind, '"%s"' % symbol, types[result], numbers, region=region)

    def function(self, kind, name, parameter, own, result):
        number = self.add("Parameter", parameter, self.types[own])
        self.add(kind, name, self.types[result], [number], region=self.region)

    def brought(self, own, element, groups):
        self.operators("PredefinedOperator", self.types[own], element and self.types[element], groups, self.region)

    def written(self, own, element, groups):
        self.operators("Function", self.types[own], element and self.types[element], groups, self.region)

    def standard_operators(self):
        self.brought("boolean", None, EQUALITY + ORDER + LOGIC)
        self.brought("bit", None, EQUALITY + ORDER + LOGIC)
        self.brought("character", None, EQUALITY + ORDER)
        self.brought("severity_level", None, EQUALITY + ORDER)
        self.brought("integer", None, EQUALITY + ORDER + ARITHMETIC)
        self.brought("time", None, EQUALITY + ORDER + TIMES)
        self.brought("string", "character", EQUALITY + ORDER + JOINING)
        self.brought("bit_vector", "bit", EQUALITY + ORDER + LOGIC + SHIFTS + JOINING)
        if self.revision == 2019:
            self.brought("bit", None, CONDITION + MATCHING + MATCHING_ORDER)
            self.brought("bit_vector", "bit", ARRAY_MATCHING + MIXED + REDUCTIONS)
            self.function("PredefinedOperator", "to_string", "value", "boolean", "string")
            self.function("PredefinedOperator", "to_string", "value", "integer", "string")

    def logic_operators(self):
        vectors = ["std_ulogic_vector"] + (["std_logic_vector"] if self.revision == 1993 else [])
        self.brought("std_ulogic", None, EQUALITY + ORDER)
        for vector in vectors:
            self.brought(vector, "std_ulogic", EQUALITY + ORDER + JOINING)
        if self.revision == 2019:
            self.brought("std_ulogic", None, MATCHING + MATCHING_ORDER)
            self.brought("std_ulogic_vector", "std_ulogic", ARRAY_MATCHING + ARRAY_MATCHING_ORDER)
            self.function("PredefinedOperator", "to_string", "value", "std_ulogic", "string")
            self.function("PredefinedOperator", "to_string", "value", "std_ulogic_vector", "string")
        for own in ["std_ulogic"] + vectors:
            self.written(own, None, LOGIC_1164)
        if self.revision == 2019:
            self.written("std_ulogic", None, XNOR_1164 + CONDITION)
            self.written("std_ulogic_vector", "std_ulogic", XNOR_1164 + MIXED + REDUCTIONS + SHIFTS_1164)
        self.function("Function", "rising_edge", "s", "std_ulogic", "boolean")
        self.function("Function", "falling_edge", "s", "std_ulogic", "boolean")

    # ---- the operators that the types of users bring with them

    def operators_of(self, number, region):
        declared = self.all[number]
        if declared.kind == "EnumerationType":
            self.operators("PredefinedOperator", number, None, EQUALITY + ORDER, region)
        elif declared.kind == "ArrayType":
            element = declared.details[1]
            self.operators("PredefinedOperator", number, element, self.array_groups(element), region)
        elif declared.kind in ("RecordType", "GenericType"):
            self.operators("PredefinedOperator", number, None, EQUALITY, region)

    def array_groups(self, element):
        if element in (self.types["bit"], self.types["boolean"]):
            return EQUALITY + ORDER + LOGIC + SHIFTS + JOINING
        is_discrete = self.all[element].kind in ("EnumerationType", "IntegerType")
        return EQUALITY + ORDER + JOINING if is_discrete else EQUALITY + JOINING
