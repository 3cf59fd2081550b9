"""Writes resolved trees and their declarations as antt definitions."""

from vhdl_resolver import Resolver

WIDTH = 150
PRELUDE = ["ℕ", "List", "[]", "◌∷◌", "Some", "None", "codes"]
CONSTANTS = [
    "BOOLEAN", "BIT", "CHARACTER", "SEVERITY_LEVEL", "INTEGER", "TIME", "DELAY_LENGTH", "NATURAL", "POSITIVE", "STRING", "BIT_VECTOR", "STD_ULOGIC",
    "STD_ULOGIC_VECTOR", "STD_LOGIC", "STD_LOGIC_VECTOR", "X01", "X01Z", "UX01", "UX01Z",
]


class Writer:
    def __init__(self, resolver):
        self.resolver = resolver
        self.types = {number: name.upper() for name, number in resolver.table.types.items()}
        self.used, self.words, self.split, self.pieces = set(), set(), {}, []

    # ---- terms

    def number(self, k):
        name = self.types.get(k)
        if name:
            self.used.add(name)
        return name or str(k)

    def option(self, k):
        return "None" if k is None else f"(Some {self.number(k)})"

    def codes(self, text):
        return '(codes "%s")' % text.replace("\\", "\\\\").replace('"', '\\"') if text else "[]"

    def word(self, name):
        self.words.add(name)
        return name

    def head(self, node):
        """The function of a node, in front of its parts; whether it takes parts."""
        plain = node.declaration is None and node.mark is None
        if node.form == "Absent":
            return self.word("absent"), False
        if plain and node.text:
            return f"{self.word('leaf')} form.{node.form} {self.codes(node.text)}", False
        if plain:
            return f"{self.word('plain')} form.{node.form}", True
        if node.declaration is None and not node.text and not node.position:
            return f"{self.word('of')} form.{node.form} {self.number(node.mark)}", True
        return (
            f"{self.word('node')} form.{node.form} {self.option(node.declaration)} {self.option(node.mark)} {node.position} "
            f"{self.codes(node.text)}",
            True,
        )

    def lines(self, node):
        """A node as lines that are to be put behind one another."""
        if id(node) in self.split:
            return [self.split[id(node)]]
        head, takes = self.head(node)
        if not takes:
            return [head]
        if not node.parts:
            return [f"{head} []"]
        parts = [self.lines(p) for p in node.parts]
        if all(len(p) == 1 for p in parts):
            whole = f"{head} ({' ∷ '.join(p[0] for p in parts)} ∷ [])"
            if len(whole) <= WIDTH:
                return [whole]
        return [head] + self.listed(parts, "(", " ∷ [])")

    def listed(self, parts, before, after):
        """A list of terms on lines, as many of them on a line as there is room for."""
        made, is_open = [before + parts[0][0]] + parts[0][1:], len(parts[0]) == 1
        for part in parts[1:]:
            if is_open and len(part) == 1 and len(made[-1]) + len(part[0]) + 3 <= WIDTH:
                made[-1] += " ∷ " + part[0]
                continue
            made += ["∷ " + part[0]] + part[1:]
            is_open = len(part) == 1
        made[-1] += after
        return made

    # ---- definitions

    def definition(self, name, of, lines):
        if len(lines) == 1 and len(name) + len(lines[0]) + 3 <= WIDTH:
            return [f"abbrev pub {name} : {of}", f"{name} = {lines[0]}", ""]
        return [f"abbrev pub {name} : {of}", f"{name} ="] + ["    " + line for line in lines] + [""]

    def tree(self, name, node):
        self.pieces += self.definition(name, "Forest Resolved", self.lines(node))
        self.split[id(node)] = name
        self.word("Forest")

    def declaration(self, declared):
        details = " ".join(self.number(k) for k in declared.details)
        kind = f"(class.{declared.kind} {details})" if details else f"class.{declared.kind}"
        made = f"declared {kind} {self.codes(declared.name)} {self.option(declared.mark)} {numbers(declared.parameters)}"
        if declared.is_generic_copy:
            return f"{self.word('generic_copy')} ({made})"
        return f"{self.word('with_generics')} {numbers(declared.generics)} ({made})" if declared.generics else made

    def declarations(self):
        made = [self.declaration(d) for d in self.resolver.table.all[self.resolver.given :]]
        lines = [made[0]] + ["∷ " + line for line in made[1:]]
        lines[-1] += " ∷ []"
        return self.definition("declarations", "List Declaration", lines)

    # ---- files

    def imports(self, body, further):
        text = "\n".join(body)
        prelude = ", ".join(w for w in PRELUDE if w == "◌∷◌" and "∷" in text or is_word(w, text))
        made = [f"use Rattle.std.specs.Prelude.{{{prelude}}}"]
        if "class." in text:
            made.append("use Rattle.vd_declarations.specs.declared.classes.Class.TheVariants as class")
            made.append("use Rattle.vd_declarations.specs.declared.declarations.Declaration.{Declaration}")
        if "Forest" in self.words:
            made.append("use Rattle.vd_forest.specs.Forest.{Forest}")
        if "form." in text:
            made.append("use Rattle.vd_forms.specs.declared.form.Form.TheVariants as form")
        if "Forest" in self.words:
            made.append("use Rattle.vd_resolved.specs.declared.node.Resolved.{Resolved}")
        if "class." in text:
            made.append("use Rattle.vd_predefined.specs.Entries.{declared}")
        used = [name for name in CONSTANTS if name in self.used and is_word(name, text)]
        if used:
            made.append(f"use Rattle.vd_predefined.specs.declared.numbers.TheConstants.{{{', '.join(used)}}}")
        nodes = [w for w in ("node", "plain", "absent", "of", "leaf") if w in self.words]
        if nodes:
            made.append(f"use Rattle.vd_meaning_facts.specs.Trees.{{{', '.join(nodes)}}}")
        return made + further

    def file(self, head, body, further=()):
        return "\n".join(head + self.imports(body, list(further)) + [""] + body).rstrip("\n") + "\n"


def numbers(found):
    return "(" + "".join(f"{k} ∷ " for k in found) + "[])" if found else "[]"


def is_word(word, text):
    return any(mark + word in text.replace(")", " ").replace("(", " ").replace("\n", " ") + " " for mark in (" ",)) if word != "[]" else "[]" in text


def quoted(text):
    return ["-- " + line if line else "--" for line in text.rstrip("\n").split("\n")]


def head_of(path, topic, text, revision):
    return [f"-- {topic} Written by tools/resolved-trees from {path}, which is of revision {revision}:"] + ["--"] + quoted(text)


def unit_name(node):
    main = node.parts[1]
    name = main.parts[0].text
    return {
        "EntityDeclaration": f"entity_{name}",
        "ArchitectureBody": f"architecture_{name}_of_{main.parts[1].text}",
        "PackageDeclaration": f"package_{name}",
        "PackageBody": f"body_of_{name}",
        "PackageInstantiation": f"instance_{name}",
    }[main.form]


def units_of(text, revision):
    """The definitions of the units of a text, by their lines."""
    resolver = Resolver(text, revision)
    return {"\n".join(Writer(resolver).lines(unit)): unit_name(unit) for unit in resolver.trees}


def units(path, text, revision):
    """A file of units that several designs begin with."""
    resolver = Resolver(text, revision)
    writer = Writer(resolver)
    for unit in resolver.trees:
        writer.tree(unit_name(unit), unit)
    return writer.file(head_of(path, "The trees of design units that several designs begin with.", text, revision), writer.pieces)


def design(path, text, revision, module, shared):
    """A design. The units that others share are in a module of their own."""
    resolver, borrowed = Resolver(text, revision), []
    writer = Writer(resolver)
    for unit in resolver.trees:
        if "\n".join(Writer(resolver).lines(unit)) in shared:
            borrowed.append(unit_name(unit))
        else:
            writer.tree(unit_name(unit), unit)
    names = "".join(f"{unit_name(u)} ∷ " for u in resolver.trees)
    body = writer.declarations() + writer.pieces
    body += writer.definition("design", "ResolvedTree", [f"designed V{revision} ({names}[]) declarations"])
    further = [
        f"use Rattle.vd_trees.specs.declared.revision.Revision.TheVariants.{{V{revision}}}",
        "use Rattle.vd_resolved.specs.Trees.{ResolvedTree}",
        f"use Rattle.vd_design_facts.specs.Designs.{{{', '.join(['designed'] + [w for w in ('with_generics', 'generic_copy') if w in writer.words])}}}",
    ]
    if borrowed:
        further.append(f"use Rattle.{module}.{{{', '.join(borrowed)}}}")
    return writer.file(head_of(path, "The tree of a design.", text, revision), body, further)


def functions(path, text, revision, crate, groups):
    """The declarations of a package, and the bodies of its functions in groups."""
    resolver = Resolver(text, revision)
    bodies = {d.parts[1].text: d for u in resolver.trees if u.parts[1].form == "PackageBody" for d in u.parts[1].parts[1].parts}
    listed = [name for module, names in groups for name in names]
    assert sorted(listed) == sorted(bodies), set(listed) ^ set(bodies)
    writer = Writer(resolver)
    body = writer.declarations()
    head = [f"-- The declarations of the support package. Written by tools/resolved-trees from {path}, which is of revision {revision}."]
    yield "Declarations", writer.file(head, body)
    for module, names in groups:
        writer = Writer(resolver)
        for name in names:
            writer.tree(name, bodies[name])
        head = [f"-- Bodies of functions of the support package. Written by tools/resolved-trees from {path}, which is of revision {revision}."]
        yield module, writer.file(head, writer.pieces)
