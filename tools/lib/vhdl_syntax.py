"""Writes syntax trees with their places as antt definitions."""

import vhdl_all_places

WIDTH = 150


def codes(text):
    return '(codes "%s")' % text.replace("\\", "\\\\").replace('"', '\\"')


def head(node):
    """A node without its parts; whether it takes parts."""
    line, column = node.place
    at = f"form.{node.form} {line} {column}"
    if node.text:
        return f"leaf {at} {codes(node.text)}", False
    return f"node {at}", True


def lines_of(node):
    """A node as lines that are to be put behind one another."""
    first, takes = head(node)
    if not takes:
        return [first]
    if not node.parts:
        return [f"{first} []"]
    parts = [lines_of(part) for part in node.parts]
    if all(len(part) == 1 for part in parts):
        whole = f"{first} ({' ∷ '.join(part[0] for part in parts)} ∷ [])"
        if len(whole) <= WIDTH:
            return [whole]
    return [first] + listed(parts, "(", " ∷ [])")


def listed(parts, before, after):
    """A list of terms on lines, as many of them on a line as there is room for."""
    made, is_open = [before + parts[0][0]] + parts[0][1:], len(parts[0]) == 1
    for part in parts[1:]:
        if is_open and len(part) == 1 and len(made[-1]) + len(part[0]) + 3 <= WIDTH:
            made[-1] += " ∷ " + part[0]
            continue
        made += ["∷ " + part[0]] + part[1:]
        is_open = len(part) == 1
    made[-1] += after
    return made


def design(name, text, revision):
    """The definitions of a design, unit by unit."""
    trees, made = vhdl_all_places.read(text, revision), []
    for at, unit in enumerate(trees):
        made += ["", f"abbrev pub {name}_{at} : Forest Form", f"{name}_{at} ="] + ["    " + line for line in lines_of(unit)]
    units = " ∷ ".join(f"{name}_{at}" for at in range(len(trees)))
    return made + ["", f"abbrev pub {name} : Forest Form", f"{name} = side_by_side ({units} ∷ [])"]


def module(path, text, revision):
    """A module with a text that is one design."""
    front = [f"-- The syntax tree of a design. Written by tools/syntax-trees from {path}, which is of revision {revision}:", "--"]
    front += [f"-- {line}".rstrip() for line in text.rstrip("\n").split("\n")]
    front += [
        "use Rattle.std.specs.Prelude.{[], ◌∷◌, codes}",
        "use Rattle.vd_forest.specs.Forest.{Forest}",
        "use Rattle.vd_forms.specs.declared.form.Form.{Form}",
        "use Rattle.vd_forms.specs.declared.form.Form.TheVariants as form",
        "use Rattle.vd_named_designs.specs.Trees.{node, leaf, side_by_side}",
    ]
    return "\n".join(front + design("units", text, revision)) + "\n"
