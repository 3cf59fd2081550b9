"""Statements of resolved trees (IEEE 1076, sequential statements; concurrent statements; association lists)."""

from vhdl_generics import Generics
from vhdl_visibility import Scope


class Bodies(Generics):
    # ---- sequential statements

    def statements(self, node):
        for statement in node.parts:
            self.statement(statement)

    def statement(self, node):
        if node.form == "LabelledStatement":
            self.declare("Label", node.parts[0])
            self.statement(node.parts[1])
            return
        act = {
            "SignalAssignment": self.assignment, "VariableAssignment": self.setting, "IfStatement": self.if_, "CaseStatement": self.case,
            "ForLoop": self.for_, "WhileLoop": self.while_, "LoopStatement": lambda n: self.statements(n.parts[0]), "WaitStatement": self.wait,
            "AssertStatement": self.report, "ReportStatement": self.report, "ReturnStatement": self.return_, "NextStatement": self.jump,
            "ExitStatement": self.jump, "NullStatement": lambda n: None, "SelectedSignalAssignment": self.selected_waves,
            "SelectedVariableAssignment": self.selected_values,
        }
        act[node.form](node)

    def put(self, node, at, want, t):
        if node.parts[at].form != "Absent":
            node.parts[at] = self.only(node.parts[at], want, t)

    def condition(self, node, at):
        self.put(node, at, "value", self.standard("boolean"))

    def target(self, node, at):
        node.parts[at] = self.free(node.parts[at], self.all_types())
        return node.parts[at].mark

    def assignment(self, node):
        t = self.target(node, 0)
        node.parts[2] = self.wave(node.parts[2], t)

    def setting(self, node):
        t = self.target(node, 0)
        node.parts[1] = self.chosen(node.parts[1], t)

    def wave(self, node, t):
        if node.form == "Unaffected":
            return node
        if node.form == "DelayedWaveform":
            self.put(node, 0, "value", t)
            self.put(node, 1, "value", self.standard("time"))
            return node
        if node.form in ("ConditionalWaveform", "GuardedWaveform"):
            node.parts[0] = self.wave(node.parts[0], t)
            self.condition(node, 1)
            node.parts[2:] = [self.wave(p, t) for p in node.parts[2:]]
            return node
        return self.only(node, "value", t)

    def chosen(self, node, t):
        if node.form in ("ConditionalValue", "GuardedValue", "ConditionalReturn"):
            self.put(node, 0, "value", t)
            self.condition(node, 1)
            node.parts[2:] = [self.chosen(p, t) for p in node.parts[2:]]
            return node
        return self.only(node, "value", t)

    def if_(self, node):
        self.condition(node, 0)
        self.statements(node.parts[1])
        for branch in node.parts[2].parts:
            self.condition(branch, 0)
            self.statements(branch.parts[1])
        self.statements(node.parts[3])

    def selector(self, node, at):
        types = [t for t in self.all_types() if self.is_discrete(t) or (self.element(t) is not None and self.is_discrete(self.element(t)))]
        node.parts[at] = self.free(node.parts[at], types)
        return node.parts[at].mark

    def choices(self, node, t):
        if node.form == "Choices":
            node.parts = [self.only(p, "choice", t) for p in node.parts]

    def case(self, node):
        t = self.selector(node, 1)
        for alternative in node.parts[2].parts:
            self.choices(alternative.parts[0], t)
            self.statements(alternative.parts[1])

    def selected_waves(self, node):
        s, t = self.selector(node, 0), self.target(node, 2)
        for alternative in node.parts[4:]:
            alternative.parts[0] = self.wave(alternative.parts[0], t)
            self.choices(alternative.parts[1], s)

    def selected_values(self, node):
        s, t = self.selector(node, 0), self.target(node, 2)
        for alternative in node.parts[3:]:
            self.put(alternative, 0, "value", t)
            self.choices(alternative.parts[1], s)

    def for_(self, node):
        node.parts[1] = self.any_range(node.parts[1])
        scope = Scope(self.scope)
        node.declaration = self.inside(scope, lambda: self.declare("LoopParameter", node.parts[0], node.parts[1].mark))
        self.inside(scope, lambda: self.statements(node.parts[2]))

    def while_(self, node):
        self.condition(node, 0)
        self.statements(node.parts[1])

    def wait(self, node):
        self.sensitivity(node.parts[0])
        self.condition(node, 1)
        self.put(node, 2, "value", self.standard("time"))

    def sensitivity(self, node):
        if node.form == "SensitivityList":
            node.parts = [self.free(p, self.all_types()) for p in node.parts]

    def report(self, node):
        at = 0
        if node.form == "AssertStatement":
            self.condition(node, 0)
            at = 1
        self.put(node, at, "value", self.standard("string"))
        self.put(node, at + 1, "value", self.standard("severity_level"))

    def return_(self, node):
        node.parts[0] = self.chosen(node.parts[0], self.result)

    def jump(self, node):
        if node.parts[0].form != "Absent":
            found = [k for k in self.visible(node.parts[0].text) if self.kind(k) == "Label"]
            node.parts[0].declaration = found[0]
        self.condition(node, 1)

    # ---- concurrent statements

    def concurrent(self, node):
        if node.form == "LabelledConcurrent":
            self.declare("Label", node.parts[0])
            self.concurrent(node.parts[1])
            return
        act = {
            "ConcurrentAssignment": self.assignment, "SelectedSignalAssignment": self.selected_waves, "AssertStatement": self.report,
            "ProcessStatement": self.process, "EntityInstantiation": self.instance, "IfGenerate": self.if_generate, "ForGenerate": self.for_generate,
            "CaseGenerate": self.case_generate,
        }
        act[node.form](node)

    def process(self, node):
        self.sensitivity(node.parts[0])
        self.inside(Scope(self.scope), lambda: (self.declarations(node.parts[2]), self.statements(node.parts[3])))

    def generate_body(self, node, scope=None):
        self.inside(Scope(scope or self.scope), lambda: self.region(node.parts[0], node.parts[1:]))

    def if_generate(self, node):
        self.condition(node, 0)
        self.generate_body(node.parts[1])
        for branch in node.parts[2].parts:
            self.condition(branch, 0)
            self.generate_body(branch.parts[1])
        if node.parts[3].form != "Absent":
            self.generate_body(node.parts[3])

    def for_generate(self, node):
        node.parts[1] = self.any_range(node.parts[1])
        scope = Scope(self.scope)
        node.declaration = self.inside(scope, lambda: self.declare("GenerateParameter", node.parts[0], node.parts[1].mark))
        self.generate_body(node.parts[2], scope)

    def case_generate(self, node):
        t = self.selector(node, 0)
        for alternative in node.parts[1].parts:
            self.choices(alternative.parts[0], t)
            self.generate_body(alternative.parts[1])

    # ---- instances

    def instance(self, node):
        number = self.named(node.parts[0])
        scope, entity = self.entities[number]
        if node.parts[1].form != "Absent":
            node.parts[1].declaration = self.architectures[number][node.parts[1].text]
        self.map(node.parts[2], self.formals(entity.parts[1]))
        self.map(node.parts[3], self.formals(entity.parts[2]))

    def formals(self, clause):
        """The numbers of a clause's objects, each with its mode."""
        if clause.form == "Absent":
            return []
        return [(name.declaration, part.parts[2].form) for part in clause.parts for name in part.parts[1].parts]

    def map(self, node, formals):
        if node.form == "Absent":
            return
        for at, part in enumerate(node.parts):
            if part.form == "Association":
                self.association(part, formals)
            elif part.form != "Open":
                node.parts[at] = self.only(part, "value", self.declared(formals[at][0]).mark)

    def association(self, node, formals):
        choice = node.parts[0].parts[0]
        is_whole, own = len(choice.parts) == 1, {self.declared(k).name: (k, m) for k, m in formals}
        is_part = not is_whole and choice.parts[0].text in own
        number, mode = own[choice.parts[0].text if is_whole or is_part else choice.parts[1].parts[0].parts[0].text]
        t = self.declared(number).mark
        if not is_whole:
            node.parts[0].parts[0] = formal = self.converted(choice, number)
            t = formal.mark if is_part or mode == "Out" else t
        else:
            choice.declaration = number
        if node.parts[1].form != "Open":
            self.put(node, 1, "value", t)

    def converted(self, node, number):
        """A conversion of a formal, which is looked up among the formals."""
        self.scope = Scope(self.scope)
        name = self.declared(number).name
        self.scope.own[name] = [number]
        made = self.free(node, self.all_types())
        self.scope = self.scope.outer
        return made
