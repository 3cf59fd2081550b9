"""Statements as trees (IEEE 1076, sequential statements; concurrent statements)."""

from vhdl_terms import Terms
from vhdl_tokens import Node, absent


class Statements(Terms):
    # ---- sequential statements

    def statements(self):
        found = []
        while self.now() not in ("end", "elsif", "else", "when"):
            found.append(self.statement())
        return found

    def statement(self):
        if self.kind() == "name":
            if self.tokens[self.at + 1][1] == ":" and self.tokens[self.at + 1][0] == "mark":
                label = self.identifier()
                self.take(":")
                inner = self.assignment() if self.kind() == "name" else self.unlabelled()
                return Node("LabelledStatement", [label, inner])
            return self.assignment()
        return self.unlabelled()

    def assignment(self):
        target = self.name()
        if self.has(":="):
            return self.ended(Node("VariableAssignment", [target, self.values()]))
        self.take("<=")
        delay = self.delay()
        waves = self.waves() if self.revision == 2019 else self.delayed()
        return self.ended(Node("SignalAssignment", [target, delay, waves]))

    def delay(self):
        if self.has("transport"):
            return Node("Transport")
        return self.word("inertial", "Inertial")

    def delayed(self):
        value = self.expression()
        return Node("DelayedWaveform", [value, self.expression()]) if self.has("after") else value

    def wave(self):
        return Node("Unaffected") if self.has("unaffected") else self.delayed()

    def waves(self):
        wave = self.wave()
        if not self.has("when"):
            return wave
        test = self.expression()
        return Node("ConditionalWaveform", [wave, test, self.waves()]) if self.has("else") else Node("GuardedWaveform", [wave, test])

    def values(self):
        value = self.expression()
        if self.revision == 1993 or not self.has("when"):
            return value
        test = self.expression()
        return Node("ConditionalValue", [value, test, self.values()]) if self.has("else") else Node("GuardedValue", [value, test])

    def returned(self):
        value = self.expression()
        if self.revision == 1993 or not self.has("when"):
            return value
        test = self.expression()
        self.take("else")
        return Node("ConditionalReturn", [value, test, self.returned()])

    def unlabelled(self):
        simple = {
            "if": self.if_, "case": self.case, "for": self.for_, "while": self.while_, "loop": self.loop, "wait": self.wait, "assert": self.assert_,
            "report": self.report, "return": self.return_, "next": self.jump, "exit": self.jump, "null": self.null, "with": self.selected,
        }
        return simple[self.now()]() if self.now() in simple else self.fail()

    def null(self):
        self.take("null")
        return self.ended(Node("NullStatement"))

    def body(self):
        return Node("Statements", self.statements())

    def end_of(self, piece):
        self.take("end")
        self.take(piece)
        return self.closing_name()

    def if_(self):
        self.take("if")
        test = self.expression()
        self.take("then")
        then, branches, other = self.body(), [], absent()
        while self.has("elsif"):
            further = self.expression()
            self.take("then")
            branches.append(Node("ElsifBranch", [further, self.body()]))
        if self.has("else"):
            other = Node("ElseBranch", self.statements())
        return self.ended(Node("IfStatement", [test, then, Node("ElsifBranches", branches), other, self.end_of("if")]))

    def matching(self):
        if self.now() == "?":
            self.newer()
        return self.word("?", "Matching")

    def case(self):
        self.take("case")
        matching, selector, alternatives = self.matching(), self.expression(), []
        self.take("is")
        while self.has("when"):
            choices = self.choices()
            self.take("=>")
            alternatives.append(Node("CaseAlternative", [choices, self.body()]))
        self.take("end")
        self.take("case")
        again = self.matching()
        return self.ended(Node("CaseStatement", [matching, selector, Node("CaseAlternatives", alternatives), again, self.closing_name()]))

    def choices(self):
        return Node("Others") if self.has("others") else Node("Choices", self.separated(self.range_, "|"))

    def loop_body(self):
        self.take("loop")
        return self.body()

    def for_(self):
        self.take("for")
        name = self.identifier()
        self.take("in")
        values = self.range_()
        return self.ended(Node("ForLoop", [name, values, self.loop_body(), self.end_of("loop")]))

    def while_(self):
        self.take("while")
        test = self.expression()
        return self.ended(Node("WhileLoop", [test, self.loop_body(), self.end_of("loop")]))

    def loop(self):
        return self.ended(Node("LoopStatement", [self.loop_body(), self.end_of("loop")]))

    def wait(self):
        self.take("wait")
        on = Node("SensitivityList", self.separated(self.name)) if self.has("on") else absent()
        until = self.expression() if self.has("until") else absent()
        return self.ended(Node("WaitStatement", [on, until, self.expression() if self.has("for") else absent()]))

    def assert_(self):
        self.take("assert")
        test = self.expression()
        text = self.expression() if self.has("report") else absent()
        return self.ended(Node("AssertStatement", [test, text, self.expression() if self.has("severity") else absent()]))

    def report(self):
        self.take("report")
        text = self.expression()
        return self.ended(Node("ReportStatement", [text, self.expression() if self.has("severity") else absent()]))

    def return_(self):
        self.take("return")
        return self.ended(Node("ReturnStatement", [self.returned()]))

    def jump(self):
        form = "NextStatement" if self.now() == "next" else "ExitStatement"
        self.at += 1
        label = self.closing_name()
        return self.ended(Node(form, [label, self.expression() if self.has("when") else absent()]))

    def selected(self):
        self.newer()
        self.take("with")
        selector = self.expression()
        self.take("select")
        matching, target = self.matching(), self.name()
        if self.has(":="):
            return self.ended(Node("SelectedVariableAssignment", [selector, matching, target] + self.alternatives(self.expression, "SelectedValue")))
        return self.selected_waves(selector, matching, target)

    def selected_waves(self, selector, matching, target):
        self.take("<=")
        delay = self.delay()
        waves = self.alternatives(self.wave, "SelectedWaveform")
        return self.ended(Node("SelectedSignalAssignment", [selector, matching, target, delay] + waves))

    def alternatives(self, one, form):
        found = []
        while not found or self.has(","):
            value = one()
            self.take("when")
            found.append(Node(form, [value, self.choices()]))
        return found

    # ---- concurrent statements

    def concurrent_statements(self):
        found = []
        while self.now() not in ("end", "elsif", "else", "when"):
            found.append(self.concurrent())
        return found

    def concurrent(self):
        if self.kind() == "name" and self.tokens[self.at + 1][1] == ":" and self.tokens[self.at + 1][0] == "mark":
            label = self.identifier()
            self.take(":")
            return Node("LabelledConcurrent", [label, self.labelled()])
        return self.unlabelled_concurrent()

    def labelled(self):
        inner = {"entity": self.instance, "if": self.if_generate, "for": self.for_generate, "case": self.case_generate}
        return inner[self.now()]() if self.now() in inner else self.unlabelled_concurrent()

    def unlabelled_concurrent(self):
        if self.kind() == "name":
            target = self.name()
            self.take("<=")
            delay = self.delay()
            return self.ended(Node("ConcurrentAssignment", [target, delay, self.waves()]))
        if self.now() == "assert":
            return self.assert_()
        if self.now() == "process":
            return self.process()
        self.take("with")
        selector = self.expression()
        self.take("select")
        matching = self.matching()
        return self.selected_waves(selector, matching, self.name())

    def process(self):
        self.take("process")
        on = absent()
        if self.has("("):
            if self.now() == "all":
                self.newer()
                self.take("all")
                on = Node("All")
            else:
                on = Node("SensitivityList", self.separated(self.name))
            self.take(")")
        word = self.word("is", "Is")
        declarations = self.declarations()
        self.take("begin")
        return self.ended(Node("ProcessStatement", [on, word, declarations, self.body(), self.end_of("process")]))

    def instance(self):
        self.take("entity")
        entity, architecture = self.selected_name(), absent()
        if self.has("("):
            architecture = self.identifier()
            self.take(")")
        generics = self.map("generic", "GenericMap")
        return self.ended(Node("EntityInstantiation", [entity, architecture, generics, self.map("port", "PortMap")]))

    def generate_body(self):
        declared = self.declarations()
        part = declared if self.has("begin") else absent()
        if part.form == "Absent" and declared.parts:
            self.fail()
        return Node("GenerateBody", [part] + self.concurrent_statements())

    def if_generate(self):
        self.take("if")
        test = self.expression()
        self.take("generate")
        then, branches, other = self.generate_body(), [], absent()
        while self.now() == "elsif":
            self.newer()
            self.take("elsif")
            further = self.expression()
            self.take("generate")
            branches.append(Node("ElsifGenerate", [further, self.generate_body()]))
        if self.now() == "else":
            self.newer()
            self.take("else")
            self.take("generate")
            other = self.generate_body()
        return self.ended(Node("IfGenerate", [test, then, Node("ElsifGenerates", branches), other, self.end_of("generate")]))

    def for_generate(self):
        self.take("for")
        name = self.identifier()
        self.take("in")
        values = self.range_()
        self.take("generate")
        return self.ended(Node("ForGenerate", [name, values, self.generate_body(), self.end_of("generate")]))

    def case_generate(self):
        self.newer()
        self.take("case")
        selector, alternatives = self.expression(), []
        self.take("generate")
        while self.has("when"):
            choices = self.choices()
            self.take("=>")
            alternatives.append(Node("GenerateAlternative", [choices, self.generate_body()]))
        return self.ended(Node("CaseGenerate", [selector, Node("GenerateAlternatives", alternatives), self.end_of("generate")]))
