"""Reads equations: definitions, clocks, calls, claims, cases, iterations and automata."""
from sigc.expand.read_expressions import ReadExpressions
from sigc.expand.tree import (Automaton, Block, Branch, CallOnly, Case, Claim, Clocks, Definition, Dropped, Iteration, Left, Locals, State,
                              Transition)

DEPENDENCE = "a dependence, `-->`: sigc orders computations by itself"
CLOCK_RELATIONS = ("^=", "^<", "^>", "^#")


class ReadEquations(ReadExpressions):
    """A reader of equations."""

    def body(self):
        """A composition, with or without a `where`, or one equation."""
        if not self.sees("(|"):
            return self.equation()
        place = self.place()
        self.depth += 1
        self.step()
        bodies = [] if self.sees("|)") else [self.body()]
        while self.sees("|"):
            self.step()
            bodies.append(self.body())
        if not self.sees("|)"):
            self.stop("`|)`, `|` or an operator")
        self.step()
        self.depth -= 1
        return Block(bodies, Locals(), place)

    def inner_body(self):
        """A body that may have a `where` of its own."""
        found = self.body()
        if self.sees("where") and isinstance(found, Block):
            self.wider()
            found.locals = self.where()
        return found

    def equation(self):
        while self.here().kind == "name" and self.ahead().text == "::":
            self.step()
            self.step()
        if self.sees("(|"):
            return self.inner_body()
        word = self.here().text
        after = self.ahead().text
        if word in ("assert", "assume") and after == "(":
            return self.claim()
        if word in ("case", "array", "automaton", "iterate") and after not in (":=", "^=", ",", ")", "when", "default"):
            return self.construct(word)
        if self.sees("{"):
            return self.dependence(None)
        return self.definition() if self.is_left() else self.constraint()

    def construct(self, word: str):
        readers = {"case": self.case, "array": self.iteration, "automaton": self.automaton, "iterate": self.no_iterate}
        self.wider()
        return readers[word]()

    def no_iterate(self):
        self.stop("an equation", "`iterate` is not taken: write `array I to N - 1 of .. with .. end`")

    def is_left(self) -> bool:
        """Whether a definition begins here."""
        if self.sees("("):
            return self.ahead(self.closing("(", ")") + 1).text in (":=", "::=")
        count = 1
        while self.here().kind == "name" and self.ahead(count).text == "[":
            held, self.at = self.at, self.at + count
            count += self.closing("[", "]") + 1
            self.at = held
        return self.here().kind == "name" and self.ahead(count).text in (":=", "::=")

    def left(self) -> Left:
        name, place = self.named()
        indices = []
        while self.sees("["):
            self.step()
            indices += self.listed(self.expression)
            self.take("]")
        return Left(name, place, indices)

    def definition(self) -> Definition:
        if self.sees("("):
            self.step()
            lefts = self.listed(self.left)
            self.take(")")
        else:
            lefts = [self.left()]
        place, mark = self.place(), self.take(":=", "::=").text
        right = self.expression()
        if right.op != "call" and any(it.op == "call" for it in right.parts):
            self.wider()
        return Definition(lefts, right, mark == "::=", place)

    def constraint(self):
        """A clock equation, a call, or a dependence."""
        place = self.place()
        first = self.expression()
        if self.sees("-->"):
            return self.dependence(place)
        if first.op == "call" and not self.sees(*CLOCK_RELATIONS):
            self.wider()
            return CallOnly(first, place)
        if not self.sees(*CLOCK_RELATIONS):
            self.stop("`:=`, `^=` or an operator")
        op, terms, places = self.here().text, [first], []
        while self.sees(op):
            places.append(self.place())
            self.step()
            terms.append(self.expression())
        if self.sees(*CLOCK_RELATIONS):
            self.stop(f"`{op}`", "one equation relates clocks by one mark: write two equations")
        return Clocks(op, terms, places)

    def dependence(self, place):
        """`A --> B`, which says nothing."""
        place = place or self.place()
        self.wider()
        end = self.closing("{", "}") if self.sees("{") else 0
        if any(self.ahead(number).text == "-->" for number in range(end)):
            self.at += end + 1
            self.condition()
            return Dropped(DEPENDENCE, place)
        while not self.sees("-->") and self.here().kind != "end" and not self.sees("|", "|)"):
            self.step()
        self.take("-->")
        if self.sees("{"):
            self.at += self.closing("{", "}") + 1
        else:
            self.expression()
        self.condition()
        return Dropped(DEPENDENCE, place)

    def condition(self) -> None:
        """Passes over a condition of a dependence."""
        if self.sees("when"):
            self.step()
            self.expression()

    def claim(self) -> Claim:
        place = self.place()
        self.wider()
        word = self.step().text
        self.take("(")
        claimed = self.expression()
        self.take(")")
        return Claim(word, claimed, place)

    def case(self) -> Case:
        place = self.place()
        self.step()
        chosen = self.expression()
        self.take("in")
        branches = []
        while self.sees("{"):
            at = self.place()
            self.step()
            if self.sees("}"):
                self.stop("a value")
            values = self.listed(self.expression)
            self.take("}")
            self.take(":")
            branches.append(Branch(values, self.inner_body(), at))
        if self.sees("else"):
            at = self.place()
            self.step()
            branches.append(Branch(None, self.inner_body(), at))
        if not branches:
            self.stop("`{`", "a case has branches: `{#red}: (| .. |)`")
        if not self.sees("end"):
            self.stop("`{`, `else`, `end` or an operator")
        self.step()
        return Case(chosen, branches, place)

    def iteration(self) -> Iteration:
        place = self.place()
        self.step()
        index = self.name("the name of an index").text
        self.take("to")
        last = self.expression()
        self.take("of")
        body, begins = self.inner_body(), None
        if self.sees("with"):
            self.step()
            begins = self.inner_body()
        if not self.sees("end"):
            self.stop("`with`, `end` or an operator")
        self.step()
        return Iteration(index, last, body, begins, place)

    def automaton(self) -> Automaton:
        place = self.place()
        self.step()
        name, name_at = self.named("the signal that is the state")
        states = []
        while self.sees("state"):
            states.append(self.state())
        if not states:
            self.stop("`state`")
        if not self.sees("end"):
            self.stop("`state`, `unless`, `until`, `end` or an operator")
        self.step()
        return Automaton(name, name_at, states, place)

    def value_name(self) -> str:
        if self.sees("#"):
            self.step()
        return self.name("a state").text

    def state(self) -> State:
        self.step()
        place = self.place()
        name = self.value_name()
        self.take("do")
        body, transitions = self.inner_body(), []
        while self.sees("unless", "until"):
            at, is_strong = self.place(), self.step().text == "unless"
            condition = self.expression()
            is_anew = self.take("go", "resume").text == "go"
            target_at = self.place()
            transitions.append(Transition(is_strong, condition, is_anew, self.value_name(), at, target_at))
        return State(name, body, transitions, place)
