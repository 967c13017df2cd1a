"""Equations of a program as tuples, for the second evaluator."""
from second.read_expressions import ReadExpressions

RELATIONS = ("^=", "^<", "^>", "^#")


class ReadEquations(ReadExpressions):
    """Bodies and equations; `nested` counts the bodies around, since a `where` outside of all belongs to the process."""

    nested = 0

    def body(self) -> tuple:
        if self.now != "(|":
            return ("body", [self.equation()], None)
        self.take("(|")
        found = self.many(self.inner, "|") if self.now != "|)" else []
        self.take("|)")
        return ("body", found, self.where() if self.now == "where" and self.nested else None)

    def inner(self) -> tuple:
        self.nested += 1
        found = self.body()
        self.nested -= 1
        return found

    def equation(self) -> tuple:
        while self.tokens[self.at + 1 : self.at + 2] == ["::"]:
            self.take(), self.take()
        constructs = {"case": self.case, "array": self.iteration, "automaton": self.automaton}
        if self.now in constructs:
            return constructs[self.now]()
        start = self.at
        if self.had("("):
            lefts = self.lefts_or_none()
            if lefts:
                return ("define", lefts, self.take(), self.expr())
            self.at = start
        left = self.expr()
        if self.now in (":=", "::="):
            return ("define", [left], self.take(), self.expr())
        return self.related(left)

    def related(self, left: tuple) -> tuple:
        """A relation of clocks, or a call alone."""
        found, mark = [left], self.now
        while self.had(*RELATIONS):
            found.append(self.expr())
        return ("clocks", mark, found) if len(found) > 1 else ("drop", left)

    def lefts_or_none(self) -> list | None:
        """Several left sides, none where an expression begins here."""
        try:
            found = self.many(self.delayed)
            return found if self.had(")") and self.now == ":=" else None
        except SyntaxError:
            return None

    def case(self) -> tuple:
        self.take("case")
        subject, branches, other = self.expr(), [], None
        self.take("in")
        while self.had("{"):
            values = self.many(self.expr)
            self.take("}"), self.take(":")
            branches.append((values, self.inner()))
        if self.had("else"):
            other = self.inner()
        self.take("end")
        return ("case", subject, branches, other)

    def iteration(self) -> tuple:
        self.take("array")
        index = self.take()
        self.take("to")
        last = self.expr()
        self.take("of")
        body = self.inner()
        first = self.inner() if self.had("with") else None
        self.take("end")
        return ("iterate", index, last, body, first)

    def automaton(self) -> tuple:
        self.take("automaton")
        name, states = self.take(), []
        while self.had("state"):
            state = self.take()
            self.take("do")
            body, ways = self.inner(), []
            while self.now in ("unless", "until"):
                ways.append((self.take(), self.expr(), self.take("go", "resume"), self.take()))
            states.append((state, body, ways))
        self.take("end")
        return ("automaton", name, states)
