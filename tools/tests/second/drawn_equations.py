"""Equations drawn by chance: definitions, delays in a circle, iterations, partial definitions, cases and automata."""
from second.drawn_expressions import DrawnExpressions

WORDS = {"int": "integer", "bool": "boolean"}
SORTS = ("int", "int", "bool", "T")
CLOCKS = ("base", "base", "base", "A", "B", "C", "E")


class DrawnEquations(DrawnExpressions):
    """Equations and the outputs that they define."""

    def __init__(self, seed: int):
        super().__init__(seed)
        self.equations: list[str] = []
        self.declared: list[tuple[str, str, int]] = []
        self.count, self.depth = 0, 1

    def new(self, kind: str, sizes: int, clock: str, is_known: bool = True, prefix: str = "Y") -> str:
        """A new name that is declared."""
        self.count += 1
        name = f"{prefix}{self.count}"
        self.declared.append((name, kind, sizes))
        if is_known:
            self.known.append((name, kind, sizes, clock))
        return name

    def kind(self, kind: str, sizes: int) -> str:
        return ("[N] " if sizes else "") + WORDS.get(kind, kind)

    @staticmethod
    def clock_text(clock: str) -> str:
        return {"base": "X", "C": "(X when C)"}.get(clock, clock)

    def define(self) -> None:
        """One more equation of any sort."""
        draw = self.random.random()
        kind, sizes, clock = self.one_of(*SORTS), int(self.often(0.3)), self.one_of(*CLOCKS)
        if draw < 0.35:
            right = self.drawn(kind, sizes, clock, self.random.choice([2, 3]))
            self.equations.append(f"{self.new(kind, sizes, clock)} := {right}")
        elif draw < 0.45:
            self.circle(kind, sizes, clock)
        elif draw < 0.52:
            right = self.whole(kind, sizes, clock, 2) if self.often(0.7) else self.constant(kind, sizes)
            name = self.new(kind, sizes, clock)
            self.equations += [f"{name} := {right}", f"{name} ^= {self.clock_text(clock)}"]
        elif draw < 0.64:
            self.iteration(kind, clock)
        elif draw < 0.82:
            self.case(kind, sizes)
        elif draw < 0.93:
            self.automaton(kind, sizes)
        else:
            self.partial(kind, sizes, clock)

    def circle(self, kind: str, sizes: int, clock: str) -> None:
        """A signal that is computed from its own previous value."""
        name = self.new(kind, sizes, clock, False)
        before = self.new(kind, sizes, clock)
        right = self.drawn(kind, sizes, clock, self.random.choice([2, 3]))
        right = f"({right}) modulo 1000" if kind == "int" else right
        self.equations += [f"{before} := {name} $ 1 init {self.init(kind)}", f"{name} := {right}", f"{name} ^= {self.clock_text(clock)}"]
        self.known.append((name, kind, sizes, clock))

    def iteration(self, kind: str, clock: str) -> None:
        begin, name = self.operand(kind, 0, clock, 2), self.new(kind, 1, clock, False)
        before, known = f"{name}[?]", list(self.known)
        self.known += [(before, kind, 0, clock), ("I", "int", 0, "none")]
        self.known += [(f"{row}[I]", of, 0, clock) for row, of, sizes, when in known if sizes == 1 and when == clock]
        right = self.drawn(kind, 0, clock, 2)
        right = f"({right}) modulo 1000" if kind == "int" else right
        if before not in right:
            right = self.with_previous(right, before, kind)
        if kind == "int" and self.often(0.4):
            right += " + I"
        self.known = [*known, (name, kind, 1, clock)]
        body = self.one_of("(| {} |)", "{}").format(f"{self.one_of(name, name + '[I]')} := {right}")
        self.equations += [f"array I to N - 1 of {body} with {name} := {begin} end", f"{name} ^= {self.clock_text(clock)}"]

    def with_previous(self, right: str, before: str, kind: str) -> str:
        """An expression that needs the previous element too."""
        if kind == "bool":
            return f"({right} xor {before})"
        return f"(if {before} {'>' if kind == 'int' else '='} {self.constant(kind)} then {right} else {before})"

    def partial(self, kind: str, sizes: int, clock: str) -> None:
        condition, name = self.leaf("bool", 0, clock), self.new(kind, sizes, clock, False)
        self.equations.append(f"{name} ::= {self.drawn(kind, sizes, clock, 2)} when {condition}")
        self.equations.append(f"{name} ::= {self.whole(kind, sizes, clock, 2)} when not {condition}")
        self.known.append((name, kind, sizes, clock))

    # Branches.

    def local(self) -> tuple[list[str], str]:
        """A local of a branch: its equations and its declaration."""
        kind = self.one_of("int", "int", "bool")
        self.count += 1
        name, init = f"L{self.count}", self.init(kind)
        before = f"({name} $ 1 init {init})"
        if self.often(0.6):
            self.known.append((before, kind, 0, "base"))
            right = self.drawn(kind, 0, "base", 2)
            self.known.pop()
            if before not in right:
                right = f"{before} + 1" if kind == "int" else f"not {before}"
        else:
            right = self.drawn(kind, 0, "base", 2)
        right = f"({right}) modulo 1000" if kind == "int" else right
        self.known.append((name, kind, 0, "base"))
        return [f"{name} := {right}", f"{name} ^= X"], f"{self.kind(kind, 0)} {name};"

    def inner_construct(self, depth: int) -> tuple[list[str], list[str]]:
        """A case or an automaton inside a branch: its equations and its declarations."""
        outer, self.equations = self.equations, []
        declared, self.declared = self.declared, []
        self.depth = depth - 1
        (self.case if self.often(0.5) else self.automaton)(self.one_of("int", "bool", "T"), 0)
        self.depth = 1
        found = self.equations, [f"{self.kind(kind, sizes)} {name};" for name, kind, sizes in self.declared]
        self.equations, self.declared = outer, declared
        return found

    def body(self, results: list[tuple], depth: int) -> tuple[str, str]:
        """The body of a branch, and a condition over what it knows."""
        kept, equations, locals_ = list(self.known), [], []
        self.known = [it for it in self.known if it[3] == "base" or self.often(0.4)]
        for _ in range(self.random.choice([0, 1, 1, 2])):
            more, declared = self.local()
            equations += more
            locals_.append(declared)
        if depth and self.often(0.2):
            more, declared = self.inner_construct(depth)
            equations += more
            locals_ += declared
        equations += [f"{name} := {self.whole(kind, sizes, 'base', 2)}" for name, kind, sizes in results]
        condition = self.drawn("bool", 0, "base", 2)
        self.known = kept
        where = f" where {' '.join(locals_)} end" if locals_ else ""
        return f"(| {' | '.join(equations)} |){where}", condition

    def results(self, kind: str, sizes: int) -> list[tuple[str, str, int]]:
        found = [(self.new(kind, sizes, "base", False), kind, sizes)]
        return found + [(self.new("int", 0, "base", False), "int", 0)] if self.often(0.4) else found

    def know(self, results: list[tuple]) -> None:
        self.known += [(*it, "base") for it in results]

    def groups(self) -> tuple[str, list[list[str]], bool]:
        """What a case chooses by, the values of its branches, and whether it has an `else`."""
        draw = self.random.random()
        if draw < 0.6:
            chosen = self.leaf("T", 0, "base") if self.often(0.6) else self.drawn("T", 0, "base", 1)
            groups = [[f"#{it}"] for it in self.random.sample(self.values, len(self.values))]
            if self.often(0.3):
                groups = [groups[0] + groups[1], *groups[2:]]
            has_else = self.often(0.4) and len(groups) > 1
            return chosen, groups[:-1] if has_else else groups, has_else
        if draw < 0.8:
            groups = [["0", "1"], ["-1"], [str(self.random.randint(2, 5)), "N * 3"]]
            return self.drawn("int", 0, "base", 1), groups[: self.random.randint(1, 3)], True
        return self.drawn("bool", 0, "base", 2), [["true"], ["false"]], False

    def case(self, kind: str, sizes: int) -> None:
        results, (chosen, groups, has_else) = self.results(kind, sizes), self.groups()
        is_partial = self.depth == 1 and self.often(0.2)
        text = f"case {chosen} in"
        for it in groups:
            defined = [result for result in results if not is_partial or self.often(0.7)]
            text += f"\n {{{', '.join(it)}}}: {self.body(defined, self.depth)[0]}"
        if has_else:
            text += f"\n else {self.body(results, self.depth)[0]}"
        missing = [it for it in results if f"{it[0]} :=" not in text]
        self.declared = [it for it in self.declared if it not in missing]
        if len(missing) < len(results):
            self.equations.append(text + "\n end")
        if not is_partial:
            self.know(results)

    def automaton(self, kind: str, sizes: int) -> None:
        results, name = self.results(kind, sizes), self.new("T", 0, "base", False, "M")
        states = self.random.sample(self.values, len(self.values))
        text = f"automaton {name}"
        for state in states:
            body, condition = self.body(results, self.depth)
            text += f"\n state {state} do {body}"
            for _ in range(self.random.choice([0, 1, 1, 2])):
                strong = self.leaf("bool", 0, "base") if self.often(0.5) else f"{self.leaf('int', 0, 'base')} > {self.random.randint(3, 9)}"
                way = f"unless {strong}" if self.often(0.5) else f"until {condition}"
                text += f"\n  {way} {self.one_of('go', 'resume')} {self.one_of(*states)}"
        self.equations += [text + "\n end", f"{name} ^= X"]
        self.know([*results, (name, "T", 0)])
