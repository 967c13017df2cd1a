"""Expressions drawn by chance over all operators of docs/signal.md, each of a kind and of a clock.

A clock is named by a letter: `base` is that of most inputs, A, B and E are inputs that come by themselves, C is where C is
true. Names are kept as (name, kind, sizes, clock); sizes are 0 for a single value, 1 for an array of N.
"""
import random

INPUTS = (
    ("A", "int", 0, "A"), ("B", "bool", 0, "B"), ("E", "T", 0, "E"), ("X", "int", 0, "base"), ("C", "bool", 0, "base"), ("D", "bool", 0, "base"),
    ("F", "T", 0, "base"), ("V", "int", 1, "base"), ("W", "T", 1, "base"),
)
CONDITIONS = {"A": "HAS_A", "B": "HAS_B", "E": "HAS_E", "C": "C"}


class DrawnExpressions:
    """Expressions over the names that are known so far. In a risky program a run may end by a fault."""

    def __init__(self, seed: int):
        self.random = random.Random(seed)
        self.size = self.random.choice([2, 2, 3])
        self.values = self.random.choice([["a", "b"], ["a", "b", "c"], ["p", "q", "r", "s"]])
        self.is_risky = self.random.random() < 0.25
        self.known = list(INPUTS)

    def often(self, share: float) -> bool:
        return self.random.random() < share

    def one_of(self, *texts: str) -> str:
        return self.random.choice(texts)

    # Constants.

    def constant(self, kind: str, sizes: int = 0) -> str:
        """A constant as an operand, also by names and functions."""
        if sizes:
            return "TAB" if kind == "int" and self.often(0.3) else self.array([self.constant(kind) for _ in range(self.size)])
        if kind == "int":
            return self.one_of(str(self.random.randint(0, 9)), "N", "K", "(K - N)", "TAB[1]", f"(-{self.random.randint(1, 5)})", "max(N, K)", "(if N > 2 then 1 else 2)")
        return self.one_of("true", "false", "true", "false", "(N > 2)") if kind == "bool" else self.value()

    def value(self) -> str:
        return "#" + self.random.choice(self.values)

    def init(self, kind: str, sizes: int = 0) -> str:
        if sizes:
            return self.array([self.init(kind) for _ in range(self.size)])
        return str(self.random.randint(-3, 9)) if kind == "int" else self.one_of("true", "false") if kind == "bool" else self.value()

    @staticmethod
    def array(parts: list[str]) -> str:
        return "[" + ", ".join(parts) + "]"

    # Operands.

    def leaf(self, kind: str, sizes: int, clock: str) -> str:
        """A name of this clock, or one of the base sampled to it."""
        same = [name for name, *of in self.known if of == [kind, sizes, clock]]
        base = [name for name, *of in self.known if of == [kind, sizes, "base"]]
        if clock != "base" and (not same or self.often(0.4)):
            parts = self.array([self.leaf(kind, 0, clock)] * self.size) if not base else ""
            return f"({self.random.choice(base)} when {CONDITIONS[clock]})" if base else f"({parts})"
        return self.random.choice(same) if same else self.array([self.leaf(kind, 0, clock) for _ in range(self.size)])

    def whole(self, kind: str, sizes: int, clock: str, depth: int) -> str:
        """A whole right side of a name whose clock is given elsewhere."""
        if not sizes:
            return self.operand(kind, 0, clock, depth)
        return self.constant(kind, 1) if self.often(0.3) else self.drawn(kind, 1, clock, depth)

    def operand(self, kind: str, sizes: int, clock: str, depth: int) -> str:
        """An operand that may be a bare constant, or a single value beside arrays."""
        if self.often(0.3):
            return self.constant(kind, sizes if self.often(0.5) else 0)
        if depth > 0 and self.often(0.12):
            condition = self.drawn("bool", 0, clock, depth - 2)
            return f"(({self.drawn(kind, sizes, clock, depth - 1)} when {condition}) default {self.constant(kind, sizes)})"
        return self.drawn(kind, 0 if sizes and self.often(0.3) else sizes, clock, depth)

    def pair(self, kind: str, sizes: int, clock: str, depth: int) -> tuple[str, str]:
        """Two operands, of which one has a clock of its own."""
        one, other = self.drawn(kind, sizes, clock, depth), self.operand(kind, sizes, clock, depth)
        return (one, other) if self.often(0.5) else (other, one)

    def small(self, clock: str, depth: int) -> str:
        """An index, in range unless the program is risky."""
        found = self.drawn("int", 0, clock, depth)
        return found if self.is_risky and self.often(0.5) else f"(abs({found} modulo 100) modulo N)"

    # Expressions.

    def drawn(self, kind: str, sizes: int, clock: str, depth: int) -> str:
        """An expression that has a clock of its own."""
        draw = self.random.random()
        if depth <= 0 or draw < 0.12:
            return self.leaf(kind, sizes, clock)
        if draw < 0.36:
            return self.random.choice([self.delay, self.cell, self.choice])(kind, sizes, clock, depth - 1)
        if draw < 0.47:
            return self.merge(kind, sizes, clock, depth - 1)
        if draw < 0.58 and not sizes:
            return self.element(kind, clock, depth - 1)
        if draw < 0.75 and sizes:
            return self.row(kind, clock, depth - 1)
        return {"int": self.integer, "bool": self.boolean}.get(kind, self.leaf_of)(kind, sizes, clock, depth - 1)

    def leaf_of(self, kind: str, sizes: int, clock: str, _: int) -> str:
        return self.leaf(kind, sizes, clock)

    def delay(self, kind: str, sizes: int, clock: str, depth: int) -> str:
        count = self.random.choice([1, 1, 2, 3])
        init = self.init(kind, sizes if self.often(0.5) else 0)
        if count > 1 and not sizes and self.often(0.5):
            init = self.array([self.init(kind) for _ in range(count)])
        return f"({self.drawn(kind, sizes, clock, depth)} $ {count} init {init})"

    def cell(self, kind: str, sizes: int, clock: str, depth: int) -> str:
        return f"({self.drawn(kind, sizes, clock, depth)} cell {self.drawn('bool', 0, clock, depth)} init {self.init(kind)})"

    def choice(self, kind: str, sizes: int, clock: str, depth: int) -> str:
        if self.often(0.05):
            return f"(if {self.constant('bool')} then {self.drawn(kind, sizes, clock, depth)} else {self.drawn(kind, sizes, clock, depth)})"
        condition = self.drawn("bool", sizes if self.often(0.1) else 0, clock, depth)
        one, other = self.pair(kind, sizes, clock, depth)
        return f"(if {condition} then {one} else {other})"

    def merge(self, kind: str, sizes: int, clock: str, depth: int) -> str:
        """`default`, whose first operand comes more rarely."""
        if clock == "base" and self.often(0.35):
            return f"({self.drawn(kind, sizes, self.one_of('A', 'B', 'E', 'C'), depth)} default {self.drawn(kind, sizes, clock, depth)})"
        condition = self.one_of("", "not ") + self.drawn("bool", 0, clock, depth)
        return f"(({self.drawn(kind, sizes, clock, depth)} when {condition}) default {self.drawn(kind, sizes, clock, depth)})"

    def element(self, kind: str, clock: str, depth: int) -> str:
        row = self.drawn(kind, 1, clock, depth)
        return f"({row})[{self.one_of('0', 'N - 1', '1') if self.often(0.5) else self.small(clock, depth)}]"

    def row(self, kind: str, clock: str, depth: int) -> str:
        """An array by one of the operators that make arrays."""
        draw = self.random.randrange(6)
        one = self.drawn(kind, 0, clock, depth)
        if draw == 0:
            return self.array([one] + [self.drawn(kind, 0, clock, depth - 1) for _ in range(self.size - 1)])
        if draw == 1:
            return self.changed_row(kind, clock, depth)
        if draw == 2:
            init = self.init(kind) if self.often(0.5) else self.array([self.init(kind) for _ in range(self.size - 1)])
            return f"({one} window N init {init})"
        if draw == 3:
            return f"({one} |* N)"
        if draw == 4:
            return f"([{one}] |+ ({self.drawn(kind, 0, clock, depth)} |* (N - 1)))"
        return f"([{self.drawn(kind, 1, clock, depth)}, {self.drawn(kind, 1, clock, depth)}][{self.one_of('0', '1')}])"

    def changed_row(self, kind: str, clock: str, depth: int) -> str:
        """`(S : V) next A`, where V is an element or an array that comes more rarely and else is A."""
        merged = f"(({self.drawn(kind, 0, clock, depth - 1)} when {self.drawn('bool', 0, clock, depth - 1)}) default {self.drawn(kind, 1, clock, depth - 1)})"
        value = self.operand(kind, 0, clock, depth) if self.often(0.5) else merged
        return f"(({self.small(clock, depth)} : {value}) next {self.drawn(kind, 1, clock, depth)})"

    def integer(self, kind: str, sizes: int, clock: str, depth: int) -> str:
        draw = self.random.random()
        one, other = self.pair(kind, sizes, clock, depth)
        if draw < 0.3:
            return f"(({one} {self.one_of('+', '-')} {other}))"
        if draw < 0.4:
            return f"(({one} modulo 50) * ({other} modulo 50))"
        if draw < 0.5:
            return self.division(sizes, clock, depth)
        if draw < 0.62:
            return f"{self.one_of('min', 'max')}({one}, {other})"
        if draw < 0.7:
            return self.one_of("abs({} modulo 1000)", "(-({} modulo 1000))").format(self.drawn(kind, sizes, clock, depth))
        return f"({one} + {other})" if sizes else self.counted(clock, depth)

    def division(self, sizes: int, clock: str, depth: int) -> str:
        divisors = ["3", "7", "(-4)", f"(abs({self.drawn('int', sizes, clock, depth - 1)} modulo 100) + 1)"]
        if self.is_risky:
            divisors.append(self.drawn("int", sizes, clock, depth - 1))
        return f"({self.drawn('int', sizes, clock, depth)} {self.one_of('/', 'modulo')} {self.one_of(*divisors)})"

    def counted(self, clock: str, depth: int) -> str:
        """An integer by a counter, a call, or the greatest of an array."""
        draw, one = self.random.random(), self.drawn("int", 0, clock, depth)
        if draw < 0.33:
            return f"{self.one_of('min', 'max')}({self.drawn('int', 1, clock, depth)})"
        if draw < 0.5:
            return f"({one} count {self.one_of('3', 'K', '1')})"
        if draw < 0.73:
            beat = self.one_of(one, "^" + self.leaf("int", 0, clock))
            return f"({beat} {self.one_of('after', 'from')} {self.drawn('bool', 0, self.one_of('base', 'A', 'B', clock), depth - 1)})"
        if self.often(0.2):
            return f"ACC({self.drawn('bool', 0, clock, depth)}, {one})"
        return f"{self.one_of('STEP{2}', 'STEP{K}', 'MIX{3, true}', 'MIX{1, false}')}({one})"

    def boolean(self, kind: str, sizes: int, clock: str, depth: int) -> str:
        draw = self.random.random()
        if draw < 0.3:
            one, other = self.pair("int", sizes, clock, depth)
            return f"({one} {self.one_of('<', '<=', '>', '>=', '=', '/=')} {other})"
        if draw < 0.5:
            one, other = self.pair("T", sizes, clock, depth)
            return f"({one} {self.one_of('=', '/=')} {other})"
        if draw < 0.8:
            one, other = self.pair("bool", sizes, clock, depth)
            return f"({one} {self.one_of('and', 'or', 'xor', '=', '/=')} {other})"
        return f"(not {self.drawn(kind, sizes, clock, depth)})"
