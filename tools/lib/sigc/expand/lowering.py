"""Clocks of constants, and the kernel's operators: each definition becomes an equation that sigc takes."""
from sigc.expand.definitions import Definition
from sigc.expand.messages import At, Refused
from sigc.expand.representatives import FUNCTIONS, clock_of, is_own
from sigc.expand.shared_comparisons import SharedComparisons
from sigc.expand.terms import CLOCKS, EVENT, Term, alone, is_constant
from sigc.expand.unit import Unit

NEVER = "never"


def placed_at(term: Term, at: At) -> Term:
    """The same term, all of which is at one place."""
    return Term(term.op, term.kind, at, [placed_at(it, at) for it in term.parts], term.data)


class Lowering:
    """The equations of a kernel, in their order: definitions as (name, term, at), clock equations as (None, terms, at)."""

    def __init__(self, unit: Unit):
        self.unit, self.equations = unit, []
        self.shared = SharedComparisons(self)
        for it in unit.order:
            if isinstance(it, str):
                self.definition(it)
            else:
                self.tie(*it)

    def definition(self, name: str) -> None:
        """The equation of a signal, of its partial definitions a merge."""
        found = self.unit.definitions[name]
        kind = self.unit.signals[name].kind
        if len(found) == 1:
            self.emit(name, found[0], Term("name", kind, found[0].at, [], name))
            return
        parts = []
        for it in found:
            part = it.term if it.term.op == "name" else Term("name", kind, it.at, [], self.unit.fresh(f"{name}_part", kind, it.at, self.unit.names.user(name)))
            if part is not it.term:
                self.emit(part.data, it, part)
            parts.append(part)
        at = found[0].at
        merged = parts[0]
        for it in parts[1:]:
            merged = Term("default", kind, it.at, [merged, it])
        self.equations.append((name, merged, at))
        self.exclude(name, parts, [it.place() for it in found])

    def exclude(self, name: str, parts: list[Term], places: list[At]) -> None:
        """No two of these come together."""
        union = parts[0]
        for number, (it, at) in enumerate(zip(parts[1:], places[1:]), 1):
            never = Term("^-", EVENT, at, [parts[0], parts[0]])
            self.equations.append((None, [placed_at(Term("^*", EVENT, at, [union, it]), at), never], at))
            others = " and ".join(str(other.place) for other in dict.fromkeys(places[:number]))
            self.unit.exclusions.setdefault(name, {}).setdefault(at, f"this definition of {self.unit.names.user(name)} and the one at {others} have to exclude each other: they never come together")
            union = Term("^+", EVENT, at, [union, it])

    def emit(self, name: str, found: Definition, signal: Term) -> None:
        """The equation of one definition; a bare constant comes by its pace, or with the signal."""
        pace = found.pace or Term("clock", EVENT, found.at, [signal])
        term = self.lowered(alone(found.term), None if found.is_partial else pace)
        if is_constant(term):
            is_event = signal.kind == EVENT
            term = Term("beat", EVENT, term.at, [pace]) if is_event else Term("when", term.kind, term.at, [term, pace])
        self.equations.append((name, self.shared.top(name, term), found.at))

    def tie(self, terms: list[Term], at: At) -> None:
        lowered = [self.lowered(it, None) for it in terms]
        kept = [it for number, it in enumerate(lowered) if it.op != "name" or it.data not in [other.data for other in lowered[:number] if other.op == "name"]]
        if len(kept) > 1:
            self.equations.append((None, kept, at))

    def lowered(self, term: Term, pace: Term | None) -> Term:
        """A term of the kernel's operators. Bare constants in it get the clock of the pace; direct operands of functions stay."""
        if term.op == "name" and term.data not in self.unit.signals:
            raise Refused(term.at, f"{self.unit.names.user(term.data)} is not defined", "a name that a branch defines means what the branch makes of it")
        if term.op in ("const", "name"):
            return term
        if term.op == NEVER:
            raise Refused(term.at, "this never comes", "its condition is a constant that is false")
        if term.op in FUNCTIONS:
            return self.function(term, pace)
        return self.RULES[term.op](self, term, pace)

    def beaten(self, term: Term, pace: Term | None) -> Term:
        """A term, and a bare constant by its clock."""
        if not is_constant(term):
            return self.lowered(term, pace)
        if pace is None:
            raise Refused(term.at, "a constant has no clock here", "say when it comes: C when B")
        return Term("when", term.kind, term.at, [term, pace])

    def named(self, term: Term, pace: Term | None) -> Term:
        """A name for a term, whose equation comes first."""
        if term.op == "name":
            return term
        term = alone(term)
        name = self.unit.fresh("TERM", term.kind, term.at)
        signal = Term("name", term.kind, term.at, [], name)
        self.emit(name, Definition(term, term.at, pace), signal)
        return signal

    def function(self, term: Term, pace: Term | None) -> Term:
        """A function: operands that have no clock of their own come with the first one that has."""
        parts = list(term.parts)
        owners = [number for number, it in enumerate(parts) if is_own(it)]
        others = [it for it in parts if not is_constant(it) and not is_own(it)]
        if owners and others:
            first = owners[0]
            if clock_of(parts[first]) is None:
                parts[first] = self.named(parts[first], pace)
            pace = Term("clock", EVENT, term.at, [clock_of(parts[first])])
        if term.op == "if":
            return self.choice(term, parts, pace)
        lowered = Term(term.op, term.kind, term.at, [it if is_constant(it) else self.lowered(it, pace) for it in parts], term.data)
        return self.shared.seen(lowered)

    def choice(self, term: Term, parts: list[Term], pace: Term | None) -> Term:
        """`if`, whose operands come together."""
        parts = [it if is_constant(it) or clock_of(it) else self.named(it, pace) for it in parts]
        clocks = {clock_of(it).data: clock_of(it) for it in parts if not is_constant(it)}
        if len(clocks) > 1:
            self.equations.append((None, list(clocks.values()), term.at))
        condition = self.lowered(parts[0], pace)
        first, second = (it if is_constant(it) else self.lowered(it, pace) for it in parts[1:])
        if is_constant(second):
            second = Term("when", term.kind, second.at, [second, Term("clock", EVENT, term.at, [clock_of(parts[0])])])
        return Term("default", term.kind, term.at, [Term("when", term.kind, term.at, [first, condition]), second])

    def when(self, term: Term, pace: Term | None) -> Term:
        value, condition = term.parts
        outer = pace
        if not is_own(condition) and is_own(value):
            if clock_of(value) is None:
                value = self.named(value, None)
            outer = Term("clock", EVENT, term.at, [clock_of(value)])
        if not is_constant(value) and not is_own(value):
            condition = self.named(condition, outer)
            beat = condition
        else:
            condition = self.lowered(condition, outer)
            beat = None
        value = value if is_constant(value) else self.lowered(value, beat)
        return Term("when", term.kind, term.at, [value, condition])

    def beat(self, term: Term, pace: Term | None) -> Term:
        return Term("beat", EVENT, term.at, [self.lowered(term.parts[0], pace)])

    def default(self, term: Term, pace: Term | None) -> Term:
        return Term("default", term.kind, term.at, [self.beaten(it, pace) for it in term.parts])

    def delay(self, term: Term, pace: Term | None) -> Term:
        return Term("delay", term.kind, term.at, [self.beaten(term.parts[0], pace)], term.data)

    def cell(self, term: Term, _: Term | None) -> Term:
        value, condition = (self.lowered(it, None) for it in term.parts)
        return Term("cell", term.kind, term.at, [value, condition], term.data)

    def of_clocks(self, term: Term, _: Term | None) -> Term:
        return Term(term.op, term.kind, term.at, [self.beaten(it, None) for it in term.parts])

    RULES = {"when": when, "beat": beat, "default": default, "delay": delay, "cell": cell, "clock": of_clocks, **dict.fromkeys(CLOCKS, of_clocks)}
