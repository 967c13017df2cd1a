"""The kernel as it is made: its signals, its definitions, its clock equations, and what was reported on the way."""
from dataclasses import dataclass, field

from sigc.expand.comparisons import Comparisons
from sigc.expand.definitions import Definition, KernelSignal
from sigc.expand.messages import At, Note, Refused
from sigc.expand.names import Names
from sigc.expand.terms import BOOLEAN, Enumeration, Term, alone


@dataclass
class Unit:
    """One program on the way to its kernel."""

    names: Names = field(default_factory=Names)
    signals: dict[str, KernelSignal] = field(default_factory=dict)
    definitions: dict[str, list[Definition]] = field(default_factory=dict)
    order: list = field(default_factory=list)
    notes: list[Note] = field(default_factory=list)
    claims: dict[str, list[str]] = field(default_factory=lambda: {"assert": [], "assume": []})
    clusters: list[tuple[list[str], str, At]] = field(default_factory=list)
    models: dict = field(default_factory=dict)
    calls: int = 0
    modules: object = None
    scope: object = None
    values: dict[str, int] = field(default_factory=dict)
    counts: dict[str, int] = field(default_factory=dict)
    exclusions: dict[str, dict[At, str]] = field(default_factory=dict)

    def __post_init__(self):
        self.comparisons = Comparisons(self)

    def tried_value(self, name: str, value: Term) -> Term:
        """The value of a constant that the text gives by a number, or another one that is tried in its place."""
        self.counts.setdefault(name, value.data)
        return Term("const", value.kind, value.at, [], self.values[name]) if name in self.values else value

    def declared(self, name: str, kind: object, role: str, at: At) -> str:
        self.signals[name] = KernelSignal(name, kind, role, at)
        return name

    def fresh(self, wanted: str, kind: object, at: At, shown: str = "") -> str:
        """A new local signal."""
        shown = shown or f"#{at.place.line}:{at.place.col}"
        return self.declared(self.names.helper(wanted, shown), kind, "local", at)

    def defined(self, name: str, definition: Definition) -> None:
        """Notes what defines a signal; Refused where something else does."""
        earlier = self.definitions.setdefault(name, [])
        if not earlier:
            self.order.append(name)
        if earlier and not (definition.is_partial and earlier[0].is_partial):
            told = f"the other definition is at {earlier[0].place()}"
            raise Refused(definition.place(), f"{self.names.user(name)} is defined twice", told)
        earlier.append(definition)

    def named(self, term: Term, wanted: str, pace: Term | None, shown: str = "") -> Term:
        """A name for a term: its own, or a new signal that it defines."""
        if term.op == "name":
            return term
        term = alone(term)
        name = self.fresh(wanted, term.kind, term.at, shown)
        self.defined(name, Definition(term, term.at, pace))
        return Term("name", term.kind, term.at, [], name)

    def tie(self, terms: list[Term], at: At) -> None:
        """The clocks of terms are one."""
        self.order.append((terms, at))

    def told(self, at: At, text: str) -> None:
        """Reports something once a place: of the turns of an iteration and of several calls the first one counts."""
        if not any(it.at.place == at.place and it.text == text for it in self.notes):
            self.notes.append(Note(at, text))


def kernel_kind(kind: object) -> str:
    """The kernel's kind of a signal."""
    return "integer" if isinstance(kind, Enumeration) else kind


def first_value(kind: object) -> int | bool:
    """The init of a delay for which the text gives none."""
    return False if kind in (BOOLEAN, "event") else 0
