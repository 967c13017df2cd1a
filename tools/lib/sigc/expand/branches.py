"""A branch of a case or a state of an automaton: when it is taken, and what it sees of the signals of outside."""
from sigc.expand.definitions import Definition
from sigc.expand.messages import At
from sigc.expand.terms import Term


class Branching:
    """A branch that is taken where a boolean is true."""

    def __init__(self, unit, beat: str, label: str, at: At):
        self.unit, self.beat, self.label, self.at = unit, beat, label, at
        self.seen: dict[str, str] = {}

    def sample(self, name: str, kind: object, at: At) -> str:
        """The signal that is another one where the branch is taken."""
        if name not in self.seen:
            made = self.unit.fresh(f"{name}_{self.label}", kind, at, f"{self.unit.names.user(name)} in {self.label}")
            term = Term("when", kind, at, [Term("name", kind, at, [], name), Term("name", "boolean", at, [], self.beat)])
            self.unit.defined(made, Definition(term, at))
            self.unit.comparisons.sampled(made, name, kind, self)
            self.seen[name] = made
        return self.seen[name]
