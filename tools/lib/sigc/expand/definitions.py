"""What the kernel's signals are and what defines them, as long as clocks are not worked out."""
from dataclasses import dataclass

from sigc.expand.messages import At
from sigc.expand.terms import Term


@dataclass(slots=True)
class KernelSignal:
    """A signal of the kernel, with the place of its declaration."""

    name: str
    kind: object
    role: str
    at: At


@dataclass(slots=True)
class Definition:
    """What defines a signal: a value, the beat by which bare constants come if not by the signal, and whether it may be one
    of several that never come together. Of a case or an automaton `written` is where its branches first define the signal."""

    term: Term
    at: At
    pace: Term | None = None
    is_partial: bool = False
    written: At | None = None

    def place(self) -> At:
        """Where the text defines the signal."""
        return self.written or self.at
