"""Signals and scopes of a program that is run, for the second evaluator."""
from second.partial_values import blank


class Signal:
    """What is known of one signal at this instant."""

    def __init__(self, name: str, kind: str, shape: tuple, init: tuple | None = None):
        self.name, self.kind, self.shape, self.init = name, kind, shape, init
        self.taken, self.input, self.whole, self.subject = 0, False, True, None
        self.forget()

    def forget(self) -> None:
        self.present, self.value = None, blank(self.shape)


class Scope:
    """Names of one text at one place: a process, a branch, one turn of an iteration.

    parent is the scope around it, lexical the one in which a process is declared, outer the one that called it. taken says
    when a branch is taken, anew has the automaton whose state this is.
    """

    def __init__(self, parent: "Scope | None" = None, lexical: "Scope | None" = None, taken: tuple | None = None):
        self.parent, self.lexical, self.taken = parent, lexical, taken
        self.signals, self.constants, self.processes, self.types = {}, {}, {}, {}
        self.memory, self.calls, self.plain, self.before = {}, {}, set(), {}
        self.index, self.outer, self.anew = None, parent, None

    def chain(self) -> list["Scope"]:
        """This scope and those around it in one process."""
        return [self, *self.parent.chain()] if self.parent else [self]

    def texts(self) -> list["Scope"]:
        """This scope and all whose declarations it sees."""
        around = self.parent or self.lexical
        return [self, *around.texts()] if around else [self]
