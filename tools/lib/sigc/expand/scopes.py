"""Which declaration a name means: scopes inside one another, and the modules that a text uses."""
from dataclasses import dataclass

from sigc.expand.messages import At, Place
from sigc.expand.terms import Term, mapped


class Signal:
    """A signal of the text: its kind, its sizes, and the kernel's signal of each element."""

    def __init__(self, name: str, kind: object, sizes: tuple, at: At, role: str, names):
        self.name, self.kind, self.sizes, self.at, self.role, self.names = name, kind, sizes, at, role, names

    def inner(self, path: tuple = ()):
        """The kernel's name of the element at a path, or lists of names for a part."""
        found = self.names
        for it in path:
            found = found[it]
        return found

    def value(self, at: At, path: tuple = ()):
        """The signal, or a part of it, as a value."""
        return self.termed(self.inner(path), at)

    def termed(self, names, at: At):
        return [self.termed(it, at) for it in names] if isinstance(names, list) else Term("name", self.kind, at, [], names)

    def kernel_names(self) -> list[str]:
        return listed(self.names)


def listed(names) -> list[str]:
    """The names in nested lists, in order."""
    return [it for part in names for it in listed(part)] if isinstance(names, list) else [names]


class Sampled(Signal):
    """A signal of outside as a branch sees it: an element is sampled when it is first looked at."""

    def __init__(self, of: Signal, branch):
        super().__init__(of.name, of.kind, of.sizes, of.at, of.role, None)
        self.of, self.branch = of, branch

    def value(self, at: At, path: tuple = ()):
        return self.sampled(self.of.value(at, path), at)

    def sampled(self, value, at: At):
        if isinstance(value, list):
            return [self.sampled(it, at) for it in value]
        return Term("name", value.kind, at, [], self.branch.sample(value.data, value.kind, at))

    def inner(self, path: tuple = ()):
        return self.of.inner(path)


@dataclass
class Current:
    """A signal that an iteration defines, which without an index is its element of this turn."""

    signal: Signal
    index: int


@dataclass
class Value:
    """A constant, an index or a parameter."""

    value: object


class Scope:
    """The names of one block, with the scope around it."""

    def __init__(self, unit, parent: "Scope | None" = None, is_process: bool = False):
        self.unit, self.parent, self.is_process = unit, parent, is_process
        self.signals, self.values, self.types, self.models = {}, {}, {}, {}
        self.begins, self.inits = {}, {}
        self.uses: list[Scope] = []
        self.branch = None
        self.turns = parent.turns if parent and not is_process else ""
        self.call = parent.call if parent else ""
        self.prefix = parent.prefix if parent else ("", "")
        self.reset = parent.reset if parent else None
        self.active = parent.active if parent else ()

    @property
    def trail(self) -> str:
        """What tells the copies of a place apart: the turns of iterations, and the call."""
        return self.turns + self.call

    def at(self, place: Place) -> At:
        """A place as it is told in this scope."""
        return At(place, self.trail)

    def found(self, table: str, name: str):
        """What a name means in one table, here or around."""
        own = getattr(self, table)
        if name in own:
            return own[name]
        for it in reversed(self.uses):
            found = it.found(table, name)
            if found is not None:
                return found
        return self.parent.found(table, name) if self.parent else None

    def find(self, name: str):
        """The signal or constant that a name means: what is declared innermost. A branch samples the signals of outside."""
        found = self.signals.get(name)
        if found is None:
            found = self.values.get(name)
        if found is None:
            for it in reversed(self.uses):
                found = found or it.find(name)
        if found is not None or self.parent is None:
            return found
        found = self.parent.find(name)
        if isinstance(found, Value) or found is None:
            return found
        return None if self.is_process else self.seen(name, found)

    def seen(self, name: str, found):
        """A signal of outside as it is seen here."""
        if self.branch is None:
            return found
        if isinstance(found, Current):
            self.signals[name] = Current(Sampled(found.signal, self.branch), found.index)
        else:
            self.signals[name] = Sampled(found, self.branch)
        return self.signals[name]

    def pace(self) -> Term | None:
        """The beat of the branch around, by which a bare constant comes; none outside of branches."""
        if self.branch is not None:
            return Term("name", "boolean", self.branch.at, [], self.branch.beat)
        return None if self.is_process or self.parent is None else self.parent.pace()

    def beginning(self, name: str):
        """Of a name that an iteration around begins: the turn, the value before the first element, and the whole array."""
        if name in self.begins:
            return self.begins[name]
        found = self.parent.beginning(name) if self.parent and not self.is_process else None
        if found is None or self.branch is None:
            return found
        turn, first, whole = found
        return turn, mapped(lambda it: Term("name", it.kind, it.at, [], self.branch.sample(it.data, it.kind, it.at)), first), Sampled(whole, self.branch)

    def declared_init(self, name: str):
        """The init that a signal is declared with; none where it has none."""
        if name in self.inits:
            return self.inits[name]
        return self.parent.declared_init(name) if self.parent and not self.is_process else None

    def visible(self) -> set[str]:
        """The names that may be meant here."""
        around = self.parent.visible() if self.parent else set()
        return around | set(self.signals) | set(self.values) | {it for use in self.uses for it in use.visible()}


def part_of(current: Current) -> Signal:
    """The element that a signal of an iteration is, as a signal."""
    signal = current.signal
    if isinstance(signal, Sampled):
        return Sampled(part_of(Current(signal.of, current.index)), signal.branch)
    return Signal(f"{signal.name}[{current.index}]", signal.kind, signal.sizes[1:], signal.at, signal.role, signal.names[current.index])
