"""What equations say at an instant: forwards what a right side gives, backwards what follows for its parts, for the second evaluator."""
from second.functions import Fault
from second.partial_values import Clash, joined, placed
from second.scopes import Scope, Signal


class Holding:
    """The part of a run that adds to what is known of signals; `more` says that something was added."""

    def say(self, signal: Signal, present: bool | None, value=None) -> None:
        """Adds what is known of a signal; Clash where it is known otherwise."""
        if present is None:
            return
        if signal.present is None:
            signal.present, self.more = present, True
        elif signal.present != present:
            raise Clash(f"{signal.name} present and absent")
        if present and value is not None:
            new = joined(signal.value, value)
            if new != signal.value:
                signal.value, self.more = new, True

    def push(self, tree: tuple, scope: Scope, present: bool | None) -> None:
        """What follows for the parts of an expression that is present or absent."""
        if present is None:
            return
        kind = tree[0]
        if kind in ("signal", "call"):
            self.say(tree[1] if kind == "signal" else scope.calls[id(tree)][1][0], present)
        elif kind == "name" and not self.constant_of(tree[1], scope):
            signal, crossed = self.signal(tree[1], scope)
            if present or all(self.taken(it) for it in crossed):
                self.say(signal, present)
        elif kind in ("function", "if"):
            for it in tree[2] if kind == "function" else self.chosen(tree, scope):
                if self.clocked(it, scope):
                    self.push(it, scope, present)
        elif kind in ("$", "window", "present") or kind == "default" and not present:
            for it in tree[1:] if kind == "default" else tree[1:2]:
                self.push(it, scope, present)

    def note(self, tree, scope: Scope, at: bool | None) -> None:
        """Keeps the contexts of memories of bare constants."""
        if isinstance(tree, tuple) and tree and tree[0] in ("$", "window"):
            self.contexts[id(tree), id(scope)] = at
        for it in tree if isinstance(tree, (tuple, list)) else ():
            self.note(it, scope, at)

    def hold(self, equation: tuple) -> None:
        try:
            HOLDERS[equation[0]](self, *equation[1:])
        except Fault as fault:
            self.faults.add(str(fault))

    def hold_definition(self, signal: Signal, path: list, right: tuple, scope: Scope, taken: Scope | None) -> None:
        is_own, at = self.clocked(right, scope), signal.present
        is_result = bool(taken and signal.name in taken.signals)
        if not is_own and at is None and is_result:
            at = self.taken(taken)
        present, value = self.value(right, scope, at)
        self.note(right, scope, at)
        if path and value is not None:
            value = placed(signal.shape, path, value)
        self.say(signal, present if is_own or at is not None else None, value)
        self.push(right, scope, signal.present)
        if is_result and self.taken(taken) is False:
            self.say(signal, False)

    def hold_aside(self, signal: Signal | None, tree: tuple, scope: Scope) -> None:
        """An expression that is no right side: its memories go on as those of any other."""
        present = signal and signal.present
        self.note(tree, scope, present)
        self.value(tree, scope, present)
        self.push(tree, scope, present)

    def hold_parts(self, signal: Signal, parts: list[Signal], _: int | None) -> None:
        """A signal of several definitions, of which one comes at a time."""
        there = [it for it in parts if it.present]
        if len(there) > 1:
            raise Clash(f"{signal.name} defined twice at once")
        if there:
            self.say(signal, True, there[0].value)
        elif all(it.present is False for it in parts):
            self.say(signal, False)
        if signal.present is False:
            for it in parts:
                self.say(it, False)
        subject = parts[0].subject
        if signal.present and subject and all(it.subject is subject or it.subject == subject for it in parts):
            self.push(*subject, True)

    def hold_comes(self, has: Signal, signal: Signal) -> None:
        self.say(has, True)
        if has.value is not None:
            self.say(signal, has.value)

    def hold_clocks(self, mark: str, trees: list[tuple], scope: Scope) -> None:
        found = [self.value(it, scope)[0] for it in trees]
        if mark == "^=":
            sure = {it for it in found if it is not None}
            if len(sure) > 1:
                raise Clash("clock equation")
            for it in trees if sure else []:
                self.push(it, scope, next(iter(sure)))

    def hold_automaton(self, machine: dict) -> None:
        """First the active state, by the entry state's strong transitions; then the next one, by its weak ones."""
        now, entry = machine["now"], self.entry(machine)
        if not self.machine_present(machine) or entry is None:
            return
        _, door, ways = machine["states"][entry[0]]
        if "active" not in now:
            found = self.first_of("unless", ways, door)
            if found is not None:
                now["active"], now["anew"] = ("#" + found[3], found[2] == "go") if found else entry
                self.more = True
        if "active" not in now:
            return
        active, signal = now["active"], machine["signal"]
        self.say(signal, True, active if machine["turn"] is None else placed(signal.shape, [machine["turn"]], active))
        body, _, ways = machine["states"][active]
        found = None if "next" in now else self.first_of("until", ways, body)
        if found is not None:
            now["next"] = ("#" + found[3], found[2] == "go") if found else (active, False)
            self.more = True

    def first_of(self, word: str, ways: list[tuple], scope: Scope) -> tuple | None:
        """The first transition whose condition is true, () if none is; None where that is not known."""
        for way in ways:
            if way[0] == word:
                self.push(way[1], scope, True)
                present, value = self.value(way[1], scope, True)
                if present is False:
                    raise Clash("a condition does not come")
                if present is None or value is None:
                    return None
                if value:
                    return way
        return ()


HOLDERS = {
    "define": Holding.hold_definition, "aside": Holding.hold_aside, "parts": Holding.hold_parts, "comes": Holding.hold_comes,
    "clocks": Holding.hold_clocks, "automaton": Holding.hold_automaton,
}
