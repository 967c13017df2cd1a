"""Runs a program instant by instant: what is known of each signal grows until nothing is added.

A presence or a value that is not known yet is None; the equations are gone through again and again, forwards (what a right
side gives) and backwards (what follows for its parts from when it comes).
"""
from collections.abc import Iterator

from second.branches import Branches
from second.flow_files import shown
from second.holding import Holding
from second.instances import Instances
from second.memories import Memories, memories_in
from second.names import Names
from second.partial_values import known
from second.shapes import Shapes
from second.values import Values

MOST_INSTANTS = 1000


class Stuck(Exception):
    """An instant of which this evaluator does not find out all."""


class Run(Instances, Holding, Values, Memories, Branches, Shapes, Names):
    """One program over its flows."""

    def instant(self, flows: dict[str, list]) -> bool:
        """One instant; False where the run ends before it, for the reasons in `faults`."""
        for it in self.signals:
            it.forget()
        for it in self.equations:
            if it[0] == "automaton":
                it[1]["now"].clear()
        self.faults, self.more, self.contexts = set(), True, {}
        while self.more:
            self.more = False
            for it in self.equations:
                self.hold(it)
            self.take_inputs(flows)
            self.more = self.more or not self.faults and self.guess()
        if self.faults:
            return False
        loose = [it.name for it in self.signals if it.present is None or it.present and it.whole and not known(it.value)]
        if loose:
            raise Stuck(f"nothing known of {loose}")
        self.go_on()
        return True

    def take_inputs(self, flows: dict[str, list]) -> None:
        for it in self.root.signals.values():
            if it.input and it.present and not known(it.value):
                flow = flows.get(it.name, [])
                if it.taken < len(flow):
                    self.say(it, True, flow[it.taken])
                else:
                    self.faults.add("exhausted")

    def guess(self) -> bool:
        """Where nothing says when an input comes, it comes at this instant: first one that is not sampled."""
        clocks = [it[2] for it in self.equations if it[0] == "clocks" and any(part[0] == "when" for part in it[2])]
        sampled = {tree[1] for trees in clocks for tree in trees if tree[0] == "name"}
        loose = [it for it in self.root.signals.values() if it.input and it.present is None]
        for it in sorted(loose, key=lambda it: it.name in sampled)[:1]:
            self.say(it, True)
        return bool(loose)

    def go_on(self) -> None:
        """All memories take what they keep, at once."""
        kept = [(scope, id(tree), self.keep(tree, scope)) for tree, scope in self.all_memories()]
        for it in self.machines():
            kept.append((it["scope"], id(it), it["now"].get("next", self.entry(it))))
        for scope, key, value in kept:
            scope.memory[key] = value
        for it in self.root.signals.values():
            it.taken += bool(it.input and it.present)

    def machines(self) -> list[dict]:
        return [it[1] for it in self.equations if it[0] == "automaton"]

    def all_memories(self) -> Iterator[tuple]:
        for it in self.equations:
            if it[0] == "define":
                yield from memories_in(it[3], it[4])
            elif it[0] in ("clocks", "aside"):
                yield from memories_in(it[2], it[3])
        for body, door, ways in (state for it in self.machines() for state in it["states"].values()):
            for word, condition, _, _ in ways:
                yield from memories_in(condition, door if word == "unless" else body)

    def lines(self) -> Iterator[str]:
        """What the instant writes."""
        for name, *_ in self.process["outs"]:
            signal = self.root.signals[name]
            if signal.present:
                yield f"{name} {shown(signal.value)}"


def run(text: str, flows: dict[str, list], most: int = MOST_INSTANTS) -> tuple[list[str], set[str], int]:
    """The lines that a program writes over its flows, and for which reasons and after how many instants it ends."""
    program = Run(text)
    lines: list[str] = []
    for instant in range(most):
        if not program.instant(flows):
            return lines, program.faults, instant
        lines += program.lines()
    return lines, {"limit"}, most
