"""What runs of a program reached: whose clocks ticked, which conditions were true and false, which branches of a `default` gave the value.

The runs are made over the image, instant by instant (image_runs.py), and end as sigc ends them, which is compared. Only
instants that are committed count.
"""
from typing import NamedTuple

from sigc.image.image_runs import Failed, ImageRun
from sigc.image.sources import copy_of
from sigc.prove.property_language import value_of
from sigc.read import syntax

LONGEST = 60


class Goal(NamedTuple):
    """What a run may reach: its place, what it is called, the words where it was not reached and where it is, and how it is
    seen: by operations of which one is done, or by a value of a signal."""

    line: int
    column: int
    about: str
    never: str
    now: str
    orders: tuple = ()
    signal: int = -1
    value: int = -1

    @property
    def text(self):
        return f"{self.about} {self.never}"


class Exhausted(Exception):
    """The name of an input that has no further value."""


def goals_of(image, source, classes, declared):
    """The goals of an image by their places: classes are lists of signals, declared has the places of these."""
    writers = {}
    for order, it in enumerate(image.operations):
        if it.kind != "Store":
            writers.setdefault(image.signals[it.fields[0]].name, []).append(order)
    found = [*clocks(writers, classes, declared), *conditions(image, source, writers), *branches(image, source)]
    return sorted(dict.fromkeys(found), key=lambda it: (it.line, it.column, it.text))


def clocks(writers, classes, declared):
    for signals in classes:
        named = [it for it in signals if it in writers and it in declared]
        if named:
            others = f" and {len(named) - 1} more" if len(named) > 1 else ""
            yield Goal(*declared[named[0]], f"the clock of {named[0]}{others}", "never ticked", "ticks", tuple(writers[named[0]]))


def conditions(image, source, writers):
    for signal in image.conditions:
        name = image.signals[signal].name
        for order in writers.get(name, [])[:1]:
            it = image.operations[order]
            told = f"condition {name}" if not name.rpartition(".")[2].startswith("#") else f"condition `{said_at(source, it)}`{in_copy(name)}"
            for value, word in ((1, "true"), (0, "false")):
                yield Goal(*source.places(it.line, it.column), told, f"was never {word}", f"is {word}", signal=signal, value=value)


def branches(image, source):
    for order, it in enumerate(image.operations):
        _, node = source.nodes.get((it.line, it.column), (None, None))
        if it.kind != "Copy" or node is None or node.op != "default":
            continue
        target, taken = (image.signals[number].name for number in it.fields)
        part = node.parts[0] if taken.rpartition(".")[2] == name_of(node.parts[0]) else node.parts[1]
        if part.op != "default":
            line, column = source.places(part.at.line, part.at.col)
            words = syntax.truncated(syntax.source_of(source.text, part), LONGEST)
            yield Goal(line, column, f"branch `{words}` of a default{in_copy(target)}", "never gave the value", "gives the value", (order,))


def name_of(node):
    """The name of the signal that an expression is, in its own process."""
    return node.at.text if node.op == "name" else f"#{node.at.line}:{node.at.col}"


def in_copy(name):
    copy = copy_of(name)[:-1]
    return f" in {copy}" if copy else ""


def said_at(source, it):
    _, node = source.nodes.get((it.line, it.column), (None, None))
    return syntax.truncated(syntax.source_of(source.text, node), LONGEST) if node else f"{it.line}:{it.column}"


class Coverage:
    """Which goals runs have reached so far."""

    def __init__(self, image, goals):
        self.image, self.goals = image, goals
        self.run = ImageRun(image, True)
        self.wanted = {(it.signal, it.value) for it in goals if it.signal >= 0}
        self.instants = self.runs = 0

    def left(self):
        """The goals that are not reached."""
        done = self.run.done
        return [it for it in self.goals if ((it.signal, it.value) in self.wanted if it.signal >= 0 else not any(done[order] for order in it.orders))]

    def follow(self, flows, limit):
        """Follows one run over flows, words by the names of inputs; the words that sigc ends it with."""
        left = [iter(flows.get(it.name, ())) for it in self.image.signals[: self.image.inputs]]

        def read(number):
            for word in left[number]:
                return value_of(word)
            raise Exhausted(self.image.signals[number].name)

        self.run.start()
        self.runs += 1
        for number in range(limit):
            before = self.run.done.copy()
            try:
                self.run.memories = self.run.instant(read)
            except (Failed, Exhausted) as error:
                self.run.done[:] = before
                return self.ended(error, number)
            self.instants += 1
            self.see()
        return f"end: limit after {limit} instants"

    def see(self):
        """Takes note of the values of conditions."""
        values = self.run.values
        if self.wanted:
            self.wanted -= {(signal, value) for signal, value in self.wanted if values[signal] == value}

    def ended(self, error, number):
        if isinstance(error, Exhausted):
            return f"end: input {error} exhausted after {number} instants"
        it = self.image.operations[error.order]
        return f"end: {error.what} at {it.line}:{it.column} after {number} instants"
