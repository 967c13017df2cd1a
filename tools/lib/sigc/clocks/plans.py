"""What `sigc tree` and `sigc code` write, as classes, actors and links. docs/formats.md has the formats."""
import re
from typing import NamedTuple

from sigc.read import lexer

STEP = re.compile(r"\d+ \d+ (read|compute|left|right|delay|store|send|receive|report|collect|commit)(?: (\S+))?\Z")
NAME = re.compile(r"([A-Za-z][A-Za-z0-9_]*#[0-9]+\.)?[A-Za-z][A-Za-z0-9_]*")
OPERATIONS = ("read", "compute", "left", "right", "delay", "store")


class Classes:
    """The classes of a clock tree: lists of declared signals, each with its depth. The first is the root's."""

    def __init__(self, lines):
        self.depths, self.signals = [], []
        for number, line in enumerate(lines, 1):
            depth, odd = divmod(len(line) - len(line.lstrip(" ")), 2)
            if odd or not line.strip() or depth > (self.depths[-1] + 1 if self.depths else 0):
                raise lexer.Unreadable(f"line {number} has no level of a tree")
            signals = [] if line.strip() == "-" else line.split()
            if not all(map(NAME.fullmatch, signals)):
                raise lexer.Unreadable(f"line {number} is no line of a tree")
            self.depths.append(depth)
            self.signals.append(signals)

    def __getitem__(self, number):
        return self.signals[number]

    def __len__(self):
        return len(self.signals)

    def parents(self):
        """The class above each class, None for the first."""
        above, found = [], []
        for number, depth in enumerate(self.depths):
            above = [*above[:depth], number]
            found.append(above[depth - 1] if depth else None)
        return found

    def declared(self):
        """The classes with declared signals, each with the nearest such class above it, or None: pairs of numbers."""
        parents = self.parents()
        for number, signals in enumerate(self.signals):
            above = parents[number]
            while above is not None and not self.signals[above]:
                above = parents[above]
            if signals:
                yield number, above

    def tops(self):
        """The signals of the classes that stand below no other class with declared signals."""
        return [self.signals[number] for number, above in self.declared() if above is None]


class Actor(NamedTuple):
    """An actor: its number, whether it is the collector, and its operations, pairs of a word and a signal."""

    number: int
    is_collector: bool
    operations: list

    @property
    def name(self):
        return "collector" if self.is_collector else f"cluster {self.number}"

    def signals(self):
        """The signals that its operations write, each once, in the order of the operations."""
        return list(dict.fromkeys(signal for word, signal in self.operations if word != "store"))


class Link(NamedTuple):
    """A link: its two actors, and the signal that it carries, None for a report."""

    number: int
    writer: int
    reader: int
    signal: str


def steps_of(lines):
    """The steps of each actor: pairs of a word and what it is done to."""
    actors = []
    for number, line in enumerate(lines, 1):
        step = STEP.match(line)
        if re.fullmatch(r"actor \d+", line):
            actors.append([])
        elif step and actors:
            actors[-1].append((step[1], step[2]))
        else:
            raise lexer.Unreadable(f"line {number} is no line of a code")
    return actors


class Code:
    """The actors of a code, and the links between them by their numbers."""

    def __init__(self, lines):
        self.actors, self.sent, self.taken = [], {}, {}
        for number, steps in enumerate(steps_of(lines)):
            self.add(number, steps)
        for number in self.sent:
            if number not in self.taken:
                raise lexer.Unreadable(f"nothing is received on link {number}")
        self.links = [Link(it, self.sent[it][0], self.taken[it], self.sent[it][1]) for it in sorted(self.sent)]

    def add(self, number, steps):
        """Adds an actor. What is sent is what was written or received last before it."""
        operations, written = [], None
        for word, what in steps:
            if word in OPERATIONS:
                operations.append((word, what))
                written = what
            elif word in ("send", "report"):
                self.sent[int(what)] = (number, written if word == "send" else None)
            elif word in ("receive", "collect"):
                self.taken[int(what)] = number
        self.actors.append(Actor(number, ("commit", None) in steps, operations))

    def bundles(self):
        """The links between two actors together: a map from the pair to the signals, reports aside."""
        found = {}
        for it in self.links:
            found.setdefault((it.writer, it.reader), []).extend([it.signal] if it.signal else [])
        return found


def is_intermediate(signal):
    """Whether a signal is one of the compiler, as #3:25 and COUNT#1.#3:25."""
    return signal.rpartition(".")[2].startswith("#")
