"""The first process of a program with its calls expanded, as text."""
from typing import NamedTuple

from sigc.read.lexer import RESERVED, Unreadable, words_of
from sigc.read.processes import Reader, Signal

MOST_EQUATIONS = 1_000_000


class Numbered(NamedTuple):
    """An equation of a flat body: its place in the program's text, and its words with the names of copies."""

    line: int
    col: int
    text: str


class FlatBody:
    """The first process with its calls expanded: its signals in order, and its equations, numbered from 1."""

    def __init__(self, text):
        self.processes = Reader(text).program()
        first = self.processes[0]
        self.name, self.inputs, self.outputs = first.name, first.inputs, first.outputs
        self.signals = [*first.inputs, *first.outputs, *first.locals]
        self.equations, self.calls = [], 0
        self.expand(first, "", {}, 1)

    def called(self, name):
        for it in self.processes:
            if it.name == name:
                return it
        raise Unreadable(f"no process has the name {name}")

    def expand(self, process, prefix, constants, depth):
        if depth > 600:
            raise Unreadable(f"{process.name} calls itself")
        for equation in process.equations:
            if equation.call is None:
                self.add(equation.tokens[0], renamed(equation.tokens, prefix, constants))
                continue
            called = self.called(equation.call)
            self.calls += 1
            copy = f"{called.name}#{self.calls}."
            self.signals += [Signal(copy + it.name, it.kind) for it in [*called.inputs, *called.outputs, *called.locals]]
            place = equation.tokens[0]
            for it, argument in zip(called.inputs, equation.arguments):
                self.add(place, [copy + it.name, ":=", *renamed(argument, prefix, constants)])
            given = [renamed(it, prefix, constants) for it in equation.constants]
            self.expand(called, copy, dict(zip((it.name for it in called.parameters), given)), depth + 1)
            for left, it in zip(equation.lefts, called.outputs):
                self.add(place, [prefix + left, ":=", copy + it.name])

    def add(self, place, words):
        if len(self.equations) >= MOST_EQUATIONS:
            raise Unreadable(f"more than {MOST_EQUATIONS} equations, calls expanded")
        self.equations.append(Numbered(place.line, place.col, words_of(words)))


def renamed(tokens, prefix, constants):
    """The words of tokens, with the names of signals those of a copy, and parameters replaced."""
    words = []
    for it in tokens:
        if it.kind != "name" or it.text in RESERVED:
            words.append(it.text)
        elif it.text in constants:
            words += constants[it.text]
        else:
            words.append(prefix + it.text)
    return words
