"""Where an operation of an image cannot be done: the ends of a program, in the order of the operations.

The number of an end, behind that of the instant, tells which of two ends comes first, as the failure word of `sigc run` does.
"""
from typing import NamedTuple

from sigc.c import expressions

EXHAUSTED, OVERFLOW, DIVISION = "EXHAUSTED", "OVERFLOW", "DIVISION_BY_ZERO"


class End(NamedTuple):
    """What a step may end with: what it is, its place, and the signal's name."""

    what: str
    line: int
    column: int
    name: str


def ends_of(operation):
    """What an operation may end with; a quotient and a remainder with the divisor 0 first."""
    if operation.kind == "Read":
        return [EXHAUSTED]
    if operation.kind != "Fun" or operation.fields[1] in expressions.DECIDED and operation.fields[1] not in ("Div", "Mod"):
        return []
    name, divisor = operation.fields[1], operation.fields[2][-1].value
    if name in ("Neg", "Add", "Sub", "Mul"):
        return [OVERFLOW]
    found = [DIVISION] if name in ("Div", "Mod") and divisor in (None, 0) else []
    return found + ([OVERFLOW] if name == "Div" and divisor in (None, -1) else [])


class Fates:
    """The ends of an image: what each number is, and the numbers of each operation, the first one 1."""

    def __init__(self, operations, source, names):
        self.ends, self.numbers = [], {}
        for it in operations:
            line, column = source.place(it)
            for what in ends_of(it):
                self.ends.append(End(what, line, column, names[it.target] if it.kind == "Read" else source.speaks_of(it)))
                self.numbers[it.number, what] = len(self.ends)
