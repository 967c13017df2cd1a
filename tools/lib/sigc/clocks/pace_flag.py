"""The flag --pace: whether sigc takes it, and a program in which what the flag adds is written out.

With --pace a program whose greatest clocks are independent gets a boolean input for each of them, `pace_1` and so on,
which stand behind its inputs, come together, and say at each instant which of these clocks is there. The least signals
of these clocks, by their place in the program, are told in this order.
"""
import functools
import itertools
import os
import re
import tempfile
from typing import NamedTuple

from sigc.call import running
from sigc.call.compiler import PROBE

PACE = re.compile(r"pace_([1-9][0-9]*)")
COMMANDS = ("check", "tree", "code", "run", "play")
NOT_BUILT = "this sigc does not take --pace"
MOST_TRIED = 64


@functools.cache
def is_built(path):
    """Whether the program sigc of this path has the flag; it is asked once."""
    with tempfile.TemporaryDirectory(prefix="sigc-tools-") as room:
        with open(f"{room}/p.sig", "w", encoding="latin-1") as it:
            it.write(PROBE)
        with running.Call("check", f"{room}/p.sig", "--pace") as call:
            list(call.lines())
            return call.ended()[1] == 0


def words_of(is_asked):
    """The words that are handed on to sigc; Refused where it does not take them."""
    if is_asked and not is_built(os.path.abspath(running.program())):
        raise running.Refused(NOT_BUILT, 2)
    return ["--pace"] if is_asked else []


def names_in(flat, classes):
    """The inputs that the flag adds to a program, by the first class of its tree; none where it has a root."""
    declared = {it.name for it in flat.signals}
    found = [it for it in classes[0] if PACE.fullmatch(it) and it not in declared]
    return sorted(found, key=lambda it: int(PACE.fullmatch(it)[1]))


def tops_of(flat, classes):
    """For each clock below the first one its least signal, the least first; None for a clock of the compiler."""
    numbers = {it.name: at for at, it in enumerate(flat.signals)}
    clocks = [signals for depth, signals in zip(classes.depths, classes.signals) if depth == 1]
    least = [min(it, key=numbers.get) if it else None for it in clocks]
    return sorted(least, key=lambda it: numbers.get(it, len(numbers)))


class Hidden(NamedTuple):
    """An expression that gets a name, so that its clock is told: its words in an equation of the flat body."""

    equation: int
    first: int
    last: int
    name: str
    kind: str


def choices(tops, count):
    """The clocks that may be paced: as a rule all tops. A clock that is never there is one of these too, so where there
    are more of them than paces the program that has the paces written out is asked. Those with a clock of the compiler
    come last; of two such clocks it is not known which is the first."""
    found = itertools.islice(itertools.combinations(tops, count), MOST_TRIED)
    return sorted((it for it in found if it.count(None) < 2), key=lambda it: None in it)


def paced(tops, count, expressions, is_accepted):
    """The signals that are paced, as many as there are paces, None for an expression, and that expression."""
    for it in choices(tops, count):
        if None not in it and (len(tops) == count or is_accepted(it, None)):
            return list(it), None
        for hidden in itertools.islice(expressions(it), MOST_TRIED) if None in it else ():
            if is_accepted(it, hidden):
                return list(it), hidden
    raise running.Refused("a clock that gets a pace has no signal of the program: give its expression a name, and its instants are told")
