"""Ranges of integers as they are given on a command line: `A=0..100`."""
import re

from sigc.c.expressions import LEAST, MOST
from sigc.hints.near_words import near

RANGE = re.compile(r"([^=\s]+)=(-?[0-9]+)\.\.(-?[0-9]+)")


class Wrong(Exception):
    """A range that cannot be meant: which, and why."""

    def __init__(self, word, why):
        super().__init__(f"--range {word}: {why}")


def ranges_of(words, kinds):
    """The ranges by the names of their signals, in their order; kinds has the kind of each signal that may be named."""
    found = {}
    for word in words:
        parts = RANGE.fullmatch(word)
        if not parts:
            raise Wrong(word, "write the signal with its least and its greatest value, as A=0..100")
        name, low, high = parts[1], int(parts[2]), int(parts[3])
        if name not in kinds:
            like = near(name, [it for it in kinds if kinds[it] == "integer"])
            raise Wrong(word, f"there is no signal {name}" + (f": did you mean {like}?" if like else ""))
        if kinds[name] != "integer":
            raise Wrong(word, f"{name} is {'an event' if kinds[name] == 'event' else 'a boolean'}, and only integers have a range")
        if name in found:
            raise Wrong(word, f"{name} has a range already, {found[name][0]}..{found[name][1]}")
        if not LEAST <= low <= MOST or not LEAST <= high <= MOST:
            raise Wrong(word, f"values have 64 bits, so bounds are from {LEAST} to {MOST}")
        if low > high:
            raise Wrong(word, f"{low} is greater than {high}; write the least value first")
        found[name] = low, high
    return found
