"""Flows that a solver gives for a false claim, run by sigc before anything is said: what breaks, where, and what was assumed."""
import re
from typing import NamedTuple

from sigc.call import running
from sigc.clocks.plans import is_intermediate
from sigc.image.sources import copy_of
from sigc.prove import property_language
from sigc.trace import traces
from sigc.trace.traces import called

# So many instants of a long counterexample are shown, the last ones.
MOST_SHOWN = 10
FAULT_AT = re.compile(r"end: (overflow|division by zero) at (\d+):(\d+) after .*")


class Ended(NamedTuple):
    """A run by sigc: its instants, its last line, and the fault that this names, with its place, or None."""

    instants: list
    line: str
    fault: tuple


def flows_text(asked, flows):
    """A flow file of these values."""
    return "".join(f"{asked.home.name(name)} {' '.join(asked.word(name, it) for it in flows[name])}\n" for name in asked.inputs if flows.get(name))


def run_of(asked, text, limit=None):
    """A run by sigc over a flow file."""
    path = asked.files.written("broken.flows", text)
    words = (["--pace"] if asked.words.pace else []) + (["--instants", str(limit)] if limit else [])
    run = traces.Run(asked.files, asked.words.program, path, words)
    instants = list(run)
    found = FAULT_AT.fullmatch(run.kernel_end)
    return Ended(instants, run.end, (found[1], int(found[2]), int(found[3])) if found else None)


def broken_at(instants, is_true, property_):
    """The number of the first instant that breaks a property; None where none does."""
    watched = property_language.Watched(property_)
    for number, instant in enumerate(instants, 1):
        try:
            value = watched.at(property_language.values_of(instant))
        except property_language.NoValue:
            return number
        except property_language.Tied:
            continue
        if value is not property_language.ABSENT and bool(value) != is_true:
            return number
    return None


def meets(asked, instants):
    """Whether instants of a run meet all that is assumed."""
    return all(broken_at(instants, True, it) is None for it in asked.assumed)


def left_of(asked, flows, instants):
    """The values that the instants have left of the flows: those of the instant that fails."""
    taken = {name: sum(name in it for it in instants) for name in flows}
    return {name: asked.word(name, flows[name][count]) for name, count in taken.items() if count < len(flows[name])}


def shown(instants, names, home, failing=None):
    """The table of some signals at the last instants, and at the one after them that fails."""
    states = home.states()
    numbers = [*map(str, range(1, len(instants) + 1)), f"{len(instants) + 1} (fails)"]
    rows = [["instant", *map(home.name, names)]]
    rows += [[number, *(called(it.get(name, "."), states.get(name)) for name in names)] for number, it in zip(numbers, [*instants, failing]) if it is not None]
    left_out = max(len(rows) - 1 - MOST_SHOWN, 0)
    rows[1 : 1 + left_out] = []
    widths = [max(map(len, column)) for column in zip(*rows)]
    table = ["  " + " ".join(it.ljust(width) for it, width in zip(row, widths)).rstrip() for row in rows]
    return [*([f"  the last {MOST_SHOWN} of {left_out + MOST_SHOWN} instants:"] if left_out else []), *table]


def place_of(claim, home):
    """Where a claim is an `assert` of the text, its place."""
    name = claim.rpartition(" ")[2]
    return f" (the assert at {home.expansion.unit.signals[name].at})" if not home.is_kernel and name in home.expansion.asserts else ""


def of_target(name):
    """The signal that an operation gives, or, of one without a name, its call."""
    told = copy_of(name)[:-1] if is_intermediate(name) else name
    return f" ({told})" if told else ""
