"""What the signals of a program are over a run, and which of them change.

A mend may be accepted because it makes a signal constant, as `TICK ^= CLICK` does of "was it clicked?".
"""
import collections

from sigc.clocks import plans
from sigc.read import expansion
from sigc.trace.observing import Observed

INSTANTS, LEAST = 200, 0.01
NUMBERS = (*range(-2, 13), 20, 50, 99, 100, 101, 250)


def is_changing(kind, values):
    """Whether a signal differs now and then from what it is most: of an event whether it comes, else its values where it comes."""
    values = values if kind == "event" else [it for it in values if it is not None]
    most = max(collections.Counter(values).values(), default=0)
    return len(values) - most >= LEAST * len(values) > 0


def instants_of(sigc, text, flows):
    """What the signals of a program are at the instants of a run: a map for each."""
    observed = Observed(expansion.Expansion(text), plans.Classes(sigc.ask("tree", text).out.splitlines()))
    path = sigc.written("flows", "".join(f"{name} {' '.join(values)}\n" for name, values in flows.items()))
    said = sigc.ask("run", observed.text, path, "--workers", "0", "--instants", str(INSTANTS)).out
    rest, found, taken = {name: iter(values) for name, values in flows.items()}, [], {}
    for name, _, value in (line.partition(" ") for line in said.splitlines()):
        if name == observed.marker:
            found.append({})
            taken = {}
        for signal in observed.names[name]:
            source = observed.sources.get(signal)
            if source and source not in taken:
                taken[source] = next(rest[source])
            found[-1][signal] = taken[source] if source else value
    return found
