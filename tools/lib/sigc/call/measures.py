"""How long runs take with several numbers of threads at work and several capacities, beside one without workers."""
import hashlib
import os
import statistics
import subprocess
import time
from typing import NamedTuple

from sigc.call import compiler

# Words of 2 workers and capacity 16 are those that ask for none, so sigc may start no thread for them.
CAPACITIES = (32, 64, 256)
TURNS = 5
PIECE = 65_536
# So much is gained by workers before they are said to pay: less than that is chance.
GAIN = 0.95
# Of a run of fewer seconds nothing is told but how long it takes.
SHORT = 0.2


class Differing(Exception):
    """Two runs wrote different texts."""


def run(words, workers, capacity):
    """The wall time of a run, and a mark of what it wrote."""
    begun, mark = time.monotonic(), hashlib.blake2b()
    words = [compiler.program(), "run", *words, "--workers", str(workers), "--capacity", str(capacity)]
    with subprocess.Popen(words, stdin=subprocess.DEVNULL, stdout=subprocess.PIPE, stderr=subprocess.PIPE) as ran:
        while piece := ran.stdout.read1(PIECE):
            mark.update(piece)
        mark.update(ran.stderr.read())
    return time.monotonic() - begun, mark.digest()


def counts_of(clusters):
    """The numbers of threads that are tried: none, one and so on doubled, and one for each cluster or processor."""
    most = max(min(clusters, os.cpu_count() or 1), 1)
    return sorted({0, most, *(it for it in (1, 2, 4, 8, 16, 32) if it < most)})


class Plan(NamedTuple):
    """What is measured: which capacities and numbers of threads, in how many turns, and how long that takes by one run."""

    capacities: tuple
    counts: tuple
    turns: int
    seconds: float

    def words(self):
        """What is announced before it begins."""
        ways = len(self.capacities) * len(self.counts)
        what = f"{self.turns} turns of {ways} ways, each beside a run without workers" if ways else f"{self.turns} runs without workers"
        return f"this takes some {max(1, round(self.seconds))} s: {what}"


def planned(once: float, clusters: int, seconds: float) -> Plan:
    """What fits into these seconds, by how long one run without workers takes: fewer ways where it is a long one, and at
    least one run."""
    alone = Plan((), (), max(1, min(TURNS, int(seconds / max(once, 0.001)))), 0)
    alone = alone._replace(seconds=alone.turns * once)
    if clusters < 2 or once < SHORT:
        return alone
    counts = tuple(it for it in counts_of(clusters) if it)
    ways = [(some, many) for many in (counts, counts[-1:]) for some in (CAPACITIES, CAPACITIES[1:2])]
    for least in (3, 1):
        for capacities, many in ways:
            spent = 2 * len(capacities) * len(many) * once
            if int(seconds / spent) >= least:
                turns = min(TURNS, int(seconds / spent))
                return Plan(capacities, many, turns, turns * spent)
    return alone


def table_of(words: list[str], plan: Plan, until: float = float("inf")) -> tuple[dict, float]:
    """By capacity and number of threads the median wall time over that of a run without workers, made in turn with it; and the
    median of those without, in seconds. Behind `until` no further turn begins, since workers may take longer than planned."""
    alone, ratios = [], {(capacity, workers): [] for capacity in plan.capacities for workers in plan.counts}
    for turn in range(plan.turns):
        if turn and time.monotonic() + plan.seconds / plan.turns > until:
            break
        alone += [] if ratios else [run(words, 0, CAPACITIES[0])[0]]
        for (capacity, workers), found in ratios.items():
            beside, wanted = run(words, 0, capacity)
            spent, said = run(words, workers, capacity)
            if said != wanted:
                raise Differing(f"with {workers} workers and capacity {capacity}")
            alone.append(beside)
            found.append(spent / beside)
    return {it: statistics.median(found) for it, found in ratios.items()}, statistics.median(alone)


def lines_of(table, alone, clusters):
    """The table as lines, with what to take from it."""
    counts = sorted({workers for _, workers in table})
    yield f"without workers: {1000 * alone:.0f} ms, {clusters} cluster{'s' if clusters != 1 else ''}"
    if table:
        yield "times that, by capacity and workers:"
        yield "capacity" + "".join(f"{it:>8}" for it in counts)
        for capacity in sorted({it for it, _ in table}):
            yield f"{capacity:>8}" + "".join(f"{table[capacity, it]:>8.2f}" for it in counts)
    best = min(table, key=table.get, default=None)
    if not table:
        yield "one cluster is run without workers" if clusters < 2 else untold(alone)
    elif table[best] < GAIN:
        yield f"take --workers {best[1]} --capacity {best[0]}"
    else:
        yield "take --workers 0: workers do not pay here"


def untold(alone):
    """Why nothing is said of workers."""
    if alone < SHORT:
        return f"a run of less than {1000 * SHORT:.0f} ms is too short to tell"
    return "runs with workers do not fit into the time: measure a part with --instants N, or give more time with --seconds N"
