"""Writes the trace of a run: what every signal is at each instant, in sigc's format of trace files.

    tools/sigc-trace examples/thermostat.sig examples/thermostat.flows

`sigc run` writes the outputs alone, and not where an instant begins. Here each signal has a column, those of calls
too, and each instant a line, with `.` where a signal is absent. `sigc judge` accepts the whole trace of a program; one
with --signals or --from is a part of it, for reading. With --pace the inputs that this adds are shown where --signals
names them; the whole trace has the signals of the program alone, as `judge` wants it. The end of the run stands on standard error, and the status is
that of the run. A program that is no kernel (docs/signal.md) is expanded: an array has a column for each element, an
enumeration its values. The first 1,000 instants are in columns, the others with one blank between two words.

The program is the file that the variable SIGC names, or else the script ./sigc at the top of the repository.
"""
import argparse
import itertools

from sigc.call import opened, running
from sigc.trace import traces

IN_COLUMNS = 1000


def chosen(run, asked):
    """The signals that are asked for, in their order in the program; a copy's name stands for all of its signals, and so
    does that of an array. Where none are asked for these are the signals of the program, without its paces."""
    names = {it.name: run.home.name(it.name) for it in run.flat.signals if run.home.is_known(it.name)}
    if not asked:
        return [it for it in names if it not in run.paces]
    wanted = [it for it in asked.split(",") if it]
    for it in wanted:
        if not any(traces.is_in(name, it) for name in names.values()):
            raise running.Refused(f"{it} is no signal of the program, and no copy")
    return [it for it, name in names.items() if any(traces.is_in(name, other) for other in wanted)]


def rows(instants, names, states):
    """The words of each instant, a dot for a signal that is absent; a state has its name."""
    for instant in instants:
        yield [traces.called(instant.get(name, "."), states.get(name)) for name in names]


def written(table):
    """The lines of a table: its first rows in columns, the others as they come."""
    first = list(itertools.islice(table, IN_COLUMNS + 1))
    widths = [max(map(len, column)) for column in zip(*first)]
    for row in first:
        yield " ".join(it.ljust(width) for it, width in zip(row, widths)).rstrip()
    for row in table:
        yield " ".join(row)


def main():
    words = argparse.ArgumentParser(prog="sigc-trace", description=__doc__, formatter_class=argparse.RawDescriptionHelpFormatter)
    traces.add_run_words(words)
    words.add_argument("--signals", metavar="A,B", help="these signals alone, and those of these copies, as TIMER#2")
    words.add_argument("--states", action="store_true", help="the names of states in the place of their numbers, of what sigc-automaton wrote; for reading")
    opened.add_include(words)
    words = words.parse_args()
    with running.Files(words.include) as files:
        run = traces.Run(files, words.program, words.flows, traces.run_words(words))
        names, states = chosen(run, words.signals), {**run.home.states(), **(run.flat.states() if words.states else {})}
        table = itertools.chain([list(map(run.home.name, names))], rows(traces.window(run, words), names, states))
        for line in written(table):
            print(line)
        return traces.told(run)


def start():
    running.started("sigc-trace", main)
