"""Writes a run, or a trace, as a waveform (VCD), which GTKWave shows.

    tools/trace2vcd examples/watch.sig examples/watch.flows -o watch.vcd
    tools/trace2vcd examples/watch.trace --program examples/watch.sig > watch.vcd

With a program and its flows every signal of the run is drawn, at the instants that tools/sigc-trace prints, and the end
of the run stands on standard error. With one file, that file is a trace. What `sigc run` prints is refused, since it
does not tell its instants.

An instant takes 10 units of time. A signal that is absent has the value z. An event is of VCD's kind `event`, or with
--events pulse a wire that is 1 for the first half of its instants. A state of an automaton that sigc-automaton wrote is a
`string`, its name, which GTKWave shows; with --states number it is an integer. The signals of a call have a scope of their own,
inside that of the process that calls it; of a trace alone it is not known which that is. With -o FILE.vcd there is also
FILE.gtkw, by which `gtkwave FILE.gtkw` opens with all signals in place, integers as decimals.

The program is the file that the variable SIGC names, or else the script ./sigc at the top of the repository.
"""
import argparse
import os
from typing import NamedTuple

from sigc.call import opened, running
from sigc.read import expansion, lexer
from sigc.trace import traces

UNITS = 10
# The flags of a signal in a GTKWave save file: binary, or signed decimal, each right-justified, or text; a group's two ends.
BINARY, SIGNED, TEXT, GROUP_BEGINS, GROUP_ENDS = "@28", "@420", "@820", "@800200", "@1000200"


class Variable(NamedTuple):
    """A signal as a waveform has it: its name, its kind, its short name, the scopes that it stands in, and the names of
    its states."""

    name: str
    kind: str
    code: str
    path: tuple
    states: tuple = ()

    @property
    def own(self):
        return self.name.rpartition(".")[2]


class Scope:
    """A scope with its variables and the scopes inside it."""

    def __init__(self, name):
        self.name, self.variables, self.inner = name, [], {}

    def add(self, variable):
        at = self
        for name in variable.path:
            at = at.inner.setdefault(name, Scope(name.replace("#", "_")))
        at.variables.append(variable)


def kinds_of(names, instants, told):
    """The kind of each signal: as the program tells, or else as its values look."""
    kinds = {}
    for name in names:
        are_truths = {it[name] in ("true", "false") for it in instants if name in it}
        kinds[name] = told.get(name) or ("integer" if are_truths == {False} else "boolean")
        if are_truths - {kinds[name] != "integer"}:
            raise lexer.Unreadable(f"{name} has values that are not of kind {kinds[name]}")
    return kinds


def code_of(number):
    """The short name of a variable of a VCD file."""
    code = ""
    while True:
        code += chr(33 + number % 94)
        number //= 94
        if not number:
            return code


def scoped(names, kinds, flat, scope, states):
    """The variables, and the scopes that they stand in."""
    top, variables = Scope(scope), []
    for at, name in enumerate(names):
        copy = name.rpartition(".")[0]
        path = flat.path(copy) if flat else [copy] if copy else []
        variables.append(Variable(name, kinds[name], code_of(at), tuple(path), tuple(states.get(name, ()))))
        top.add(variables[-1])
    return top, variables


def declarations(scope, is_pulse):
    """The lines that declare what stands in a scope."""
    yield f"$scope module {scope.name} $end"
    for it in scope.variables:
        kind = "string 1" if it.states else {"integer": "integer 64", "boolean": "wire 1", "event": "wire 1" if is_pulse else "event 1"}[it.kind]
        yield f"$var {kind} {it.code} {it.own} $end"
    for inner in scope.inner.values():
        yield from declarations(inner, is_pulse)
    yield "$upscope $end"


def change(variable, value):
    """The line that gives a variable its value at an instant."""
    if variable.states:
        return f"s{'z' if value is None else traces.called(value, variable.states)} {variable.code}"
    if variable.kind == "integer":
        bits = "z" if value is None else format(int(value) % 2**64, "b")
        return f"b{bits} {variable.code}"
    return f"{'z' if value is None else int(value == 'true')}{variable.code}"


def changes(variables, instants, is_pulse):
    """The lines of the instants: at each the variables that have another value, and the events that happen."""
    events = [it for it in variables if it.kind == "event"]
    others = [it for it in variables if it.kind != "event"]
    at, before = 0, None
    for instant in instants:
        yield f"#{at}"
        yield from (change(it, instant.get(it.name)) for it in others if before is None or before.get(it.name) != instant.get(it.name))
        if is_pulse and before is None:
            yield from (f"0{it.code}" for it in events if it.name not in instant)
        happened = [it for it in events if it.name in instant]
        yield from (f"1{it.code}" for it in happened)
        if is_pulse and happened:
            yield f"#{at + UNITS // 2}"
            yield from (f"0{it.code}" for it in happened)
        at, before = at + UNITS, instant
    yield f"#{at}"


def vcd(scope, variables, instants, is_pulse):
    """The lines of the waveform."""
    yield "$comment made by trace2vcd $end"
    yield "$timescale 1 ns $end"
    yield from declarations(scope, is_pulse)
    yield "$enddefinitions $end"
    yield from changes(variables, instants, is_pulse)


def shown(scope, path):
    """The lines of a save file that show a scope: its signals, and a group for each scope inside it."""
    for it in scope.variables:
        yield TEXT if it.states else SIGNED if it.kind == "integer" else BINARY
        yield f"{path}.{it.own}"
    for inner in scope.inner.values():
        yield GROUP_BEGINS
        yield f"-{inner.name}"
        yield from shown(inner, f"{path}.{inner.name}")
        yield GROUP_ENDS
        yield f"-{inner.name}"


def gtkw(scope, file):
    """The lines of a save file for GTKWave."""
    yield "[*] made by trace2vcd"
    yield f'[dumpfile] "{os.path.basename(file)}"'
    yield "[timestart] 0"
    yield "[size] 1200 700"
    yield "*-4.0 0 -1 -1 -1 -1 -1"
    yield f"[treeopen] {scope.name}."
    yield from shown(scope, scope.name)


def put(path, lines):
    """Writes lines to a file, or to standard output where there is no path."""
    if path is None:
        for line in lines:
            print(line)
        return
    with open(path, "w", encoding="latin-1") as it:
        it.writelines(f"{line}\n" for line in lines)


def draw(words, names, kinds, flat, instants, values=()):
    """Writes the waveform, and the save file beside it. values has the names of the values of enumerations, by signals."""
    states = {**flat.states(), **dict(values)} if flat and words.states == "name" else {}
    scope, variables = scoped(names, kinds, flat, flat.name if flat else "trace", states)
    put(words.output, vcd(scope, variables, instants, words.events == "pulse"))
    if words.output:
        put(os.path.splitext(words.output)[0] + ".gtkw", gtkw(scope, words.output))


def draw_run(words):
    """The waveform of a run."""
    with running.Files(words.include) as files:
        run = traces.Run(files, words.file, words.flows, traces.run_words(words))
        kinds = {it.name: it.kind for it in run.flat.signals}
        draw(words, list(kinds), kinds, run.flat, traces.window(run, words), run.home.states())
        return traces.told(run)


def draw_trace(words):
    """The waveform of a trace file."""
    names, instants = traces.trace_of(running.text_of(words.file))
    flat = expansion.Expansion(running.text_of(words.program)) if words.program else None
    told = {it.name: it.kind for it in flat.signals} if flat else {}
    draw(words, names, kinds_of(names, instants, told), flat, traces.window(instants, words))
    return 0


def main():
    words = argparse.ArgumentParser(prog="trace2vcd", description=__doc__, formatter_class=argparse.RawDescriptionHelpFormatter)
    words.add_argument("file", metavar="PROGRAM", help="the file of a program, or without FLOWS a trace file")
    words.add_argument("flows", metavar="FLOWS", nargs="?", help="the file of its flows")
    words.add_argument("--program", metavar="FILE", help="the program of a trace file, for its kinds and calls")
    words.add_argument("--events", choices=("event", "pulse"), default="event", help="how events are drawn (default: event)")
    words.add_argument("--states", choices=("name", "number"), default="name", help="how states of automata are drawn (default: name)")
    words.add_argument("-o", "--output", metavar="FILE", help="the file to write, with a save file for GTKWave beside it (default: standard output)")
    traces.add_window_words(words)
    opened.add_include(words)
    words = words.parse_args()
    return draw_run(words) if words.flows else draw_trace(words)


def start():
    running.started("trace2vcd", main)
