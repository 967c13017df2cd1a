"""The trace of a run: what every signal of a program is at each instant.

`sigc run` writes outputs without instants. So a program is run that says all (trace/observing.py), and what that writes falls
into instants. An input is present where a signal of the same clock is, and its values are those of its flow.
"""
import argparse
import itertools
import re
import sys

from sigc.call import running
from sigc.clocks.laid_out import Laid
from sigc.clocks.plans import NAME
from sigc.read import lexer
from sigc.trace import flow_values

PACE_HELP = "let clocks stay independent, as sigc --pace does: the flows have a line for each input pace_1 and so on that this adds"
VALUE = re.compile(r"-?[0-9]+|true|false")


class Run:
    """A run whose instants are told: iterate over it, and then ask for its end.

    Each instant is a map from the names of the signals that are present to their values. end is the line that sigc says
    at the end, with places of the program, kernel_end the same with places of its kernel, copy the copy that it speaks of, and status sigc's.
    """

    def __init__(self, files, path, flows_path, words=()):
        self.files, self.words = files, [it for it in words if it != "--pace"]
        self.laid = laid = Laid(files, path, "--pace" in words)
        self.program, self.classes, self.flat, self.paces = laid.program, laid.classes, laid.flat, laid.paces
        self.observed = laid.observed()
        self.home = self.program.home
        self.flows_text = self.home.flows(flows_path, running.text_of(flows_path))
        self.flows = files.copied(flows_path, self.flows_text)
        self.source = files.written("observed.sig", self.observed.text, path)
        self.end, self.kernel_end, self.copy, self.status = "", "", "", 0

    def __iter__(self):
        with self.call() as call:
            yield from self.instants(call.lines())
            self.ends(call)

    def call(self):
        """The run of the program that says all."""
        return running.Call("run", self.source, self.flows, "--workers", "0", *self.words)

    def ends(self, call):
        """Keeps how the run ended; Refused where it is none."""
        line, self.status = call.ended()
        if self.status not in (0, 3):
            told = " once every signal is an output" if self.status == 1 else ""
            raise running.Refused(self.files.renamed(line) + told, self.status)
        line, self.copy = self.observed.end_of(line)
        self.kernel_end, self.end = line, self.home.end(line)

    def instants(self, lines):
        """What the observed program writes, instant by instant. Where it writes something, the flows have a reading."""
        return instants_of(self.observed, lines, lambda: flow_values.read_flows(self.flows_text, [it.name for it in self.flat.inputs()]))


def instants_of(observed, lines, flows):
    """The instants of what an observed program writes. flows() gives the values of each input; it is called where something is written."""
    first = next(lines, None)
    if first is None:
        return
    speakers, marker, instant = speakers_of(observed, flows()), observed.marker, None
    for line in itertools.chain([first], lines):
        name, _, value = line.partition(" ")
        if name == marker:
            if instant is not None:
                yield instant
            instant = {}
        for signal, flow in speakers[name]:
            instant[signal] = value if flow is None else next(flow)
    yield instant


def speakers_of(observed, flows):
    """For each name that is written the signals that it speaks for, each input with the values of its flow."""
    rest = {name: map(flow_values.normal, flows[source]) for name, source in observed.sources.items()}
    return {name: [(it, rest.get(it)) for it in signals] for name, signals in observed.names.items()}


def trace_of(text):
    """The names of a trace file, and its instants: maps from the names of what is present to values."""
    rows = [(at, it.split()) for at, it in enumerate(text.splitlines(), 1) if it.split()]
    if not rows:
        raise lexer.Unreadable("there is no trace in an empty file")
    names = rows[0][1]
    if len(names) == 2 and VALUE.fullmatch(names[1]):
        raise lexer.Unreadable("this is what a run prints, which does not tell its instants: name the program and its flows")
    if not all(map(NAME.fullmatch, names)):
        raise lexer.Unreadable(f"line {rows[0][0]} is no header of a trace")
    instants = []
    for number, row in rows[1:]:
        if len(row) != len(names) or any(it != "." and not VALUE.fullmatch(it) for it in row):
            raise lexer.Unreadable(f"line {number} is no instant of {len(names)} signals")
        instants.append({name: it for name, it in zip(names, row) if it != "."})
    return names, instants


def called(value, states):
    """A value, or the name of the state that it is."""
    return states[int(value)] if states and value.isdigit() and int(value) < len(states) else value


def is_in(name, asked):
    """Whether a signal is the one that is asked for, or one of the copy or the array that is."""
    return name == asked or name.startswith((f"{asked}.", f"{asked}["))


def at_least(least):
    """A reader of a number of at least this, for argparse."""

    def read(word):
        if not word.isascii() or not word.isdigit() or int(word) < least:
            raise argparse.ArgumentTypeError(f"a number from {least} on is wanted, and not {word!r}")
        return int(word)

    return read


def add_run_words(words):
    """The words of a script that shows a run."""
    words.add_argument("program", metavar="PROGRAM", help="the file of a program")
    words.add_argument("flows", metavar="FLOWS", help="the file of its flows")
    add_window_words(words)


def add_window_words(words):
    """The words that tell which instants are meant, and how far the run goes."""
    words.add_argument("--from", metavar="I", dest="first", type=at_least(1), default=1, help="from this instant on, the first being 1")
    words.add_argument("--to", metavar="I", dest="last", type=at_least(1), help="up to this instant; the run goes on to its own end")
    words.add_argument("--instants", metavar="N", type=at_least(1), help="the most instants of the run, as of sigc run")
    words.add_argument("--pace", action="store_true", help=PACE_HELP)


def run_words(words):
    """The words that are handed on to sigc run."""
    limit = ["--instants", str(words.instants)] if words.instants else []
    return limit + (["--pace"] if words.pace else [])


def window(run, words):
    """The instants from the first to the last that is asked for. The run comes to its end all the same."""
    for number, instant in enumerate(run, 1):
        if number >= words.first and (words.last is None or number <= words.last):
            yield instant


def told(run):
    """Says on standard error how the run ended, and gives its status."""
    sys.stdout.flush()
    print(run.end, file=sys.stderr)
    if run.copy:
        print(f"note: in the copy {'/'.join(run.flat.path(run.copy))}", file=sys.stderr)
    return run.status
