"""Runs of a program from its first instant on, over values that are given input by input.

sigc makes each of these runs, of the program that says all (trace/observing.py). Which input is due next is what sigc says
of a flow that is too short: `end: input A exhausted`.
"""
import re
from typing import NamedTuple

from sigc.call import running
from sigc.clocks import clocks_in_words
from sigc.clocks.laid_out import Laid
from sigc.trace import flow_values, traces

END = re.compile(r"end: (?:limit|input (?P<input>\S+) exhausted|.* at (?P<line>\d+):(?P<col>\d+)) after (?P<count>\d+) instants")
# The statuses of sigc build where sigc run may take a program all the same: too many nodes, and too long an image.
NO_IMAGE = (8, 10)


class End(NamedTuple):
    """How a run ended: the line of sigc, how many instants it has, the input that is missing or nothing, the place of the
    operator that failed or nothing, the copy in which it is, and sigc's status."""

    line: str
    count: int
    missing: str
    place: tuple
    copy: str
    status: int


class ObservedRuns:
    """A program that was compiled once, and is run as often as one likes."""

    def __init__(self, files, path, is_paced):
        self.files, self.laid = files, Laid(files, path, is_paced)
        self.flat, self.observed, self.home = self.laid.flat, self.laid.observed(), self.laid.program.home
        self.kinds = {it.name: it.kind for it in self.flat.inputs()}
        self.names = {it.name: self.home.name(it.name) for it in self.flat.signals if self.home.is_known(it.name)}
        self.states = {**self.flat.states(), **self.home.states()}
        self.before, self.behind = self.compiled(path)
        self.given = files.written("given.flows", "")

    def compiled(self, path):
        """The words of sigc around the flows: those of an image, and where there can be none of the text."""
        source = self.files.written("observed.sig", self.observed.text, path)
        with running.Call("build", source) as call:
            image = call.ran.stdout.read()
            line, status = call.ended()
        if status and status not in NO_IMAGE:
            raise running.Refused(self.files.renamed(line) + (" once every signal is an output" if status == 1 else ""), status)
        if status:
            return ["run", source], ["--workers", "0"]
        return ["exec", self.files.written("observed.img", image.decode("latin-1"))], []

    def clocks(self):
        """For each input when it comes, in words."""
        try:
            clocks = clocks_in_words.of_laid(self.laid)
        except running.Refused:
            return dict.fromkeys(self.kinds, "where the program asks for it")
        return {it: self.home.words(clocks.words(it)) for it in self.kinds}

    def call(self, flows, limit):
        """A run of sigc over these values, for so many instants at most."""
        with open(self.given, "w", encoding="latin-1") as it:
            it.writelines(f"{' '.join([name, *values])}\n" for name, values in flows.items())
        return running.Call(*self.before, self.given, *self.behind, "--instants", str(limit))

    def flows_of(self, path):
        """The values of each input in a file of flows; Refused, as sigc refuses it."""
        text = self.home.flows(path, running.text_of(path))
        with running.Call(*self.before, self.files.copied(path, text), *self.behind, "--instants", "1") as call:
            call.ran.stdout.read()
            self.end(call)
        return {it: list(map(flow_values.normal, values)) for it, values in flow_values.read_flows(text, list(self.kinds)).items()}

    def end(self, call):
        """How a run ended; Refused where it is none."""
        line, status = call.ended()
        if status not in (0, 3):
            raise running.Refused(self.files.renamed(line), status)
        line, copy = self.observed.end_of(line)
        found = END.fullmatch(line)
        place = (int(found["line"]), int(found["col"])) if found["line"] else ()
        return End(self.home.end(line), int(found["count"]), found["input"] or "", place, copy, status)

    def instant(self, flows, number):
        """The instant of this number, or None where the run ends before it, and how the run ended. The values of inputs
        in it are the last ones of their flows."""
        with self.call(flows, number) as call:
            text = call.ran.stdout.read().decode("latin-1")
            end = self.end(call)
        if end.count < number:
            return None, end
        begins = f"\n{self.observed.marker} "
        last = iter(text[text.rfind(begins, 0, len(text)) + 1 :].splitlines())
        (found,) = traces.instants_of(self.observed, last, lambda: {it: values[-1:] for it, values in flows.items()})
        return found, end

    def instants(self, flows, limit, ended):
        """The instants of a run, as they come; behind the last one the list `ended` has how the run ended."""
        with self.call(flows, limit) as call:
            yield from traces.instants_of(self.observed, call.lines(), lambda: flows)
            ended.append(self.end(call))
