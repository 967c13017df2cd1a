"""Runs of a system by sigc: each program over the flows that its inputs have got, again while these grow.

A program makes of longer flows longer ones, so where none grows any more everything is what it is in every order of instants.
Programs that depend on each other are run until then; others once, after all that they depend on.
"""
import itertools
import os
import re
from concurrent.futures import ThreadPoolExecutor
from typing import NamedTuple

from sigc.call import running
from sigc.system.network import Outside
from sigc.system.wave_order import waves_of

END = re.compile(r"end: (?:input (\S+) (exhausted)|(overflow|division by zero) at (\d+):(\d+)|(limit)) after (\d+) instants")
MOST_INSTANTS = 1_000_000
MOST_CALLS = 4
INDEX = "index out of range"


class End(NamedTuple):
    """How the run of a node ended: what, the input that was exhausted, the place of a fault, and after how many instants."""

    what: str
    input: int | None
    place: str
    instants: int


class Given(NamedTuple):
    """What a node has done: the words of each signal that is an output, the end, and how long its flows were then."""

    flows: dict
    end: End
    lengths: tuple


class Run:
    """A system over the flows of its inputs."""

    def __init__(self, files, network, flows, limit=MOST_INSTANTS):
        self.files, self.network, self.outside, self.limit = files, network, flows, limit
        self.given = [None] * len(network.nodes)
        self.known, self.numbers = {}, itertools.count()
        with ThreadPoolExecutor(min(MOST_CALLS, os.cpu_count() or 1)) as pool:
            for wave in waves_of([[it.node for it in node.sources if not isinstance(it, Outside)] for node in network.nodes]):
                self.settle(wave, pool)

    def settle(self, wave, pool):
        """Runs nodes until none has got more."""
        todo = wave
        while todo:
            for number, given in zip(todo, list(pool.map(self.ran, todo))):
                self.given[number] = given
            todo = [it for it in wave if self.lengths(it) != self.given[it].lengths]

    def flow(self, source):
        """The words of each signal of the kernel that a source is, as far as they are known."""
        if isinstance(source, Outside):
            return self.outside[source]
        node, given = self.network.nodes[source.node], self.given[source.node]
        signals = node.program.outputs[source.port].signals
        return [given.flows[it] if given else [] for it in signals]

    def lengths(self, number):
        return tuple(len(it) for source in self.network.nodes[number].sources for it in self.flow(source))

    def ran(self, number):
        """One run of a node over what its inputs have got. Instances of one program over the same flows are run once."""
        node, lengths = self.network.nodes[number], self.lengths(number)
        program, lines = node.program, []
        for port, source in zip(program.inputs, node.sources):
            for signal, words in zip(port.signals, self.flow(source)):
                lines.append(b" ".join([program.image.signals[signal].name.encode("ascii"), *words]))
        key = program.path, b"\n".join(lines)
        if key not in self.known:
            self.known[key] = self.called(program, b"\n".join(lines) + b"\n")
        return Given(*self.known[key], lengths)

    def called(self, program, text):
        """What sigc makes of flows: the words of each output, and the end."""
        path = f"{self.files.folder}/flows-{next(self.numbers)}"
        with open(path, "wb") as it:
            it.write(text)
        with running.Call("exec", program.path, path, "--instants", str(self.limit)) as call:
            out = call.ran.stdout.read()
            line, status = call.ended()
        os.remove(path)
        found = END.fullmatch(line)
        if not found:
            raise running.Refused(f"sigc-system: {program.called}: {line}", status or 1)
        flows = {number: [] for number in range(program.image.inputs, program.image.inputs + program.image.outputs)}
        by_name = {name.encode("ascii"): flows[number] for name, number in program.numbers.items() if number in flows}
        for it in out.split(b"\n")[:-1]:
            name, _, value = it.partition(b" ")
            by_name[name].append(value)
        return flows, end_of(program, found)


def end_of(program, found):
    """The end that a line of sigc tells, in the words of the program."""
    name, exhausted, fault, line, col, limit, instants = found.groups()
    if fault:
        is_index = not program.home.is_kernel and program.home.expansion.is_index(int(line), int(col))
        return End(INDEX if is_index else fault, None, program.place(int(line), int(col)), int(instants))
    number = program.numbers[name] if name else None
    port = next((at for at, it in enumerate(program.inputs) if number in it.signals), None)
    return End(exhausted or limit, port, "", int(instants))
