"""Flow files of a system: a line for each input as `sigc run` reads it, LEVEL[3] for one of many; and its outputs in the same form."""
from sigc.call import running
from sigc.expand.flows import FlowFault, Flows, repeated, user_value, words_of
from sigc.expand.terms import BOOLEAN, EVENT, INTEGER
from sigc.system.network import Outside, indices

PLAIN = {"integer": INTEGER, "boolean": BOOLEAN, "event": EVENT}


def kind_of(network, port):
    """The kind of an input or an output of the system: an enumeration as the programs have it."""
    return PLAIN.get(port.kind) or network.types[port.name]


class Reader:
    """The flows of a system's inputs, by their sources: for each a list of the words of each signal of the kernel that it is."""

    def __init__(self, network):
        self.ports, self.flows = {}, {}
        for number, it in enumerate(network.system.inputs):
            for index in indices(it.count):
                name = it.name if index is None else f"{it.name}[{index}]"
                self.ports[name] = Outside(number, index), kind_of(network, it), it.sizes
                self.flows[Outside(number, index)] = [[] for _ in range(size_of(it.sizes))]
        self.values = Flows([]).values

    def read(self, text):
        is_first, is_second = True, False
        for number, line in enumerate(text.split("\n"), 1):
            words = words_of(line)
            if is_first and [it for _, it in words] == ["flows", "2"] and "flows" not in self.ports:
                is_second = True
            elif words:
                self.line(number, words, is_second)
            is_first = is_first and not words

    def line(self, number, words, is_second):
        (col, name), *values = words
        if name not in self.ports:
            raise FlowFault(number, col, "not an input", f"inputs are: {', '.join(list(self.ports)[:20])}")
        source, kind, sizes = self.ports[name]
        for at, word in values:
            value, times = repeated(word, is_second, number, at)
            for flow, one in zip(self.flows[source], self.values(value, kind, sizes, number, at)):
                flow += [one.encode("ascii")] * int(times[1:] or 1)


def size_of(sizes):
    """How many single values an array has."""
    size = 1
    for it in sizes:
        size *= it
    return size


def read_flows(network, path):
    """The flows of a file, by the sources; Refused at the place where it is none."""
    reader = Reader(network)
    try:
        reader.read(running.text_of(path))
    except FlowFault as fault:
        raise running.Refused(fault.shown(path), 4) from None
    return reader.flows


def shown(name, flows, kind, sizes):
    """A line of a flow file: the values of all signals of an output, of an array in brackets."""
    columns = ([user_value(it.decode("ascii"), kind) for it in flow] for flow in flows)
    return " ".join([name, *(bracketed(list(it), sizes) for it in zip(*columns))])


def bracketed(values, sizes):
    """The single values of an array as one word."""
    if not sizes:
        return values[0]
    size = len(values) // sizes[0]
    return "[" + ",".join(bracketed(values[at : at + size], sizes[1:]) for at in range(0, len(values), size)) + "]"


def output_lines(network, given):
    """The lines of the outputs; `given` has the flows of a node's output."""
    for port, sources in zip(network.system.outputs, network.outputs):
        for index, source in zip(indices(port.count), sources):
            name = port.name if index is None else f"{port.name}[{index}]"
            yield shown(name, given(source), kind_of(network, port), port.sizes)
