"""A system as files of C: a step for each program, tables of what is joined to what, and the files of a carrier.

Streams lead from one signal of the kernel to another, so an array is several; its elements are inputs and outputs of their own, as L[0].
"""
from sigc.c import c_files, c_names
from sigc.c.marked_files import functions
from sigc.clusters.cluster_files import INDENT, body, text_of
from sigc.image import sources
from sigc.read import syntax
from sigc.system import node_steps
from sigc.system.network import Outside, indices

SHARED = ("flows.h", "flows.c", "deal.h", "touching.h", "node.h", "end_lines.c")
# The files of each carrier, which are copied, and what its scripts are.
CARRIERS = {
    "threads": (("threads.c",), "threads.build", None),
    "mpi": (("process.h", "process.c", "mpi.c"), "mpi.build", "mpi.run"),
    "dds": (("process.h", "process.c", "dds.c", "link.idl", "loopback.xml"), "dds.build", "system_dds.run"),
}
# What streams hold together, at most, where nothing is said; and one of them.
ITEMS, MOST_ITEMS, LEAST_ITEMS = 1 << 22, 16_384, 64
# How many bytes of outputs all instances keep before they write them, and one of them.
BYTES, MOST_BYTES, LEAST_BYTES = 1 << 23, 65_536, 1_024
# What any step costs, as operations.
STEP = 4
WIDTH = 118


class Unit:
    """The step of one program of a system."""

    def __init__(self, program, own):
        self.program, self.own = program, own
        self.title = syntax.read(program.text).processes[0].name.text
        self.source = sources.Source(program.text, program.image, home=program.home)
        self.step = node_steps.NodeStep(program.image, self.source, own)
        self.words = {"own": own, "path": c_files.commented(program.called), "title": self.title}

    def header(self):
        fields = "\n".join(f"{INDENT}{kind} {name};" for name, (kind, _) in self.step.state().items())
        image = self.program.image
        ports = [f"   Input {at} is {it.name}." for at, it in enumerate(image.signals[: image.inputs])]
        ports += [f"   Output {at} is {it.name}." for at, it in enumerate(image.signals[image.inputs : image.inputs + image.outputs])]
        return text_of("node_step.h", **self.words, ports="\n".join(ports) or "   It has neither inputs nor outputs.", fields=fields).replace("int place;\n\n}", "int place;\n}")

    def unit(self):
        init = "\n".join(f"{INDENT}state->{name} = {first};" for name, (_, first) in self.step.state().items())
        step = text_of("step.c", own=self.own, p="sigc", init=init, body="\n".join(body(self.step))).replace("= 0;\n\n}", "= 0;\n}")
        return text_of("node_step.c", **self.words, helpers=functions("carriers/arithmetic.c", self.step.helpers), step=step.rstrip("\n"))

    def faults(self):
        """A text for each number that the step returns."""
        found = []
        for (number, what), at in sorted(self.step.program.fates.numbers.items(), key=lambda it: it[1]):
            it = self.program.image.operations[number]
            is_index = not self.program.home.is_kernel and self.program.home.expansion.is_index(it.line, it.column)
            word = "index out of range" if is_index else node_steps.WHAT.get(what, what.lower())
            found.append(f"{word} at {self.program.place(it.line, it.column)}")
        return found


class Files:
    """The tables of a system, by its network."""

    def __init__(self, network, path):
        self.network, self.path = network, path
        self.units, taken = {}, set()
        for file, program in network.programs.items():
            name = c_names.prefix_for(syntax.read(program.text).processes[0].name.text)
            self.units[file] = Unit(program, fresh(name, taken))
        self.numbers = {file: at for at, file in enumerate(self.units)}
        self.inputs = self.outside(network.system.inputs)
        self.streams, self.sources, self.first_sources = [], [], []
        self.sinks = [[[] for _ in range(node.program.image.outputs)] for node in network.nodes]
        for number, node in enumerate(network.nodes):
            self.join(number, node)
        self.outputs = self.given()

    def outside(self, ports):
        """The single values of the system's inputs: for each port and index the number of the first, and names with kinds."""
        rows, self.first_input = [], {}
        for number, it in enumerate(ports):
            for index in indices(it.count):
                self.first_input[Outside(number, index)] = len(rows)
                name = it.name if index is None else f"{it.name}[{index}]"
                rows += [(f"{name}{element}", kernel_kind(it.kind)) for element in elements(it.sizes)]
        return rows

    def join(self, number, node):
        """Notes from where the inputs of a node come."""
        own = [0] * node.program.image.inputs
        for port, source in zip(node.program.inputs, node.sources):
            for at, signal in enumerate(port.signals):
                own[signal] = self.source(source, at, number)
        self.first_sources.append(len(self.sources))
        self.sources += own

    def source(self, source, at, reader):
        if isinstance(source, Outside):
            return -1 - (self.first_input[source] + at)
        program = self.network.nodes[source.node].program
        output = program.outputs[source.port].signals[at] - program.image.inputs
        self.streams.append((source.node, reader, output))
        self.sinks[source.node][output].append(len(self.streams) - 1)
        return len(self.streams) - 1

    def given(self):
        """The single values of the system's outputs, names with kinds; each is a sink of a node's output."""
        rows = []
        for port, found in zip(self.network.system.outputs, self.network.outputs):
            for index, source in zip(indices(port.count), found):
                program = self.network.nodes[source.node].program
                name = port.name if index is None else f"{port.name}[{index}]"
                for element, signal in zip(elements(port.sizes), program.outputs[source.port].signals):
                    self.sinks[source.node][signal - program.image.inputs].append(-1 - len(rows))
                    rows.append((f"{name}{element}", program.image.signals[signal].kind))
        return rows

    # The files.

    def texts(self, carrier):
        """The texts of all files by their names."""
        names, build, run = CARRIERS[carrier]
        found = {f"{it.own}_node.h": it.header() for it in self.units.values()}
        found |= {f"{it.own}_node.c": it.unit() for it in self.units.values()}
        found |= {"program.h": self.known(), "program.c": self.tables()}
        found |= {name: text_of(name) for name in (*SHARED, *names)}
        words = {"path": c_files.commented(self.path), "actors": len(self.network.nodes), "clusters": len(self.network.nodes)}
        units = " ".join(f"{it.own}_node.c" for it in self.units.values())
        found["build"] = text_of(build, **words, units=units, end_file="end_lines.c")
        return found | ({"run": text_of(run, **words)} if run else {})

    def words(self):
        return {"title": self.network.system.name, "path": c_files.commented(self.path)}

    def known(self):
        """The text of program.h."""
        count = max(1, len(self.streams))
        units = list(self.units.values())
        return text_of(
            "system_program.h", **self.words(), actors=len(self.network.nodes), streams=len(self.streams), inputs=len(self.inputs),
            capacity=max(LEAST_ITEMS, min(MOST_ITEMS, 1 << (ITEMS // count).bit_length() - 1)) if ITEMS // count else LEAST_ITEMS,
            most_inputs=max(it.program.image.inputs for it in units) if units else 0,
            piece=max(LEAST_BYTES, min(MOST_BYTES, BYTES // max(1, len(self.network.nodes)))),
            includes="\n".join(f'#include "{it.own}_node.h"' for it in units), states="\n".join(f"{INDENT}{it.own}_state {member(it)};" for it in units),
        )

    def tables(self):
        """The text of program.c."""
        begins = [f"{INDENT}case {at}:\n{INDENT * 2}{it.own}_init(&state->{member(it)});\n{INDENT * 2}break;" for at, it in enumerate(self.units.values())]
        steps = [f"{INDENT}case {at}:\n{INDENT * 2}return {it.own}_step(&state->{member(it)}, context);" for at, it in enumerate(self.units.values())]
        faults = [it.faults() for it in self.units.values()]
        sinks = [it for node in self.sinks for it in node]
        return text_of(
            "system_program.c", **self.words(), begins="\n".join(begins), steps="\n".join(steps),
            stream_ends=rows(f"{{{writer}, {reader}}}" for writer, reader, _ in self.streams),
            input_rows=rows(f"{{{c_files.quoted(name)}, {kind}}}" for name, kind in self.inputs),
            weights=rows(self.weights()).rstrip(","), nodes=rows(self.nodes()).rstrip(","), sources=rows(map(str, self.sources)),
            sink_begins=rows(map(str, begins_of(sinks))).rstrip(","), sinks=rows(str(it) for row in sinks for it in row),
            output_rows=rows(f"{{{c_files.quoted(name + ' ')}, {len(name) + 1}, {kind.upper()}}}" for name, kind in self.outputs),
            outputs_of=rows(c_files.quoted(self.output_name(writer, output)) for writer, _, output in self.streams),
            input_texts=rows(map(c_files.quoted, self.input_texts())), fault_texts=rows(c_files.quoted(it) for row in faults for it in row),
            first_faults=", ".join(map(str, begins_of(faults))),
        )

    def weights(self):
        """About how much each node does at an instant."""
        return (str(STEP + len(node.program.image.operations)) for node in self.network.nodes)

    def nodes(self):
        texts, first_sink, first_text = {}, 0, 0
        for number, node in enumerate(self.network.nodes):
            if node.instance.name not in texts:
                texts[node.instance.name] = first_text
                first_text += node.program.image.inputs
            index = -1 if node.index is None else node.index
            yield f"{{{c_files.quoted(node.instance.name)}, {index}, {self.numbers[node.instance.file]}, {self.first_sources[number]}, {first_sink}, {texts[node.instance.name]}}}"
            first_sink += node.program.image.outputs

    def input_texts(self):
        """A text about each input, of all instances of a count together."""
        for it in self.network.system.instances:
            program = self.network.programs[it.file]
            found = [""] * program.image.inputs
            for port, source in zip(program.inputs, it.sources):
                for signal in port.signals:
                    found[signal] = f"{port.name}, from {source.text}," if source.output or source.text != port.name else port.name
            yield from found

    def output_name(self, node, output):
        program = self.network.nodes[node].program
        return next(it.name for it in program.outputs if output + program.image.inputs in it.signals)


def member(unit):
    return f"of_{unit.own}"


def fresh(name, taken):
    """A name that no other program of the system has."""
    found, number = name, 1
    while found.lower() in taken:
        number += 1
        found = f"{name}_{number}"
    taken.add(found.lower())
    return found


def kernel_kind(kind):
    return kind.upper() if kind in ("integer", "boolean", "event") else "INTEGER"


def elements(sizes):
    """The indices of the elements of an array, as [0][1], in order; of a single value nothing."""
    found = [""]
    for size in sizes:
        found = [f"{it}[{index}]" for it in found for index in range(size)]
    return found


def begins_of(lists):
    """Where each list begins, if they stand one behind the other, and where the last one ends."""
    found = [0]
    for it in lists:
        found.append(found[-1] + len(it))
    return found


def rows(cells):
    """Cells with commas between them, in lines."""
    lines, line = [], ""
    for it in cells:
        if len(line) + len(it) > WIDTH:
            lines.append(line.rstrip())
            line = ""
        line += f"{it}, "
    return "\n".join([f"{INDENT}{it}" for it in (*lines, line.rstrip()) if it])
