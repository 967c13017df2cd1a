"""A system with its programs: each instance with what its inputs get, as far as everything fits."""
from typing import NamedTuple

from sigc.system.system_tokens import Fault, Place


class Outside(NamedTuple):
    """An input of the system, or one of many."""

    port: int
    index: int | None


class Output(NamedTuple):
    """An output of a node."""

    node: int
    port: int


class Node(NamedTuple):
    """One instance: its name, what stands in the text, its place among those of a count, its program, and for each input from where it comes."""

    name: str
    instance: object
    index: int | None
    program: object
    sources: list


class Network:
    """The nodes of a system, and for each of its outputs the nodes' outputs that it is."""

    def __init__(self, system, programs):
        self.system, self.programs = system, programs
        self.ports = {it.name: at for at, it in enumerate(system.inputs)}
        self.instances, self.types = {it.name: it for it in system.instances}, {}
        self.first, count = {}, 0
        for it in system.instances:
            self.first[it.name], count = count, count + (it.count or 1)
        self.check_names()
        if not system.instances:
            raise Fault(Place(1, 1), "no instance of a program stands here", 'write one as A := "filter.sig"(LEVEL)')
        self.check_instances()
        self.nodes = [self.node(it, index) for it in system.instances for index in indices(it.count)]
        self.outputs = self.joined()
        self.check_all_read()

    # What fits.

    def check_names(self):
        """Each name is one of the system's inputs, outputs or instances, and of one of these alone."""
        seen = {}
        for what, found in (("an input", self.system.inputs), ("an output", self.system.outputs), ("an instance", self.system.instances)):
            for it in found:
                if it.name in seen:
                    line, col = seen[it.name][1]
                    raise Fault(it.place, f"{it.name} is {seen[it.name][0]} already, at {line}:{col}", "give it another name")
                seen[it.name] = what, it.place

    def check_instances(self):
        for it in self.system.instances:
            inputs = self.programs[it.file].inputs
            if len(it.sources) != len(inputs):
                place = it.sources[len(inputs)].place if len(it.sources) > len(inputs) else it.file_place
                wanted = ", ".join(f"{port.kind_text} {port.name}" for port in inputs) or "none"
                raise Fault(place, f"{it.file} has {counted(len(inputs), 'input')}, and {len(it.sources)} stand here", f"its inputs are: {wanted}")
            for source, port in zip(it.sources, inputs):
                self.check_source(source, port, it.count, f"{port.name} of {it.file}")

    def check_source(self, source, port, count, reader):
        """A source is there, of the kind and in the number that its reader wants."""
        given, written = self.given(source)
        if given.sizes != port.sizes or not self.is_same_kind(given, port):
            raise Fault(source.place, f"{source.text} is of kind {given.kind_text}, and {reader} of kind {port.kind_text}", "an output goes to inputs of the same kind")
        check_index(source, written)
        if source.index is None and written is not None and written != count:
            one = f"{source.text} of one of them: {with_index(source, 0)}"
            raise Fault(source.place, f"there are {written} of {source.text}, and {reader} wants {count or 'one'}", f"write {one}" if count is None else f"give both the same count, or write {one}")

    def is_same_kind(self, one, other):
        """Whether values go from one port to another: of enumerations those with the same values. One of the system is known by its name,
        and has the values of the first port of a program that it is joined to."""
        values = [getattr(it.kind, "values", None) for it in (one, other)]
        if None not in values:
            return values[0] == values[1]
        if str(one.kind) != str(other.kind) or values == [None, None]:
            return str(one.kind) == str(other.kind)
        own, kind = (other.name, one.kind) if values[1] is None else (one.name, other.kind)
        return self.types.setdefault(own, kind).values == kind.values

    def given(self, source):
        """The port that a source is, and how many of it there are."""
        if source.output is None:
            if source.name in self.ports:
                it = self.system.inputs[self.ports[source.name]]
                return it, it.count
            if source.name in self.instances:
                names = outputs_of(self.programs[self.instances[source.name].file])
                raise Fault(source.place, f"{source.name} is an instance, and which output is wanted?", f"its outputs are: {names}")
            raise Fault(source.place, f"{source.name} is no input of the system", f"inputs are: {', '.join(self.ports) or 'none'}; an output of an instance is written as A.Y")
        if source.name not in self.instances:
            raise Fault(source.place, f"{source.name} is no instance", f"instances are: {', '.join(self.instances) or 'none'}")
        instance = self.instances[source.name]
        program = self.programs[instance.file]
        it = next((it for it in program.outputs if it.name == source.output), None)
        if it is None:
            raise Fault(source.place, f"{instance.file} has no output {source.output}", f"its outputs are: {outputs_of(program)}")
        return it, instance.count

    # The nodes.

    def node(self, it, index):
        name = it.name if index is None else f"{it.name}[{index}]"
        return Node(name, it, index, self.programs[it.file], [self.source(source, index) for source in it.sources])

    def source(self, source, index):
        """Where values come from, for the reader with an index."""
        at = source.index if source.index is not None else index
        if source.output is None:
            return Outside(self.ports[source.name], at if self.system.inputs[self.ports[source.name]].count else None)
        instance = self.instances[source.name]
        port = next(at for at, it in enumerate(self.programs[instance.file].outputs) if it.name == source.output)
        return Output(self.first[source.name] + (at if instance.count else 0), port)

    def joined(self):
        """For each output of the system, in order, its sources; each has one."""
        outputs, found = {it.name: it for it in self.system.outputs}, {}
        for it in self.system.joined:
            if it.name not in outputs:
                raise Fault(it.place, f"{it.name} is no output of the system", f"outputs are: {', '.join(outputs) or 'none'}; an instance is written as A := \"file.sig\"(X)")
            self.join(outputs[it.name], it, found)
        for port in self.system.outputs:
            missing = next((index for index in indices(port.count) if (port.name, index) not in found), -1)
            if missing != -1:
                name = port.name if missing is None else f"{port.name}[{missing}]"
                raise Fault(port.place, f"the output {name} is given no value", f"write {name} := A.Y")
        return [[found[port.name, index] for index in indices(port.count)] for port in self.system.outputs]

    def join(self, port, it, found):
        """Notes what an output of the system gives."""
        check_index(it, port.count)
        if it.source.output is None and it.source.name in self.ports:
            raise Fault(it.source.place, f"{it.source.name} is an input of the system, and {it.name} wants an output of an instance")
        self.check_source(it.source, port, port.count if it.index is None else None, it.name)
        for index in indices(port.count) if it.index is None else [it.index]:
            if (port.name, index) in found:
                raise Fault(it.place, f"the output {it.name} is given values twice", "leave one of them out")
            found[port.name, index] = self.source(it.source, index)

    def check_all_read(self):
        """Each input of the system is read."""
        read = {it for node in self.nodes for it in node.sources}
        for number, it in enumerate(self.system.inputs):
            for index in indices(it.count):
                if Outside(number, index) not in read:
                    name = it.name if index is None else f"{it.name}[{index}]"
                    raise Fault(it.place, f"no instance reads the input {name}", "leave it out, or give it to an instance")

    # Names.

    def name_of(self, source):
        """How the text names a source."""
        if isinstance(source, Outside):
            name = self.system.inputs[source.port].name
            return name if source.index is None else f"{name}[{source.index}]"
        node = self.nodes[source.node]
        return f"{node.name}.{node.program.outputs[source.port].name}"


def indices(count):
    return [None] if count is None else range(count)


def check_index(it, count):
    """An index stands where there is a count, and below it."""
    if it.index is not None and count is None:
        raise Fault(it.place, f"there is one {it.name}, and no count of it", f"leave [{it.index}] out")
    if it.index is not None and it.index >= count:
        raise Fault(it.place, f"there are {count} of {it.name}, and {it.index} is none of them", f"the last one is {it.name}[{count - 1}]")


def with_index(source, index):
    return source._replace(index=index).text


def counted(count, word):
    return f"{count} {word}{'' if count == 1 else 's'}"


def outputs_of(program):
    return ", ".join(it.name for it in program.outputs) or "none"
