"""The step of a program as C, to be an instance in a system: it gets its inputs where its clock says so, and puts its outputs once the instant is done.

An instant that cannot be done gives nothing, as in a run of sigc.
"""
from sigc.c import expressions
from sigc.clusters import actors, fates
from sigc.clusters.cluster_program import Program
from sigc.clusters.cluster_steps import Act, Cluster

WHAT = {fates.OVERFLOW: "overflow", fates.DIVISION: "division by zero"}


class Alone:
    """Who does what where one cluster does all: what is read comes from outside of it, by the number of the input."""

    count, streams, reports, words = 1, (), (), ()

    def __init__(self, image):
        self.acts = [[self.act(number, it) for number, it in enumerate(image.operations)]]

    def act(self, number, it):
        return actors.Act("get", number, it.fields[0]) if it.kind == "Read" else actors.Act("do", number)


class NodeProgram(Program):
    """What the step of a program needs to know of it."""

    def actors_of(self, lines, is_barrier):
        return Alone(self.image)


class NodeStep(Cluster):
    """The step of a whole program."""

    def __init__(self, image, source, prefix):
        super().__init__(NodeProgram(image, (), source, prefix), 0)
        self.name = prefix

    def last_acts(self):
        return [Act("output", stream=it - self.image.inputs, signal=it) for it in self.outputs]

    def write_get(self, it):
        self.text.line(f"/* {self.program.comment(it.operation)} */")
        self.wait(f"get_input(context, {it.stream}, &item)")
        self.locals["item"] = "int64_t"
        self.assign(it.signal, expressions.variable("(int)item" if self.kind(it.signal) == "int" else "item"))

    def write_output(self, it):
        value = "1" if self.is_event(it.signal) else self.value(it.signal).text
        self.where_it_comes(it, lambda: self.wait(f"put_output(context, {it.stream}, {value})"))

    def wait(self, call):
        """Waits until a call answers that it is done. The names of what a step returns are the same in all programs."""
        self.text.wait(call, "NODE")

    def write(self):
        super().write()
        self.text.lines[-1] = self.text.lines[-1].replace(f"{self.prefix}_DONE", "NODE_DONE")
