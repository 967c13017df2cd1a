"""The names and comments of a literal step: what the script knows of a program, for a writer that reads the image alone."""
from sigc.c.c_names import Names, stem
from sigc.c.comments import commented
from sigc.c.literal_text import OF_ITSELF
from sigc.c.names_file import Given
from sigc.clocks.plans import is_intermediate
from sigc.image import image_text
from sigc.image.step_statements import Operation


def operations_of(image):
    """The operations that may be done, each with the signal that it gives."""
    for number, it in enumerate(image.operations):
        if it.guard != 0:
            yield Operation(number, it.kind, it.guard, it.line, it.column, None if it.kind == "Store" else it.fields[0], it.fields)


class Chosen:
    """The names of an image's step, as near to those of the program as C lets them be."""

    def __init__(self, image, source, prefix):
        self.image, self.source, self.prefix = image, source, prefix
        self.operations = list(operations_of(image))
        self.delays = {}
        for it in self.operations:
            if it.kind == "DelayRead":
                self.delays.setdefault(it.fields[1], it)
        names, fields = Names(prefix), Names(prefix)
        self.signals = self.spelled(names)
        self.outputs = image.signals[image.inputs : image.inputs + image.outputs]
        self.comes = [names.fresh(f"{it.name}_comes") for it in self.outputs]
        self.fields = [fields.fresh(self.field_of(at)) for at in range(len(image.memories))]
        self.next = [names.fresh(f"next_{it}") for it in self.fields]

    def spelled(self, names):
        """A name for each signal, those of the program first."""
        before = {it.target: it for it in reversed(self.operations) if it.kind == "DelayRead"}
        found = {}
        for is_late in (False, True):
            for signal, it in enumerate(self.image.signals):
                if is_intermediate(it.name) == is_late:
                    found[signal] = names.fresh(self.wanted_name(it, before.get(signal)))
        return [found[it] for it in range(len(self.image.signals))]

    def wanted_name(self, signal, delay):
        """The name of a signal; that of an intermediate tells its place, or whose value of before it is."""
        if delay and is_intermediate(signal.name):
            return f"{self.source.speaks_of(delay)}_before"
        copy, _, own = signal.name.rpartition(".")
        word = ("is_" if signal.kind == "boolean" else "at_") if own.startswith("#") else ""
        return f"{copy}_{word}{own.lstrip('#')}" if copy else f"{word}{own.lstrip('#')}"

    def field_of(self, memory):
        """The name of a memory: that of a signal that reads it."""
        return self.source.speaks_of(self.delays[memory]) if memory in self.delays else f"memory_{memory}"

    def comment(self, it):
        """The place of an operation and what stands there."""
        if it.kind == "Store" and it.fields[0] in self.delays:
            it = it._replace(target=self.delays[it.fields[0]].target)
        text = self.source.comment(it)
        return commented(text if " " in text.strip() else f"{text.strip()} {image_text.does_text(self.image, it)}")

    def unread(self):
        """The names that a step declares and nothing reads."""
        read = set(range(self.image.inputs, self.image.inputs + self.image.outputs))
        read -= {it for it in read if self.image.signals[it].kind == "event"}
        read |= self.asked({it.guard for it in self.operations})
        for it in self.operations:
            read |= set(sources_of(it))
        names = [] if self.image.memories else ["state"]
        names += [] if self.outputs or any(it.kind == "Read" for it in self.operations) else ["context"]
        return names + [name for at, name in enumerate(self.signals) if at not in read]

    def asked(self, guards):
        """The signals that guards ask."""
        todo, seen, found = list(guards), set(), set()
        while todo:
            it = todo.pop()
            if it > 1 and it not in seen:
                seen.add(it)
                node = self.image.nodes[it - 2]
                found.add(self.image.conditions[node.condition])
                todo += [node.low, node.high]
        return found

    def given(self, head):
        """All of it, below the lines of a first comment."""
        inputs = self.image.signals[: self.image.inputs]
        return Given(
            prefix=self.prefix, include=f"{stem(self.prefix)}.h", input=[f"r_{self.prefix}_{it.name}" for it in inputs],
            output=[f"w_{self.prefix}_{it.name}" for it in self.outputs], signal=self.signals, comes=self.comes, field=self.fields,
            next=self.next, unread=self.unread(), head=[commented(it) for it in head], comment=[self.comment(it) for it in self.operations],
        )


def sources_of(it):
    """The signals whose values the text of an operation reads: a comparison of a signal with itself is a number."""
    if it.kind == "Fun":
        if it.fields[1] in OF_ITSELF and it.fields[2][0] == it.fields[2][1]:
            return []
        return [operand.signal for operand in it.fields[2] if operand.signal is not None]
    return [it.fields[1]] if it.kind in ("Copy", "Store") else []
