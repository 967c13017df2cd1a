"""Memories of an image that always hold the same value, made one.

`ZX := X $ init 0` and another `X $ init 0` are two memories of the image. Two memories are equal if they begin with the same
value, and each instant stores equal values into them under the same guard. What is equal is found from above: all memories
that begin alike are taken for equal, and classes are split until each one is kept by every instant. So by induction over
the instants the memories of a class have one value, and the last of their stores stands for all.
"""


class Values:
    """Numbers for what signals are where they are present: equal numbers mean equal values, if memories of one class are equal."""

    def __init__(self, image, classes):
        self.image, self.classes, self.known = image, classes, {}
        self.writers = {}
        for it in image.operations:
            if it.kind != "Store" and it.guard:
                self.writers.setdefault(it.fields[0], []).append(it)
        self.of = {}
        for it in image.operations:
            self.see(it)

    def see(self, operation):
        """Gives a signal its number at the last operation that may write it."""
        signal = operation.fields[0]
        if operation.kind != "Store" and self.writers.get(signal, [None])[-1] is operation:
            parts = [(it.guard, self.written(it)) for it in self.writers[signal]]
            self.of[signal] = parts[0][1] if len(parts) == 1 else self.number(("cases", *parts))

    def number(self, key):
        return self.known.setdefault(key, len(self.known))

    def written(self, it):
        """The number of what one operation gives."""
        signal, *rest = it.fields
        kind = self.image.signals[signal].kind
        if kind == "event":
            return self.number(("value", 1))
        if it.kind == "Fun":
            operands = tuple(("value", part.value) if part.signal is None else self.source(part.signal) for part in rest[1])
            return operands[0] if rest[0] == "Id" and rest[1][0].signal is not None else self.number((rest[0], *operands))
        if it.kind == "Copy":
            return self.source(rest[0])
        if it.kind == "Const":
            return self.number(("value", rest[0]))
        return self.number(("memory", self.classes[rest[0]]) if it.kind == "DelayRead" else ("input", signal))

    def source(self, signal):
        """The number of a signal that is read; one of its own where it is read before the last that writes it."""
        return self.number(("value", 1)) if self.image.signals[signal].kind == "event" else self.of.get(signal, ("early", signal))


def classes_of(image):
    """For each memory the number of its class."""
    classes = numbered((it.kind, it.init) for it in image.memories)
    while True:
        values, stores = Values(image, classes), [[] for _ in image.memories]
        for it in image.operations:
            if it.kind == "Store":
                stores[it.fields[0]].append((it.guard, values.source(it.fields[1])))
        finer = numbered((before, tuple(stored)) for before, stored in zip(classes, stores))
        if finer == classes:
            return classes
        classes = finer


def numbered(keys):
    """For each key the number of the first one that is equal."""
    first = {}
    return [first.setdefault(key, len(first)) for key in keys]


def merged(image):
    """The image with one memory for each class."""
    classes = classes_of(image)
    if len(set(classes)) == len(classes):
        return image
    memories, last = {}, {}
    for number, it in zip(classes, image.memories):
        memories.setdefault(number, it)
    for at, it in enumerate(image.operations):
        if it.kind == "Store":
            last[classes[it.fields[0]]] = at
    operations = [renumbered(it, classes) for at, it in enumerate(image.operations) if it.kind != "Store" or last[classes[it.fields[0]]] == at]
    return image._replace(memories=[memories[it] for it in range(len(memories))], operations=operations)


def renumbered(it, classes):
    """An operation over classes in the place of memories."""
    if it.kind == "DelayRead":
        return it._replace(fields=(it.fields[0], classes[it.fields[1]]))
    return it._replace(fields=(classes[it.fields[0]], it.fields[1])) if it.kind == "Store" else it
