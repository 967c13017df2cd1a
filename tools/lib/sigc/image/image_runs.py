"""Runs of an image in Python, an instant at a time, with the inputs given as they are read.

The operations of the image become one function of Python, in their order. It reads no formula of prove/, so claims can be
attacked with it; whether it runs as sigc does is tested, and nothing that it finds is said before sigc has run it.
"""
from sigc.c.expressions import LEAST, MOST

MARKS = {"Eq": "==", "Ne": "!=", "Lt": "<", "Le": "<=", "Gt": ">", "Ge": ">=", "Add": "+", "Sub": "-", "Mul": "*", "And": "&", "Or": "|", "Xor": "^"}
CHECKED = ("Add", "Sub", "Mul", "Neg", "Div")


class Failed(Exception):
    """The operation, by its number, that has no value, and what befell it."""

    def __init__(self, order, what):
        super().__init__(order, what)
        self.order, self.what = order, what


def quotient(a, b):
    """Toward zero."""
    whole = abs(a) // abs(b)
    return whole if (a < 0) == (b < 0) else -whole


class Writer:
    """Writes the function. The variable s3 is signal 3, None where it is absent, m3 memory 3, and n3 node 3."""

    def __init__(self, image, is_counted):
        self.image, self.is_counted, self.lines, self.settled = image, is_counted, [], set()
        self.shown = f"({''.join(f's{it}, ' for it in range(len(image.signals)))})"
        self.last = {it.fields[0]: order for order, it in enumerate(image.operations) if it.kind != "Store"}

    def text(self):
        count = len(self.image.signals)
        memories = [f"m{it}" for it in range(len(self.image.memories))]
        self.lines = [f"def instant(memories, read, done, values):\n    {' = '.join(f's{it}' for it in range(count))} = None"]
        self.lines += [f"    {it} = f{it[1:]} = memories[{it[1:]}]" for it in memories]
        for order, it in enumerate(self.image.operations):
            if it.guard:
                self.do(order, it)
        self.lines.append(f"    values[:] = {self.shown}\n    return [{', '.join(f'f{it[1:]}' for it in memories)}]")
        return "\n".join(self.lines)

    def guard(self, child, order):
        """The test of a guard. A node is computed once, when all conditions that it asks are known."""
        todo, found = [child], []
        while todo:
            at = todo.pop()
            if at > 1 and at not in self.settled and at not in found:
                found.append(at)
                todo += [self.image.nodes[at - 2].low, self.image.nodes[at - 2].high]
        for at in sorted(found):
            node = self.image.nodes[at - 2]
            signal = self.image.conditions[node.condition]
            self.lines.append(f"    n{at} = {self.child(node.high)} if s{signal} else {self.child(node.low)}")
            if self.last.get(signal, -1) < order and all(it < 2 or it in self.settled for it in (node.low, node.high)):
                self.settled.add(at)
        return self.child(child)

    def child(self, at):
        return f"n{at}" if at > 1 else str(at == 1)

    def do(self, order, it):
        test = self.guard(it.guard, order)
        lines = [*self.done(order, it), *([f"done[{order}] += 1"] if self.is_counted else [])]
        if test != "True":
            self.lines.append(f"    if {test}:")
        self.lines += [f"    {'' if test == 'True' else '    '}{line}" for line in lines]

    def done(self, order, it):
        """The lines of one operation."""
        first, *rest = it.fields
        if it.kind == "Store":
            return [f"f{first} = s{rest[0]}"]
        if it.kind == "Read":
            return [f"s{first} = read({first})"]
        if it.kind == "Fun":
            return self.function(order, first, *rest)
        value = {"Copy": f"s{rest[0]}", "Const": f"{rest[0]}", "DelayRead": f"m{rest[0]}"}[it.kind]
        return [f"s{first} = {value}"]

    def function(self, order, target, name, operands):
        a, b = [f"({it.value})" if it.signal is None else f"s{it.signal}" for it in (operands[0], operands[-1])]
        if name in MARKS:
            value = f"{a} {MARKS[name]} {b}"
            value = f"int({value})" if name in ("Eq", "Ne", "Lt", "Le", "Gt", "Ge") else value
        else:
            value = {"Id": a, "Neg": f"-{a}", "Not": f"1 - {a}", "Div": f"quotient({a}, {b})", "Mod": f"{a} - quotient({a}, {b}) * {b}"}[name]
        lines = [f"if {b} == 0: {self.failing(order, 'division by zero')}"] if name in ("Div", "Mod") else []
        lines.append(f"s{target} = {value}")
        return lines + ([f"if not {LEAST} <= s{target} <= {MOST}: s{target} = None; {self.failing(order, 'overflow')}"] if name in CHECKED else [])

    def failing(self, order, what):
        """Ends the instant, with the values that it has by now."""
        return f"values[:] = {self.shown}; raise Failed({order}, {what!r})"


class ImageRun:
    """What the memories hold, instant by instant. `done` counts how often each operation was done in instants that ended."""

    def __init__(self, image, is_counted=False):
        self.image = image
        known = {"quotient": quotient, "Failed": Failed}
        exec(Writer(image, is_counted).text(), known)
        self.function = known["instant"]
        self.start()
        self.done, self.values = [0] * len(image.operations), []

    def start(self):
        """Begins a run anew."""
        self.memories = [it.init for it in self.image.memories]

    def instant(self, read):
        """What the memories hold after one instant, whose values are then in `values`, None for what is absent; `read`
        gives the value of an input by its number, 1 for an event. Failed where an operation has none."""
        return self.function(self.memories, read, self.done, self.values)

    def named(self):
        """The values of the last instant by the names of the signals that are present."""
        return {it.name: value for it, value in zip(self.image.signals, self.values) if value is not None}


def last_of(image, name):
    """The last operation that may write a signal."""
    return max((at for at, it in enumerate(image.operations) if it.kind != "Store" and image.signals[it.fields[0]].name == name), default=-1)


def constants_of(image):
    """The numbers of a program, with those beside them."""
    found = {0, 1, -1, 2, 7}
    for it in image.operations:
        found |= {part.value for part in it.fields[2] if part.signal is None} if it.kind == "Fun" else {it.fields[1]} if it.kind == "Const" else set()
    found |= {it.init for it in image.memories}
    return sorted({min(max(it + d, LEAST), MOST) for it in found for d in (-1, 0, 1)})
