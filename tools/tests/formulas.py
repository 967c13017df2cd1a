"""The formulas of an instant, evaluated by a reader of their own: so runs by them can be compared with runs by sigc."""
import re

TOKEN = re.compile(r"[()]|[^\s()]+")


def tree_of(text):
    """A formula as nested lists of words."""
    stack = [[]]
    for it in TOKEN.findall(text):
        if it == "(":
            stack.append([])
        elif it == ")":
            done = stack.pop()
            stack[-1].append(done)
        else:
            stack[-1].append(it)
    return stack[0][0]


def divided(a, b):
    """The quotient of which the rest is not negative; 0 where the divisor is 0."""
    return 0 if b == 0 else (a - a % abs(b)) // b


OF_ALL = {
    "and": all, "or": any, "+": sum, "distinct": lambda parts: parts[0] != parts[1],
    "=": lambda parts: parts[0] == parts[1], "xor": lambda parts: parts[0] != parts[1], "not": lambda parts: not parts[0],
    "<": lambda parts: parts[0] < parts[1], ">": lambda parts: parts[0] > parts[1], ">=": lambda parts: parts[0] >= parts[1],
    "<=": lambda parts: all(a <= b for a, b in zip(parts, parts[1:])),
    "-": lambda parts: -parts[0] if len(parts) == 1 else parts[0] - parts[1], "*": lambda parts: parts[0] * parts[1],
    "div": lambda parts: divided(*parts), "ite": lambda parts: parts[1] if parts[0] else parts[2],
}


def value(tree, known):
    if isinstance(tree, str):
        if tree in ("true", "false"):
            return tree == "true"
        return int(tree) if tree.isdigit() else known[tree]
    return OF_ALL[tree[0]]([value(it, known) for it in tree[1:]])


class Runner:
    """A run by the formulas of an instant over flows: its text and its end, as sigc writes them."""

    def __init__(self, step):
        self.step, self.image = step, step.image
        self.definitions = [(it.name, tree_of(f"({it.term})")[0] if " " not in it.term else tree_of(it.term)) for it in step.definitions]

    def of(self, term, known):
        return value(tree_of(term) if term.startswith("(") else term, known)

    def run(self, flows, limit):
        known, text, taken = {it.name: self.of(it.init, {}) for it in self.step.memories}, [], dict.fromkeys(flows, 0)
        for number in range(limit):
            for it in self.step.reads:
                name = self.image.signals[it.signal].name
                known[it.name] = flows[name][taken[name]] if taken[name] < len(flows[name]) else 0
            for name, tree in self.definitions:
                known[name] = value(tree, known)
            causes = list(self.causes(known, flows, taken))
            if causes:
                return "".join(text), f"end: {min(causes)[1]} after {number} instants\n"
            text += self.lines(known)
            for it in self.step.reads:
                taken[self.image.signals[it.signal].name] += self.of(it.guard, known)
            known |= {name: self.of(term, known) for name, term in self.step.following.items()}
        return "".join(text), f"end: limit after {limit} instants\n"

    def causes(self, known, flows, taken):
        """What ends the run here: the place of the operation, and the words."""
        for it in self.step.reads:
            name = self.image.signals[it.signal].name
            if self.of(it.guard, known) and taken[name] == len(flows[name]):
                yield it.order, f"input {name} exhausted"
        for it in self.step.faults:
            if self.of(it.when, known):
                yield it.order, f"{it.what} at {it.line}:{it.column}"

    def lines(self, known):
        for number in range(self.image.inputs, self.image.inputs + self.image.outputs):
            signal, seen = self.image.signals[number], self.step.seen_of(number)
            if self.of(seen.there, known):
                found = self.of(seen.value, known)
                yield f"{signal.name} {int(found) if signal.kind == 'integer' else 'true' if found else 'false'}\n"
