"""Systems drawn at random over programs drawn at random, run in drawn orders of instants, and composed as calls of one program.

A run in a drawn order takes one instant of one program after another, by images in Python, with links of any length. It shares
nothing with the scripts but their reader of systems.
"""
import random

from sigc.image.image_runs import Failed, ImageRun
from sigc.system.network import Outside

KINDS = ("integer", "boolean")


class Program:
    """A program in the making: one clock, outputs that come at every instant or at some; with is_early it gives a value before it reads."""

    def __init__(self, name, draws, is_early):
        self.name, self.draws, self.is_early = name, draws, is_early
        self.inputs = [("integer", "A"), *((draws.choice(KINDS), name) for name in "BC"[: draws.randrange(3)])]
        self.outputs, self.locals, self.equations = [], ["integer OLD"], []
        self.equations.append("OLD := A $ init 1")
        self.equations += [f"{name} ^= A" for _, name in self.inputs[1:]]
        for number in range(draws.randrange(1, 4)):
            self.output(f"Y{number}")
        if is_early:
            self.begin_early()

    def value(self, kind):
        """An expression at every instant of A."""
        names = [name for of, name in self.inputs if of == kind] + (["OLD"] if kind == "integer" else [])
        one = self.draws.choice(names or [f"(A > {self.draws.randrange(-3, 9)})"])
        other = self.draws.choice([*names, *(str(self.draws.randrange(1, 9)) for _ in "12")]) if kind == "integer" else f"(OLD < {self.draws.randrange(9)})"
        marks = ("+", "-", "*", "/", "modulo") if kind == "integer" else ("and", "or", "xor")
        return f"({one} {self.draws.choice(marks[: self.draws.choice((3, 5))])} {other})"

    def output(self, name):
        kind = self.draws.choice(KINDS)
        rarely = f" when ((A modulo {self.draws.randrange(2, 5)}) /= {self.draws.randrange(3)})" if self.draws.random() < 0.4 else ""
        self.outputs.append((kind, name))
        self.equations.append(f"{name} := {self.value(kind)}{rarely}")

    def begin_early(self):
        """At first a value of the first output, whose kind is then integer, and nothing is read."""
        self.outputs[0] = "integer", "Y0"
        self.equations = [it for it in self.equations if not it.startswith("Y0 ")]
        self.locals += ["boolean IS_FIRST", "boolean NEXT"]
        self.equations += ["IS_FIRST := NEXT $ init true", "NEXT := IS_FIRST and (not IS_FIRST)", "A ^= when (not IS_FIRST)"]
        self.equations.append(f"Y0 := {self.value('integer')} default ({self.draws.randrange(5)} when IS_FIRST)")

    def text(self):
        ports = lambda found: "; ".join(f"{kind} {name}" for kind, name in found)
        return f"process {self.name} = (? {ports(self.inputs)} ! {ports(self.outputs)})\n(| " + "\n | ".join(self.equations) + f"\n |)\nwhere {'; '.join(self.locals)}; end;\n"


class System:
    """A system: programs, instances with the sources of their inputs, flows of its inputs. Each output of an instance is one of it."""

    def __init__(self, seed):
        draws = self.draws = random.Random(seed)
        self.has_circle = draws.random() < 0.4
        self.programs = [Program(f"P{it}", draws, self.has_circle and it == 0) for it in range(draws.randrange(1, 4))]
        self.inputs = [("integer", "X0"), ("boolean", "X1"), ("integer", "X2")]
        self.instances = [draws.choice(self.programs) for _ in range(draws.randrange(1, 6))]
        self.instances[:0] = self.programs[: self.has_circle]
        self.sources = [[self.source(number, kind) for kind, _ in it.inputs] for number, it in enumerate(self.instances)]
        self.inputs = [it for it in self.inputs if it[1] in {name for row in self.sources for name in row}]
        self.outputs = [(kind, f"U{number}_{name}", f"N{number}.{name}") for number, it in enumerate(self.instances) for kind, name in it.outputs]
        self.flows = {name: [self.drawn(kind) for _ in range(draws.randrange(12))] for kind, name in self.inputs}

    def source(self, number, kind):
        """An input of the system, or an output of an earlier instance; where there are circles of any one."""
        found = [name for of, name in self.inputs if of == kind]
        earlier = range(len(self.instances)) if self.has_circle else range(number)
        found += [f"N{it}.{name}" for it in earlier for of, name in self.instances[it].outputs if of == kind]
        return self.draws.choice(found)

    def drawn(self, kind):
        if kind == "boolean":
            return self.draws.choice(("true", "false"))
        return str(self.draws.choice((self.draws.randrange(-9, 30), self.draws.randrange(-9, 30), 0, 1 << 62)))

    def text(self):
        ports = lambda found: "; ".join(f"{it[0]} {it[1]}" for it in found)
        lines = [f"system S = (? {ports(self.inputs)} ! {ports(self.outputs)})"]
        lines += [f'N{number} := "{it.name}.sig"({", ".join(row)})' for number, (it, row) in enumerate(zip(self.instances, self.sources))]
        return "\n".join(lines + [f"{name} := {source}" for _, name, source in self.outputs]) + "\n"

    def flow_text(self):
        return "".join(f"{' '.join([name, *self.flows[name]])}\n" for _, name in self.inputs)

    def composed(self):
        """One program that calls them all."""
        ports = lambda found: "; ".join(f"{it[0]} {it[1]}" for it in found)
        calls = []
        for number, (it, row) in enumerate(zip(self.instances, self.sources)):
            lefts = ", ".join(f"U{number}_{name}" for _, name in it.outputs)
            calls.append(f"({lefts}) := {it.name}({', '.join('U' + source[1:].replace('.', '_') if '.' in source else source for source in row)})")
        called = "".join("  " + it.text().replace("\n", "\n  ").rstrip() + "\n" for it in self.programs)
        return f"process ALL = (? {ports(self.inputs)} ! {ports(self.outputs)})\n(| " + "\n | ".join(calls) + f"\n |)\nwhere\n{called}end;\n"


class NoValue(Exception):
    """An input has no value yet."""


class Order:
    """A run in a drawn order: the nodes of a network with queues between them."""

    def __init__(self, network, flows, draws, limit):
        self.network, self.draws, self.limit = network, draws, limit
        self.runs = [ImageRun(it.program.image) for it in network.nodes]
        self.given = [{number: [] for number in range(it.program.image.inputs, it.program.image.inputs + it.program.image.outputs)} for it in network.nodes]
        self.flows = {source: [value_of(word) for word in flow] for source, (flow,) in flows.items()}
        self.taken = [[0] * it.program.image.inputs for it in network.nodes]
        self.instants = [0] * len(network.nodes)
        self.go()

    def flow(self, source):
        return self.flows[source] if isinstance(source, Outside) else self.given[source.node][self.network.nodes[source.node].program.outputs[source.port].signals[0]]

    def go(self):
        """Lets nodes do instants until none can do one."""
        able = list(range(len(self.runs)))
        while able:
            number = self.draws.choice(able)
            if any(self.instant(number) for _ in range(self.draws.randrange(1, 5))):
                able = list(range(len(self.runs)))
            else:
                able.remove(number)

    def instant(self, number):
        """Whether a node did an instant."""
        if self.instants[number] == self.limit:
            return False
        read = []
        try:
            self.runs[number].memories = self.runs[number].instant(lambda it: self.read(number, it, read))
        except (NoValue, Failed):
            return False
        for it in read:
            self.taken[number][it] += 1
        for signal, flow in self.given[number].items():
            if self.runs[number].values[signal] is not None:
                flow.append(self.runs[number].values[signal])
        self.instants[number] += 1
        return True

    def read(self, number, at, read):
        flow = self.flow(self.network.nodes[number].sources[at])
        if self.taken[number][at] == len(flow):
            raise NoValue
        read.append(at)
        return flow[self.taken[number][at]]


def value_of(word):
    return {b"true": 1, b"false": 0}.get(word) if word in (b"true", b"false") else int(word)
