"""Programs over all constructs of docs/signal.md that come at one pace, each with what it computes, worked out by plain Python.

An expression is drawn as a pair: its text, and a node whose `run` gives its value at an instant from the values of names,
and which keeps its own memory. A branch runs its nodes only where it is taken, so its memories go on only there.
"""
import random

VALUES = ("low", "mid", "high")
SIZE = 3


class Node:
    """A value at each instant: a function of other nodes and of a memory that is updated with it."""

    def __init__(self, function, *parts, begin=None, after=None):
        self.function, self.parts, self.begin, self.after = function, parts, begin, after
        self.memory = begin

    def run(self, names):
        values = [it.run(names) for it in self.parts]
        if self.begin is None:
            return self.function(*values)
        found = self.function(self.memory, *values)
        self.memory = self.after(self.memory, *values)
        return found

    def reset(self):
        self.memory = self.begin
        for it in self.parts:
            it.reset()


class Name(Node):
    def __init__(self, name):
        super().__init__(None)
        self.name = name

    def run(self, names):
        return names[self.name]


def constant(value):
    return Node(lambda: value)


def shown(value):
    if isinstance(value, bool):
        return "true" if value else "false"
    if isinstance(value, list):
        return "[" + ",".join(map(shown, value)) + "]"
    return f"#{value}" if isinstance(value, str) else str(value)


def quotient(one, other):
    found = abs(one) // abs(other)
    return found if (one < 0) == (other < 0) else -found


class Drawn:
    """Expressions drawn by a seed over names of known kinds."""

    def __init__(self, seed, names):
        self.random, self.names = random.Random(seed), dict(names)

    def name(self, kind):
        found = self.random.choice([it for it, of in self.names.items() if of == kind])
        return found, Name(found)

    def of(self, kind, depth):
        makers = {"integer": self.integer, "boolean": self.boolean, "LEVEL": self.level, "row": self.row}
        return makers[kind](depth)

    def integer(self, depth):
        if depth <= 0:
            return self.name("integer")
        return self.random.choice([self.sum, self.product, self.choice, self.extreme, self.delay, self.count, self.element, self.sampled, self.held, self.absolute])(depth - 1)

    def sum(self, depth):
        (one, a), mark = self.integer(depth), self.random.choice("+-")
        if self.random.random() < 0.4:
            value = self.random.randint(-4, 9)
            return f"({one} {mark} {value})", Node(lambda x: x + value if mark == "+" else x - value, a)
        other, b = self.integer(depth)
        return f"({one} {mark} {other})", Node(lambda x, y: x + y if mark == "+" else x - y, a, b)

    def product(self, depth):
        (one, a), value = self.integer(depth), self.random.choice([2, 3, -5])
        if self.random.random() < 0.5:
            return f"({one} modulo {value})", Node(lambda x: x - quotient(x, value) * value, a)
        return f"({one} / {value})", Node(lambda x: quotient(x, value), a)

    def choice(self, depth, kind="integer"):
        (one, a), (two, b), (three, c) = self.boolean(depth), self.of(kind, depth), self.of(kind, depth)
        return f"(if {one} then {two} else {three})", Node(lambda x, y, z: y if x else z, a, b, c)

    def extreme(self, depth):
        word, (one, a), (other, b) = self.random.choice(["max", "min"]), self.integer(depth), self.integer(depth)
        function = max if word == "max" else min
        if self.random.random() < 0.3:
            text, row = self.row(depth)
            return f"{word}({text})", Node(function, row)
        return f"{word}({one}, {other}, 2)", Node(lambda x, y: function(x, y, 2), a, b)

    def absolute(self, depth):
        one, a = self.integer(depth)
        return f"abs({one})", Node(abs, a)

    def delay(self, depth):
        (one, a), count = self.integer(depth), self.random.randint(0, 3)
        inits = [self.random.randint(-3, 3) for _ in range(count)]
        if count < 2 or self.random.random() < 0.5:
            inits = inits[:1] * count
        told = f" init {inits[0]}" if count and inits == inits[:1] * count else f" init {shown(inits)}" if count else ""
        return f"({one} $ {count}{told})", Node(lambda memory, x: [*memory, x][0], a, begin=inits, after=lambda memory, x: [*memory, x][1:])

    def count(self, depth):
        size = self.random.randint(1, 4)
        word = self.name("integer")[0]
        return f"(({word} count {size}) + 0)", Node(lambda memory: memory % size, begin=0, after=lambda memory: memory + 1)

    def element(self, depth):
        (row, a), (index, b) = self.row(depth), self.integer(depth)
        if self.random.random() < 0.5:
            number = self.random.randrange(SIZE)
            return f"(({row})[{number}])", Node(lambda x: x[number], a)
        return f"(({row})[abs(({index}) modulo {SIZE})])", Node(lambda x, y: x[abs(y - quotient(y, SIZE) * SIZE)], a, b)

    def sampled(self, depth):
        (one, a), (when, b), (other, c) = self.integer(depth), self.boolean(depth), self.integer(depth)
        if self.random.random() < 0.3:
            return f"(({one} when {when}) default 7 + ({other} - ({other})))" if False else f"(({one} when {when}) default {other})", Node(lambda x, y, z: x if y else z, a, b, c)
        return f"(({one} when {when}) default {other})", Node(lambda x, y, z: x if y else z, a, b, c)

    def held(self, depth):
        (one, a), (when, b), begin = self.integer(depth), self.boolean(depth), self.random.randint(-2, 2)
        name = self.name("integer")[0]
        return (f"(({one} when {when}) cell ^{name} init {begin})",
                Node(lambda memory, x, y: x if y else memory, a, b, begin=begin, after=lambda memory, x, y: x if y else memory))

    def boolean(self, depth):
        if depth <= 0:
            return self.name("boolean")
        depth -= 1
        draw = self.random.randrange(6)
        if draw == 0:
            (one, a), mark, value = self.integer(depth), self.random.choice(["<", "<=", ">", ">=", "=", "/="]), self.random.randint(-3, 5)
            tests = {"<": lambda x: x < value, "<=": lambda x: x <= value, ">": lambda x: x > value, ">=": lambda x: x >= value, "=": lambda x: x == value, "/=": lambda x: x != value}
            return f"({one} {mark} {value})", Node(tests[mark], a)
        if draw == 1:
            (one, a), value = self.level(depth), self.random.choice(VALUES)
            return f"({one} = #{value})", Node(lambda x: x == value, a)
        if draw == 2:
            (one, a), (other, b), mark = self.boolean(depth), self.boolean(depth), self.random.choice(["and", "or", "xor"])
            return f"({one} {mark} {other})", Node({"and": lambda x, y: x and y, "or": lambda x, y: x or y, "xor": lambda x, y: x != y}[mark], a, b)
        if draw == 3:
            one, a = self.boolean(depth)
            return f"(not {one})", Node(lambda x: not x, a)
        if draw == 4:
            one, a = self.boolean(depth)
            return f"({one} $ init true)", Node(lambda memory, x: memory[0], a, begin=[True], after=lambda memory, x: [x])
        return self.choice(depth, "boolean")

    def level(self, depth):
        if depth <= 0 or self.random.random() < 0.3:
            return self.name("LEVEL")
        if self.random.random() < 0.3:
            (one, a), value = self.level(depth - 1), self.random.choice(VALUES)
            return f"({one} $ 1 init #{value})", Node(lambda memory, x: memory[0], a, begin=[value], after=lambda memory, x: [x])
        if self.random.random() < 0.5:
            (one, a), value, (other, b) = self.boolean(depth - 1), self.random.choice(VALUES), self.level(depth - 1)
            return f"(if {one} then #{value} else {other})", Node(lambda x, y: value if x else y, a, b)
        return self.choice(depth - 1, "LEVEL")

    def row(self, depth):
        if depth <= 0:
            return self.name("row")
        draw, depth = self.random.randrange(6), depth - 1
        if draw == 0:
            parts = [self.integer(depth) for _ in range(SIZE)]
            return "[" + ", ".join(text for text, _ in parts) + "]", Node(lambda *it: list(it), *(node for _, node in parts))
        if draw == 1:
            one, a = self.integer(depth)
            begin = [self.random.randint(0, 3) for _ in range(SIZE - 1)]
            return f"({one} window {SIZE} init {shown(begin)})", Node(lambda memory, x: [*memory, x], a, begin=begin, after=lambda memory, x: [*memory, x][1:])
        if draw == 2:
            (row, a), (index, b), (new, c) = self.row(depth), self.integer(depth), self.integer(depth)
            return f"(({index} : {new}) next {row})", Node(lambda x, y, z: [z if number == y else it for number, it in enumerate(x)], a, b, c)
        if draw == 3:
            (row, a), (one, b) = self.row(depth), self.integer(depth)
            return f"({row} + {one})", Node(lambda x, y: [it + y for it in x], a, b)
        if draw == 4:
            row, a = self.row(depth)
            return f"({row} $ 1 init 1)", Node(lambda memory, x: memory[0], a, begin=[[1] * SIZE], after=lambda memory, x: [x])
        return self.choice(depth, "row")


class Program:
    """A program with inputs of each kind, and outputs by expressions, a case, an automaton, an iteration and a call."""

    INPUTS = {"A": "integer", "B": "integer", "P": "boolean", "Q": "boolean", "L": "LEVEL", "R": "row"}

    def __init__(self, seed, depth=3):
        self.drawn = Drawn(seed, self.INPUTS)
        self.lines, self.nodes, self.outputs = [], [], []
        self.depth = depth
        for kind in ("integer", "boolean", "LEVEL", "row"):
            self.output(kind, *self.drawn.of(kind, depth))
        self.case()
        self.automaton()
        self.iteration()
        self.call()

    def output(self, kind, text, node):
        name = f"Y{len(self.outputs)}"
        self.lines.append(f"{name} := {text}")
        self.outputs.append((name, kind))
        self.nodes.append(lambda names: {name: node.run(names)})
        return name

    def case(self):
        """A result of which each branch has an expression with memories of its own."""
        name, chosen = f"Y{len(self.outputs)}", self.drawn.level(1)
        parts = [self.drawn.integer(self.depth - 1) for _ in VALUES]
        branches = " ".join(f"{{#{value}}}: {name} := {text}" for value, (text, _) in zip(VALUES[:2], parts))
        self.lines.append(f"case {chosen[0]} in {branches} else (| {name} := T + 1 | T := {parts[2][0]} |) where integer T; end end")
        self.outputs.append((name, "integer"))

        def run(names):
            taken = VALUES.index(chosen[1].run(names))
            return {name: parts[taken][1].run(names) + (taken == 2)}

        self.nodes.append(run)

    def automaton(self):
        """Three states with transitions drawn, of which each has an expression with memories."""
        state, name, draw = f"Y{len(self.outputs)}", f"Y{len(self.outputs) + 1}", self.drawn.random
        bodies = {it: self.drawn.integer(self.depth - 1) for it in VALUES}
        ways = {it: [(draw.choice(["unless", "until"]), *self.drawn.boolean(1), draw.choice(["go", "resume"]), draw.choice(VALUES)) for _ in range(draw.randint(0, 2))] for it in VALUES}
        for it in VALUES:
            ways[it].sort(key=lambda way: way[0] != "unless")
        text = " ".join(f"state {it} do {name} := {bodies[it][0]} " + " ".join(f"{way[0]} {way[1]} {way[3]} {way[4]}" for way in ways[it]) for it in VALUES)
        self.lines += [f"automaton {state} {text} end", f"{state} ^= A"]
        self.outputs += [(state, "LEVEL"), (name, "integer")]
        at = {"entry": VALUES[0], "anew": False, "seen": {}}

        def taken(source, word, names):
            # Every condition that is looked at goes on with its memory; the first one that is true counts.
            found = [(way[3] == "go", way[4]) for way in ways[source] if way[0] == word and way[2].run(names)]
            return found[0] if found else None

        def run(names):
            strong = taken(at["entry"], "unless", names)
            anew, active = strong or (at["anew"], at["entry"])
            if anew:
                for it in [bodies[active][1], *(way[2] for way in ways[active] if way[0] == "until")]:
                    it.reset()
            value = bodies[active][1].run(names)
            weak = taken(active, "until", names)
            at["anew"], at["entry"] = weak or (False, active)
            return {state: active, name: value}

        self.nodes.append(run)

    def iteration(self):
        """A running sum over the elements of an array, with an index in it."""
        name, (text, node), (first, begin) = f"Y{len(self.outputs)}", self.drawn.row(1), self.drawn.integer(1)
        self.lines += [f"W := {text}", f"array I to N - 1 of {name} := {name}[?] + W[I] * (I + 1) with {name} := {first} end"]
        self.outputs.append((name, "row"))

        def run(names):
            found, before = [], begin.run(names)
            for number, it in enumerate(node.run(names)):
                before += it * (number + 1)
                found.append(before)
            return {name: found}

        self.nodes.append(run)

    def call(self):
        """Calls with parameters inside an expression."""
        (one, a), (other, b) = self.drawn.integer(1), self.drawn.integer(1)
        total = Node(lambda memory, x: memory + 2 * x, a, begin=5, after=lambda memory, x: memory + 2 * x)
        other_total = Node(lambda memory, x: memory + 3 * x, b, begin=-1, after=lambda memory, x: memory + 3 * x)
        self.output("integer", f"SUM{{2, M + 1}}({one}) - SUM{{N, -1}}({other})", Node(lambda x, y: x - y, total, other_total))

    def text(self):
        kinds = {"integer": "integer", "boolean": "boolean", "LEVEL": "LEVEL", "row": "[N] integer"}
        inputs = "; ".join(f"{kinds[kind]} {name}" for name, kind in self.INPUTS.items())
        outputs = "; ".join(f"{kinds[kind]} {name}" for name, kind in self.outputs)
        lines = "\n | ".join([" ^= ".join(self.INPUTS), *self.lines])
        return (
            f"type LEVEL = enum ({', '.join(VALUES)});\nconstant integer N = {SIZE}, M = N + 1;\n"
            f"process P = (? {inputs} ! {outputs})\n(| {lines}\n |)\nwhere [N] integer W;\n"
            "  process SUM = { integer K, FIRST; } (? integer X ! integer Y)\n"
            "    (| Y := ZY + K * X | ZY := Y $ 1 init FIRST |) where integer ZY; end;\nend;\n"
        )

    def flows(self, count):
        draw = self.drawn.random
        makers = {"integer": lambda: draw.randint(-6, 9), "boolean": lambda: draw.random() < 0.5, "LEVEL": lambda: draw.choice(VALUES), "row": lambda: [draw.randint(-4, 6) for _ in range(SIZE)]}
        return [{name: makers[kind]() for name, kind in self.INPUTS.items()} for _ in range(count)]

    def wanted(self, flows):
        """What a run writes."""
        lines = []
        for names in flows:
            found = {}
            for run in self.nodes:
                found.update(run(names))
            lines += [f"{name} {shown(found[name])}" for name, _ in self.outputs]
        return lines


def flow_file(flows):
    return "".join(f"{name} {' '.join(shown(it[name]) for it in flows)}\n" for name in flows[0])
