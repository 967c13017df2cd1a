"""Programs drawn at random, with flows: most of them are accepted, on several clocks, with calls inside calls."""
import random

MODELS = """
  process COUNT = {integer MAX} (? boolean R ! integer N)
  (| N := (0 when R) default (MAX when FULL) default (ZN + 1)
   | ZN := N $ | FULL := ZN >= MAX | N ^= R |)
  where integer ZN init MAX; boolean FULL; end;
  process HOLD = {integer FIRST} (? integer X; boolean AT ! integer Y)
  (| Y := X cell AT init FIRST |);
  process EDGE = {boolean FIRST} (? boolean B ! event UP; boolean WAS init FIRST)
  (| WAS := B $ | UP := when (B and not WAS) |);
  process BOTH = {integer LOW, HIGH} (? integer X; boolean R ! boolean OUT; integer N)
  (| OUT := X < LOW or X > HIGH | (| RISE := R when OUT | N := COUNT{HIGH}(INNER) |) | INNER := RISE default (not OUT) |)
  where boolean RISE, INNER; end;
"""


class Program:
    """A program in the making: its signals by kind and clock, its declarations and its equations.

    A clock is a list of the conditions that were sampled by, so a shorter list that begins it is a clock above it.
    """

    def __init__(self, seed):
        self.draws = random.Random(seed)
        self.signals = {"integer": [], "boolean": []}
        self.inputs, self.outputs, self.locals, self.equations = [], [], [], []
        root = self.input("boolean", ())
        for _ in range(self.draws.randrange(3)):
            self.equations.append(f"{self.input(self.draws.choice(('integer', 'boolean')), ())} ^= {root}")
        self.counter(root)
        for _ in range(self.draws.randrange(2, 14)):
            self.step()

    def fresh(self):
        return f"S{len(self.inputs) + len(self.outputs) + len(self.locals)}"

    def input(self, kind, clock):
        """A new input; what it is sampled by is said by an equation."""
        name = self.fresh()
        self.inputs.append((kind, name))
        self.signals[kind].append((name, clock))
        return name

    def defined(self, kind, clock, right, init=""):
        """A new output or local with this definition."""
        name = self.fresh()
        self.draws.choice((self.outputs, self.locals)).append((kind, name + init))
        if kind in self.signals:
            self.signals[kind].append((name, clock))
        self.equations.append(f"{name} := {right}")
        return name

    def some(self, kind, clock=None):
        """A signal of a kind, on this clock where one is asked for; None where there is none."""
        found = [it for it in self.signals[kind] if clock is None or it[1] == clock]
        return self.draws.choice(found) if found else None

    def counter(self, root):
        name, step = self.fresh(), self.draws.randrange(-2, 4)
        self.outputs.append(("integer", name))
        self.signals["integer"].append((name, ()))
        self.equations += [f"{name} := ({name} $ init {self.number()}) + {step}", f"{name} ^= {root}"]

    def number(self):
        return self.draws.choice((0, 1, 2, 3, -1, -7, 100, 9223372036854775807 if self.draws.random() < 0.05 else 5))

    def step(self):
        """Something more: a function, a delay, a sampling, an input of a slower clock, a merge, a call."""
        self.draws.choice((self.function, self.function, self.delay, self.sample, self.slower, self.merge, self.call, self.call, self.event))()

    def function(self):
        name, clock = self.some("integer")
        other = self.some("integer", clock)[0]
        if self.draws.random() < 0.5:
            operator = self.draws.choice("+ - * + -".split() + ["/", "modulo"])
            right = other if operator not in ("/", "modulo") else self.draws.choice((other, "3", "-2"))
            self.defined("integer", clock, f"{name} {operator} {right}")
        else:
            self.defined("boolean", clock, f"{name} {self.draws.choice('< <= > >= = /='.split())} {self.draws.choice((other, self.number()))}")

    def delay(self):
        kind = self.draws.choice(("integer", "boolean"))
        name, clock = self.some(kind)
        init = self.number() if kind == "integer" else self.draws.choice(("true", "false"))
        if self.draws.random() < 0.5:
            self.defined(kind, clock, f"{name} $ 1 init {init}")
        else:
            self.defined(kind, clock, f"{name} $", f" init {init}")

    def sample(self):
        condition, clock = self.some("boolean")
        kind = self.draws.choice(("integer", "boolean"))
        sampled = self.some(kind, clock)
        if sampled:
            self.defined(kind, (*clock, condition), f"{sampled[0]} when {condition}")

    def slower(self):
        condition, clock = self.some("boolean")
        if len(clock) < 3:
            name = self.input(self.draws.choice(("integer", "boolean")), (*clock, condition))
            self.equations.append(f"{name} ^= when {condition}")

    def merge(self):
        kind = self.draws.choice(("integer", "boolean"))
        name, clock = self.some(kind)
        above = [it for it in self.signals[kind] if clock[: len(it[1])] == it[1] and it[1] != clock]
        if above:
            other, under = self.draws.choice(above)
            if kind == "integer" and self.draws.random() < 0.5:
                self.defined(kind, under, f"{name} cell ^{other} init {self.number()}")
            else:
                self.defined(kind, under, f"{name} default {other}")

    def event(self):
        condition, clock = self.some("boolean")
        other = self.some("boolean", clock)[0]
        self.defined("event", clock, self.draws.choice((f"when {condition}", f"when ({condition} and not {other})", f"^{condition}", f"^{condition} ^- (when {other})")))

    def call(self):
        truth, clock = self.some("boolean")
        integer = self.some("integer", clock)
        model = self.draws.choice(("COUNT", "EDGE", "HOLD", "BOTH"))
        if model == "COUNT":
            self.defined("integer", clock, f"COUNT{{{self.draws.randrange(1, 4)}}}(not {truth})")
        elif model == "EDGE":
            self.several((("event", clock), ("boolean", clock)), f"EDGE{{{self.draws.choice(('true', 'false'))}}}({truth})")
        elif integer and model == "HOLD":
            self.several((("integer", clock),), f"HOLD{{{self.number()}}}({integer[0]} when {truth}, ^{truth})")
        elif integer:
            self.several((("boolean", clock), ("integer", clock)), f"BOTH{{-3, {self.draws.randrange(1, 9)}}}({integer[0]} + 1, {truth})")

    def several(self, results, right):
        """New signals that one call defines."""
        names = []
        for kind, clock in results:
            names.append(self.fresh())
            self.draws.choice((self.outputs, self.locals)).append((kind, names[-1]))
            if kind in self.signals:
                self.signals[kind].append((names[-1], clock))
        self.equations.append(f"{names[0] if len(names) == 1 else '(' + ', '.join(names) + ')'} := {right}")

    def text(self):
        """The text of the program."""
        declared = ["; ".join(f"{kind} {name}" for kind, name in it) for it in (self.inputs, self.outputs, self.locals)]
        names = [name.split(" ")[0] for _, name in self.outputs]
        pragmas = ""
        if len(names) > 1 and self.draws.random() < 0.3:
            pragmas = f'pragmas RunOn {{{", ".join(self.draws.sample(names, 2))}}} "1" end pragmas\n'
        where = f"{declared[2]}; " if declared[2] else ""
        equations = "\n | ".join(self.equations)
        return f"process DRAWN = (? {declared[0]} ! {declared[1]})\n{pragmas}(| {equations}\n |)\nwhere {where}{MODELS}end;\n"

    def flows(self):
        """The text of flows for it, now and then of version 2."""
        is_counted = self.draws.random() < 0.3
        lines = ["flows 2"] if is_counted else []
        for kind, name in self.inputs:
            count = self.draws.randrange(4, 25)
            values = [str(self.draws.randrange(-20, 21)) if kind == "integer" else self.draws.choice(("true", "false")) for _ in range(count)]
            lines.append(" ".join([name, *(f"{it}*{self.draws.randrange(1, 4)}" if is_counted and self.draws.random() < 0.5 else it for it in values)]))
        return "\n".join(lines) + "\n"
