"""Programs drawn at random about the ends of 64 bits, with flows that are short: most of their runs end with an overflow, a
division by zero, or an input that is exhausted."""
from programs import Program

MOST = (1 << 63) - 1
ENDS = (MOST, -MOST, MOST - 1, 1 - MOST, MOST // 2, MOST // 2 + 1, -(MOST // 2) - 1, 3037000499, -3037000500, 1 << 31, -(1 << 31), (1 << 32) - 1)
NEAR = (0, 0, 1, 1, -1, -1, 2, -2, 3, 5, -7, 10)


class Edge(Program):
    """A program whose numbers lie near 0 or near an end, with more quotients, remainders and products."""

    def number(self):
        return self.draws.choice(ENDS if self.draws.random() < 0.3 else NEAR)

    def value(self):
        """A value of an integer input; the least one has no number in a program, and one in a flow."""
        return self.draws.choice((*ENDS, -MOST - 1, -MOST - 1)) if self.draws.random() < 0.3 else self.draws.choice(NEAR)

    def step(self):
        self.draws.choice((self.function, self.function, super().step))()

    def function(self):
        name, clock = self.some("integer")
        other = self.some("integer", clock)[0]
        right = self.draws.choice((other, other, self.number()))
        draw = self.draws.random()
        if draw < 0.6:
            self.defined("integer", clock, f"{name} {self.draws.choice('+ + - - * * / modulo'.split())} {right}")
        elif draw < 0.7:
            self.defined("integer", clock, f"- {name}")
        else:
            self.defined("boolean", clock, f"{name} {self.draws.choice('< <= > >= = /='.split())} {right}")

    def flows(self):
        """The text of flows for it: few values, of which those of 64 bits are some."""
        lines = []
        for kind, name in self.inputs:
            count = self.draws.choice((0, 1, 2, 5, 9, 9, 17, 25, 25))
            values = [str(self.value()) if kind == "integer" else self.draws.choice(("true", "false")) for _ in range(count)]
            lines.append(" ".join([name, *values]))
        return "\n".join(lines) + "\n"
