"""Boolean functions of an image's conditions, as reduced ordered decision diagrams.

A function is a number: 0 is false, 1 is true, and others are nodes, each with the place of its condition and its
children for false and for true. Equal functions have equal numbers.
"""
import sys

# A diagram is at most as deep as there are conditions.
sys.setrecursionlimit(max(sys.getrecursionlimit(), 20_000))
LAST = 1 << 30


class Diagrams:
    """The nodes that were made so far."""

    def __init__(self):
        self.nodes, self.numbers, self.chosen, self.supports = [(LAST, 0, 0), (LAST, 1, 1)], {}, {}, {}

    def node(self, condition, low, high):
        """The function that is `low` where the condition is false, and `high` where it is true."""
        if low == high:
            return low
        key = condition, low, high
        if key not in self.numbers:
            self.numbers[key] = len(self.nodes)
            self.nodes.append(key)
        return self.numbers[key]

    def literal(self, condition):
        return self.node(condition, 0, 1)

    def top(self, f):
        return self.nodes[f][0]

    def children(self, f, condition):
        """What a function is where a condition, which stands at its top or above, is false and true."""
        top, low, high = self.nodes[f]
        return (low, high) if top == condition else (f, f)

    def choice(self, f, g, h):
        """`g` where `f` is true, and `h` where it is false."""
        if f < 2:
            return g if f else h
        if g == h or (g, h) == (1, 0):
            return g if g == h else f
        key = f, g, h
        if key not in self.chosen:
            condition = min(self.top(f), self.top(g), self.top(h))
            (f0, f1), (g0, g1), (h0, h1) = (self.children(it, condition) for it in key)
            self.chosen[key] = self.node(condition, self.choice(f0, g0, h0), self.choice(f1, g1, h1))
        return self.chosen[key]

    def both(self, f, g):
        return self.choice(f, g, 0)

    def either(self, f, g):
        return self.choice(f, 1, g)

    def negated(self, f):
        return self.choice(f, 0, 1)

    def without(self, f, g):
        """`f` where `g` is false."""
        return self.choice(g, 0, f)

    def implies(self, f, g):
        return self.choice(f, g, 1) == 1

    def within(self, f, care):
        """A function, as small as may be, that is `f` where `care` is true; `care` is not false everywhere."""
        if care == 1 or f < 2:
            return f
        key = "within", f, care
        if key not in self.chosen:
            self.chosen[key] = self.narrowed(f, care)
        return self.chosen[key]

    def narrowed(self, f, care):
        condition = min(self.top(f), self.top(care))
        (f0, f1), (care0, care1) = self.children(f, condition), self.children(care, condition)
        if care0 == 0:
            return self.within(f1, care1)
        if care1 == 0:
            return self.within(f0, care0)
        if f0 == f1:
            return self.within(f, self.either(care0, care1))
        return self.node(condition, self.within(f0, care0), self.within(f1, care1))

    def support(self, f):
        """The conditions that a function depends on, as the bits of a number."""
        if f < 2:
            return 0
        if f not in self.supports:
            condition, low, high = self.nodes[f]
            self.supports[f] = 1 << condition | self.support(low) | self.support(high)
        return self.supports[f]
