"""Guards as expressions of C, from the booleans that the text has computed before.

A guard that equals such a boolean, where that is asked, is that boolean; one that two of them joined equal is these. Any
other is split at its first condition.
"""
from sigc.c import expressions

# How many booleans are tried for a pair, and how large a diagram stands in one expression.
MOST_TRIED = 48
MOST_NODES = 6


class Guards:
    """The booleans that are known at a place of the text, each with the function that it is."""

    def __init__(self, diagrams):
        self.diagrams, self.known, self.places = diagrams, {}, {}

    def add(self, function, value, place=1):
        """A boolean that is this function at every later place where `place` holds; the first one of a function is kept."""
        if function > 1 and function not in self.known:
            self.known[function], self.places[function] = value, place

    def at(self, function, care):
        """The known boolean that is a function, if it may be asked where `care` holds."""
        is_there = function in self.known and self.diagrams.implies(care, self.places[function])
        return self.known[function] if is_there else None

    def literals(self, wanted, care):
        """The known booleans and their negations that depend on no other condition than a function does."""
        support = self.diagrams.support(wanted)
        for function, value in self.known.items():
            if self.diagrams.support(function) & ~support == 0 and self.at(function, care):
                yield function, value
                yield self.diagrams.negated(function), expressions.negation(value)

    def simple(self, function, care):
        """The expression where it is a constant, a known boolean or the negation of one; None where it is none."""
        both = self.diagrams.both
        wanted = both(function, care)
        if wanted in (0, care):
            return expressions.constant(int(wanted != 0))
        for one, is_negated in ((function, False), (self.diagrams.negated(function), True), (wanted, False)):
            value = self.at(one, care)
            if value:
                return expressions.negation(value) if is_negated else value
        narrow = self.diagrams.within(function, care)
        found = [value for one, value in self.literals(narrow, care) if both(one, care) == wanted]
        found = found or [value for one, value in self.literals(wanted, care) if both(one, care) == wanted]
        return min(found, key=lambda it: len(it.text)) if found else None

    def pair(self, function, care):
        """Two known booleans that are the function where they are joined; None where there are none."""
        both, either = self.diagrams.both, self.diagrams.either
        wanted = both(function, care)
        narrow = self.diagrams.within(function, care)
        near = [(both(one, care), value) for one, value in self.literals(narrow, care)]
        above = [it for it in near if it[0] != care and both(it[0], wanted) == wanted][:MOST_TRIED]
        for at, (one, first) in enumerate(above):
            for another, second in above[at + 1 :]:
                if both(one, another) == wanted:
                    return expressions.conjunction([first, second])
        below = [it for it in near if it[0] and either(it[0], wanted) == wanted][:MOST_TRIED]
        for at, (one, first) in enumerate(below):
            for another, second in below[at + 1 :]:
                if either(one, another) == wanted:
                    return expressions.disjunction([first, second])
        return None

    def expression(self, function, care, named):
        """A function where `care` is true. `named` gives a part that is too large a name of its own."""
        found = self.simple(function, care) or self.pair(function, care)
        return found if found else self.split(self.diagrams.within(function, care), care, named)

    def split(self, function, care, named):
        """A function by its first condition."""
        condition, low, high = self.diagrams.nodes[function]
        literal = self.diagrams.literal(condition)
        test = self.at(literal, care)
        if test is None:
            raise KeyError(condition)
        first = self.part(high, self.diagrams.both(care, literal), named)
        second = self.part(low, self.diagrams.without(care, literal), named)
        if second.constant == 0:
            return expressions.conjunction([test, first])
        if first.constant == 0:
            return expressions.conjunction([expressions.negation(test), second])
        if second.constant == 1:
            return expressions.disjunction([expressions.negation(test), first])
        if first.constant == 1:
            return expressions.disjunction([test, second])
        if self.diagrams.negated(high) == low:
            return expressions.same(test, first)
        return expressions.truth_choice(test, first, second)

    def part(self, function, care, named):
        if care == 0:
            return expressions.constant(0)
        if self.size(function) > MOST_NODES and self.simple(function, care) is None:
            return named(function)
        return self.expression(function, care, named)

    def size(self, function):
        """How many nodes a function has, counted a little beyond the most of one expression."""
        seen, todo = set(), [function]
        while todo and len(seen) <= MOST_NODES:
            it = todo.pop()
            if it > 1 and it not in seen:
                seen.add(it)
                todo += self.diagrams.nodes[it][1:]
        return len(seen)
