"""Images whose guards are small diagrams of which each node meets many of another's."""


def number(value):
    return value.to_bytes(4, "big")


class Diagrams:
    """Diagrams over conditions in their order: 0 is false, 1 is true, and n + 2 is node n."""

    def __init__(self):
        self.nodes, self.numbers = [], {}

    def node(self, variable, low, high):
        if low == high:
            return low
        if (variable, low, high) not in self.numbers:
            self.numbers[variable, low, high] = len(self.nodes) + 2
            self.nodes.append((variable, low, high))
        return self.numbers[variable, low, high]

    def of(self, function, state, variables):
        """The diagram of what remains to be asked in a state; FUNCTION.after gives the states, FUNCTION.truth the last one's."""
        known = {}

        def below(state, place):
            if place == len(variables):
                return function.truth(state)
            if (state, place) not in known:
                low, high = (below(function.after(state, variables[place], truth), place + 1) for truth in (0, 1))
                known[state, place] = self.node(variables[place], low, high)
            return known[state, place]

        return below(state, 0)


class Sum:
    """The sum mod 2 of products of two conditions each, and of that and a last condition: both, or the second or not the first."""

    def __init__(self, couples, last, how):
        self.couples, self.last, self.how = couples, last, how
        self.behind = {}
        for a, b in couples:
            self.behind.setdefault(b, []).append(a)
        self.until = {a: max(d for c, d in couples if c == a) for a, _ in couples}

    def after(self, state, variable, truth):
        """The sum so far, and the conditions that are true and asked for later on; or the truth itself."""
        if variable == self.last:
            return self.how(state[0], truth)
        total, true = state
        total ^= truth & sum(a in true for a in self.behind.get(variable, [])) & 1
        true = frozenset(it for it in true if self.until[it] > variable)
        return total, true | {variable} if truth and variable in self.until else true

    def truth(self, state):
        return state


def image(diagrams, conditions, integers, operations):
    """An image of the input A, so many conditions, which are inputs read at each instant, some integers, and copies: of each the
    target, the source and the guard. Signal 0 is A."""
    signals = [(0, "A")] + [(1, f"B{i}") for i in range(conditions)] + [(0, f"Y{i}") for i in range(integers)]
    counts = (len(signals), conditions + 1, integers, conditions, 0, len(diagrams.nodes), conditions + 1 + len(operations))
    text = [b"SIGIMG01", *map(number, counts)]
    text += [bytes([kind]) + number(len(name)) + name.encode() for kind, name in signals]
    text += [number(i + 1) for i in range(conditions)]
    text += [number(it) for node in diagrams.nodes for it in node]
    text += [b"\0" + number(1) + number(1) + number(1) + number(i) for i in range(conditions + 1)]
    for target, source, guard in operations:
        text.append(b"\2" + number(guard) + number(2) + number(1) + number(target) + number(source))
    return b"".join(text)


def two_sums(count, distance, first, second):
    """Two sums of products of conditions at a distance, each over so many conditions of its own, which stand in turn; and what each
    is together with a last condition."""
    last = 2 * count
    diagrams, guards = Diagrams(), []
    for k, how in enumerate((first, second)):
        couples = [(2 * i + k, 2 * (i + distance) + k) for i in range(count - distance)]
        guards.append(diagrams.of(Sum(couples, last, how), (0, frozenset()), [*range(k, last, 2), last]))
    return diagrams, last + 1, guards


def both(total, truth):
    return total & truth


def either(total, truth):
    return total | truth


def first_alone(total, truth):
    return total & (1 - truth)


def written_twice(count, distance, times=1):
    """So many integers that are each written by two guards which never meet, as their last condition alone tells. What the guards
    are together has as many nodes as there are pairs."""
    diagrams, conditions, guards = two_sums(count, distance, both, first_alone)
    targets = range(conditions + 1, conditions + 1 + times)
    return image(diagrams, conditions, times, [(y, 0, guard) for y in targets for guard in guards])


def read_within(count, distance, times=1):
    """Integers that are read so many times where another was written: one guard implies the other, as their last condition alone
    tells."""
    diagrams, conditions, (f, g) = two_sums(count, distance, both, either)
    y = conditions + 1
    return image(diagrams, conditions, 1 + times, [(y, 0, g)] + [(y + 1 + i, y, f) for i in range(times)])
