"""A run that goes on one instant at a time, and back.

The state is what the inputs have taken so far. All else is asked of sigc, which makes the run anew from its first instant.
"""
from collections import deque

from sigc.trace.flow_values import normal
from sigc.trace.traces import called

# The most instants that one command goes on for.
MOST = 100_000
# The values by which a run goes on over many instants at once, for all inputs together.
MOST_VALUES = 2_000_000


class Ended(Exception):
    """The run has no next instant with these values: its end."""

    def __init__(self, end):
        super().__init__(end.line)
        self.end = end


class NotDue(Exception):
    """Values were given to inputs that take none at this instant: their names."""

    def __init__(self, names):
        super().__init__(names)
        self.names = names


class Session:
    """A run so far. given has the values that each input took, waiting those that it takes next, always the value that it
    takes where none waits, undone those that it took in instants that were taken back, the last one first.

    taken has for each instant the inputs that took a value, each with whether that was one that waited, and the waiting
    value that was passed over, or None.
    """

    def __init__(self, runs):
        self.runs, self.kinds = runs, runs.kinds
        self.arrays = list(runs.home.inputs().values())
        self.given = {it: [] for it in self.kinds}
        self.waiting = {it: deque() for it in self.kinds}
        self.undone = {it: [] for it in self.kinds}
        self.always = {it: "true" for it, kind in self.kinds.items() if kind == "event"}
        self.taken, self.takings, self.instant, self.end = [], {}, {}, None

    @property
    def count(self):
        """How many instants were done."""
        return len(self.taken)

    def proposed(self, name):
        """The value that an input is likely to take: the one that was taken back, or else its last one, or nothing."""
        usual = "true" if self.kinds[name] == "event" else ""
        return next((it[-1] for it in (self.undone[name], self.given[name]) if it), usual)

    def step(self, values, asked):
        """Does the next instant with these values, those that wait, and those that asked(name) gives."""
        values = dict(values)
        while True:
            following = {it: [*values.get(it, self.next_of(it))] for it in self.kinds}
            flows = {it: self.given[it] + following[it] for it in self.kinds}
            instant, self.end = self.runs.instant(flows, self.count + 1)
            if instant is not None:
                break
            if not self.end.missing:
                raise Ended(self.end)
            values[self.end.missing] = [asked(self.end.missing)]
        left = [it for it in values if it not in instant]
        if left:
            raise NotDue(left)
        self.take(instant, values)

    def due(self):
        """The inputs that are due at the next instant, as far as sigc can tell without further values."""
        flows = {it: self.given[it] + self.next_of(it) for it in self.kinds}
        instant, end = self.runs.instant(flows, self.count + 1)
        if instant is None and not end.missing:
            return []
        found = instant or [*self.runs.laid.clock(end.missing), *self.runs.laid.classes[0]]
        return [it for it in self.kinds if it in found]

    def next_of(self, name):
        """The value that an input takes without being asked for, if there is one."""
        return list(self.waiting[name])[:1] if self.waiting[name] else [self.always[name]] if name in self.always else []

    def take(self, instant, values):
        """Makes an instant the last one."""
        taken, over = [], self.passed_over(instant, values)
        for name in (it for it in self.kinds if it in instant):
            is_waiting = name not in values and bool(self.waiting[name])
            passed = self.waiting[name].popleft() if name in over else None
            self.given[name].append(self.waiting[name].popleft() if is_waiting else instant[name])
            taken.append((name, is_waiting, passed))
        if any(self.undone[it][-1:] not in ([], [instant[it]]) for it in values):
            self.undone = {it: [] for it in self.kinds}
        for name in (it for it, is_waiting, _ in taken if not is_waiting):
            self.undone[name][-1:] = []
        self.taken.append(self.takings.setdefault(tuple(taken), tuple(taken)))
        self.instant = instant

    def passed_over(self, instant, values):
        """The elements of arrays that get a value while a neighbour takes one that waits: their own waiting value is passed
        over, since the queue of an array has whole arrays."""
        found = set()
        for elements in self.arrays:
            if any(it in instant and it not in values and self.waiting[it] for it in elements):
                found.update(it for it in elements if it in instant and it in values and self.waiting[it])
        return found

    def back(self, count):
        """Takes instants back. The values that had waited wait again; the others are proposed."""
        for taken in (self.taken.pop() for _ in range(min(count, self.count))):
            for name, is_waiting, passed in taken:
                value = self.given[name].pop()
                self.waiting[name].appendleft(value) if is_waiting else self.undone[name].append(value)
                if passed is not None:
                    self.waiting[name].appendleft(passed)
        self.end = None
        self.instant = self.runs.instant(self.given, self.count)[0] if self.taken else {}

    def past(self):
        """The instants that were done, anew."""
        return self.runs.instants(self.given, self.count, []) if self.taken else iter(())

    def going(self, most, asked):
        """Does instants, at most so many, and gives each; asked(name) is called where an input has no value.

        As far as the values reach that wait, one run makes them all.
        """
        last = self.count + most
        while self.count < last:
            yield from self.without_asking(last)
            if self.count < last:
                self.step({}, asked)
                yield self.instant

    def without_asking(self, last):
        """Does instants up to a number, as far as no input has to be asked for."""
        steady = [it for it in self.always if it in self.kinds]
        times = min(last - self.count, MOST_VALUES // max(1, len(steady)))
        flows = {it: [*self.given[it], *self.waiting[it], *([self.always[it]] * times if it in steady else [])] for it in self.kinds}
        done = self.count
        for number, instant in enumerate(self.runs.instants(flows, self.count + times, [])):
            if number >= done:
                self.take(instant, {})
                yield instant

    def put(self, name, values):
        """Lets these values wait, in the place of those that did."""
        self.waiting[name] = deque(normal(it) for it in values)

    def load(self, flows):
        """Lets the values of a file wait. Behind them an event is asked for as well: so the end of the file is seen."""
        for name, values in flows.items():
            self.put(name, values)
            if values and self.kinds[name] == "event":
                self.always.pop(name, None)

    def flows(self):
        """The text of a file with the values that were taken, as the user writes them."""
        names, states = self.runs.names, self.runs.states
        values = {name: [called(it, states.get(name)) for it in taken] for name, taken in self.given.items()}
        return "".join(f"{' '.join([names[name], *taken])}\n" for name, taken in values.items())
