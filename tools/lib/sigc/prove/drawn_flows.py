"""A search for flows that break a claim by runs whose inputs are drawn: many instants a second, and deep ones.

Values are drawn near the constants of the program, near the bounds of their range, and anywhere; a run keeps to one share of
true for each boolean, so that runs differ. An instant that breaks an assumption is drawn again. What is found is a guess
until sigc has run it.
"""
import random
import time

from sigc.image.image_runs import Failed, ImageRun, constants_of
from sigc.prove import property_language
from sigc.prove.property_language import ABSENT, LEAST, MOST, NoValue, Tied, Watched

LENGTHS = (12, 60, 600, 3000)
TRIES = 20


class Wanted:
    """What a run is to come to: an instant that breaks a property, or one that fails at an operation, or at any; or one of
    whose run, once it is committed, a function says that it is wanted."""

    def __init__(self, property_=None, is_true=True, order=None, what=None, is_reached=None):
        self.property, self.is_true, self.order, self.what, self.is_reached = property_, is_true, order, what, is_reached


class Drawing:
    """Runs of an image with drawn inputs that keep to ranges and to what is assumed: pairs of a property and its last operation."""

    def __init__(self, image, ranges, assumed, seed=0):
        self.image, self.draws = image, random.Random(seed)
        self.run = ImageRun(image, True)
        self.last = [last for _, last in assumed]
        self.watched = [Watched(it) for it, _ in assumed]
        self.signals = {at: image.signals[at] for at in range(image.inputs)}
        self.bounds = {at: ranges.get(it.name, (LEAST, MOST)) for at, it in self.signals.items()}
        self.numbers = {at: [it for it in constants_of(image) if low <= it <= high] for at, (low, high) in self.bounds.items()}
        self.none_done = [0] * len(image.operations)
        self.depth = 0

    def search(self, wanted, until):
        """The flows of a run that comes to what is wanted, and the operation that fails last; None where time is over."""
        number = 0
        while time.monotonic() < until:
            length = LENGTHS[min(number // 40, len(LENGTHS) - 1)] if number % 8 else LENGTHS[-1]
            found = self.tried(wanted, length, until)
            if found is not None:
                return found
            number += 1
        return None

    def begin(self, property_):
        """Begins a run anew, with a share of true for each boolean and a step for each integer."""
        self.run.start()
        self.all = [*self.watched, *([Watched(property_)] if property_ is not None else [])]
        for it in self.all:
            it.held = Watched(it.property).held
        self.flows, self.style = {}, {at: self.draws.choice((0.02, 0.2, 0.5, 0.5, 0.8, 0.98)) for at in self.signals}

    def tried(self, wanted, length, until):
        """One run of at most so many instants."""
        self.begin(wanted.property)
        for number in range(length):
            if number % 64 == 63 and time.monotonic() > until:
                return None
            failed = self.instant(wanted)
            if failed is None:
                return None
            if failed is not False:
                self.depth = max(self.depth, number + 1)
                return self.flows, failed
            self.depth = max(self.depth, number + 1)
        return None

    def instant(self, wanted):
        """One more instant: False where the run goes on, None where it cannot, else the operation that fails, or their number
        where the property is broken."""
        for _ in range(TRIES):
            held, self.read, failed = [it.held.copy() for it in self.all], [], None
            self.run.done[:] = self.none_done
            try:
                following = self.run.instant(self.value)
            except Failed as it:
                failed, self.what = it.order, it.what
            values = self.run.named() if self.all else {}
            if all(holds(it, values) for it, last in zip(self.watched, self.last) if failed is None or last < failed):
                return self.judged(wanted, values, following if failed is None else None, failed)
            for it, before in zip(self.all, held):
                it.held = before
        return None

    def judged(self, wanted, values, following, failed):
        for name, value in self.read:
            self.flows.setdefault(name, []).append(value)
        if failed is not None:
            is_wanted = wanted.property is None and wanted.is_reached is None and wanted.order in (None, failed) and wanted.what in (None, self.what)
            return failed if is_wanted else None
        self.run.memories = following
        if wanted.is_reached is not None:
            return len(self.image.operations) if wanted.is_reached(self.run) else False
        is_broken = wanted.property is not None and not holds(self.all[-1], values, wanted.is_true)
        return len(self.image.operations) if is_broken else False

    def value(self, at):
        """A value of an input."""
        kind, name = self.signals[at]
        draw = self.draws.random
        if kind == "integer":
            found = self.integer(at)
        else:
            found = 1 if kind == "event" else int(draw() < self.style[at])
        self.read.append((name, found))
        return found

    def integer(self, at):
        (low, high), draws, how = self.bounds[at], self.draws, self.draws.random()
        if how < 0.4 and self.numbers[at]:
            return draws.choice(self.numbers[at])
        if how < 0.7:
            middle = min(max(0, low), high)
            return min(max(middle + draws.randrange(-20, 21), low), high)
        if how < 0.8:
            return draws.choice((low, high))
        return draws.randrange(low, high + 1) if high - low < 1 << 20 else min(max(draws.choice((1, -1)) << draws.randrange(63), low), high)


def holds(watched, values, is_true=True):
    """Whether an instant keeps a property."""
    try:
        found = watched.at(values)
    except NoValue:
        return False
    except Tied:
        return True
    return found is ABSENT or bool(found) == is_true
