"""When the signals of a clock come, in words: its guard in the image as a sum of conditions, each as the program names it.

A guard is a diagram over conditions; a condition that is absent counts as false in it. Where a condition is true its own
clock is there, so that needs no words: of `A and B`, where B comes only when A is true, `B` is left.
"""
import re

from sigc.call import running
from sigc.clocks.conditions_in_words import Called
from sigc.image import images

FALSE, TRUE = 0, 1
MOST_PRODUCTS, MOST_MERGED, MOST_NAMED, MOST_STEPS = 12, 4, 3, 20_000


class TooMany(Exception):
    """A sum would have too many products."""


class Diagrams:
    """Diagrams over numbered conditions, of which one stands for each function; those of an image can be taken in."""

    def __init__(self):
        self.nodes, self.numbers, self.known, self.rest = [None, None], {}, {}, MOST_STEPS

    def node(self, variable, low, high):
        if low == high:
            return low
        made = self.numbers.setdefault((variable, low, high), len(self.nodes))
        if made == len(self.nodes):
            self.nodes.append((variable, low, high))
        return made

    def of_image(self, image):
        """The diagrams of the children by which an image numbers its guards."""
        found = [FALSE, TRUE]
        for it in image.nodes:
            found.append(self.node(it.condition, found[it.low], found[it.high]))
        return found

    def top(self, *diagrams):
        return min(self.nodes[it][0] for it in diagrams if it > TRUE)

    def parts(self, it, variable):
        """What a diagram is where a variable is false, and where it is true."""
        if it > TRUE and self.nodes[it][0] == variable:
            return self.nodes[it][1:]
        return it, it

    def choice(self, if_, then, else_):
        if if_ <= TRUE:
            return then if if_ else else_
        asked = (if_, then, else_)
        if asked not in self.known:
            variable = self.top(*asked)
            lows, highs = zip(*(self.parts(it, variable) for it in asked))
            self.known[asked] = self.node(variable, self.choice(*lows), self.choice(*highs))
        return self.known[asked]

    def both(self, a, b):
        return self.choice(a, b, FALSE)

    def either(self, a, b):
        return self.choice(a, TRUE, b)

    def negated(self, a):
        return self.choice(a, FALSE, TRUE)

    def products(self, least, most):
        """A sum of few products between two diagrams, and its own diagram: lists of pairs of a variable and its truth.
        TooMany where that takes more steps than `rest`."""
        self.rest -= 1
        if self.rest < 0:
            raise TooMany
        if least == FALSE:
            return [], FALSE
        if most == TRUE:
            return [()], TRUE
        variable = self.top(least, most)
        (low, high), (low_most, high_most) = self.parts(least, variable), self.parts(most, variable)
        without, no = self.products(self.both(low, self.negated(high_most)), low_most)
        within, yes = self.products(self.both(high, self.negated(low_most)), high_most)
        rest = self.either(self.both(low, self.negated(no)), self.both(high, self.negated(yes)))
        alike, both = self.products(rest, self.both(low_most, high_most))
        found = [((variable, False), *it) for it in without] + [((variable, True), *it) for it in within] + alike
        return found, self.either(both, self.node(variable, no, yes))


    def support(self, it):
        """The variables that a diagram asks."""
        seen, todo = set(), [it]
        while todo:
            at = todo.pop()
            if at > TRUE and at not in seen:
                seen.add(at)
                todo += self.nodes[at][1:]
        return sorted({self.nodes[at][0] for at in seen})


class Clocks:
    """The guards of an image's signals in words. `flat` and `observed` are as Called takes them."""

    def __init__(self, image, text, flat=None, observed=None):
        self.image, self.diagrams = image, Diagrams()
        children = self.diagrams.of_image(image)
        self.guards = {}
        for it in image.operations:
            if it.kind != "Store":
                signal = it.fields[0]
                self.guards[signal] = self.diagrams.either(self.guards.get(signal, FALSE), children[it.guard])
        self.care = TRUE
        for variable, signal in enumerate(image.conditions):
            comes = self.guards.get(signal, FALSE)
            truth = self.diagrams.node(variable, FALSE, TRUE)
            self.care = self.diagrams.both(self.care, self.diagrams.either(self.diagrams.negated(truth), comes))
        self.called = Called(text, flat, observed)
        self.names = [self.called.name(image.signals[it].name) for it in image.conditions]
        self.numbers = {self.called.plain.get(it.name, it.name): at for at, it in enumerate(image.signals)}

    def guard(self, name):
        """When a signal comes, as a diagram that is false where no condition can be so."""
        return self.diagrams.both(self.guards.get(self.numbers[name], FALSE), self.care)

    def words(self, name):
        """When a signal comes."""
        guard = self.guard(name)
        if guard == FALSE:
            return "never"
        found = self.sum(guard)
        if found == [()]:
            return "at every instant"
        merged = self.merged(name, guard) if len(found) != 1 else ""
        if not 1 <= len(found) <= MOST_PRODUCTS:
            return merged or self.over(guard)
        text = "when " + " or ".join(self.product(it, len(found) > 1) for it in found)
        return f"{merged}, {text}" if merged else text

    def sum(self, guard):
        """The products of a guard; none where they are far too many."""
        self.diagrams.rest = MOST_STEPS
        try:
            return self.diagrams.products(guard, self.diagrams.either(guard, self.diagrams.negated(self.care)))[0]
        except TooMany:
            return []

    def over(self, guard):
        """What a guard is about, where there is too much of it."""
        names = [self.names[it] for it in self.diagrams.support(guard)]
        more = f" and {len(names) - MOST_NAMED} more" if len(names) > MOST_NAMED else ""
        return f"when a condition over {', '.join(names[:MOST_NAMED])}{more} holds"

    def merged(self, name, guard):
        """Signals of which one or another comes whenever a signal does: those of its own definition, if they do."""
        own = [it.text for it in self.called.definitions.get(name, []) if it.is_signal]
        others = [it for it in self.numbers if not it.rpartition(".")[2].startswith("#")]
        found = self.cover(guard, own) or self.cover(guard, self.greatest(guard, others))
        return " or else ".join(dict.fromkeys(self.called.outer.get(it, it) for it in found))

    def is_below(self, one, other):
        return one not in (FALSE, other) and self.diagrams.both(one, other) == one

    def greatest(self, guard, names):
        """Of the signals that come at some instants of a guard, one of each of the greatest clocks."""
        guards = {}
        for it in sorted(names, key=lambda it: "#" in it):
            guards.setdefault(self.guard(it), it)
        below = [it for it in guards if self.is_below(it, guard)]
        return [guards[it] for it in below if not any(self.is_below(it, other) for other in below)]

    def cover(self, guard, names):
        """The signals that together come when the guard is true, each at some instant at which none before it does."""
        found, sum_ = [], FALSE
        for it in names:
            one = self.guard(it)
            if self.is_below(one, guard) and self.diagrams.either(sum_, one) != sum_:
                found, sum_ = [*found, it], self.diagrams.either(sum_, one)
        return found if sum_ == guard and len(found) <= MOST_MERGED else []

    def product(self, literals, is_one_of_several):
        words = [self.literal(variable, is_true, len(literals) > 1) for variable, is_true in literals]
        text = " and ".join(words)
        return f"({text})" if is_one_of_several and len(words) > 1 else text

    def literal(self, variable, is_true, is_beside):
        name = self.names[variable]
        is_plain = re.fullmatch(r"[\w#.]+", name)
        if is_true:
            return name if is_plain or not is_beside else f"({name})"
        return f"not {name}" if is_plain else f"not ({name})"


def image_of(path):
    """The image of a program's file; Refused where there is none."""
    with running.Call("build", path) as call:
        data = call.ran.stdout.read()
        line, status = call.ended()
    if status:
        raise running.Refused(line, status)
    return images.image_of(data)


def of_laid(laid):
    """The clocks of a program that was laid out, by its signals as a trace names them."""
    if not laid.paces:
        return Clocks(image_of(laid.program.path), laid.program.text, laid.flat)
    observed = laid.observed()
    path = laid.files.written("paced.sig", observed.text, laid.program.path)
    return Clocks(image_of(path), laid.program.text, laid.flat, observed)
