"""What sigc-prove is asked: a program, the image of it, and what is claimed and assumed of it."""
import re

from sigc.call import opened, running
from sigc.clocks import laid_out, paced_text
from sigc.image import equal_memories, given_ranges, images
from sigc.image.sources import LONGEST
from sigc.prove import property_language
from sigc.read import syntax
from sigc.trace.traces import called

UNASKED = 3
COMMENT = re.compile(r"%([^%]*)%")
ASSERTED = re.compile(r"\s*assert(?!\w)\s*(.*?)\s*", re.IGNORECASE | re.DOTALL)
NAME = re.compile(r"[A-Za-z][A-Za-z0-9_]*")
NOTHING = "nothing is claimed: --always E, --never E, --never-ends, --range A=0..9, --faults, or %assert B% in the program"


def refused(line):
    return running.Refused(line, UNASKED)


class Built:
    """The image of a program, with the names that its signals have in the program, and the place of each operation there.

    With --pace it is the image of the program with its paces written out. `own` are the signals that the program has, the
    paces among them, and `outputs` those that are its outputs.
    """

    def __init__(self, files, path, is_paced, home, is_merged=True):
        self.home, self.text, self.place = home, home.text, lambda line, column: (line, column)
        if is_paced:
            self.take_paced(files, path)
        else:
            self.image = self.built(files, files.copied(path, home.text), "; with --pace its clocks may stay independent")
        first, last = self.image.inputs, self.image.inputs + self.image.outputs
        if not is_paced:
            self.own = [it.name for it in self.image.signals]
            self.outputs = self.own[first:last]
        self.image = equal_memories.merged(self.image) if is_merged else self.image

    def take_paced(self, files, path):
        laid = laid_out.Laid(files, path, True)
        self.own = [it.name for it in laid.flat.signals]
        self.outputs = [it.name for it in laid.flat.signals if it.role == "output" and not it.copy]
        try:
            paced = paced_text.Paced(files, path)
            self.image = self.built(files, files.written("paced.sig", paced.text, path))
            self.place, self.text = paced.place, paced.text
        except running.Refused:
            self.take_observed(files, path, laid.observed())

    def take_observed(self, files, path, observed):
        """The image of the program that says all: its text is a new one, with names of its own."""
        names = {plain: name for name, plain in observed.spelled.items()}
        self.place = lambda line, column: observed.places.get((line, column), (line, column, ""))[:2]
        self.text = observed.text
        image = self.built(files, files.written("paced.sig", observed.text, path))
        self.image = image._replace(signals=[it._replace(name=names.get(it.name, it.name)) for it in image.signals])

    def built(self, files, path, hint=""):
        with running.Call("build", path) as call:
            data = call.ran.stdout.read()
            line, status = call.ended()
        if status:
            raise refused(self.home.refusal(files.renamed(line)) + (hint if "no root" in line else ""))
        return images.image_of(data)


class Asked:
    """A program, the image of it, and what is claimed and assumed of it."""

    def __init__(self, files, words):
        self.files, self.words = files, words
        self.home = opened.Opened(words.program, running.program_text(words.program), words.include)
        self.text = self.home.source
        self.built = Built(files, words.program, words.pace, self.home, is_merged=not words.cover)
        self.image = self.built.image
        self.kinds = {it.name: it.kind for it in self.image.signals if it.name in set(self.built.own)}
        self.inputs = [it.name for it in self.image.signals[: self.image.inputs]]
        try:
            ranges = given_ranges.ranges_of(self.home.ranges(words.range), self.kinds)
        except given_ranges.Wrong as error:
            raise refused(str(error)) from None
        self.ranges = {name: it for name, it in ranges.items() if name in self.inputs}
        self.assumed = [self.property(it) for it in [*words.assume, *self.home.claims()[1]]]
        self.claimed = list(self.claims({name: it for name, it in ranges.items() if name not in self.inputs}))
        if not self.claimed and not words.never_ends and not words.faults and not words.cover:
            raise refused(NOTHING)

    def property(self, text):
        try:
            made = property_language.property_of(self.home.kernel_words(text), self.kinds)
        except property_language.Wrong as error:
            raise refused(str(error)) from None
        if made.kind == "integer":
            raise refused(f"`{text}` is an integer, and a truth is wanted")
        return made

    def claims(self, ranges):
        """The properties that are claimed: the words that say so, whether they are to be true, and the property."""
        words = self.words
        yield from ((f"{how} {it}", how == "always", self.property(it)) for how, it in words.claims)
        for name, (low, high) in ranges.items():
            yield f"{self.home.name(name)} in {low}..{high}", True, self.property(in_range(name, low, high))
        if words.all:
            named = [it for it in self.built.outputs if self.kinds[it] != "integer"]
        elif words.claims or ranges or words.never_ends or words.faults or words.cover:
            named = []
        else:
            named = [*self.asserted(), *self.home.claims()[0]]
        yield from ((f"always {self.home.name(it)}", True, self.property(it)) for it in named)

    def asserted(self):
        """The signals that comments `%assert B%` name; Refused where one does not name a boolean signal alone."""
        for comment in COMMENT.finditer(self.text):
            found = ASSERTED.fullmatch(comment[1])
            if found and (not NAME.fullmatch(found[1]) or self.kinds.get(found[1]) in (None, "integer")):
                line, column = self.text.count("\n", 0, comment.start()) + 1, comment.start() - self.text.rfind("\n", 0, comment.start())
                told = syntax.truncated(" ".join(found[1].split()), LONGEST)
                raise refused(f"{self.words.program}:{line}:{column}: %assert wants one boolean signal, and not {told!r}")
            if found:
                yield found[1]

    def word(self, name, value):
        """A value of a signal as a flow file has it."""
        if name in self.home.states():
            return called(str(value), self.home.states()[name])
        return str(value) if self.kinds[name] == "integer" else "true" if value else "false"


def in_range(name, low, high):
    """An expression that says that the values of a signal lie there. The least number of all has no spelling of its own."""
    least, most = property_language.LEAST, property_language.MOST
    bounds = [f"({name} >= {low})"] if low > least else []
    bounds += [f"({name} <= {high})" if high > least else f"({name} < -{most})"]
    return " and ".join(bounds)
