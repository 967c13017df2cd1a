"""A program laid out: its clock tree, its calls expanded, and what --pace adds written out."""
from sigc.call import running
from sigc.clocks import pace_flag
from sigc.clocks.plans import Classes
from sigc.read import expansion
from sigc.trace.observing import Observed


class Laid:
    """A program laid out: its clock tree, and its signals and equations with calls expanded. With --pace the inputs that
    this adds are written out: paces has their names, and paced the signal that comes where each of them is true."""

    def __init__(self, files, path, is_paced):
        self.files, self.program = files, running.Program(files, path)
        self.classes = Classes(self.program.asked("tree", *pace_flag.words_of(is_paced)))
        self.flat = expansion.Expansion(self.program.text)
        self.paces = pace_flag.names_in(self.flat, self.classes) if is_paced else []
        self.paced, self.hidden = [], None
        if self.paces:
            tops = pace_flag.tops_of(self.flat, self.classes)
            self.paced, self.hidden = pace_flag.paced(tops, len(self.paces), self.expressions, self.is_accepted)
        self.flat.pace(self.paces, self.paced)

    def observed(self):
        """The program that says all."""
        return self.observed_as(self.flat, self.paced, self.hidden)

    def observed_as(self, flat, paced, hidden):
        return Observed(flat, self.classes, hidden, self.paces[paced.index(None)] if hidden else "")

    def with_paces(self, paced):
        flat = expansion.Expansion(self.program.text)
        flat.pace(self.paces, paced)
        return flat

    def expressions(self, paced):
        return Observed(self.with_paces(paced), self.classes).expressions()

    def is_accepted(self, paced, hidden):
        """Whether sigc accepts the program in which these signals have the paces, one of them an expression."""
        path = self.files.written("paced.sig", self.observed_as(self.with_paces(paced), list(paced), hidden).text)
        with running.Call("check", path) as call:
            list(call.lines())
            return call.ended()[1] == 0

    def clock(self, name):
        """The signals that come with a signal."""
        return next(it for it in self.classes.signals if name in it)
