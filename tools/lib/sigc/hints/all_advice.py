"""What there is to say of the refusals of one program, each found once: a hint, the lines that are guilty, and mends that were tried."""
from typing import NamedTuple

from sigc.call.compiler import limit_of
from sigc.hints.further import refusals_of
from sigc.hints.tried import mends_for, shown_hint
from sigc.why import folding, large_guards
from sigc.why.causes import cause_of, told_of, told_words, Late

# How far the guilty lines and the mends of one refusal are looked for: calls of sigc, and seconds.
CAUSE, MEND = (120, 10), (50, 10)
MOST_NOTES = 10


class Note(NamedTuple):
    """A place that has to do with a refusal, and what stands there."""

    line: int
    col: int
    words: str


class Advice:
    def __init__(self, sigc, reader):
        self.sigc, self.reader, self.found, self.before = sigc, reader, {}, {}

    def once(self, key, find):
        if key not in self.found:
            self.found[key] = find()
        return self.found[key]

    def refusals(self, first):
        """The first refusal and those behind it that are independent of it."""
        found = self.once(("refusals", first), lambda: refusals_of(self.sigc, self.reader, first))
        self.before.update(found)
        return [it for it, _ in found]

    def hint(self, refusal):
        return self.once(("hint", refusal), lambda: shown_hint(self.sigc, self.reader, refusal, self.before.get(refusal, ())))

    def notes(self, refusal):
        """Where the mistake stands besides sigc's place: of clocks the least equations that keep the refusal."""
        return self.once(("notes", refusal), lambda: [*(Note(*it) for it in self.hint(refusal).places), *self.guilty(refusal)])

    def large(self):
        """The truths that are too large, where sigc ends at its bound on diagram nodes."""
        return self.once("large", lambda: large_guards.large_in(self.sigc, self.reader) if self.reader.processes and not self.reader.faults else [])

    def guilty(self, refusal):
        if large_guards.is_told(refusal.text):
            return [Note(it.site.line, it.site.col, large_guards.told_of_large(it, self.reader.text)) for it in self.large()]
        told = told_of(refusal.text)
        if told is None or self.reader.faults or not self.reader.processes:
            return []
        try:
            cause = cause_of(self.sigc, self.reader.processes, told, limit_of(self.sigc, *CAUSE))
        except Late:
            return []
        notes = [Note(it.place.line, it.place.col, told_words(it)) for it in cause.equations()]
        return [*self.other_root(told), *notes[:MOST_NOTES]]

    def other_root(self, told):
        """The second one of two independent signals, where it is declared."""
        it = self.reader.processes[0].declaration(told.names[-1]) if told.sort == "root" else None
        return [Note(it.name.line, it.name.col, f"{it.name.text} is declared here")] if it else []

    def mends(self, refusal, most):
        if large_guards.is_told(refusal.text):
            return self.once(("mends", refusal), lambda: folding.folds_of(self.sigc, self.reader, self.large()))
        return self.once(("mends", refusal, most), lambda: mends_for(self.sigc, self.reader, refusal, self.hint(refusal), most, limit_of(self.sigc, *MEND)))
