"""An instant of a program with what is assumed of it, as lines for a solver, and what is claimed of all instants."""
import re
from typing import NamedTuple

from sigc.prove import property_language
from sigc.prove.smt_formulas import both, either, negated, number

NAME = re.compile(r"\b(?:[mqr]\d+|[a-z]+_\d+)\b")


class Found(NamedTuple):
    """The flows of a counterexample, and the operation that fails first at its last instant."""

    flows: dict
    failed: int


class Claim(NamedTuple):
    """What is claimed of all instants: its words, a formula that says when it is broken, and one that says when it comes.

    Of an end the formula is true in instants that fail, and says itself what is assumed there (smt_formulas.Step.failing);
    any other claim is about instants that are committed.
    """

    text: str
    broken: str
    comes: str
    is_of_end: bool


def at(term, k):
    """A formula of the instant k."""
    return NAME.sub(lambda it: f"{it[0]}!{k}", term)


class System:
    """An instant with what is assumed: ranges of inputs, and properties.

    `committed` says of an instant that it has no fault and meets what is assumed; only after such an instant is there
    another one. The intervals of memories, by their numbers, are computed by a script, so they count only where z3 finds
    that they are kept. The ranges are asked of every instant: an input that is read only after a fault has no part in
    the formula of that fault, and some value within its range.
    """

    def __init__(self, step, assumed, ranges, intervals=()):
        self.step, self.assumed = step, assumed
        self.reckoned = [f"(<= {number(low)} m{at} {number(high)})" for at, (low, high) in dict(intervals).items()]
        self.known = {}
        self.bounds = [self.bound(it, ranges) for it in step.reads if it.name and self.kind(it.signal) == "integer"]
        self.bounded = both(*self.bounds)
        self.committed = both(negated(step.fault), *(it.holds for it in assumed))

    def kind(self, signal):
        return self.step.image.signals[signal].kind

    def bound(self, read, ranges):
        low, high = ranges.get(self.step.image.signals[read.signal].name, (property_language.LEAST, property_language.MOST))
        return f"(<= {number(low)} {read.name} {number(high)})"

    def constants(self):
        """The names of what inputs give, with their sorts."""
        return [(it.name, "Int" if self.kind(it.signal) == "integer" else "Bool") for it in self.step.reads if it.name]

    def instant(self, k, begin):
        """The lines of the instant k: what its memories are is given by `begin`, `free`, or by the instant before."""
        lines = []
        for it in self.step.memories:
            name = f"{it.name}!{k}"
            if begin == "free":
                lines.append(f"(declare-const {name} {it.sort})")
                lines += [f"(assert (<= {number(property_language.LEAST)} {name} {property_language.MOST}))"] if it.sort == "Int" else []
            else:
                term = it.init if begin == "init" else at(self.step.following[it.name], k - 1)
                lines.append(f"(define-fun {name} () {it.sort} {term})")
        lines += [f"(declare-const {name}!{k} {sort})" for name, sort in self.constants()]
        lines += [f"(define-fun {it.name}!{k} () {it.sort} {at(it.term, k)})" for it in self.step.definitions]
        lines.append(f"(assert {at(self.bounded, k)})")
        return lines

    def broken(self, claim):
        """A formula that says that the claim is broken: in an instant that is committed, but for the end itself."""
        return claim.broken if claim.is_of_end else both(claim.broken, self.committed)

    def ends(self):
        """A formula that says of an instant that it fails, and for each fault that it is the first one."""
        parts = [self.step.failing(it, self.assumed) for it in self.step.faults]
        return self.step.fault if not self.assumed else either(*parts), parts
