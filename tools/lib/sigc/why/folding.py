"""A truth folded into one condition: a comparison of an integer, which is one condition whatever the integer is made of.

`F := B and C or D` becomes `F := (B_N * C_N + D_N) > 0`, with `B_N := (1 when B) default NONE1`, `NONE1 := 0 when ^B` and so
on. A chain of `default` becomes a chain of the same integers.
"""
import itertools
from typing import NamedTuple

from sigc.read.editing import applied, fresh, with_equation, with_locals, Edit
from sigc.read.signal_kinds import kind_of, kinds_of
from sigc.read.syntax import read, source_of
from sigc.why import large_guards
from sigc.why.mending import Mend

LARGEST = 2**62
# A fold asks booleans of their own, which may be large as well: how often those are folded, and within how many seconds
# of processor time sigc has to build what is shown.
ROUNDS, SECONDS = 3, 5
CHANGED = {"and": "or", "or": "and"}


class TooMuch(Exception):
    """The integer might leave 64 bits, or the expression has no counterpart."""


class Term(NamedTuple):
    """A text that is above 0 where a truth is true, and else 0; its largest value, and whether it is one factor."""

    text: str
    most: int
    is_factor: bool

    def factor(self):
        return self.text if self.is_factor else f"({self.text})"


class Fold:
    """The folds of one process: the equations and locals that they need, each once."""

    def __init__(self, text, process):
        self.text, self.process, self.kinds = text, process, kinds_of(process)
        self.locals, self.equations, self.integers = {}, [], {}

    def edit(self, node):
        """The edit that folds a truth."""
        return Edit(node.start, node.end, f"({self.term(node, True, []).text}) > 0")

    def edits(self):
        """The edits that declare and define what the folds need."""
        return with_equation(self.text, self.process, *self.equations) + with_locals(self.process, self.locals) if self.equations else []

    def term(self, node, is_true, nothing):
        """A truth, or its negation, as a term. The operands of a function come together, so one signal is 0 for all of
        them: its name is in `nothing`, once it is there."""
        if node.op == "truth":
            return Term(str(int((node.at.text == "true") == is_true)), 1, True)
        if node.op == "not":
            return self.term(node.parts[0], not is_true, nothing)
        if node.op in CHANGED:
            return joined(node.op if is_true else CHANGED[node.op], [self.term(it, is_true, nothing) for it in node.parts])
        if node.op == "xor":
            one, other = node.parts
            pairs = [(True, not is_true), (False, is_true)]
            return joined("or", [joined("and", [self.term(one, a, nothing), self.term(other, b, nothing)]) for a, b in pairs])
        if node.op == "default":
            return chain([self.term(it, is_true, []) for it in sides(node)])
        if node.op == "when":
            one = self.term(node.parts[0], is_true, [])
            return Term(f"{one.factor()} when {bracketed(source_of(self.text, node.parts[1]))}", one.most, False)
        name = self.integer(node, nothing)
        return Term(name, 1, True) if is_true else Term(f"1 - {name}", 1, False)

    def integer(self, node, nothing):
        """The name of the integer that is 1 where a boolean is true, and 0 where it is false."""
        words = source_of(self.text, node)
        if words not in self.integers:
            if kind_of(node, self.kinds) != "boolean":
                raise TooMuch
            name = words if node.op == "name" else self.local(self.numbered("TERM"), "boolean", words)
            if not nothing:
                nothing.append(self.local(self.numbered("NONE"), "integer", f"0 when ^{name}"))
            self.integers[words] = self.local(f"{name}_N", "integer", f"(1 when {name}) default {nothing[0]}")
        return self.integers[words]

    def numbered(self, name):
        """The first of the names with a number that is not taken."""
        return next(it for it in (f"{name}{at}" for at in itertools.count(1)) if it not in self.locals and it not in self.kinds)

    def local(self, name, kind, words):
        """A new local with its definition."""
        while name in self.locals or name in self.kinds:
            name += "_"
        self.locals[name] = kind
        self.equations.append(f"{name} := {words}")
        return name


def chain(terms):
    """A chain of `default` from the right: so each side but the last has a guard of its own condition alone."""
    *before, text = [it.factor() for it in terms]
    for it in reversed(before):
        text = f"({it} default {text})"
    return Term(text, max(it.most for it in terms), True)


def joined(op, terms):
    """A sum, or a product."""
    one, other = terms
    most = one.most + other.most if op == "or" else one.most * other.most
    if most > LARGEST:
        raise TooMuch
    if op == "or":
        return Term(f"{one.text} + {other.text}", most, False)
    return Term(f"{one.factor()} * {other.factor()}", most, True)


def sides(node):
    """The sides of a chain of `default`, however it is nested."""
    return [side for it in node.parts for side in sides(it)] if node.op == "default" else [node]


def bracketed(words):
    return words if words.replace("_", "").isalnum() else f"({words})"


def folded(text, sites):
    """The text in which these truths are folded, as much as can be; the same text where none can."""
    folds, edits = {}, []
    for site in sites:
        fold = folds.setdefault(site.process.name.text, Fold(text, site.process))
        try:
            edits.append(fold.edit(site.node))
        except TooMuch:
            continue
    return applied(text, edits + [it for fold in folds.values() for it in fold.edits()]) if edits else text


def folds_of(sigc, reader, found):
    """The mend that folds the truths that were found, and what is too large behind them, where sigc accepts it: one or none."""
    names = [it.site.name or "the condition" for it in found]
    text = reader.text
    for _ in range(ROUNDS if found else 0):
        text = folded(text, [it.site for it in found])
        if large_guards.built_within(sigc, sigc.written("folded.sig", text), SECONDS) is not None:
            return [Mend(f"{', '.join(dict.fromkeys(names))} as one condition: a comparison of an integer", text)]
        found = large_guards.large_in(sigc, read(text))
        names += [it.site.name or "the condition" for it in found]
        if not found:
            break
    return []
