"""Invariants that z3 found, checked again by a second solver: cvc5 or cvc4 of Debian, and z3 itself where there is neither.

What is checked is a few formulas without quantifiers, each of which has to be unsatisfiable: that the invariant holds at first,
that each committed instant keeps it, and that no instant within it breaks the claim. Memories are numbers without bounds here;
that they stay within 64 bits is a part of the invariant. How z3 found it plays no part. The formulas of an instant are
made by the same script, so a fault of theirs is not found so.
"""
import os
import re
import shutil
import subprocess
import tempfile
import time
from typing import NamedTuple

from sigc.prove import property_language, z3_solver
from sigc.prove.smt_formulas import both, negated, number
from sigc.prove.systems import NAME, at


class Checked(NamedTuple):
    """What came of a check: whether all was confirmed, whether something was refuted, and the words that say so."""

    is_confirmed: bool
    is_refuted: bool
    said: str


class Checker(NamedTuple):
    """A solver that checks: its name with its version, and the words that run it on a file for some milliseconds."""

    name: str
    words: object
    is_second: bool


def checker():
    """The solver that checks: the one that the variable CERTIFIER names, cvc5, cvc4, or else z3."""
    for name in filter(None, (os.environ.get("CERTIFIER"), "cvc5", "cvc4")):
        path = shutil.which(name)
        if path:
            said = subprocess.run([path, "--version"], capture_output=True, text=True).stdout
            version = re.search(r"version (\S+)", said)
            return Checker(f"{os.path.basename(name)}{f' {version[1]}' if version else ''}", lambda limit: [path, "--lang=smt2", f"--tlimit={limit}"], True)
    return Checker("z3", lambda limit: [z3_solver.path(), "-smt2", f"-t:{limit}"], False)


def free_instant(system, k):
    """An instant over memories that are anything."""
    bounds = {f"(assert (<= {number(property_language.LEAST)} {it.name}!{k} {property_language.MOST}))" for it in system.step.memories}
    return [it for it in system.instant(k, "free") if it not in bounds]


def by_formulas(system, formula, proof):
    """The conditions of an induction: what each says, and its lines."""
    words = [f"(<= {number(property_language.LEAST)} {it.name} {property_language.MOST})" for it in system.step.memories if it.sort == "Int"]
    invariant, n = both(*words, *proof.invariants), proof.length
    begun, following = {it.name: it.init for it in system.step.memories}, system.step.following
    first, next_ = (NAME.sub(lambda found: by[found[0]], invariant) for by in (begun, following))
    yield "the invariant holds at first", [f"(assert {negated(first)})"]
    yield "each instant keeps it", [*free_instant(system, 0), f"(assert {at(both(invariant, system.committed, negated(next_)), 0)})"]
    lines, going, breaks = [], "true", []
    for k in range(n):
        lines += system.instant(k, "before" if k else "init")
        breaks.append(f"(and {going} {at(formula, k)})")
        going = f"(and {going} {at(system.committed, k)})"
    yield f"{'the first instant does' if n == 1 else f'the first {n} instants do'} not break the claim", [*lines, f"(assert (or false {' '.join(breaks)}))"]
    lines = []
    for k in range(n + 1):
        lines += free_instant(system, 0) if k == 0 else system.instant(k, "before")
        lines.append(f"(assert {at(invariant, k)})")
        lines += [f"(assert {at(both(negated(formula), system.committed), k)})"] if k < n else [f"(assert {at(formula, k)})"]
    yield f"after {'an instant' if n == 1 else f'{n} instants'} within it the next one does not break the claim", lines


def by_predicate(system, formula, proof):
    """The conditions of an invariant that z3 wrote as the predicate Reached."""
    memories = system.step.memories
    applied = lambda terms: f"(Reached {' '.join(terms)})" if memories else "Reached"
    model = proof.model.strip()
    defined = model[model.index("(", 1) : model.rindex(")")]
    inside = applied([f"{it.name}!0" for it in memories])
    yield "the invariant holds at first", [defined, f"(assert (not {applied([it.init for it in memories])}))"]
    after = applied([at(system.step.following[it.name], 0) for it in memories])
    yield "each instant keeps it", [defined, *free_instant(system, 0), f"(assert (and {inside} {at(system.committed, 0)} (not {after})))"]
    yield "no instant within it breaks the claim", [defined, *free_instant(system, 0), f"(assert (and {inside} {at(formula, 0)}))"]


def certified(system, formula, proof, seconds):
    """Checks why a claim holds within a number of seconds."""
    if not proof.model and not proof.length:
        return Checked(True, False, "certified by its formula, by which no instant breaks it")
    by, until, confirmed = checker(), time.monotonic() + seconds, []
    for what, lines in (by_predicate if proof.model else by_formulas)(system, formula, proof):
        answer = answer_of(by, lines, until)
        if answer != "unsat":
            why = "refutes this" if answer == "sat" else f"has no answer in {seconds} s"
            return Checked(False, answer == "sat", f"not certified: {by.name} {why}: {what}")
        confirmed.append(what)
    other = "" if by.is_second else "; no second solver is installed (Debian: apt-get install cvc5)"
    return Checked(True, False, f"certified by {by.name}: {'; '.join(confirmed)}{other}")


def answer_of(by, lines, until):
    """`unsat`, `sat`, or what else a solver says of lines."""
    left = until - time.monotonic()
    if left <= 0:
        return "unknown"
    with tempfile.NamedTemporaryFile("w", suffix=".smt2") as file:
        file.write("\n".join(["(set-logic ALL)", *lines, "(check-sat)"]) + "\n")
        file.flush()
        try:
            said = subprocess.run([*by.words(max(1, int(left * 1000))), file.name], capture_output=True, text=True, timeout=left + 5).stdout
        except subprocess.TimeoutExpired:
            return "unknown"
    return said.strip().splitlines()[-1] if said.strip() else "unknown"
