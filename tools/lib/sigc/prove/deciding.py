"""How a claim on a program is decided: intervals, bounded search, drawn flows, z3's Horn solver, and induction over several instants.

What is proved is proved by z3 of the formulas of prove/smt_formulas.py, for all flows and all instants. What is false is said with
flows; whether they break the claim, a run by sigc decides (sigc-prove runs them).
"""
import time
from typing import NamedTuple

from sigc.prove import z3_solver
from sigc.prove.horn_clauses import by_horn
from sigc.prove.induction import DEEPEST_INDUCTION, by_induction, candidates_of, guarded_bounds, kept, known
from sigc.prove.searching import Flat, searched
from sigc.prove.smt_formulas import both

FIRST_DEPTH = 6
# How many seconds flows are drawn for one claim.
MOST_DRAWING = 3
# How many seconds a short query has.
SOON = 2


class Proof(NamedTuple):
    """Why a claim holds: an invariant that z3 wrote, or formulas that every instant keeps with the length of an induction."""

    by: str
    model: str = ""
    invariants: tuple = ()
    length: int = 0


class Verdict(NamedTuple):
    """`proved`, `false` or `unknown`: of what is false the flows, and the operation that fails first at their last instant,
    their number where none does; of what is not known how many instants are known not to break it."""

    word: str
    flows: dict = None
    failed: int = 0
    proof: Proof = None
    depth: int = 0


class Decision:
    """One claim while it is decided, by one way after the other; `reached` are the instants known not to break it."""

    def __init__(self, system, claim, seconds, tell, drawn):
        self.system, self.claim, self.tell, self.drawn = system, claim, tell, drawn
        self.begun, self.seconds, self.formula, self.reached = time.monotonic(), seconds, system.broken(claim), 0

    def share(self, part):
        """The time at which a share of all is over."""
        return self.begun + self.seconds * part

    def reach(self, depth):
        self.reached = max(self.reached, depth)

    def verdict(self):
        if self.formula == "false":
            return Verdict("proved", proof=Proof("its formula"))
        with Flat(self.system, self.formula, self.share(1)) as flat:
            z3_solver.stop_if(flat.has_found)
            try:
                found = self.in_turn()
            finally:
                z3_solver.stop_if()
        if found is None and flat.found is not None:
            return Verdict("false", *flat.found)
        self.reach(flat.depth)
        return found or Verdict("unknown", depth=self.reached)

    def in_turn(self):
        """The verdict by the first way that has one."""
        for way in (self.by_intervals, self.by_first_instants, self.by_drawing, self.by_bounds, self.by_horn, self.by_candidates, self.by_search):
            try:
                found = way()
            except z3_solver.Late:
                continue
            if found is not None:
                return found
        return None

    def inductive(self, by, invariants, deepest, until):
        length = by_induction(self.system, self.formula, invariants, deepest, until, self.tell)
        return Verdict("proved", proof=Proof(by, invariants=tuple(invariants), length=length)) if length else None

    def by_intervals(self):
        until = self.share(0.1)
        return self.inductive("intervals", known(self.system, "intervals", lambda it: it.reckoned, until), 1, until)

    def by_first_instants(self):
        return self.searched(FIRST_DEPTH, self.share(0.15))

    def by_drawing(self):
        found = self.drawn(time.monotonic() + min(MOST_DRAWING, self.seconds * 0.05))
        return Verdict("false", *found) if found is not None else None

    def by_bounds(self):
        self.tell("bounds of memories")
        until = self.share(0.4)
        return self.inductive("bounds", known(self.system, "bounds", guarded_bounds, until), 2, until)

    def by_horn(self):
        self.tell("Horn clauses")
        word, model = by_horn(self.system, self.formula, self.share(0.65))
        return Verdict("proved", proof=Proof("Horn clauses", model=model)) if word == "proved" else None

    def by_candidates(self):
        late = self.share(0.85)
        return self.inductive("induction", kept(self.system, candidates_of(self.system, self.formula), late), DEEPEST_INDUCTION, late)

    def by_search(self):
        return self.searched(None, self.share(1))

    def searched(self, depth, until):
        found = searched(self.system, self.formula, depth, until, self.tell, self.reach)
        return Verdict("false", *found) if found is not None else None


def decided(system, claim, seconds, tell, drawn=lambda _: None):
    """The verdict on a claim within a number of seconds; `drawn` looks for flows by runs until a time."""
    return Decision(system, claim, seconds, tell, drawn).verdict()


def is_soon_proved(system, formula):
    """Whether what was found of all memories keeps one formula from coming: one short query."""
    invariants = [*system.known.get("intervals", ()), *system.known.get("bounds", ())]
    try:
        return formula == "false" or by_induction(system, formula, invariants, 1, time.monotonic() + SOON, lambda _: None) > 0
    except z3_solver.Late:
        return False


def may_come(system, formula, seconds):
    """Whether an instant of which a formula holds is committed in some run: True, False, or None where that is not known."""
    begun = time.monotonic()
    formula = both(formula, system.committed)
    try:
        if formula != "false" and searched(system, formula, FIRST_DEPTH, begun + seconds / 3) is not None:
            return True
    except z3_solver.Late:
        pass
    word = "proved" if formula == "false" else by_horn(system, formula, begun + seconds)[0]
    return {"proved": False, "false": True}.get(word)

