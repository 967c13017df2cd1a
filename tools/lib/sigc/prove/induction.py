"""Induction over several instants, with invariants that are found among candidates: those that every instant keeps."""
import itertools
import re

from sigc.prove import z3_solver
from sigc.prove.searching import searched
from sigc.prove.smt_formulas import both, either, negated, number
from sigc.prove.systems import NAME, at

MOST_CANDIDATES = 600
DEEPEST_INDUCTION = 8
POWERS = (0, 4, 7, 8, 10, 12, 14, 16, 18, 20, 24, 28, 31, 32, 40, 48, 56, 60, 62)


def candidates_of(system, formula):
    """Formulas on the memories that may hold of all runs: bounds by the constants of the program, and pairs of memories."""
    numbers = {0, 1, -1} | {int(it) for it in re.findall(r"(?<![\w!])\d+", " ".join(it.term for it in system.step.definitions) + formula) if len(it) < 19}
    numbers |= {it.value for it in system.step.memories}
    numbers = sorted({n + d for n in numbers for d in (-1, 0, 1)}, key=abs)[:24]
    whole = [it for it in system.step.memories if it.sort == "Int"]
    truths = [it for it in system.step.memories if it.sort == "Bool"]
    found = [f"({sign} {it.name} {number(n)})" for it in whole for n in numbers for sign in ("<=", ">=")]
    found += [term for it in truths for term in (it.name, negated(it.name))]
    found += [f"({sign} {a.name} {b.name})" for a, b in itertools.permutations(whole, 2) for sign in ("<=", "<")]
    found += [either(x, y) for a, b in itertools.combinations(truths, 2) for x in (a.name, negated(a.name)) for y in (b.name, negated(b.name))]
    found += [either(x, f"({sign} {b.name} {number(n)})") for a in truths for b in whole for x in (a.name, negated(a.name)) for n in numbers[:5] for sign in ("<=", ">=", "=")]
    return [*system.reckoned, *found][:MOST_CANDIDATES]


def guarded_bounds(system):
    """Bounds of memories by powers of two, of each alone and where a truth is, or is not, in another memory."""
    whole = [it.name for it in system.step.memories if it.sort == "Int"]
    truths = [it.name for it in system.step.memories if it.sort == "Bool"]
    guards = ["false", *(term for it in truths for term in (it, negated(it)))]
    powers = POWERS
    if 2 * len(powers) * len(whole) * len(guards) > MOST_CANDIDATES:
        powers = POWERS[::3]
    if 2 * len(powers) * len(whole) * len(guards) > MOST_CANDIDATES:
        guards = guards[:1]
    bounds = [f"({sign} {it} {number(n)})" for it in whole for power in powers for sign, n in (("<=", 1 << power), (">=", -(1 << power)))]
    bounds += [f"(>= {it} 0)" for it in whole]
    return [*system.reckoned, *(either(guard, it) for guard in guards for it in bounds)][: 2 * MOST_CANDIDATES]


def known(system, name, candidates, until):
    """What `kept` finds of candidates that belong to the program alone; it is asked once."""
    if name not in system.known:
        system.known[name] = without_weaker(kept(system, candidates(system), until))
    return system.known[name]


def without_weaker(held):
    """Formulas without those that say `A or B` where B is among them."""
    alone = {it for it in held if not it.startswith("(or ")}
    return [it for it in held if it in alone or it[it.index(" (", 5 if it.startswith("(or (") else 0) + 1 : -1] not in alone]


def kept(system, candidates, until):
    """Those candidates that hold at the opening and are kept by each instant in which all of them hold."""
    begun = {it.name: it.init for it in system.step.memories}
    held = [it for it in candidates]
    with z3_solver.Solver(until) as solver:
        opened = [(f"c{i}", NAME.sub(lambda found: begun[found[0]], it)) for i, it in enumerate(held)]
        solver.tell(*(f"(define-fun {name} () Bool {term})" for name, term in opened))
        solver.tell("(assert true)")
        solver.check(until)
        truth = solver.values([name for name, _ in opened], until)
        held = [it for (name, _), it in zip(opened, held) if truth[name]]
    while held:
        with z3_solver.Solver(until) as solver:
            following = lambda it: NAME.sub(lambda found: system.step.following[found[0]], it)
            solver.tell(*system.instant(0, "free"), *(f"(assert {at(it, 0)})" for it in held), f"(assert {at(system.committed, 0)})")
            solver.tell(*(f"(define-fun c{i} () Bool {at(following(it), 0)})" for i, it in enumerate(held)))
            solver.tell(f"(assert {negated(both(*(f'c{i}' for i in range(len(held)))))})")
            said = solver.check(until)
            if said == "unsat":
                return held
            if said != "sat":
                return []
            truth = solver.values([f"c{i}" for i in range(len(held))], until)
            held = [it for i, it in enumerate(held) if truth[f"c{i}"]]
    return held


def by_induction(system, formula, invariants, deepest, until, tell):
    """How many instants in a row without the formula, from any state that keeps the invariants, are always followed by one
    without it; 0 where no number is found."""
    for length in range(1, deepest + 1):
        tell(f"induction over {length} instants")
        if searched(system, formula, length, until) is not None:
            return 0
        with z3_solver.Solver(until) as solver:
            for k in range(length + 1):
                solver.tell(*system.instant(k, "free" if k == 0 else "before"))
                solver.tell(*(f"(assert {at(it, k)})" for it in invariants))
                if k < length:
                    solver.tell(f"(assert {at(both(negated(formula), system.committed), k)})")
            solver.tell(f"(assert {at(formula, length)})")
            if solver.check(until) == "unsat":
                return length
    return 0
