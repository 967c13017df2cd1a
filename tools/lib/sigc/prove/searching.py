"""Searches for flows that break a claim: instant by instant in one solver, and of many instants at once in another one."""
import threading

from sigc.prove import z3_solver
from sigc.prove.smt_formulas import both
from sigc.prove.systems import Found, at

# How many instants are asked of at once, one number after another.
FLAT = (25, 60, 150, 400, 1000, 2500)


class Search:
    """A bounded search for flows that break a claim, deeper and deeper, in one z3."""

    def __init__(self, system, formula, until):
        self.system, self.formula, self.until = system, formula, until
        self.solver = z3_solver.Solver(until)
        self.depth = 0

    def __enter__(self):
        self.solver.__enter__()
        return self

    def __exit__(self, *failure):
        self.solver.__exit__(*failure)

    def deeper(self, until):
        """Asks of the next instant; the flows up to it, or None."""
        k = self.depth
        if k:
            self.solver.tell(f"(assert {at(self.system.committed, k - 1)})")
        self.solver.tell(*self.system.instant(k, "init" if k == 0 else "before"), "(push)", f"(assert {at(self.formula, k)})")
        said = self.solver.check(min(self.until, until))
        flows = self.flows(k) if said == "sat" else None
        self.solver.tell("(pop)")
        self.depth += 1
        if said == "unknown":
            raise z3_solver.Late
        return flows

    def flows(self, last):
        """The values of each input up to an instant, in a model."""
        image, flows = self.system.step.image, {}
        failed = self.first_fault(last)
        for k in range(last + 1):
            for it in self.system.step.reads:
                asked = "false" if k == last and it.order > failed else at(it.guard, k)
                if asked == "false" or asked != "true" and not self.solver.values([asked], self.until)[asked]:
                    continue
                value = 1 if it.name is None else self.solver.values([f"{it.name}!{k}"], self.until)[f"{it.name}!{k}"]
                flows.setdefault(image.signals[it.signal].name, []).append(value)
        return Found(flows, failed)


    def first_fault(self, k):
        """The operation that fails first at an instant; one after all where none does. What is read later is not read."""
        for it in self.system.step.faults:
            if self.solver.values([at(it.when, k)], self.until)[at(it.when, k)]:
                return it.order
        return len(self.system.step.image.operations)


def searched(system, formula, depth, until, tell=lambda *_: None, reached=lambda _: None):
    """The flows of the first instant, up to a depth or without one, at which a formula can hold; None where there are none.
    `reached` is called with the number of instants of which it is known that none breaks the claim."""
    with Search(system, formula, until) as search:
        while depth is None or search.depth < depth:
            tell(f"{search.depth + 1} instants")
            flows = search.deeper(until)
            if flows is not None:
                return flows
            reached(search.depth)
    return None


class Flat:
    """A search of many instants at once, in a thread of its own beside the other ways: `found` has the flows once there are
    some, and `depth` the instants of which it is known that none breaks the claim."""

    def __init__(self, system, formula, until):
        self.system, self.formula, self.until = system, formula, until
        self.found, self.depth, self.is_stopped = None, 0, threading.Event()
        self.thread = threading.Thread(target=self.run, daemon=True)

    def __enter__(self):
        self.thread.start()
        return self

    def __exit__(self, *_):
        self.is_stopped.set()
        self.thread.join()

    def has_found(self):
        return self.found is not None

    def run(self):
        z3_solver.stop_if(self.is_stopped.is_set)
        try:
            for depth in FLAT:
                self.found = unrolled(self.system, self.formula, depth, self.until)
                if self.found is not None:
                    return
                self.depth = depth
        except (z3_solver.Late, z3_solver.Gone):
            pass


def unrolled(system, formula, depth, until):
    """The flows of some instant among the first ones of which a formula can hold, by one question; None where there are none."""
    with Search(system, formula, until) as search:
        going, breaks = "true", []
        for k in range(depth):
            search.solver.tell(*system.instant(k, "before" if k else "init"), f"(define-fun breaks!{k} () Bool {both(going, at(formula, k))})")
            breaks.append(f"breaks!{k}")
            search.solver.tell(f"(define-fun going!{k} () Bool {both(going, at(system.committed, k))})")
            going = f"going!{k}"
        search.solver.tell(f"(assert (or {' '.join(breaks)}))")
        said = search.solver.check(until)
        if said == "unknown":
            raise z3_solver.Late
        return search.flows(next(k for k, it in enumerate(breaks) if search.solver.values([it], until)[it])) if said == "sat" else None
