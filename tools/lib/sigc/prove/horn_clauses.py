"""Whether no run comes to an instant of which a formula holds, as Horn clauses, which z3 answers with an invariant."""
from sigc.prove import z3_solver
from sigc.prove.smt_formulas import both


def horn(system, formula):
    """The lines that ask whether no run comes to an instant of which a formula holds."""
    step = system.step
    memories = [(it.name, it.sort) for it in step.memories]
    names = " ".join(name for name, _ in memories)
    inside = f"(Reached {names})" if names else "Reached"
    bound = " ".join(f"({name} {sort})" for name, sort in [*memories, *system.constants()])
    lets = lambda term: f"{''.join(f'(let (({it.name} {it.term})) ' for it in step.definitions)}{term}{')' * len(step.definitions)}"
    forall = lambda term: f"(forall ({bound}) {term})" if bound else term
    following = " ".join(step.following[name] for name, _ in memories)
    after = f"(Reached {following})" if names else "Reached"
    begin = " ".join(it.init for it in step.memories)
    lines = ["(set-logic HORN)", f"(declare-fun Reached ({' '.join(sort for _, sort in memories)}) Bool)"]
    lines.append(f"(assert (Reached {begin}))" if names else "(assert Reached)")
    going = both(inside, system.bounded, system.committed)
    clause = lambda if_, then: f"(assert {forall(lets(f'(=> {if_} {then})'))})"
    return [*lines, clause(going, after), clause(both(inside, system.bounded, formula), "false")]


def by_horn(system, formula, until):
    """`proved`, `false` or `unknown` by the Horn solver, and of what is proved the invariant, as the solver writes it."""
    with z3_solver.Solver(until) as solver:
        try:
            solver.tell(*horn(system, formula))
            said = solver.check(until)
            model = solver.model(until) if said == "sat" else ""
        except z3_solver.Late:
            return "unknown", ""
    return {"sat": "proved", "unsat": "false"}.get(said, "unknown"), model
