"""Which signal comes together with an expression, as far as its form shows it; and whether it has a clock of its own."""
from sigc.expand.terms import ARITHMETIC, EQUALITIES, LOGIC, ORDERS, Term, is_constant

FUNCTIONS = {*ARITHMETIC, *EQUALITIES, *ORDERS, *LOGIC, "not", "neg", "if"}


def clock_of(term: Term) -> Term | None:
    """A name that comes where a term comes; none where no name in it is known to."""
    if term.op == "name":
        return term
    if term.op in FUNCTIONS:
        return next((found for it in term.parts if not is_constant(it) and (found := clock_of(it))), None)
    return clock_of(term.parts[0]) if term.op in ("delay", "clock") else None


def is_own(term: Term) -> bool:
    """Whether a term has a clock of its own: no bare constant in it takes its clock from what is around."""
    if is_constant(term):
        return False
    if term.op == "default":
        return all(map(is_own, term.parts))
    if term.op in FUNCTIONS or term.op == "when":
        return any(map(is_own, term.parts))
    return is_own(term.parts[0]) if term.op in ("delay", "beat") else True
