"""Equal comparisons of the kernel are one signal, and of two that are opposite one is the `not` of the other."""
from sigc.expand.terms import BOOLEAN, EQUALITIES, ORDERS, Term

OPPOSITE = {"/=": "=", "<=": ">", ">=": "<"}


class SharedComparisons:
    """The comparisons of names and constants that were met: where the first of each is, and its name if it has one."""

    def __init__(self, lowering):
        self.lowering, self.met = lowering, {}

    def key_of(self, term: Term) -> tuple | None:
        """What equal comparisons have in common, and whether this one says the opposite."""
        if term.op not in EQUALITIES and term.op not in ORDERS or any(it.op not in ("name", "const") for it in term.parts):
            return None
        one, other = ((it.op, it.data) for it in term.parts)
        op = OPPOSITE.get(term.op, term.op)
        return (op, one, other), op != term.op

    def seen(self, term: Term) -> Term:
        """A comparison inside an equation: a name for it if an equal one was met before."""
        found = self.key_of(term)
        if found is None:
            return term
        key, is_opposite = found
        if key not in self.met:
            self.met[key] = [term, is_opposite, ""]
            return term
        first, was_opposite, name = self.met[key]
        if not name:
            name = self.name_first(key, first)
        same = Term("name", BOOLEAN, term.at, [], name)
        return same if is_opposite == was_opposite else Term("not", BOOLEAN, term.at, [same])

    def name_first(self, key: tuple, first: Term) -> str:
        """Gives the first comparison a signal of its own, in the place where it was met."""
        name = self.lowering.unit.fresh("CONDITION", BOOLEAN, first.at)
        self.lowering.equations.append((name, Term(first.op, first.kind, first.at, first.parts), first.at))
        first.op, first.parts, first.data = "name", [], name
        self.met[key][2] = name
        return name

    def top(self, name: str, term: Term) -> Term:
        """The right side of a signal: that signal is the name of a comparison that is the whole of it."""
        found = self.key_of(term)
        if found is not None and self.met[found[0]][0] is term and not self.met[found[0]][2]:
            self.met[found[0]][2] = name
        return term
