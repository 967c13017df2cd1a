"""Comparisons of one signal with one constant: each is one condition, and those with the values of an enumeration exclude one another."""
from sigc.expand.definitions import Definition
from sigc.expand.messages import At
from sigc.expand.terms import BOOLEAN, Enumeration, Term, constant


class Comparisons:
    """The comparisons that have a signal of their own."""

    def __init__(self, unit):
        self.unit = unit
        self.of_values: dict[str, dict[int, str]] = {}
        self.of_integers: dict[tuple, str] = {}
        self.samples: dict[str, tuple] = {}

    def sampled(self, name: str, base: str, kind: object, branch) -> None:
        """Notes that a signal is another one as a branch sees it."""
        self.samples[name] = (base, kind, branch)

    def of(self, name: str, kind: object, value: int, at: At) -> Term:
        """Whether a signal has a value, as a signal: of a sampled one the comparison is sampled."""
        if name in self.samples:
            base, base_kind, branch = self.samples[name]
            found = self.of(base, base_kind, value, at)
            return Term("name", BOOLEAN, at, [], branch.sample(found.data, BOOLEAN, at))
        if isinstance(kind, Enumeration):
            return Term("name", BOOLEAN, at, [], self.of_value(name, kind, value, at))
        return Term("name", BOOLEAN, at, [], self.of_integer(name, value, at))

    def of_value(self, name: str, kind: Enumeration, value: int, at: At) -> str:
        made = self.of_values.setdefault(name, {})
        if value not in made:
            shown = f"{self.unit.names.user(name)} = #{kind.values[value]}"
            made[value] = self.unit.fresh(f"{name}_is_{kind.values[value]}", BOOLEAN, at, shown)
            self.define_value(name, kind, value, list(made.values()), at)
        return made[value]

    def define_value(self, name: str, kind: Enumeration, value: int, chain: list[str], at: At) -> None:
        """The last value that is needed of a type is none of the others; each other one excludes those before it."""
        earlier = [Term("name", BOOLEAN, at, [], it) for it in chain[:-1]]
        term = Term("=", BOOLEAN, at, [Term("name", kind, at, [], name), constant(value, kind, at)])
        if earlier:
            none = Term("not", BOOLEAN, at, [joined("or", earlier, at)])
            term = none if len(chain) == len(kind.values) else Term("and", BOOLEAN, at, [term, none])
        self.unit.defined(chain[-1], Definition(term, at))

    def of_integer(self, name: str, value: int, at: At) -> str:
        key = (name, value)
        if key not in self.of_integers:
            kind = self.unit.signals[name].kind
            shown = f"{self.unit.names.user(name)} = {value}"
            self.of_integers[key] = self.unit.fresh(f"{name}_is_{'m' if value < 0 else ''}{abs(value)}", BOOLEAN, at, shown)
            term = Term("=", BOOLEAN, at, [Term("name", kind, at, [], name), constant(value, kind, at)])
            self.unit.defined(self.of_integers[key], Definition(term, at))
        return self.of_integers[key]


def joined(op: str, terms: list[Term], at: At) -> Term:
    """Terms with an operator between each two."""
    found = terms[0]
    for it in terms[1:]:
        found = Term(op, BOOLEAN, at, [found, it])
    return found
