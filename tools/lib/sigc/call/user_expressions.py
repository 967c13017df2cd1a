"""Expressions over the user's signals, as properties have them: what stands for them over those of the kernel.

Beside names of signals there may be constants of the program, as `HOT[N - 1]`, values of enumerations, of which the signal
that one is compared with says the type, and `max(T)` or `min(T)` of an array T, as `max(T) - min(T) <= 9`.
"""
import re

from sigc.call.refusing import Refused

WORD = r"[A-Za-z]\w*"
COMPARED = re.compile(rf"(?P<before>(?<![\w#.])[A-Za-z][\w.#\[\]]*)\s*/?=\s*#(?P<value>{WORD})|#(?P<first>{WORD})\s*/?=\s*(?P<after>[A-Za-z][\w.#\[\]]*)")
VALUE = re.compile(rf"(?:(?<![\w#.])(?P<type>{WORD}))?#(?P<value>[A-Za-z]\w*)")
EXTREME = re.compile(rf"\b(max|min)\s*\(\s*({WORD})\s*\)\s*(<=|>=|<|>)\s*([\w.#]+(?:\[[^\]]*\])*)")
EXTREME_ALONE = re.compile(rf"\b(max|min)\s*\(\s*({WORD})\s*\)")
# What binds an operand of a comparison closer than the comparison does.
BINDS_BEFORE, BINDS_AFTER = re.compile(r"(?:[+\-*/]|\bmodulo)\s*\Z"), re.compile(r"\s*(?:[+\-*$]|/(?!=)|modulo\b)")


class UserExpressions:
    """The expressions of one expansion."""

    def __init__(self, expansion):
        self.expansion, self.scope = expansion, expansion.unit.scope

    def kernel(self, text: str) -> str:
        """An expression over the kernel's signals; Refused where a value of an enumeration has no type, or several."""
        text = EXTREME_ALONE.sub(self.extreme_alone, EXTREME.sub(self.extreme, self.indexed(text)))
        text = COMPARED.sub(self.compared, text)
        names = "|".join(re.escape(it) for it in sorted(self.expansion.kernel_names, key=len, reverse=True))
        text = re.sub(rf"(?<![\w#.])(?:{names})(?![\w\[.#])", lambda it: self.expansion.kernel_name(it[0]), text)
        return re.sub(rf"(?<![\w#.]){WORD}(?![\w(#.])", self.constant, VALUE.sub(self.value, text))

    def number(self, text: str) -> int | None:
        """The value of a constant expression of the program; None where it is none."""
        from sigc.expand import operators
        from sigc.expand.messages import Refused as NotTaken
        from sigc.expand.parser import Parser

        try:
            return operators.integer_of(Parser(text, "").expression(), self.scope, "an index")
        except NotTaken:
            return None

    def indexed(self, text: str) -> str:
        """Indices by constants, as numbers."""

        def one(it: re.Match) -> str:
            found = [self.number(part) for part in it[1].split(",")]
            return it[0] if None in found else "".join(f"[{number}]" for number in found)

        return re.sub(r"\[([^\[\]]*)\]", one, text)

    def extreme(self, it: re.Match) -> str:
        """`max(T) <= E` is that of each element, and `max(T) > E` that of one; of `min` the other way."""
        word, name, relation, other = it.groups()
        elements = self.elements(name)
        if not elements or BINDS_BEFORE.search(it.string[: it.start()]) or BINDS_AFTER.match(it.string[it.end() :]):
            return it[0]
        joint = " and " if (word == "max") == relation.startswith("<") else " or "
        return "(" + joint.join(f"({element} {relation} {other})" for element in elements) + ")"

    def extreme_alone(self, it: re.Match) -> str:
        """`max(T)` is the first element that is not below another one."""
        elements, relation = self.elements(it[2]), ">=" if it[1] == "max" else "<="
        if not elements:
            return it[0]
        *parts, last = [(one, " and ".join(f"({one} {relation} {other})" for other in elements if other != one)) for one in elements]
        return "(" + " default ".join([*(f"({one} when ({holds}))" for one, holds in parts), last[0]]) + ")"

    def elements(self, name: str) -> list[str]:
        """The elements of an array by the user's names; none of another signal."""
        return [shown for shown in reversed(self.expansion.kernel_names) if re.fullmatch(rf"{re.escape(name)}(?:\[\d+\])+", shown)]

    def compared(self, it: re.Match) -> str:
        """A comparison with a value, which has the type of the signal."""
        name, value = it["before"] or it["after"], it["value"] or it["first"]
        signal = self.expansion.unit.signals.get(self.expansion.kernel_name(name))
        values = getattr(signal and signal.kind, "values", [])
        if value not in values:
            return it[0]
        return re.sub(rf"#{value}\b", str(values.index(value)), it[0], count=1) if it["first"] else it[0][: it[0].rindex("#")] + str(values.index(value))

    def value(self, it: re.Match) -> str:
        """`#a` or `T#a` alone."""
        types = dict.fromkeys(signal.kind for signal in self.expansion.unit.signals.values() if hasattr(signal.kind, "values"))
        found = {kind.values.index(it["value"]) for kind in types if it["value"] in kind.values and it["type"] in (None, kind.name)}
        if len(found) != 1:
            told = f"is a value of several types: write {next(iter(types)).name}#{it['value']}, or compare a signal with it" if found else "no value of an enumeration"
            raise Refused(f"{it[0]} {told if found else 'is ' + told}", 2)
        return str(found.pop())

    def constant(self, it: re.Match) -> str:
        """The value of a constant of the program; another word as it is."""
        from sigc.expand.scopes import Value

        found = self.scope.find(it[0])
        if not isinstance(found, Value) or isinstance(found.value, list):
            return it[0]
        data = found.value.data
        return str(data).lower() if isinstance(data, bool) else str(data) if data >= 0 else f"({data})"
