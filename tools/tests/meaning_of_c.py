"""What a unit of small C does, as its definitions say (crates/sig_c/specs/Meaning.antt, Calls.antt)."""
from reader_of_c import LEAST, MOST, Header, Unit

RELATIONS = {
    "<": lambda a, b: a < b, "<=": lambda a, b: a <= b, ">": lambda a, b: a > b, ">=": lambda a, b: a >= b, "==": lambda a, b: a == b, "!=": lambda a, b: a != b,
}
ARITHMETIC = {"+": lambda a, b: a + b, "-": lambda a, b: a - b, "*": lambda a, b: a * b}


class Undefined(Exception):
    """C11 leaves open what happens."""


class Stricter(Undefined):
    """The definitions leave open what a compiler with an `int` of 32 bits does not: an `int` that is no truth, or past 16 bits."""


class Types:
    """The types of places, and how many bits an `int` has."""

    def __init__(self, variables: list, fields: list, int_bits: int = 16) -> None:
        self.variables, self.fields, self.int_bits = variables, fields, int_bits

    def of_place(self, place: tuple) -> str:
        if place[0] == "result":
            return "int64_t"
        return (self.variables if place[0] == "variable" else self.fields)[place[1]]

    def of(self, expression: tuple) -> str:
        """The type of an expression: int64_t where one operand is, and int of comparisons and truths."""
        kind, *parts = expression
        if kind == "number":
            return "int" if -(1 << 31) < parts[0] < 1 << 31 else "int64_t"
        if kind == "get":
            return self.of_place(parts[0])
        if kind == "choose":
            return wider(self.of(parts[1]), self.of(parts[2]))
        if kind == "binary" and parts[0] in "+-*/%":
            return wider(self.of(parts[1]), self.of(parts[2]))
        return "int"

    def within(self, width: str, value: int) -> int:
        """A result that its type has."""
        if width == "int64_t" and not LEAST <= value <= MOST:
            raise Undefined(f"{value} has more than 64 bits")
        if width == "int" and not -(1 << self.int_bits - 1) <= value < 1 << self.int_bits - 1:
            raise (Stricter if -(1 << 31) <= value < 1 << 31 else Undefined)(f"{value} is no int")
        return value


def wider(first: str, second: str) -> str:
    """The type of what two operands make."""
    return "int64_t" if "int64_t" in (first, second) else "int"


def quotient(first: int, second: int) -> int:
    """The quotient towards 0."""
    return abs(first) // abs(second) * (1 if (first < 0) == (second < 0) else -1)


class Function:
    """Statements over a memory: what they may call, and what their places have."""

    def __init__(self, types: Types, values: dict) -> None:
        self.types, self.values = types, values

    # ---- expressions

    def value(self, expression: tuple) -> int:
        kind, *parts = expression
        if kind == "number":
            return parts[0]
        if kind == "get":
            if parts[0] not in self.values:
                raise Undefined(f"{parts[0]} has no value")
            return self.values[parts[0]]
        if kind == "not":
            return int(self.value(parts[0]) == 0)
        if kind == "choose":
            return self.value(parts[1] if self.value(parts[0]) else parts[2])
        return self.operated(*parts)

    def operated(self, sign: str, first: tuple, second: tuple) -> int:
        """Two operands joined; && and || ask the second only where the first does not decide."""
        left = self.value(first)
        if sign in ("&&", "||") and bool(left) == (sign == "||"):
            return int(bool(left))
        right = self.value(second)
        if sign in ("&&", "||"):
            return int(bool(right))
        if sign in RELATIONS:
            return int(RELATIONS[sign](left, right))
        width = wider(self.types.of(first), self.types.of(second))
        if sign in ARITHMETIC:
            return self.types.within(width, ARITHMETIC[sign](left, right))
        if right == 0:
            raise Undefined("a divisor is 0")
        found = self.types.within(width, quotient(left, right))
        return found if sign == "/" else left - found * right

    # ---- statements

    def run(self, statements: list) -> int | None:
        """What statements answer; None where they go on."""
        for kind, *parts in statements:
            answer = getattr(self, kind)(*parts)
            if answer is not None:
                return answer
        return None

    def put(self, place: tuple, value: int) -> None:
        """A place is given a value that its type holds; an int holds truths alone."""
        width = self.types.of_place(place)
        if width == "int" and value not in (0, 1):
            raise Stricter(f"{value} is no truth")
        self.values[place] = self.types.within(width, value)

    def set(self, place: tuple, expression: tuple) -> None:
        self.put(place, self.value(expression))

    def when(self, condition: tuple, body: list) -> int | None:
        return self.run(body) if self.value(condition) else None

    def ignore(self, _: object) -> None:
        """Nothing is done."""

    def answer(self, code: int) -> int:
        """A `return`."""
        return code


class Step(Function):
    """The step of a unit, with the flows that the functions of inputs give and what those of outputs were given."""

    def __init__(self, header: Header, unit: Unit, flows: list, int_bits: int = 16) -> None:
        super().__init__(Types([it.width for it in unit.variables], [width for _, width in header.fields], int_bits), {})
        self.header, self.unit, self.flows, self.given = header, unit, flows, []
        for at, value in enumerate(unit.firsts):
            self.put(("field", at), value)

    def call(self) -> int:
        """What a call of the step answers; the memory goes on from it."""
        self.values = {place: value for place, value in self.values.items() if place[0] == "field"}
        for at, it in enumerate(self.unit.variables):
            self.set(("variable", at), ("number", 0) if it.first is None else ("get", ("field", it.first)))
        answer = self.run(self.unit.step)
        if answer is None or answer >= 1 << 15:
            raise Undefined(f"the step answers {answer}")
        return answer

    def check(self, helper: str, first: tuple, second: tuple, variable: int, code: int) -> int | None:
        values = {("variable", 0): self.value(first), ("variable", 1): self.value(second)}
        if helper not in self.unit.helpers or self.types.variables[variable] != "int64_t":
            raise Undefined(f"{helper} is not there, or writes no int64_t")
        called = Function(Types(["int64_t", "int64_t"], []), values)
        answer = called.run(self.unit.helpers[helper])
        if answer is None:
            raise Undefined(f"{helper} answers nothing")
        if ("result",) in called.values:
            self.put(("variable", variable), called.values[("result",)])
        return code if answer else None

    def ask(self, number: int, variable: int | None, code: int) -> int | None:
        takes = self.header.inputs[number].takes
        if takes != (None if variable is None else self.types.variables[variable]):
            raise Undefined("an input is asked otherwise than its prototype has it")
        if not self.flows[number]:
            return code
        value = self.flows[number].pop(0)
        if variable is not None:
            self.put(("variable", variable), value)
        return None

    def give(self, number: int, expression: tuple | None) -> None:
        takes = self.header.outputs[number].takes
        if (takes is None) != (expression is None):
            raise Undefined("an output is given otherwise than its prototype has it")
        value = 1 if expression is None else self.value(expression)
        if takes == "int" and value not in (0, 1):
            raise Stricter(f"{value} is no truth")
        self.given.append((number, value))
