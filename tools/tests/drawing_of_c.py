"""Draws expressions and units of small C at random, and writes them in the layout of crates/sig_c/specs/Layout.antt and File.antt."""
import random

from reader_of_c import LEAST, MOST, OPERATORS, Declared, Header, Prototype, Scope, Unit

NUMBERS = (0, 1, -1, 2, -2, 3, 7, 10, 255, 32767, -32768, 40000, 2**31 - 1, -(2**31), 1 - 2**31, 2**31, 3 * 10**9, -9 * 10**9, MOST, LEAST, MOST - 1, LEAST + 1)
SHARE = 0.3

# ---- text


def number_text(value: int) -> str:
    """A number: INT64_C of what is more than 2147483647."""
    if value in (LEAST, MOST):
        return "INT64_MIN" if value == LEAST else "INT64_MAX"
    size = str(abs(value)) if abs(value) < 1 << 31 else f"INT64_C({abs(value)})"
    return f"-{size}" if value < 0 else size


def place_text(place: tuple, scope: Scope) -> str:
    """A variable, a field or *result."""
    if place[0] == "result":
        return "*result"
    return scope.variables[place[1]] if place[0] == "variable" else f"state->{scope.fields[place[1]]}"


def expression_text(expression: tuple, scope: Scope, is_operand: bool = False) -> str:
    """An expression; as an operand it stands in parentheses, unless it is a number, a place or a denial."""
    kind, *parts = expression
    if kind == "number":
        return number_text(parts[0])
    if kind == "get":
        return place_text(parts[0], scope)
    if kind == "not":
        return f"!{expression_text(parts[0], scope, True)}"
    if kind == "choose":
        test, first, second = (expression_text(it, scope, True) for it in parts)
        text = f"{test} ? {first} : {second}"
    else:
        text = f"{expression_text(parts[1], scope, True)} {parts[0]} {expression_text(parts[2], scope, True)}"
    return f"({text})" if is_operand else text


def statement_text(statement: tuple, scope: Scope) -> str:
    """A statement, on one line."""
    kind, *parts = statement
    if kind == "set":
        return f"{place_text(parts[0], scope)} = {expression_text(parts[1], scope)};"
    if kind == "when":
        return f"if ({expression_text(parts[0], scope)}) {{ {' '.join(statement_text(it, scope) for it in parts[1])} }}"
    if kind == "check":
        helper, first, second, variable, code = parts
        return f"if ({helper}({expression_text(first, scope)}, {expression_text(second, scope)}, &{scope.variables[variable]})) {{ return {code}; }}"
    if kind == "ask":
        address = "" if parts[1] is None else f", &{scope.variables[parts[1]]}"
        return f"if (!{scope.inputs[parts[0]]}(context{address})) {{ return {parts[2]}; }}"
    if kind == "give":
        value = "" if parts[1] is None else f", {expression_text(parts[1], scope)}"
        return f"{scope.outputs[parts[0]]}(context{value});"
    if kind == "ignore":
        return f"(void){parts[0] if isinstance(parts[0], str) else scope.variables[parts[0]]};"
    return f"return {parts[0]};"


def lines_text(statements: list, scope: Scope) -> str:
    """Statements, each on a line."""
    return "".join(f"    {statement_text(it, scope)}\n" for it in statements)


def escaped(name: str) -> str:
    """The characters of a string, with a backslash where one is wanted."""
    return "".join(f"\\{it}" if it in '"\\?' else it for it in name)


def unit_text(unit: Unit, header: Header, head: str = "A drawn unit.") -> str:
    """A whole file, which includes P.h."""
    prefix, fields = header.prefix, [name for name, _ in header.fields]
    scope = Scope([it.name for it in unit.variables], fields, [it.name for it in header.inputs], [it.name for it in header.outputs])
    helpers = "".join(
        f"\nstatic int {name}(int64_t a, int64_t b, int64_t *result)\n{{\n{lines_text(body, Scope(['a', 'b'], [], [], []))}}}\n" for name, body in unit.helpers.items()
    )
    rows = ",\n".join(f'    {{{prefix}_{cause}, {line}, {column}, "{escaped(name)}"}}' for cause, line, column, name in unit.ends)
    firsts = "".join(f"    state->{name} = {number_text(value)};\n" for name, value in zip(fields, unit.firsts)) or "    (void)state;\n"
    variables = "".join(f"    {it.width} {it.name} = {'0' if it.first is None else f'state->{fields[it.first]}'};\n" for it in unit.variables)
    return (
        f'/* {head} */\n#include "P.h"\n{helpers}\nconst {prefix}_end {prefix}_ends[{len(unit.ends)}] = {{\n{rows}\n}};\n'
        f"\nvoid {prefix}_init({prefix}_state *state)\n{{\n{firsts}}}\n"
        f"\nint {prefix}_step({prefix}_state *state, {prefix}_context *context)\n{{\n{variables}{lines_text(unit.step, scope)}}}\n"
    )


# ---- drawing

HEADER = Header(
    "P",
    [Prototype("r_P_A", "int64_t"), Prototype("r_P_B", "int"), Prototype("r_P_E", None)],
    [Prototype("w_P_Y", "int64_t"), Prototype("w_P_Z", "int"), Prototype("w_P_W", None)],
    [("kept", "int64_t"), ("is_on", "int")],
)
VARIABLES = [Declared("x0", "int64_t", None), Declared("x1", "int64_t", None), Declared("x2", "int64_t", 0), Declared("t0", "int", None), Declared("t1", "int", 1)]
WIDE, TRUTHS = (0, 1, 2), (3, 4)
ENDS = [("DONE", 0, 0, ""), ("OVERFLOW", 3, 4, 'a "b" \\?'), ("EXHAUSTED", 2**32 - 1, 1, "#3:5"), ("DIVISION_BY_ZERO", 7, 12, "Y")]


class Drawing:
    """Draws by a seed. No operator of numbers has two operands without a variable: a compiler would compute it before the run."""

    def __init__(self, seed: int, places: list) -> None:
        self.random, self.places = random.Random(seed), places

    def expression(self, depth: int) -> tuple:
        """An expression that has a variable."""
        if depth == 0 or self.random.random() < SHARE:
            return "get", self.random.choice(self.places)
        kind = self.random.choice(("not", "choose", *["binary"] * 8))
        if kind == "not":
            return self.denial()
        if kind == "choose":
            return kind, self.expression(depth - 1), self.operand(depth - 1), self.operand(depth - 1)
        return self.binary(depth)

    def denial(self) -> tuple:
        """A denial: of a name, so that no other sign stands behind its own."""
        return "not", ("get", self.random.choice([it for it in self.places if it[0] == "variable"]))

    def operand(self, depth: int) -> tuple:
        return ("number", self.random.choice(NUMBERS)) if self.random.random() < SHARE else self.expression(depth)

    def binary(self, depth: int) -> tuple:
        first, second = self.expression(depth - 1), self.operand(depth - 1)
        if self.random.random() < SHARE:
            first, second = second, first
        return "binary", self.random.choice(OPERATORS), first, second

    def truth(self, depth: int) -> tuple:
        """An expression that is 0 or 1."""
        first, second = self.expression(depth), self.operand(depth)
        return self.denial() if self.random.random() < SHARE else ("binary", self.random.choice(OPERATORS[5:]), first, second)

    def statement(self, depth: int) -> tuple:
        kind = self.random.choice(("set", "set", "truth", "when", "check", "check", "ask", "give", "ignore", "answer"))
        return getattr(self, f"draw_{kind}")(depth)

    def draw_set(self, _: int) -> tuple:
        place = self.random.choice([*(("variable", it) for it in WIDE), ("field", 0)])
        return "set", place, self.operand(2)

    def draw_truth(self, _: int) -> tuple:
        place = self.random.choice([*(("variable", it) for it in TRUTHS), ("field", 1)])
        return "set", place, self.truth(1)

    def draw_when(self, depth: int) -> tuple:
        return "when", self.expression(2), [self.statement(depth - 1) for _ in range(self.random.randrange(3))] if depth else []

    def draw_check(self, _: int) -> tuple:
        helper = self.random.choice(("add", "subtract", "multiply", "divide", "modulo"))
        return "check", helper, self.operand(1), self.operand(1), self.random.choice(WIDE), self.random.randrange(1, 4)

    def draw_ask(self, _: int) -> tuple:
        number = self.random.randrange(3)
        return "ask", number, (self.random.choice(WIDE), self.random.choice(TRUTHS), None)[number], self.random.randrange(1, 4)

    def draw_give(self, _: int) -> tuple:
        number = self.random.randrange(3)
        return "give", number, (self.operand(2), self.truth(1), None)[number]

    def draw_ignore(self, _: int) -> tuple:
        return "ignore", self.random.choice(("state", "context", *range(len(VARIABLES))))

    def draw_answer(self, _: int) -> tuple:
        return "when", self.truth(1), [("answer", self.random.randrange(4))]

    def unit(self, helpers: dict) -> Unit:
        """A unit with helpers of these statements."""
        firsts = [self.random.choice(NUMBERS), self.random.randrange(2)]
        step = [self.statement(2) for _ in range(self.random.randrange(3, 12))]
        return Unit(helpers, ENDS, firsts, VARIABLES, [*step, ("answer", 0)])

    def flows(self) -> list:
        """Values of the three inputs."""
        kinds = (NUMBERS, (0, 1), (1,))
        return [[self.random.choice(it) for _ in range(self.random.randrange(6))] for it in kinds]
