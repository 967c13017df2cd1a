"""Reads the literal step of a file of C by its grammar alone, and runs it: what C11 leaves open is an error.

An operand is a name, a field, a number, `!` before an operand, or an expression in parentheses; an expression is an operand, two
operands joined by an operator, or three by `?` and `:`. Nothing of this knows an image or the writer.
"""
import re

TOKEN = re.compile(r"\s+|/\*.*?\*/|(->|&&|\|\||[<>=!]=|[-+*/%<>=!?:;,&(){}]|[A-Za-z_][A-Za-z0-9_]*|[0-9]+)", re.S)
LEAST, MOST = -(1 << 63), (1 << 63) - 1
HELPERS = {"add": lambda a, b: a + b, "subtract": lambda a, b: a - b, "multiply": lambda a, b: a * b, "divide": lambda a, b: quotient(a, b)}
RELATIONS = {
    "<": lambda a, b: a < b, "<=": lambda a, b: a <= b, ">": lambda a, b: a > b, ">=": lambda a, b: a >= b, "==": lambda a, b: a == b, "!=": lambda a, b: a != b,
    "&&": lambda a, b: bool(a and b), "||": lambda a, b: bool(a or b),
}


class Undefined(Exception):
    """C11 leaves open what happens, or the text is none of the grammar."""


def quotient(first, second):
    if second == 0:
        raise Undefined("a division by zero")
    return abs(first) // abs(second) * (1 if (first < 0) == (second < 0) else -1)


def tokens_of(text):
    """The tokens of a text; Undefined where there are other characters."""
    found, at = [], 0
    while at < len(text):
        it = TOKEN.match(text, at)
        if not it:
            raise Undefined(f"{text[at:at + 20]!r} begins no token")
        found += [it[1]] if it[1] else []
        at = it.end()
    return found


class Reader:
    """The statements of a body, as tuples."""

    def __init__(self, tokens):
        self.tokens, self.at = tokens, 0

    def next(self):
        self.at += 1
        return self.tokens[self.at - 1]

    def is_next(self, *words):
        return self.tokens[self.at : self.at + len(words)] == list(words)

    def want(self, *words):
        for it in words:
            found = self.next()
            if found != it:
                raise Undefined(f"`{it}` is wanted and not `{found}`")

    def name(self):
        found = self.next()
        if not re.fullmatch("[A-Za-z][A-Za-z0-9_]*", found):
            raise Undefined(f"a name is wanted and not `{found}`")
        return found

    def block(self):
        """Statements in braces."""
        self.want("{")
        found = []
        while not self.is_next("}"):
            found.append(self.statement())
        self.want("}")
        return found

    def statement(self):
        if self.is_next("(", "void", ")"):
            self.want("(", "void", ")")
            found = "read", self.name()
        elif self.is_next("return"):
            self.want("return")
            found = "return", int(self.next())
        elif self.is_next("if"):
            return self.test()
        elif self.tokens[self.at + 1] == "(":
            return "give", self.name(), self.arguments(";")
        else:
            kind = self.next() if self.tokens[self.at] in ("int", "int64_t") else ""
            place = self.place()
            self.want("=")
            found = "set", kind, place, self.expression()
        self.want(";")
        return found

    def test(self):
        """An `if`: of an input, of a helper, or of an expression."""
        self.want("if", "(")
        if self.is_next("!") and self.tokens[self.at + 2] == "(":
            self.want("!")
            name, arguments = self.name(), self.arguments(")")
            return "ask", name, arguments, self.block()
        if self.tokens[self.at] in (*HELPERS, "modulo"):
            name, arguments = self.name(), self.arguments(")")
            return "check", name, arguments, self.block()
        condition = self.expression()
        self.want(")")
        return "when", condition, self.block()

    def arguments(self, behind):
        """The arguments of a call: expressions, and addresses as names."""
        self.want("(")
        found = []
        while True:
            if self.is_next("&"):
                self.want("&")
                found.append(("address", self.name()))
            else:
                found.append(self.expression())
            if not self.is_next(","):
                break
            self.want(",")
        self.want(")", behind)
        return found

    def place(self):
        name = self.name()
        if name != "state" or not self.is_next("->"):
            return name
        self.want("->")
        return f"state->{self.name()}"

    def expression(self):
        first = self.operand()
        if self.is_next("?"):
            self.want("?")
            second = self.operand()
            self.want(":")
            return "choice", first, second, self.operand()
        if self.tokens[self.at] in RELATIONS:
            return self.next(), first, self.operand()
        return first

    def operand(self):
        if self.is_next("("):
            self.want("(")
            found = self.expression()
            self.want(")")
            return found
        if self.is_next("!"):
            self.want("!")
            return "!", self.operand()
        return self.number() if self.is_number() else ("value", self.place())

    def is_number(self):
        it = self.tokens[self.at]
        return it == "-" or it.isdigit() or it in ("INT64_MIN", "INT64_MAX", "INT64_C")

    def number(self):
        sign = -1 if self.is_next("-") else 1
        it = self.next() if sign == 1 else (self.next(), self.next())[1]
        if it in ("INT64_MIN", "INT64_MAX"):
            return "number", LEAST if it == "INT64_MIN" else MOST
        if it == "INT64_C":
            self.want("(")
            it = self.next()
            self.want(")")
        elif int(it) >= 1 << 31:
            raise Undefined(f"{it} has no type on every machine")
        return "number", sign * int(it)


class Step:
    """A step: its statements, and those of the function that makes its first state; what the functions of inputs give."""

    def __init__(self, text, prefix):
        self.prefix, self.state, self.given = prefix, {}, []
        text = re.sub(r"^#.*$", "", text, flags=re.M)
        self.init, self.body = [Reader(tokens_of(self.part(text, it))).block() for it in ("init", "step")]

    def part(self, text, name):
        return re.search(rf"^\w+ {self.prefix}_{name}\([^)]*\)\n(\{{\n.*?^\}}\n)", text, re.M | re.S)[1]

    def begin(self):
        self.variables = {}
        self.run(self.init)

    def instant(self, flows):
        """Does one instant, with the values of the inputs; what it answers."""
        self.variables, self.kinds, self.flows, self.given = {}, {}, flows, []
        answer = self.run(self.body)
        if answer is None:
            raise Undefined("the step ends without an answer")
        return answer

    def run(self, statements):
        """What statements answer; None where they go on."""
        for it in statements:
            answer = getattr(self, f"run_{it[0]}")(*it[1:])
            if answer is not None:
                return answer
        return None

    def run_read(self, name):
        if name not in ("state", "context"):
            self.value(("value", name))

    def run_return(self, number):
        return number

    def run_set(self, kind, place, expression):
        value = self.value(expression)
        if kind:
            if place in self.kinds:
                raise Undefined(f"{place} is declared twice")
            self.kinds[place] = kind
        if place.startswith("state->"):
            self.state[place] = value
        else:
            self.put(place, value)

    def put(self, name, value):
        if name not in self.kinds or self.kinds[name] == "int" and value not in (0, 1):
            raise Undefined(f"{name} is not declared, or {value} is no truth")
        self.variables[name] = int(value)

    def run_ask(self, name, arguments, block):
        values = self.flows[name.removeprefix(f"r_{self.prefix}_")]
        if not values:
            return self.run(block)
        value = values.pop(0)
        for _, target in arguments[1:]:
            self.put(target, value)
        return None

    def run_check(self, helper, arguments, block):
        first, second = self.value(arguments[0]), self.value(arguments[1])
        if helper == "modulo":
            value = first - quotient(first, second) * second
        else:
            value = HELPERS[helper](first, second)
        if not LEAST <= value <= MOST:
            return self.run(block)
        self.put(arguments[2][1], value)
        return None

    def run_when(self, condition, block):
        return self.run(block) if self.value(condition) else None

    def run_give(self, name, arguments):
        self.given.append((name.removeprefix(f"w_{self.prefix}_"), *(self.value(it) for it in arguments[1:])))

    def value(self, expression):
        """The value of an expression; `&&`, `||` and `?` ask no more than they need, but all of it has a value here."""
        word, *parts = expression
        if word == "number":
            return parts[0]
        if word == "value":
            found = self.state if parts[0].startswith("state->") else self.variables
            if parts[0] not in found:
                raise Undefined(f"{parts[0]} has no value")
            return found[parts[0]]
        values = [self.value(it) for it in parts]
        if word == "!":
            return int(not values[0])
        return (values[1] if values[0] else values[2]) if word == "choice" else int(RELATIONS[word](*values))
