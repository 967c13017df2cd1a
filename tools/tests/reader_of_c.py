"""Reads the tokens of a file of small C as its definitions do (crates/sig_c/specs/Reader.antt): by what stands first.

Places are ("variable", N), ("field", N) and ("result",). Expressions are ("number", V), ("get", PLACE), ("not", E),
("binary", SIGN, A, B) and ("choose", TEST, A, B). Statements are tuples too, with their kind first.
"""
from typing import NamedTuple

from scanner_of_c import NotRead, tokens_of

HELPERS = ("add", "subtract", "multiply", "divide", "modulo")
CAUSES = ("DONE", "EXHAUSTED", "OVERFLOW", "DIVISION_BY_ZERO")
OPERATORS = ("+", "-", "*", "/", "%", "<", "<=", ">", ">=", "==", "!=", "&&", "||")
WIDTHS = ("int", "int64_t")
LEAST, MOST = -(1 << 63), (1 << 63) - 1


class Prototype(NamedTuple):
    """A function of an input or an output, and the type of its value: none for an event."""

    name: str
    takes: str | None


class Header(NamedTuple):
    """What the header says: the prefix, the functions, and the fields with their types."""

    prefix: str
    inputs: list
    outputs: list
    fields: list


class Declared(NamedTuple):
    """A variable of the step: its first value is 0, or that of the field of a number."""

    name: str
    width: str
    first: int | None


class Unit(NamedTuple):
    """A whole file."""

    helpers: dict
    ends: list
    firsts: list
    variables: list
    step: list


class Scope(NamedTuple):
    """What identifiers stand for in a function."""

    variables: list
    fields: list
    inputs: list
    outputs: list


class Reader:
    """Reads from one token on."""

    def __init__(self, tokens: list, scope: Scope) -> None:
        self.tokens, self.at, self.scope = tokens, 0, scope

    # ---- tokens

    def peek(self) -> tuple:
        return self.tokens[self.at] if self.at < len(self.tokens) else ("end", "")

    def next(self, kind: str) -> str:
        """The text of a token of a kind, which is passed."""
        found = self.peek()
        if found[0] != kind:
            raise NotRead(f"a {kind} is wanted and not {found}")
        self.at += 1
        return found[1]

    def is_next(self, *texts: str) -> bool:
        """Whether these words and signs stand first."""
        found = self.tokens[self.at : self.at + len(texts)]
        return [text for kind, text in found if kind in ("word", "sign")] == list(texts)

    def past(self, *texts: str) -> None:
        """These words and signs stand first, and are passed."""
        if not self.is_next(*texts):
            raise NotRead(f"{texts} are wanted from {self.peek()} on")
        self.at += len(texts)

    def place_in(self, names: list) -> int:
        """The place of a name among others."""
        found = self.next("word")
        if found not in names:
            raise NotRead(f"{found} is not there")
        return names.index(found)

    # ---- numbers

    def number(self) -> int:
        """Decimal digits, with no 0 before others."""
        found = self.next("word")
        if not found.isdigit() or str(int(found)) != found:
            raise NotRead(f"{found} is no decimal number")
        return int(found)

    def size(self) -> int:
        """A decimal number up to 2147483647, or one within INT64_C."""
        if not self.is_next("INT64_C"):
            return self.bounded(self.number(), 1 << 31)
        self.past("INT64_C", "(")
        found = self.bounded(self.number(), 1 << 63)
        self.past(")")
        return found

    def bounded(self, number: int, bound: int) -> int:
        if number >= bound:
            raise NotRead(f"{number} is too large")
        return number

    # ---- expressions

    def operand(self) -> tuple:
        kind, text = self.peek()
        if kind == "word":
            return self.word_operand(text)
        if text not in ("-", "!", "(", "*") or kind != "sign":
            raise NotRead(f"no operand begins with {self.peek()}")
        self.at += 1
        if text == "-":
            return "number", -self.size()
        if text == "!":
            return "not", self.operand()
        if text == "*":
            self.past("result")
            return "get", ("result",)
        found = self.expression()
        self.past(")")
        return found

    def word_operand(self, text: str) -> tuple:
        if text in ("INT64_MAX", "INT64_MIN"):
            self.at += 1
            return "number", MOST if text == "INT64_MAX" else LEAST
        if text == "INT64_C" or text[0].isdigit():
            return "number", self.size()
        if text == "state":
            return "get", self.field()
        return "get", ("variable", self.place_in(self.scope.variables))

    def field(self) -> tuple:
        self.past("state", "->")
        return "field", self.place_in(self.scope.fields)

    def expression(self) -> tuple:
        """An operand, or two with an operator, or three with ? and :."""
        first = self.operand()
        if self.is_next("?"):
            self.past("?")
            second = self.operand()
            self.past(":")
            return "choose", first, second, self.operand()
        kind, text = self.peek()
        if kind == "sign" and text in OPERATORS:
            self.at += 1
            return "binary", text, first, self.operand()
        return first

    # ---- statements

    def statements(self) -> list:
        """Statements up to `}`, which is left."""
        found = []
        while not self.is_next("}") and self.peek()[0] != "end":
            found.append(self.statement())
        return found

    def statement(self) -> tuple:
        kind, text = self.peek()
        if kind == "sign":
            return self.sign_statement(text)
        if text == "if":
            self.past("if", "(")
            return self.test()
        if text == "return":
            self.past("return")
            return self.ended(("answer", self.number()))
        if text == "state":
            return self.assignment(self.field())
        if text in self.scope.outputs:
            return self.gift(self.place_in(self.scope.outputs))
        return self.assignment(("variable", self.place_in(self.scope.variables)))

    def ended(self, statement: tuple) -> tuple:
        self.past(";")
        return statement

    def sign_statement(self, text: str) -> tuple:
        if text == "*":
            self.past("*", "result")
            return self.assignment(("result",))
        self.past("(", "void", ")")
        if self.peek() in (("word", "state"), ("word", "context")):
            return self.ended(("ignore", self.next("word")))
        return self.ended(("ignore", self.place_in(self.scope.variables)))

    def assignment(self, place: tuple) -> tuple:
        self.past("=")
        return self.ended(("set", place, self.expression()))

    def gift(self, output: int) -> tuple:
        self.past("(", "context")
        value = None
        if self.is_next(","):
            self.past(",")
            value = self.expression()
        self.past(")")
        return self.ended(("give", output, value))

    def test(self) -> tuple:
        """What stands behind `if (`: the call of a helper or of a function of an input, or an expression."""
        kind, text = self.peek()
        if kind == "word" and text in HELPERS:
            self.at += 1
            return self.check(text)
        if self.is_next("!") and self.at + 1 < len(self.tokens) and self.tokens[self.at + 1] in [("word", it) for it in self.scope.inputs]:
            self.past("!")
            return self.ask(self.place_in(self.scope.inputs))
        condition = self.expression()
        self.past(")", "{")
        body = self.statements()
        self.past("}")
        return "when", condition, body

    def check(self, helper: str) -> tuple:
        self.past("(")
        first = self.expression()
        self.past(",")
        second = self.expression()
        self.past(",", "&")
        variable = self.place_in(self.scope.variables)
        return "check", helper, first, second, variable, self.refusal()

    def ask(self, inputs: int) -> tuple:
        self.past("(", "context")
        variable = None
        if self.is_next(","):
            self.past(",", "&")
            variable = self.place_in(self.scope.variables)
        return "ask", inputs, variable, self.refusal()

    def refusal(self) -> int:
        self.past(")", ")", "{", "return")
        code = self.number()
        self.past(";", "}")
        return code


class File(Reader):
    """A whole file, under a header."""

    def __init__(self, text: str, include: str, header: Header) -> None:
        super().__init__(tokens_of(text), Scope([], [], [], []))
        self.include, self.header = include, header

    def name(self, text: str) -> str:
        return f"{self.header.prefix}_{text}"

    def unit(self) -> Unit:
        """The unit that the file is; nothing is left behind it."""
        if self.next("directive") != f'include "{self.include}"':
            raise NotRead("another header is included")
        helpers, ends, firsts = self.helpers(), self.ends(), self.firsts()
        variables, step = self.step()
        if self.peek()[0] != "end":
            raise NotRead(f"{self.peek()} stands behind the step")
        return Unit(helpers, ends, firsts, variables, step)

    def helpers(self) -> dict:
        self.scope, found = Scope(["a", "b"], [], [], []), {}
        while self.is_next("static"):
            self.past("static", "int")
            name = HELPERS[self.place_in(list(HELPERS))]
            if name in found:
                raise NotRead(f"{name} stands twice")
            self.past("(", "int64_t", "a", ",", "int64_t", "b", ",", "int64_t", "*", "result", ")", "{")
            found[name] = self.statements()
            self.past("}")
        return found

    def ends(self) -> list:
        self.past("const", self.name("end"), self.name("ends"), "[")
        count, rows = self.number(), []
        self.past("]", "=", "{")
        for at in range(count):
            self.past(*([","] if at else []), "{")
            cause = CAUSES[self.place_in([self.name(it) for it in CAUSES])]
            self.past(",")
            line = self.number()
            self.past(",")
            column = self.number()
            self.past(",")
            rows.append((cause, line, column, self.next("string")))
            self.past("}")
        self.past("}", ";")
        return rows

    def firsts(self) -> list:
        self.past("void", self.name("init"), "(", self.name("state"), "*", "state", ")", "{")
        found = []
        for field, _ in self.header.fields:
            self.past("state", "->", field, "=")
            word, value = self.operand()
            if word != "number":
                raise NotRead(f"{field} begins with no number")
            found.append(value)
            self.past(";")
        if not found:
            self.past("(", "void", ")", "state", ";")
        self.past("}")
        return found

    def step(self) -> tuple:
        self.past("int", self.name("step"), "(", self.name("state"), "*", "state", ",", self.name("context"), "*", "context", ")", "{")
        fields = [name for name, _ in self.header.fields]
        self.scope = Scope([], fields, [it.name for it in self.header.inputs], [it.name for it in self.header.outputs])
        variables = []
        while self.peek() in [("word", it) for it in WIDTHS]:
            variables.append(self.declaration())
        self.scope = self.scope._replace(variables=[it.name for it in variables])
        step = self.statements()
        self.past("}")
        return variables, step

    def declaration(self) -> Declared:
        width, name = self.next("word"), self.next("word")
        self.past("=")
        first = None
        if self.is_next("state"):
            first = self.field()[1]
        else:
            self.past("0")
        self.past(";")
        return Declared(name, width, first)


def unit_of(text: str, include: str, header: Header) -> Unit:
    """The unit that a text is under a header; NotRead where it is none."""
    return File(text, include, header).unit()
