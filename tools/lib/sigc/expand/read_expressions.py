"""Reads expressions. docs/signal.md has their grammar."""
from sigc.expand.messages import Refused
from sigc.expand.tokens import BETWEEN, KERNEL_WORDS, MOST_NUMBER, WORDS, is_name
from sigc.expand.tree import Node
from sigc.expand.walk import DEEPEST, Walk

# Operators between two operands, the loosest first; all of them associate to the left but relations, which do not.
LEVELS = {"default": 0, **dict.fromkeys(("when", "cell", "count", "after", "from"), 1), **dict.fromkeys(("^+", "^*", "^-"), 2), "or": 3, "xor": 3, "and": 4}
NOT, RELATION, MINUS = 5, 6, 9
LEVELS |= dict.fromkeys(("=", "/=", "<", "<=", ">", ">="), RELATION) | {"+": 7, "-": 7, "|+": 7, "*": 8, "/": 8, "modulo": 8, "|*": 8}


class ReadExpressions(Walk):
    """A reader of expressions."""

    def expression(self) -> Node:
        """An expression of any operator."""
        self.depth += 1
        if self.depth > 4 * DEEPEST:
            raise Refused(self.place(), f"nesting deeper than {DEEPEST}")
        found = self.binary(0)
        self.depth -= 1
        return found

    def binary(self, level: int) -> Node:
        """An expression whose operators are at least as tight as a level."""
        found, is_related = self.prefixed(level), False
        while True:
            token = self.tokens[self.at]
            own = LEVELS.get(token.text, -1) if token.kind != "label" else -1
            if own < level or own == RELATION and is_related:
                return found
            is_related = own == RELATION
            place, word = self.place(), self.step().text
            if word in BETWEEN:
                self.wider()
            found = Node(word, place, [found, self.binary(own + 1)])
            if word == "cell":
                found.data = self.init()
                self.is_wider |= found.data is None

    def prefixed(self, level: int) -> Node:
        """An operand with the operators before it that may stand there."""
        token = self.tokens[self.at]
        if token.kind == "name" and (token.text == "not" and level <= NOT or token.text == "when" and level <= 1):
            place = self.place()
            self.step()
            return Node("not", place, [self.binary(NOT)]) if token.text == "not" else Node("beat", place, [self.binary(2)])
        if token.kind == "mark" and token.text == "-":
            place = self.place()
            self.step()
            return Node("neg", place, [self.prefixed(MINUS)])
        return self.postfix()

    def init(self) -> Node | None:
        """The value behind `init`, or none."""
        if not self.sees("init"):
            return None
        self.step()
        return self.atom()

    def postfix(self) -> Node:
        found = self.primary()
        while True:
            text = self.tokens[self.at].text
            if text != "$" and text != "window":
                return found
            place = self.place()
            if text == "$":
                self.step()
                count = self.size() if self.is_count() else None
                init = self.init()
                self.is_wider |= init is not None and init.op not in ("int", "bool", "name", "neg")
                found = Node("delay", place, [found], (count, init))
                self.is_wider |= count is not None and (count.op, count.data) != ("int", 1)
            else:
                self.step()
                self.wider()
                size = self.size()
                found = Node("window", place, [found], (size, self.init()))

    def is_count(self) -> bool:
        token = self.here()
        return token.kind == "number" or token.text == "(" or is_name(token) and token.text not in BETWEEN

    def size(self) -> Node:
        """What stands behind `$` and `window`: an atom, or a sum if an `init` follows it."""
        begun = self.at
        try:
            found = self.binary(RELATION + 1)
            if self.sees("init"):
                return found
        except Refused:
            pass
        self.at = begun
        return self.atom()

    def atom(self) -> Node:
        """What may stand behind `init`, `$` and `window`."""
        if self.sees("-"):
            place = self.place()
            self.step()
            return Node("neg", place, [self.primary()])
        return self.primary()

    def primary(self) -> Node:
        token, place = self.here(), self.place()
        if token.kind == "number":
            return self.number()
        if is_name(token):
            return self.indexed(self.called())
        readers = {"(": self.parenthesised, "[": self.enumerated, "#": self.value, "^": self.clock, "if": self.choice}
        if token.kind != "label" and token.text in readers:
            found = readers[token.text]()
            return self.indexed(found) if token.text in "([" else found
        if token.text in ("true", "false") and token.kind == "name":
            self.step()
            return Node("bool", place, [], token.text == "true")
        if token.text in WORDS or token.text in KERNEL_WORDS:
            self.stop("an expression", f"`{token.text}` is a word of the language here, and no name")
        self.stop("an expression")

    def number(self) -> Node:
        place, token = self.place(), self.step()
        if int(token.text) > MOST_NUMBER:
            raise Refused(place, "number too large", f"the greatest is {MOST_NUMBER}")
        return Node("int", place, [], int(token.text))

    def called(self) -> Node:
        """A name, a call, or a value with the name of its type."""
        place, name = self.place(), self.step().text
        if self.sees("#"):
            self.step()
            return Node("enum", place, [], (name, self.name("a value").text))
        if not self.sees("(") and not (self.sees("{") and self.ahead(self.closing("{", "}") + 1).text == "("):
            return Node("name", place, [], name)
        constants = []
        if self.sees("{"):
            self.step()
            constants = self.listed(self.expression, "}")
            self.take("}")
        self.take("(")
        arguments = self.listed(self.expression, ")")
        self.take(")")
        return Node("call", place, arguments, (name, constants))

    def indexed(self, found: Node) -> Node:
        while self.sees("["):
            place = self.place()
            self.step()
            if self.sees("?"):
                self.step()
                self.take("]")
                found = Node("previous", place, [found])
                continue
            indices = self.listed(self.expression)
            self.take("]")
            found = Node("index", place, [found, *indices])
        return found

    def parenthesised(self) -> Node:
        """An expression in parentheses, or `(S : V) next A`."""
        place = self.place()
        self.step()
        found = self.expression()
        if not self.sees(":"):
            self.take(")")
            return found
        self.step()
        value = self.expression()
        self.take(")")
        if not self.sees("next"):
            self.stop("`next`", "(S : V) has one element: say the others by `(S : V) next A`")
        self.step()
        return Node("put", place, [found, value, self.postfix()])

    def enumerated(self) -> Node:
        place = self.place()
        self.step()
        if self.sees("{"):
            self.stop("an expression", "write the elements, or define them by `array I to N - 1 of X := .. end`")
        parts = self.listed(self.expression)
        self.take("]")
        return Node("array", place, parts)

    def value(self) -> Node:
        place = self.place()
        self.step()
        return Node("enum", place, [], ("", self.name("a value of an enumeration").text))

    def clock(self) -> Node:
        place = self.place()
        self.step()
        if self.here().kind == "number":
            self.wider()
            self.stop("a signal", "there is no clock ^0: write A ^- A")
        return Node("clock", place, [self.primary()])

    def choice(self) -> Node:
        place = self.place()
        self.step()
        self.wider()
        condition = self.expression()
        self.take("then")
        first = self.expression()
        self.take("else")
        return Node("if", place, [condition, first, self.expression()])
