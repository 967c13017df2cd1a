"""Expressions of a program as tuples, for the second evaluator."""
import re

from second.read_tokens import Tokens

FUNCTIONS = ("max", "min", "abs")
# Operators between two operands, the loosest first; None is the place of `not`.
LEVELS = (
    ("^+", "^*", "^-"), ("or", "xor"), ("and",), None, ("=", "/=", "<", "<=", ">", ">="), ("+", "-", "|+"), ("*", "/", "modulo", "|*"),
)
CLOCKS, RELATIONS = 0, 4


class ReadExpressions(Tokens):
    """Expressions: a tuple has a word first, and then what the word needs."""

    def expr(self) -> tuple:
        found = self.sampled()
        while self.had("default"):
            found = ("default", found, self.sampled())
        return found

    def sampled(self) -> tuple:
        """`when`, `cell` and the counters, left to right."""
        found = None if self.now == "when" else self.chain(0)
        while self.now in ("when", "cell", "count", "after", "from"):
            word = self.take()
            right = self.chain(0)
            found = (word, found, right, self.atom() if self.had("init") else None) if word == "cell" else (word, found, right)
        return found

    def chain(self, level: int) -> tuple:
        """Operands with the operators of one level between them."""
        if level == len(LEVELS):
            return ("function", "neg", [self.chain(level)]) if self.had("-") else self.delayed()
        marks = LEVELS[level]
        if marks is None:
            return ("function", "not", [self.chain(level)]) if self.had("not") else self.chain(level + 1)
        found = self.chain(level + 1)
        while self.now in marks:
            mark = self.take()
            right = self.chain(level + 1)
            found = ("clock", mark, found, right) if level == CLOCKS else ("function", mark, [found, right])
            if level == RELATIONS:
                break
        return found

    def delayed(self) -> tuple:
        """A primary with `$` and `window` behind it."""
        found = self.primary()
        while self.now in ("$", "window"):
            word, size = self.take(), ("value", 1)
            has_size = word == "window" or self.now.isdigit() or self.now == "(" or re.match(r"[A-Z]", self.now)
            if self.now != "init" and has_size:
                size = self.atom()
            found = (word, found, size, self.atom() if self.had("init") else None)
        return found

    def atom(self) -> tuple:
        return ("value", -int(self.take())) if self.had("-") else self.primary()

    def primary(self) -> tuple:
        word = self.take()
        if word.isdigit():
            found = ("value", int(word))
        elif word in ("true", "false"):
            found = ("value", word == "true")
        elif word == "#":
            found = ("value", "#" + self.take())
        elif word == "[":
            found = ("function", "[]", self.many(self.expr))
            self.take("]")
        elif word == "(":
            found = self.parenthesised()
        elif word == "if":
            return self.choice()
        elif word == "^":
            return ("present", self.primary())
        else:
            found = self.named(word)
        return self.indexed(found)

    def choice(self) -> tuple:
        condition = self.expr()
        self.take("then")
        first = self.expr()
        self.take("else")
        return ("if", condition, first, self.expr())

    def parenthesised(self) -> tuple:
        """An expression in parentheses, or `(S : V) next A`."""
        found = self.expr()
        if self.had(":"):
            value = self.expr()
            self.take(")"), self.take("next")
            return ("function", "next", [found, value, self.delayed()])
        self.take(")")
        return found

    def indexed(self, found: tuple) -> tuple:
        """`X[I, J]` and `X[?]`."""
        while self.now in ("[", "[?]"):
            if self.take() == "[?]":
                found = ("before", found)
                continue
            found = ("name", found[1], "indexed") if found[0] == "name" else found
            for index in self.many(self.expr):
                found = ("function", "index", [found, index])
            self.take("]")
        return found

    def named(self, word: str) -> tuple:
        """A name, `T#a`, or a call."""
        if not re.match("[A-Za-z]", word):
            raise SyntaxError(f"an expression wanted at {self.tokens[max(0, self.at - 6) : self.at + 3]}")
        if self.had("#"):
            return ("value", "#" + self.take())
        parameters, start = [], self.at
        if self.had("{"):
            parameters = self.many(self.expr) if self.now != "}" else []
            self.take("}")
        if self.now != "(":
            self.at = start
        if not self.had("("):
            return ("name", word)
        arguments = self.many(self.expr) if self.now != ")" else []
        self.take(")")
        return ("function", word, arguments) if word in FUNCTIONS else ("call", word, parameters, arguments)
