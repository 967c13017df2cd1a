"""The tokens of a program, for the second evaluator."""
import re
from collections.abc import Callable

TOKEN = re.compile(
    r'(?:\s+|%[^%]*%)|("[^"]*"|\d+|[A-Za-z]\w*|::=|-->|\[\?\]|\(\||\|\)|\|\*|\|\+|:=|::|\^[=+*<>#-]|/=|<=|>='
    r"|[-+*/|(){},;?!^$=<>\[\]#:])"
)


class Tokens:
    """One text, read from the left; the last token is empty."""

    def __init__(self, text: str):
        self.tokens = [it for it in TOKEN.findall(text) if it] + [""]
        self.at = 0

    @property
    def now(self) -> str:
        return self.tokens[self.at]

    def take(self, *words: str) -> str:
        """The token that is here; SyntaxError where it is none of these words."""
        if words and self.now not in words:
            raise SyntaxError(f"{words} wanted at {self.tokens[max(0, self.at - 6) : self.at + 4]}")
        self.at += 1
        return self.tokens[self.at - 1]

    def had(self, *words: str) -> str | None:
        """The token that is here if it is one of these words."""
        return self.take() if self.now in words else None

    def many(self, read: Callable, mark: str = ",") -> list:
        """What stands between marks, at least once."""
        found = [read()]
        while self.had(mark):
            found.append(read())
        return found
