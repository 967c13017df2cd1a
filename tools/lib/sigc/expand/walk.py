"""A walk over the tokens of a text: what each reader of a part of the grammar shares."""
from sigc.expand import other_languages
from sigc.expand.messages import Place, Refused
from sigc.expand.tokens import FOREIGN_MARKS, Token, is_name, tokens_of

# How deep sigc takes constructs inside one another.
DEEPEST = 64


class Walk:
    """Tokens with a place where the reader is; `is_wider` once something was read that no kernel has."""

    def __init__(self, text: str, file: str):
        self.file, self.tokens, self.at = file, tokens_of(text, file), 0
        self.is_wider, self.depth = False, 0

    def here(self) -> Token:
        return self.tokens[self.at]

    def ahead(self, count: int = 1) -> Token:
        return self.tokens[min(self.at + count, len(self.tokens) - 1)]

    def sees(self, *texts: str) -> bool:
        token = self.tokens[self.at]
        return token.text in texts and token.kind != "label"

    def place(self) -> Place:
        token = self.tokens[self.at]
        return Place(self.file, token.line, token.col)

    def step(self) -> Token:
        token = self.tokens[self.at]
        if token.text in FOREIGN_MARKS:
            self.is_wider = True
        self.at += token.kind != "end"
        return token

    def wider(self) -> None:
        """Notes that what is read here is in no kernel."""
        self.is_wider = True

    def take(self, *texts: str) -> Token:
        if not self.sees(*texts):
            self.stop(" or ".join(f"`{it}`" for it in texts))
        return self.step()

    def found(self) -> str:
        token = self.here()
        return f"`{token.text}`" if token.kind != "end" else "the end of the text"

    def stop(self, wanted: str, *advice: str) -> None:
        if self.here().text in FOREIGN_MARKS:
            self.is_wider = True
        told = advice or other_languages.advice(self.tokens, self.at)
        raise Refused(self.place(), "syntax", f"found {self.found()}; wanted {wanted}", *told)

    def name(self, what: str = "a name") -> Token:
        if not is_name(self.here()):
            self.stop(what)
        return self.step()

    def named(self, what: str = "a name") -> tuple[str, Place]:
        place = self.place()
        return self.name(what).text, place

    def listed(self, item, end: str = "") -> list:
        """Items between commas; none if the end is here at once."""
        if end and self.sees(end):
            return []
        found = [item()]
        while self.sees(","):
            self.step()
            found.append(item())
        return found

    def closing(self, opening: str, closing: str) -> int:
        """How many tokens ahead the mark is that closes the one that is here."""
        depth, count = 0, 0
        while self.at + count < len(self.tokens):
            text = self.tokens[self.at + count].text
            depth += (text == opening) - (text == closing)
            if depth == 0:
                return count
            count += 1
        return count
