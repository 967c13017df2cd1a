"""Declarations and processes of a program as dictionaries, for the second evaluator."""
from collections.abc import Iterator

from second.read_equations import ReadEquations

DECLARED = ("type", "constant", "process", "function", "node")


def declarations() -> dict:
    return {"signals": [], "types": {}, "constants": {}, "processes": {}}


class Reader(ReadEquations):
    """A whole text."""

    def program(self) -> dict:
        found = declarations()
        while self.now:
            self.declared(found)
        return found

    def declared(self, into: dict) -> None:
        """One declaration."""
        word = self.take(*DECLARED, "use", "module")
        readers = {"use": self.used, "module": self.module, "type": self.type, "constant": self.constants}
        readers.get(word, self.process)(into)

    def used(self, _: dict) -> None:
        self.many(self.take)
        self.take(";")

    def module(self, into: dict) -> None:
        """What a module of this text declares stands before the rest."""
        self.take(), self.take("=")
        inside = declarations()
        while not self.had("end"):
            self.declared(inside)
        self.take(";")
        for kind in ("types", "constants", "processes"):
            into[kind] = inside[kind] | into[kind]

    def type(self, into: dict) -> None:
        name = self.take()
        self.take("="), self.take("enum"), self.take("(")
        into["types"][name] = self.many(self.take)
        self.take(")"), self.take(";")

    def constants(self, into: dict) -> None:
        self.kind()
        for name, value in self.many(lambda: (self.take(), self.take("=") and self.expr())):
            into["constants"][name] = value
        self.take(";")

    def kind(self) -> tuple[str, list]:
        sizes = []
        if self.had("["):
            sizes = self.many(self.expr)
            self.take("]")
        return self.take(), sizes

    def group(self) -> list[tuple]:
        """Signals of one kind: name, kind, sizes, init."""
        kind, sizes = self.kind()
        return [(name, kind, sizes, self.atom() if self.had("init") else None) for name in self.names()]

    def names(self) -> Iterator[str]:
        while True:
            yield self.take()
            if not self.had(","):
                return

    def groups(self, end: str) -> list[tuple]:
        found = []
        while self.now != end:
            found += self.group()
            self.had(";")
        self.take(end)
        return found

    def process(self, into: dict) -> None:
        name = self.take()
        self.take("=")
        found = {"name": name, "params": self.groups("}") if self.had("{") else []}
        self.take("("), self.take("?")
        found |= {"ins": self.groups("!"), "outs": self.groups(")"), "comes": self.comes()}
        outer, self.nested = self.nested, 0
        found["body"] = self.body()
        self.nested = outer
        found["where"] = self.where()
        self.take(";")
        into["processes"][name] = found
        into.setdefault("first", name)

    def comes(self) -> list[str]:
        """The names in the pragma Comes."""
        found: list[str] = []
        if self.had("pragmas"):
            while not self.had("end"):
                self.take("Comes"), self.take("{")
                found = self.many(self.take)
                self.take("}")
            self.take("pragmas")
        return found

    def where(self) -> dict:
        found = declarations()
        if not self.had("where"):
            return found
        while not self.had("end"):
            if self.now in DECLARED:
                self.declared(found)
            else:
                found["signals"] += self.group()
                self.take(";")
        return found
