"""The text of a system: its inputs and outputs, instances of programs, and what is joined to what.

    system PLANT = (? integer LEVEL ! boolean PUMP, ALARM)
    A := "filter.sig"(LEVEL)  B := "control.sig"(A.CLEAN)  C := "watch.sig"(B.STATE, A.CLEAN)
    PUMP := B.PUMP  ALARM := C.ALARM

A count behind a name, as CHANNEL[2000] or LEVEL[2000], makes so many of it. What is joined then is joined one by one, and an
input or an output without a count goes to each.
"""
from typing import NamedTuple

from sigc.system.system_tokens import Fault, Place, tokens_of

MOST = 100_000


class Port(NamedTuple):
    """An input or an output of the system: its kind, with the sizes of an array, and how many there are, None for one."""

    name: str
    place: Place
    kind: str
    sizes: tuple
    count: int | None

    @property
    def kind_text(self):
        return f"[{', '.join(map(str, self.sizes))}] {self.kind}" if self.sizes else self.kind


class Source(NamedTuple):
    """From where values come: an input of the system, or an output of an instance; of many by an index, or all of them."""

    place: Place
    name: str
    index: int | None
    output: str | None

    @property
    def text(self):
        index = "" if self.index is None else f"[{self.index}]"
        return f"{self.name}{index}" + (f".{self.output}" if self.output else "")


class Instance(NamedTuple):
    """An instance of a program, or so many of them: the name of the file, and what its inputs get, in their order."""

    name: str
    place: Place
    count: int | None
    file: str
    file_place: Place
    sources: list


class Joined(NamedTuple):
    """An output of the system, or one of them, and what it gives."""

    name: str
    place: Place
    index: int | None
    source: Source


class System(NamedTuple):
    name: str
    inputs: list
    outputs: list
    instances: list
    joined: list


class Reader:
    """The parts of a text, one after another."""

    def __init__(self, text):
        self.tokens, self.at = tokens_of(text), 0

    @property
    def next(self):
        return self.tokens[self.at]

    def is_next(self, text):
        return self.next.text == text and self.next.kind in ("mark", "name")

    def skip(self, text):
        """Whether this mark was next; it is taken then."""
        if not self.is_next(text):
            return False
        self.at += 1
        return True

    def want(self, text):
        if not self.skip(text):
            raise Fault(self.next.place, f"found {self.found()}; wanted `{text}`")

    def found(self):
        return f"`{self.next.text}`" if self.next.text else "the end of the text"

    def word(self, kind, wanted):
        """The next token, which has to be of a kind."""
        if self.next.kind != kind:
            raise Fault(self.next.place, f"found {self.found()}; wanted {wanted}")
        self.at += 1
        return self.tokens[self.at - 1]

    def number(self, wanted, least, most):
        it = self.word("number", wanted)
        if len(it.text) > 9 or not least <= int(it.text) <= most:
            raise Fault(it.place, f"{it.text} is no number from {least} to {most}")
        return int(it.text)

    # The parts.

    def system(self):
        self.want("system")
        name = self.word("name", "the name of the system").text
        for mark in ("=", "(", "?"):
            self.want(mark)
        inputs = self.ports("!")
        self.want("!")
        outputs = self.ports(")")
        self.want(")")
        instances, joined = self.equations()
        return System(name, inputs, outputs, instances, joined)

    def ports(self, last):
        """Inputs or outputs, up to a mark."""
        found = []
        while not self.is_next(last):
            kind, sizes = self.kind()
            found.append(self.port(kind, sizes))
            while self.skip(","):
                found.append(self.port(kind, sizes))
            if not self.skip(";"):
                return found
        return found

    def kind(self):
        sizes = []
        if self.skip("["):
            sizes.append(self.number("a size", 1, MOST))
            while self.skip(","):
                sizes.append(self.number("a size", 1, MOST))
            self.want("]")
        return self.word("name", "`integer`, `boolean`, `event` or a type").text, tuple(sizes)

    def port(self, kind, sizes):
        it = self.word("name", "a name")
        return Port(it.text, it.place, kind, sizes, self.bracketed("a count", 1))

    def bracketed(self, wanted, least):
        """A number in brackets, None where there is none."""
        if not self.skip("["):
            return None
        found = self.number(wanted, least, MOST)
        self.want("]")
        return found

    def equations(self):
        instances, joined = [], []
        while self.next.kind != "end":
            it = self.word("name", "an instance or an output of the system")
            begun = self.next.place
            count = self.bracketed("a number", 0)
            self.want(":=")
            if self.next.kind == "file":
                instances.append(self.instance(it, count, begun))
            else:
                joined.append(Joined(it.text, it.place, count, self.source()))
            self.skip(";")
        return instances, joined

    def instance(self, name, count, begun):
        if count == 0:
            raise Fault(begun, "0 instances are none", "a count is 1 or more")
        file = self.word("file", "the name of a file")
        self.want("(")
        sources = []
        if not self.is_next(")"):
            sources.append(self.source())
            while self.skip(","):
                sources.append(self.source())
        self.want(")")
        return Instance(name.text, name.place, count, file.text[1:-1], file.place, sources)

    def source(self):
        it = self.word("name", "an input of the system or an instance with its output")
        index = self.bracketed("a number", 0)
        output = self.word("name", "an output of the instance").text if self.skip(".") else None
        return Source(it.place, it.text, index, output)


def read(text):
    """The system that a text is; Fault where it is none."""
    return Reader(text).system()
