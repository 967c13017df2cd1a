"""Flows and outputs: values of arrays and enumerations of the user, and those of the kernel's signals."""
import re
from typing import NamedTuple

from sigc.expand.terms import BOOLEAN, EVENT, Enumeration

ELEMENT = re.compile(r"([A-Za-z][A-Za-z0-9_]*)((?:\[[0-9]+\])+)")
MOST_REPEATED = 4_000_000


class Port(NamedTuple):
    """An input or an output: its name, its kind, its sizes, and the kernel's names of its elements in nested lists."""

    name: str
    kind: object
    sizes: tuple
    names: object

    def is_plain(self) -> bool:
        """Whether its values are written alike by the user and in the kernel."""
        return not self.sizes and not isinstance(self.kind, Enumeration)


class FlowFault(Exception):
    """A line of a flow file that has no reading: its line and column, what is wrong, and what is wanted."""

    def __init__(self, line: int, col: int, text: str, *advice: str):
        super().__init__(text)
        self.line, self.col, self.text, self.advice = line, col, text, list(advice)

    def shown(self, file: str) -> str:
        return "\n".join([f"{file}:{self.line}:{self.col}: error: {self.text}", *(f"      {it}" for it in self.advice)])


def words_of(line: str) -> list[tuple[int, str]]:
    """The words of a line with their columns; blanks inside brackets part none."""
    found, depth, begun = [], 0, None
    for number, it in enumerate(line + " "):
        if it in " \t\r" and depth <= 0:
            if begun is not None:
                found.append((begun + 1, line[begun:number]))
            begun = None
            continue
        begun = number if begun is None else begun
        depth += (it == "[") - (it == "]")
    if begun is not None:
        found.append((begun + 1, line[begun:].rstrip()))
    return found


class Flows:
    """Flow files of one program."""

    def __init__(self, inputs: list[Port]):
        self.ports = {it.name: it for it in inputs}
        self.elements: dict[str, Port] = {}
        for it in inputs:
            if it.sizes:
                self.add(it, it.names, "")

    def add(self, port: Port, names, indices: str) -> None:
        if isinstance(names, list):
            for number, it in enumerate(names):
                self.add(port, it, f"{indices}[{number}]")
            return
        for it in (f"{port.name}{indices}", names):
            self.elements.setdefault(it, Port(f"{port.name}{indices}", port.kind, (), names))

    def kernel(self, text: str) -> str:
        """The kernel's flow file. Lines of plain inputs stay in their places; those of others follow, an element a line."""
        lines, last, is_second = [], [], None
        for number, line in enumerate(text.split("\n"), 1):
            if is_second is None and line.split():
                is_second = line.split() == ["flows", "2"] and "flows" not in self.ports
                if is_second:
                    lines.append(line)
                    continue
            name = line.split()[0] if line.split() else ""
            port = self.ports.get(name.split("[")[0]) if "[" in name else self.ports.get(name) or self.elements.get(name)
            if port is None or port.is_plain() and name in self.ports:
                lines.append(line)
                continue
            lines.append("")
            last += self.read(line, number, bool(is_second))
        return "\n".join(lines if not last else [*(lines if lines[-1] else lines[:-1]), *last, ""])

    def read(self, line: str, number: int, is_second: bool) -> list[str]:
        """The kernel's lines of one line of an array, an element or an enumeration."""
        (col, name), *words = words_of(line)
        port = self.ports.get(name) or self.elements.get(name)
        if port is None:
            shape = self.ports[name.split("[")[0]]
            raise FlowFault(number, col, "not an input", f"{shape.name} has the sizes {list(shape.sizes)}" if shape.sizes else f"{shape.name} is no array")
        columns: dict[str, list[str]] = {it: [] for it in listed(port.names)}
        for at, word in words:
            value, times = repeated(word, is_second, number, at)
            for it, one in zip(columns, self.values(value, port.kind, port.sizes, number, at)):
                columns[it].append(one + times)
        return [" ".join([it, *values]) for it, values in columns.items()]

    def values(self, word: str, kind: object, sizes: tuple, line: int, col: int) -> list[str]:
        """The values of the elements that a word has, in order."""
        if not sizes:
            return [kernel_value(word.strip(), kind, line, col)]
        inner = word.strip()
        parts = parts_of(inner[1:-1]) if inner.startswith("[") and inner.endswith("]") else []
        if len(parts) != sizes[0]:
            raise FlowFault(line, col, "bad value", f"an array of {sizes[0]} is wanted: {example(kind, sizes)}")
        return [it for part in parts for it in self.values(part, kind, sizes[1:], line, col)]


def repeated(word: str, is_second: bool, line: int, col: int) -> tuple[str, str]:
    """A word without its `*k`, and that."""
    found = re.fullmatch(r"(.*)\*([0-9]{1,9})", word)
    if not found or not is_second:
        return word, ""
    if not 1 <= int(found[2]) <= MOST_REPEATED:
        raise FlowFault(line, col, "bad value", f"a value stands for 1 to {MOST_REPEATED} values")
    return found[1], "*" + found[2]


def parts_of(text: str) -> list[str]:
    """What stands between the commas that are in no brackets of their own."""
    found, depth, part = [], 0, ""
    for it in text:
        depth += (it == "[") - (it == "]")
        if it == "," and not depth:
            found.append(part)
            part = ""
        else:
            part += it
    return [*found, part]


def kernel_value(word: str, kind: object, line: int, col: int) -> str:
    """One value as the kernel has it."""
    if isinstance(kind, Enumeration):
        if word.startswith("#") and word[1:] in kind.values:
            return str(kind.values.index(word[1:]))
        raise FlowFault(line, col, "bad value", f"{kind.name} has the values {', '.join('#' + it for it in kind.values)}")
    allowed = {BOOLEAN: "true|false", EVENT: "true"}.get(kind, "-?[0-9]+")
    if not re.fullmatch(allowed, word):
        raise FlowFault(line, col, "bad value", {BOOLEAN: "true or false is wanted", EVENT: "an event is `true`"}.get(kind, "an integer is wanted"))
    if kind not in (BOOLEAN, EVENT) and not -(1 << 63) <= int(word) < 1 << 63:
        raise FlowFault(line, col, "out of range", "an integer has 64 bits")
    return word


def example(kind: object, sizes: tuple) -> str:
    if not sizes:
        return "#" + kind.values[0] if isinstance(kind, Enumeration) else {BOOLEAN: "true", EVENT: "true"}.get(kind, "1")
    return "[" + ",".join([example(kind, sizes[1:])] * sizes[0]) + "]"


def listed(names) -> list[str]:
    return [it for part in names for it in listed(part)] if isinstance(names, list) else [names]


class Outputs:
    """Lines of a run as the user reads them: an array on one line, once all its elements are there."""

    def __init__(self, outputs: list[Port]):
        self.of = {name: it for it in outputs for name in listed(it.names)}
        self.held: dict[str, str] = {}

    def line(self, line: str) -> str | None:
        """A line of the user's, or none while elements of an array are wanted."""
        name, _, value = line.partition(" ")
        port = self.of.get(name)
        if port is None:
            return line
        if not port.sizes:
            return f"{port.name} {user_value(value, port.kind)}"
        self.held[name] = user_value(value, port.kind)
        names = listed(port.names)
        if name != names[-1]:
            return None
        shown = f"{port.name} {self.shown(port.names)}"
        self.held.clear()
        return shown

    def shown(self, names) -> str:
        return "[" + ",".join(map(self.shown, names)) + "]" if isinstance(names, list) else self.held.get(names, ".")

    def text(self, text: str) -> str:
        """A whole text of a run."""
        found = (self.line(it) for it in text.split("\n"))
        return "\n".join(it for it in found if it is not None)


def user_value(value: str, kind: object) -> str:
    """One value as the user reads it; an integer that is none of an enumeration stays as it is."""
    if isinstance(kind, Enumeration) and value.isdigit() and int(value) < len(kind.values):
        return "#" + kind.values[int(value)]
    return value
