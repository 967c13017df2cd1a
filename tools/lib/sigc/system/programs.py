"""The programs of a system: their inputs and outputs with kinds, as their texts declare them, and their images."""
import re
from typing import NamedTuple

from sigc.call import running
from sigc.expand.flows import listed
from sigc.image import images

ERROR_AT = re.compile(r"error (\d+:\d+): (.*)")


class Port(NamedTuple):
    """An input or an output of a program: the user's name, the kind and the sizes, and the signals of the kernel that it is."""

    name: str
    kind: object
    sizes: tuple
    signals: tuple

    @property
    def kind_text(self):
        return f"[{', '.join(map(str, self.sizes))}] {self.kind}" if self.sizes else str(self.kind)


class Program:
    """A program that sigc accepts. path has the image that sigc runs; called is how the system names the file."""

    def __init__(self, files, path, called):
        opened = running.Program(files, path)
        self.called, self.home, self.text = called, opened.home, opened.text
        self.path = files.written("image", "")
        with open(self.path, "wb") as out, running.Call("build", opened.path, stdout=out) as call:
            line, status = call.ended()
        if status:
            raise running.Refused(self.home.refusal(files.renamed(line)), status)
        with open(self.path, "rb") as it:
            self.image = images.image_of(it.read())
        names = [it.name for it in self.image.signals]
        self.numbers = {name: at for at, name in enumerate(names[: self.image.inputs + self.image.outputs])}
        self.inputs = self.ports("inputs", range(self.image.inputs))
        self.outputs = self.ports("outputs", range(self.image.inputs, self.image.inputs + self.image.outputs))

    def ports(self, role, numbers):
        if self.home.is_kernel:
            return [Port(it.name, it.kind, (), (number,)) for number in numbers for it in [self.image.signals[number]]]
        return [Port(it.name, it.kind, it.sizes, tuple(self.numbers[name] for name in listed([it.names]))) for it in getattr(self.home.expansion, role)]

    def place(self, line, col):
        """A place of the kernel in the user's text."""
        return f"{self.called}:{line}:{col}" if self.home.is_kernel else self.home.place(line, col)


def told(refusal, called):
    """The line of a refusal with the program's name before its place."""
    line = refusal.line.split("\n")[0]
    found = ERROR_AT.fullmatch(line)
    return f"{called}:{found[1]}: error: {found[2]}" if found else line
