"""Names of the kernel: each is used once, and those of the user's program stay as they are."""
from sigc.read.lexer import RESERVED


class Names:
    """The names that are taken, and what each kernel name is called by the user."""

    def __init__(self):
        self.taken = set(RESERVED)
        self.shown: dict[str, str] = {}
        self.numbers: dict[str, int] = {}
        self.reserved: set[str] = set()

    def kept(self, names) -> None:
        """Keeps names for the user's signals."""
        self.reserved = set(names)
        self.taken |= self.reserved

    def own(self, name: str) -> str:
        """The kernel's name of a signal of the first process: the user's, unless it is a word of the kernel."""
        if name in RESERVED:
            return self.made(name, name)
        self.shown[name] = name
        return name

    def made(self, wanted: str, shown: str) -> str:
        """A new name like a wanted one, and what it is called by the user."""
        while wanted in self.taken:
            wanted += "_"
        self.taken.add(wanted)
        self.shown[wanted] = shown
        return wanted

    def helper(self, wanted: str, shown: str) -> str:
        """A new name for a signal that the user does not know: a number tells it from others of its sort."""
        name = wanted
        while name in self.taken:
            self.numbers[wanted] = self.numbers.get(wanted, 1) + 1
            name = f"{wanted}_{self.numbers[wanted]}"
        return self.made(name, shown)

    def user(self, name: str) -> str:
        """What the user calls a signal of the kernel."""
        return self.shown.get(name, name)
