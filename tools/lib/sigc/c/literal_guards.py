"""Guards of an image as expressions of C, each split at its first condition, and their lengths, which are known before them."""

MOST_BYTES = 67_108_864


class TooLong(Exception):
    """The text would have more bytes than a file may have."""


class Guards:
    """The guards of an image, its conditions with the names of their signals."""

    def __init__(self, image, names):
        self.nodes, self.names = image.nodes, [names[it] for it in image.conditions]
        self.lengths, self.texts = {}, {}

    def text(self, guard: int) -> str:
        """The expression of a guard that is no constant."""
        below = self.below(guard)
        for it in below:
            self.lengths[it] = self.length(it)
        if self.lengths[guard] > MOST_BYTES:
            raise TooLong
        for it in below:
            self.texts[it] = self.joined(it, self.inner)
        return self.texts[guard]

    def below(self, guard):
        """The guards that one is made of and that are new, each behind those that it is made of."""
        todo, found = [guard], set()
        while todo:
            it = todo.pop()
            if it > 1 and it not in self.texts and it not in found:
                found.add(it)
                todo += self.nodes[it - 2][1:]
        return sorted(found)

    def joined(self, guard, inner):
        """A guard, with a function for what stands inside it."""
        condition, low, high = self.nodes[guard - 2]
        name = self.names[condition]
        if high < 2 and low < 2:
            return name if high else f"!{name}"
        if high < 2:
            return f"{name} || {inner(low)}" if high else f"!{name} && {inner(low)}"
        if low < 2:
            return f"!{name} || {inner(high)}" if low else f"{name} && {inner(high)}"
        return f"{name} ? {inner(high)} : {inner(low)}"

    def is_single(self, guard):
        """Whether a guard is a name or its negation."""
        _, low, high = self.nodes[guard - 2]
        return low < 2 and high < 2

    def inner(self, guard):
        """A guard inside another one."""
        return self.texts[guard] if self.is_single(guard) else f"({self.texts[guard]})"

    def length(self, guard):
        """The length of a guard whose parts have lengths."""
        _, low, high = self.nodes[guard - 2]
        parts = [it for it in (low, high) if it > 1]
        inside = sum(self.lengths[it] + (0 if self.is_single(it) else 2) for it in parts)
        return len(self.joined(guard, lambda _: "")) + inside
