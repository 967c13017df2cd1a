"""How signals are written in pictures: those of a copy behind its path, few enough to be read."""
from sigc.clocks import plans

WIDTH = 36
NAMES_OF_ARROW = 8


def folded(words, indent=""):
    """Words on lines of about one width."""
    lines = [""]
    for it in words:
        if lines[-1] and len(lines[-1]) + len(it) >= WIDTH:
            lines.append(indent)
        lines[-1] += f" {it}" if lines[-1].strip() else it
    return lines


class Names:
    """How signals are written: those of a copy behind its path."""

    def __init__(self, flat, is_all, home=None):
        self.flat, self.is_all, self.home = flat, is_all, home

    def path(self, copy):
        return "/".join(self.flat.path(copy)) if self.flat and copy in self.flat.parents else copy

    def shown(self, signals):
        """The signals that are shown: without --all those of the compiler are left out."""
        return [it for it in signals if (self.is_all or not plans.is_intermediate(it)) and (not self.home or self.home.is_known(it))]

    def lines(self, signals):
        """The lines of a list of signals: those of the first process, then those of each copy."""
        copies = {}
        for it in self.shown(signals):
            it = self.home.name(it) if self.home else it
            copy, _, own = it.rpartition(".")
            copies.setdefault(copy, []).append(own)
        lines = folded(copies.pop("", []))
        for copy, own in copies.items():
            lines += folded([f"{self.path(copy)}:", *own], "  ")
        return [it for it in lines if it]


def signals_of(actor, classes, names):
    """The lines that tell what an actor computes: its operations, or its signals by their clocks."""
    if names.is_all:
        return [f"{word} {signal}" for word, signal in actor.operations]
    own, lines = names.shown(actor.signals()), []
    clocks = [[it for it in clock if it in own] for clock in classes.signals] if classes else [own]
    for clock in filter(None, clocks):
        lines += ["", *names.lines(clock)]
    return lines


def arrow_of(signals, names):
    """The label of an arrow: some of the signals, and how many more there are."""
    shown = names.shown(signals)
    more = len(shown) - NAMES_OF_ARROW if len(shown) > NAMES_OF_ARROW + 1 and not names.is_all else 0
    lines = names.lines(shown[: len(shown) - more])
    hidden = len(signals) - len(shown)
    return lines + ([f"and {more} more"] if more else []) + ([f"and {hidden} of the compiler"] if hidden else [])
