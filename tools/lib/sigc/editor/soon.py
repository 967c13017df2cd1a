"""When the signals of a program in an editor come, in words, as far as that is found soon: an editor waits for it."""
import contextlib
import functools
import signal
import time

from sigc.clocks import clocks_in_words
from sigc.image import images

# How long the words of one program may take in all, and those of one signal, in seconds.
ALL, EACH = 1.0, 0.25


class Late(Exception):
    """What was looked for takes longer than it may."""


def late(*_):
    raise Late


@contextlib.contextmanager
def within(seconds):
    """Ends what is done inside by Late after so many seconds."""
    held = signal.signal(signal.SIGALRM, late)
    signal.setitimer(signal.ITIMER_REAL, max(seconds, 0.001))
    try:
        yield
    finally:
        signal.setitimer(signal.ITIMER_REAL, 0)
        signal.signal(signal.SIGALRM, held)


class When:
    """The clocks of an accepted program; of a refused one nothing is known."""

    def __init__(self, sigc, text):
        self.left, self.found = ALL, {}
        built = sigc.ask("build", text)
        self.clocks = None if built.status else self.soon(ALL, lambda: clocks_of(built.out, text))

    def soon(self, seconds, find):
        """What is found in time, else None."""
        begun = time.monotonic()
        try:
            with within(min(seconds, self.left)):
                return find()
        except (Late, RecursionError):
            return None
        finally:
            self.left -= time.monotonic() - begun

    def words(self, name):
        """When a signal comes, by the name that it has in the image; empty where that is not known."""
        if self.clocks is None or name not in self.clocks.numbers:
            return ""
        if name not in self.found and self.left > 0:
            self.found[name] = self.soon(EACH, lambda: self.clocks.words(name)) or ""
        return self.found.get(name, "")


def clocks_of(built, text):
    return clocks_in_words.Clocks(images.image_of(built.encode("latin-1")), text)


@functools.lru_cache(8)
def of(sigc, text):
    """The same for a text that was asked for before."""
    return When(sigc, text)
