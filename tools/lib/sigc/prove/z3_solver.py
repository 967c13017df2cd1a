"""z3 as a program that is asked in lines of SMT-LIB, with limits of time and without its fate deciding ours.

Nothing that it says is believed where a run of sigc can show it: a counterexample is told only after sigc has run it.
"""
import os
import select
import shutil
import subprocess
import threading
import time

MISSING = "z3 is not installed (Debian: apt-get install z3)"


class Gone(Exception):
    """z3 has ended, or said what it does not say."""


class Late(Exception):
    """The time is over."""


STOPPED = threading.local()
SLICE, AT_ONCE, PIECE = 0.2, 200, 4096


def stop_if(is_over=None):
    """Lets what this thread asks from now on end as if its time were over once this says so; without it until its own time."""
    STOPPED.is_over = is_over


def is_stopped():
    is_over = getattr(STOPPED, "is_over", None)
    return is_over is not None and is_over()


def path():
    """The program z3: the one that the variable Z3 names, or the one on the path; None where there is none."""
    return shutil.which(os.environ.get("Z3") or "z3")


class Solver:
    """One z3 that is told and asked line by line, or another solver that is started with these words."""

    def __init__(self, until=None, words=None):
        self.until = until
        try:
            self.ran = subprocess.Popen(words or [path(), "-in", "-smt2"], stdin=subprocess.PIPE, stdout=subprocess.PIPE, stderr=subprocess.STDOUT)
        except OSError as error:
            raise Gone(error.strerror) from None
        self.rest = b""
        os.set_blocking(self.ran.stdin.fileno(), False)

    def __enter__(self):
        return self

    def __exit__(self, *_):
        self.ran.kill()
        self.ran.wait()
        for stream in (self.ran.stdin, self.ran.stdout):
            try:
                stream.close()
            except OSError:
                pass

    def tell(self, *lines):
        """Writes lines, as fast as they are read; Late after the time of the solver."""
        left = memoryview("".join(f"{it}\n" for it in lines).encode("ascii"))
        try:
            while left:
                if is_stopped() or self.until is not None and time.monotonic() > self.until:
                    raise Late
                if select.select([], [self.ran.stdin], [], SLICE)[1]:
                    left = left[os.write(self.ran.stdin.fileno(), left[:PIECE]) :]
        except OSError:
            raise Gone("the solver has ended") from None

    def line(self, until):
        """The next line that it says; Late behind this time."""
        while b"\n" not in self.rest:
            left = until - time.monotonic()
            if left <= 0 or is_stopped():
                raise Late
            if not select.select([self.ran.stdout], [], [], min(left, SLICE))[0]:
                continue
            got = os.read(self.ran.stdout.fileno(), 65536)
            if not got:
                raise Gone("the solver has ended")
            self.rest += got
        line, _, self.rest = self.rest.partition(b"\n")
        return line.decode("latin-1").strip()

    def check(self, until):
        """`sat`, `unsat` or `unknown`."""
        self.tell("(check-sat)")
        said = self.line(until)
        if said not in ("sat", "unsat", "unknown"):
            raise Gone(f"the solver said: {said}")
        return said

    def values(self, names, until):
        """What a model gives for constants: a map from their names."""
        found = {}
        for first in range(0, len(names), AT_ONCE):
            part = names[first : first + AT_ONCE]
            self.tell(*(f"(get-value ({name}))" for name in part))
            found |= {name: value_in(self.line(until), name) for name in part}
        return found

    def model(self, until):
        """What a model has, as the text that the solver writes."""
        self.tell("(get-model)")
        lines, depth = [], 0
        while not lines or depth > 0:
            lines.append(self.line(until))
            depth += lines[-1].count("(") - lines[-1].count(")")
        return "\n".join(lines)


def value_in(said, name):
    """The value in a line `((name value))`."""
    text = said.removeprefix(f"(({name} ").removesuffix("))").strip()
    if text in ("true", "false"):
        return int(text == "true")
    if text.startswith("(-"):
        return -int(text[2:].rstrip(")"))
    return int(text)
