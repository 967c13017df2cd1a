"""The program sigc as the scripts call it, and how a script ends: what those share that run sigc."""
import functools
import os
import re
import shutil
import subprocess
import sys
import tempfile
import time
import weakref
from typing import NamedTuple

from sigc.places import TOP
from sigc.read import files_read

SECONDS = 120
# How many answers are kept: more than one search asks, and no more, since an editor asks all day.
MOST_KNOWN = 500
NO_DASH = "- is no file here: to read from standard input, name /dev/stdin"
NO_COMMAND = "these words are not a command"
# A program that each sigc accepts, to find out which words it takes.
PROBE = "process P = (? integer A ! integer Y) Y := A;\n"


# What ./sigc says first of a program of which nothing was proved.
UNPROVED = "sigc: nothing was proved of this program\n"


class NoProgram(Exception):
    """There is no program sigc to call, with the reason."""


class TooLong(Exception):
    """A program's file is longer than sigc takes, with sigc's line."""


class Answer(NamedTuple):
    status: int
    out: str
    err: str


class Refusal(NamedTuple):
    """A line of sigc on a program: its text, and its place where it has one, else 0:0."""

    line: int
    col: int
    text: str


def program():
    """The program's file: what $SIGC names, or else what ./sigc at the top of the repository runs."""
    if os.environ.get("SIGC"):
        return os.environ["SIGC"]
    ran = subprocess.run([f"{TOP}/sigc", "--which"], capture_output=True, text=True)
    if ran.returncode:
        raise NoProgram(ran.stderr.strip().removeprefix("sigc: ") or f"{TOP}/sigc has no program to run")
    return ran.stdout.strip()


def built_program():
    """The program's file without building one: for scripts that an editor starts."""
    if os.environ.get("SIGC") or not os.path.isdir(f"{TOP}/crates"):
        return program()
    names = ("unproved", "sigc") if os.environ.get("SIGC_UNPROVED") == "1" else ("sigc", "unproved")
    made = [f"{TOP}/crates/sigc/out/{it}" for it in names]
    found = next((it for it in made if os.path.isfile(it)), None)
    if found is None:
        raise NoProgram(f"no program is built: call {TOP}/tools/sigc-build, or name one by SIGC")
    return found


def refusal_of(line):
    """The refusal that a line of sigc's is, None where it is none of a program."""
    found = re.fullmatch(r"error (\d+):(\d+): (.*)\n?", line)
    if found:
        return Refusal(int(found[1]), int(found[2]), found[3])
    found = re.fullmatch(r"error: (no reaction is possible|more than .*|program longer .*|\d+ diagram nodes)\n?", line)
    return Refusal(0, 0, found[1]) if found else None


class Sigc:
    """sigc, called on texts: each stands for a while in a file of its own."""

    def __init__(self, path=None):
        self.path = path or program()
        self.room = tempfile.mkdtemp(prefix="sigc-tools-")
        weakref.finalize(self, shutil.rmtree, self.room, ignore_errors=True)
        self.calls = 0
        self.known, self.measured = {}, {}

    def call(self, *words):
        self.calls += 1
        try:
            ran = subprocess.run([self.path, *words], stdin=subprocess.DEVNULL, capture_output=True, timeout=SECONDS)
        except OSError as error:
            raise NoProgram(f"{self.path}: {error.strerror}") from None
        except subprocess.TimeoutExpired:
            raise NoProgram(f"{self.path}: no answer in {SECONDS} seconds") from None
        return Answer(ran.returncode, ran.stdout.decode("latin-1"), ran.stderr.decode("latin-1").removeprefix(UNPROVED))

    def ask(self, command, text, *words):
        """What a command says of a program that is given as a text, a byte a character."""
        return self.call(command, self.written("p.sig", text), *words)

    def written(self, name, text):
        """The path of a file of its own with a text."""
        path = f"{self.room}/{name}"
        with open(path, "w", encoding="latin-1", newline="") as it:
            it.write(text)
        return path

    def check(self, text):
        """Why `check` refuses a text: None where it is accepted."""
        if text not in self.known:
            if len(self.known) >= MOST_KNOWN:
                self.known.clear()
                self.measured.clear()
            said = self.ask("check", text)
            refusal = refusal_of(said.err)
            if said.status and refusal is None:
                raise NoProgram(f"{self.path}: {said.err.strip() or f'status {said.status}'}")
            self.known[text] = refusal
        return self.known[text]

    @functools.cached_property
    def has_pace(self):
        """Whether this sigc has the flag --pace; it is asked once."""
        return self.ask("check", PROBE, "--pace").status == 0

    def takes_pace(self, text):
        """Whether this sigc has the flag --pace, and takes a text with it."""
        return self.has_pace and self.ask("check", text, "--pace").status == 0


class Limit(NamedTuple):
    """How many calls of sigc there may be, and until when."""

    calls: int
    until: float

    def is_over(self, sigc):
        return sigc.calls >= self.calls or time.monotonic() > self.until


def limit_of(sigc, calls, seconds):
    """The limit of a search that begins now."""
    return Limit(sigc.calls + calls, time.monotonic() + seconds)


def read_program(path):
    """The text of a program's file, a byte a character."""
    if path == "-":
        raise OSError(2, NO_DASH, None)
    text = files_read.read_text(path, files_read.PROGRAM_BYTES)
    if len(text) > files_read.PROGRAM_BYTES:
        raise TooLong(f"error: program longer than {files_read.PROGRAM_BYTES} bytes")
    return text


def guarded(main):
    """Runs a script to its end: Ctrl-C, a pipe that was closed and a file that is none end it in one line or none."""
    name = os.path.basename(sys.argv[0])
    try:
        status = main()
        sys.stdout.flush()
        return status
    except KeyboardInterrupt:
        return 130
    except BrokenPipeError:
        os.dup2(os.open(os.devnull, os.O_WRONLY), sys.stdout.fileno())
        return 141
    except NoProgram as error:
        print(f"{name}: {error}", file=sys.stderr)
        return 70
    except TooLong as error:
        print(error, file=sys.stderr)
        return 1
    except OSError as error:
        where = f"{error.filename}: " if error.filename else ""
        print(f"{name}: {where}{error.strerror}", file=sys.stderr)
        return 5
