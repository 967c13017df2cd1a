"""How the scripts call sigc on files, and how they end: without a traceback, whatever they are given.

The program is the file that the variable SIGC names, or else the script ./sigc at the top of the repository.
"""
import io
import os
import re
import shutil
import signal
import subprocess
import sys
import tempfile
import threading

from sigc.call import opened
from sigc.call.compiler import NO_DASH
from sigc.call.refusing import Refused
from sigc.places import TOP
from sigc.read import files_read, lexer

# What ./sigc says of a build goes on to standard error at once; all else is sigc's own.
OF_BUILD = re.compile(r"sigc: (?!no program|the program is older)")
TOLD = set()
NO_PROGRAM = 70
PLACED = re.compile(r".*:\d+:\d+.*: error: ")
# So much of a name a copy has in its own, beside a number; a file system takes names of 255 bytes.
LONGEST = 100


def program():
    """The path of the program sigc."""
    return os.environ.get("SIGC") or f"{TOP}/sigc"


def ensured():
    """Refused, with the line of ./sigc, where it has no program to run."""
    if not os.environ.get("SIGC"):
        output_of("--which")


class Call:
    """One run of sigc, whose standard output is read while it runs."""

    def __init__(self, *words, stdout=subprocess.PIPE):
        try:
            self.ran = subprocess.Popen([program(), *words], stdin=subprocess.DEVNULL, stdout=stdout, stderr=subprocess.PIPE)
        except OSError as error:
            raise Refused(f"{program()}: {error.strerror}", NO_PROGRAM) from None
        self.said = []
        self.listener = threading.Thread(target=self.listen, daemon=True)
        self.listener.start()

    def listen(self):
        """Keeps the lines of standard error, and passes on those of a build."""
        for line in self.ran.stderr:
            text = line.decode("latin-1").rstrip("\n")
            if OF_BUILD.match(text):
                if text not in TOLD:
                    print(text, file=sys.stderr, flush=True)
                TOLD.add(text)
            else:
                self.said.append(text)

    def __enter__(self):
        return self

    def __exit__(self, *_):
        if self.ran.poll() is None:
            self.ran.terminate()
        self.ran.wait()
        self.listener.join()
        self.ran.stderr.close()
        if self.ran.stdout:
            self.ran.stdout.close()

    def lines(self):
        """The lines of standard output, as they come."""
        with io.TextIOWrapper(self.ran.stdout, encoding="latin-1", newline="\n") as text:
            for line in text:
                yield line.rstrip("\n")

    def ended(self):
        """The last line of standard error, and the status, once it has ended."""
        status = self.ran.wait()
        self.listener.join()
        return (self.said[-1] if self.said else ""), status if status >= 0 else 128 - status


def output_of(*words):
    """The lines that a command writes; Refused with its line and status where that is not 0."""
    with Call(*words) as call:
        lines = list(call.lines())
        line, status = call.ended()
    if status:
        raise Refused(line or f"sigc ended with status {status}", status)
    return lines


class Files:
    """A folder for the files of one script. Each file that the user names is read once, so it may be a pipe, and
    sigc is given a copy; what sigc says of the copy is said of the name that the user gave. include has the folders in which
    modules of a program are looked for, besides its own."""

    def __init__(self, include=()):
        self.folder, self.names, self.include = tempfile.mkdtemp(prefix="sigc-tools-"), {}, include

    def __enter__(self):
        return self

    def __exit__(self, *_):
        shutil.rmtree(self.folder, ignore_errors=True)

    def copied(self, path, text):
        """The path of a copy, which sigc can read."""
        return self.written(os.path.basename(path) or "file", text, path)

    def written(self, name, text, called=None):
        """The path of a new file with this text."""
        made = f"{self.folder}/{len(self.names)}-{name[-LONGEST:]}"
        with open(made, "w", encoding="latin-1", newline="") as it:
            it.write(text)
        self.names[made] = called or name
        return made

    def renamed(self, line):
        """A line of sigc with the user's names in the place of the copies'."""
        for made, called in self.names.items():
            line = line.replace(made, called)
        return line


class Program:
    """A program's kernel, and what sigc answers about it, with the user's name of its file; home leads from the kernel to
    the user's text."""

    def __init__(self, files, path):
        self.files, self.home = files, opened.Opened(path, program_text(path), files.include)
        self.text = self.home.text
        self.path = files.copied(path, self.text)

    def asked(self, command, *words):
        """The lines that a command writes; Refused where it is refused."""
        try:
            return output_of(command, self.path, *words)
        except Refused as refusal:
            raise Refused(self.home.refusal(self.files.renamed(refusal.line)), refusal.status) from None


def program_text(path):
    """The text of a program's file; Refused, as sigc words it, where it cannot be read or is too long."""
    return text_of(path, files_read.PROGRAM_BYTES, "program longer than {} bytes", 1)


def text_of(path, most=files_read.MOST_BYTES, long="{path}: longer than {} bytes", status=4):
    """The text of a file that the user names, a byte a character; Refused, as sigc words it, where it cannot be read or is too long."""
    if path == "-":
        raise Refused(f"error: {NO_DASH}", 5)
    try:
        text = files_read.read_text(path, most)
        if len(text) > most:
            raise Refused(f"error: {long.format(most, path=path)}", status)
        return text
    except FileNotFoundError:
        raise Refused(f"error: {path}: not found", 5) from None
    except OSError:
        raise Refused(f"error: {path}: read failed", 5) from None


def ended_by(number):
    """Ends this program as the signal of this number would have done."""
    signal.signal(number, signal.SIG_DFL)
    os.kill(os.getpid(), number)


def started(name, main):
    """Runs a script's main, and ends with its status. Ctrl-C ends it with status 130, a closed pipe with 141."""
    try:
        status = main()
        sys.stdout.flush()
    except Refused as refusal:
        print(refusal.line if refusal.line.startswith(("error", "end:")) or PLACED.match(refusal.line) else f"{name}: {refusal.line.removeprefix('sigc: ')}", file=sys.stderr)
        status = refusal.status
    except lexer.Unreadable as error:
        print(f"{name}: {error}", file=sys.stderr)
        status = 1
    except RecursionError:
        print(f"{name}: what the file holds stands too deep in one another", file=sys.stderr)
        status = 1
    except BrokenPipeError:
        os.dup2(os.open(os.devnull, os.O_WRONLY), 1)
        ended_by(signal.SIGPIPE)
    except KeyboardInterrupt:
        os.dup2(os.open(os.devnull, os.O_WRONLY), 1)
        ended_by(signal.SIGINT)
    except OSError as error:
        where = f"{error.filename}: " if error.filename else ""
        print(f"{name}: {where}{error.strerror}", file=sys.stderr)
        status = 1
    sys.exit(status)
