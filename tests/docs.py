#!/usr/bin/env python3
"""Runs every example of the documents, and compares what it prints with what the document says.

In a document (README.md, docs/*.md, examples/README.md, tools/README.md, ..)

  - a fence ```signal NAME, ```text NAME, .. with a file name puts a file of that name into the folder where the
    commands run; a later fence of the same name stands in its place. If a committed file of that name is
    there, the fence has to be its text;
  - a line `> error 1:2: ..` after a ```signal fence is what `sigc check` has to say of its program;
  - a fence ```diff NAME changes that file, line by line: `- ` in front of a line that goes, `+ ` of one that comes, two
    blanks of one that stays; after it `sigc check NAME` has to say `accepted`;
  - a fence ```console holds commands, each a line that begins with `$ `, and after each what it prints:
    standard output, then standard error. A last line `(status N)` gives the status; without it, sigc's own
    status has to fit the line that it says. Where the fence begins with `# needs gcc`, or another program, it is
    skipped, with a line, where there is no such program;
  - in a table with the columns Command, Standard output, Standard error and Status each row is such a command.

Commands run in order, at the top of a copy of what is committed, in which the program stands as a build leaves it; `sigc`
is it too. A command that begins with `cd` or `export` holds for all after it. What a document's commands make of
committed files has to be what these are. A ```signal fence without a name, or one that no command of its document names,
is a failure, and so is all that tests/pages.py finds. The last line is `N passed, M failed`.
"""
import argparse
import filecmp
import os
import re
import shutil
import subprocess
import sys
import tempfile

sys.dont_write_bytecode = True
sys.path.insert(0, os.path.dirname(os.path.realpath(__file__)))
import pages

TOP = os.path.dirname(os.path.dirname(os.path.realpath(__file__)))
SECONDS = 120
COLUMNS = ["Command", "Standard output", "Standard error", "Status"]


def committed():
    """The files that git tracks, by their names below the top; where there is no git, all but what was built."""
    try:
        listed = subprocess.run(["git", "-C", TOP, "ls-files", "-z"], capture_output=True).stdout.decode("utf-8").split("\0")
    except OSError:
        listed = []
    if not any(listed):
        listed = [os.path.relpath(f"{at}/{it}", TOP) for at, _, files in os.walk(TOP) for it in files]
        listed = [it for it in listed if not {".git", "out", "__pycache__"} & set(it.split("/"))]
    return [it for it in listed if it and os.path.isfile(f"{TOP}/{it}")]


def default_program():
    """The program that the gate leaves: as LLVM builds it, or else as Rattle's own compiler does."""
    if os.environ.get("SIGC"):
        return os.environ["SIGC"]
    made = [f"{TOP}/crates/sigc/out/{name}" for name in ("sigc", "sigc.by-rattle")]
    return next((it for it in made if os.path.isfile(it)), made[0])


def blocks_of(text):
    """The fences of a document with their first line, and its tables of commands: (line, kind, name, lines)."""
    lines, at = text.split("\n"), 0
    while at < len(lines):
        fence = re.fullmatch(r"( *)```(.*)", lines[at])
        if fence:
            indent, words, begun = fence[1], fence[2].split(), at + 1
            at += 1
            inside = []
            while at < len(lines) and lines[at].strip() != "```":
                inside.append(lines[at].removeprefix(indent))
                at += 1
            yield begun, (words or [""])[0], (words[1:] or [None])[0], inside
        elif lines[at].startswith("> error"):
            yield at + 1, "said", None, lines[at][2:]
        elif cells_of(lines[at]) == COLUMNS:
            at += 2
            while at < len(lines) and lines[at].startswith("|"):
                yield at + 1, "row", None, cells_of(lines[at])
                at += 1
            continue
        at += 1


def cells_of(line):
    """The cells of a line of a table, none of another line."""
    if not line.startswith("|"):
        return []
    return [it.strip() for it in re.split(r"(?<!\\)\|", line.strip().strip("|"))]


def commands_of(lines):
    """The commands of a console fence: (line in the fence, command, printed text, status or None)."""
    found = []
    for at, line in enumerate(lines):
        if line.startswith("$ "):
            found.append([at, line[2:], [], None])
        elif found and re.fullmatch(r"\(status \d+\)", line):
            found[-1][3] = int(line[8:-1])
        elif found:
            found[-1][2].append(line)
    return [(at, command, "".join(f"{it}\n" for it in said), status) for at, command, said, status in found]


def hunks_of(lines):
    """What a fence of changes exchanges: pairs of lines, those that stay in both."""
    found, is_new = [([], [])], False
    for line in lines:
        if is_new and not line.startswith("+ "):
            found.append(([], []))
        is_new = line.startswith("+ ")
        for side, mark in zip(found[-1], "-+"):
            if line.startswith((mark, " ")):
                side.append(line[2:])
    return found


def status_fits(said, status):
    """Whether sigc's status is one that its last line may have."""
    last = said.splitlines()[-1] if said else ""
    if last.startswith("error"):
        return status in (1, 2, 4, 5, 6, 7, 8, 9, 10)
    return status == (3 if re.match(r"end: (overflow|division)", last) else 0)


class Documents:
    """The count of what passed and failed, over one program, in a copy of what is committed."""

    def __init__(self, program, room):
        self.room, self.copy = room, f"{room}/copy"
        self.passed = self.failed = self.skipped = 0
        self.files = committed()
        for it in self.files:
            os.makedirs(os.path.dirname(f"{self.copy}/{it}"), exist_ok=True)
            shutil.copy2(f"{TOP}/{it}", f"{self.copy}/{it}")
        self.built(program)

    def built(self, program):
        """Puts the program where a build leaves it, with the stamp of one, and on the PATH."""
        out = f"{self.copy}/crates/sigc/out"
        os.makedirs(out, exist_ok=True)
        os.makedirs(f"{self.room}/bin")
        shutil.copyfile(program, f"{out}/sigc")
        os.chmod(f"{out}/sigc", 0o755)
        os.symlink(f"{out}/sigc", f"{self.room}/bin/sigc")
        with open(f"{out}/built", "w", encoding="utf-8"):
            pass

    def fail(self, where, why):
        self.failed += 1
        print(f"{where}: {why}")

    def call(self, command, place):
        """What a command prints, and its status."""
        env = {it: value for it, value in os.environ.items() if it not in ("SIGC", "SIGC_UNPROVED")}
        env["PATH"] = f"{self.room}/bin:{os.environ.get('PATH', '/usr/bin:/bin')}"
        how = {"cwd": place.top, "stdin": subprocess.DEVNULL, "capture_output": True, "env": env, "timeout": SECONDS}
        try:
            ran = subprocess.run(["bash", "-c", "".join(f"{it}\n" for it in [*place.before, command])], **how)
        except subprocess.TimeoutExpired:
            return "", f"(no end after {SECONDS} seconds)\n", None
        return ran.stdout.decode("latin-1"), ran.stderr.decode("latin-1"), ran.returncode

    def compare(self, where, command, wanted, status, place):
        """Runs one command, and counts whether it prints what is wanted."""
        out, err, ended = self.call(command, place)
        said = out + err
        if said != wanted:
            self.fail(where, f"{command}\n  wanted:\n{shown(wanted)}  printed:\n{shown(said)}")
        elif status is not None and ended != status:
            self.fail(where, f"{command}: status {ended}, and not {status}")
        elif status is None and re.match(r"(\./)?sigc [^|;]*\Z", command) and not status_fits(said, ended):
            self.fail(where, f"{command}: status {ended} does not fit what it says")
        else:
            self.passed += 1
            place.behind(command)

    def is_skipped(self, where, lines):
        """Whether a fence needs a program that is not there; then a line says so."""
        needed = re.fullmatch(r"# needs (\S+)", lines[0] if lines else "")
        if not needed or shutil.which(needed[1]):
            return False
        self.skipped += 1
        print(f"{where}: skipped: {needed[1]} is not installed")
        return True

    def row(self, where, cells, place):
        """Runs a row of a table of commands. A cell of words without any code is not compared."""
        words, *said, status = cells
        command = re.fullmatch(r"`(sigc .*)`", words)
        if not command:
            return self.fail(where, f"this row has no command: {words}")
        out, err, ended = self.call(command[1], place)
        for told, printed in zip(said, (out, err)):
            wanted = "".join(f"{it}\n" for it in re.findall(r"`([^`]*)`", told))
            if (wanted or not told) and wanted != printed:
                return self.fail(where, f"{command[1]}\n  wanted:\n{shown(wanted)}  printed:\n{shown(printed)}")
        if str(ended) != status:
            return self.fail(where, f"{command[1]}: status {ended}, and not {status}")
        self.passed += 1

    def document(self, name):
        """Runs the examples of one document."""
        place, unused, last = Place(f"{self.room}/{name.replace('/', '-')}", self.copy), {}, ""
        for at, kind, file, lines in blocks_of(pages.text_of(f"{TOP}/{name}")):
            where = f"{name}:{at}"
            if kind == "row":
                self.row(where, lines, place)
            elif kind == "console":
                self.console(name, at, lines, place, unused)
            elif kind == "said":
                unused.pop(last, None)
                self.compare(where, f"sigc check {last}", f"{lines}\n", 1, place)
            elif kind == "diff" and file:
                unused.pop(file, None)
                self.mend(where, file, lines, place)
            elif file:
                last = file
                if kind == "signal" and unused.setdefault(file, where) != where:
                    self.fail(unused[file], f"no command names {file}")
                self.file(where, place.path(file), "".join(f"{line}\n" for line in lines))
            elif kind == "signal":
                self.fail(where, "this program has no name, so it is not run")
        for file, where in unused.items():
            self.fail(where, f"no command names {file}")
        self.unchanged(name)

    def console(self, name, at, lines, place, unused):
        """Runs the commands of a fence; the programs that they name are used now."""
        if self.is_skipped(f"{name}:{at}", lines):
            for it in [it for it in unused if any(it in line for line in lines)]:
                del unused[it]
            return
        found = commands_of(lines)
        if not found:
            self.fail(f"{name}:{at}", "no command stands here")
        for below, command, wanted, status in found:
            for it in [it for it in unused if it in command]:
                del unused[it]
            self.compare(f"{name}:{at + below + 1}", command, wanted, status, place)

    def file(self, where, path, text):
        """Writes a fence's file, or compares it with the committed one."""
        real = os.path.relpath(os.path.realpath(path), os.path.realpath(self.copy))
        if real not in self.files:
            with open(path, "w", encoding="utf-8") as it:
                it.write(text)
        elif pages.text_of(path) != text:
            self.fail(where, f"{real} has another text")

    def mend(self, where, file, lines, place):
        """Changes a file as a fence says, and asks whether it is accepted then."""
        text = pages.text_of(place.path(file)).split("\n")
        for old, new in hunks_of(lines):
            at = [it for it in range(len(text)) if text[it : it + len(old)] == old]
            if len(at) != 1:
                return self.fail(where, f"these lines stand {len(at)} times in {file}: {old}")
            text[at[0] : at[0] + len(old)] = new
        with open(place.path(file), "w", encoding="utf-8") as it:
            it.write("\n".join(text))
        self.compare(where, f"sigc check {file}", "accepted\n", 0, place)

    def unchanged(self, name):
        """Fails for each committed file that a document's commands have changed, and puts it back."""
        for it in self.files:
            if not it.startswith("crates/") and not filecmp.cmp(f"{TOP}/{it}", f"{self.copy}/{it}"):
                self.fail(name, f"its commands change {it}")
                shutil.copy2(f"{TOP}/{it}", f"{self.copy}/{it}")


class Place:
    """Where the commands of a document run: a folder that has all that stands at the top of the copy, and from there on
    what the commands before have said by `cd` and `export`."""

    def __init__(self, folder, copy):
        os.makedirs(folder)
        for it in os.listdir(copy):
            os.symlink(f"{copy}/{it}", f"{folder}/{it}")
        self.top = self.folder = folder
        self.before = []

    def behind(self, command):
        if re.match(r"(cd|export) ", command):
            self.before.append(command)
        if re.match(r"cd \S+\Z", command):
            self.folder = os.path.normpath(f"{self.folder}/{command[3:]}")

    def path(self, file):
        return f"{self.folder}/{file}"


def shown(text):
    return "".join(f"    {line}\n" for line in text.splitlines()) or "    (nothing)\n"


def main():
    words = argparse.ArgumentParser(description=__doc__, formatter_class=argparse.RawDescriptionHelpFormatter)
    words.add_argument("program", nargs="?", default=default_program(), help="the program sigc (default: the one in crates/sigc/out)")
    words.add_argument("--only", metavar="DOCUMENT", action="append", help="this document alone, as docs/errors.md")
    words = words.parse_args()
    program = os.path.abspath(words.program)
    if not os.path.isfile(program):
        print(f"docs.py: there is no program {program}: build it first\n0 passed, 1 failed")
        return 1
    with tempfile.TemporaryDirectory(prefix="sigc-docs-") as room:
        run = Documents(program, room)
        for name in words.only or pages.documents():
            run.document(name)
        if not words.only:
            for page, why in pages.faults():
                run.fail(page, why)
    if run.skipped:
        print(f"{run.skipped} fences skipped")
    print(f"{run.passed} passed, {run.failed} failed")
    return 1 if run.failed or not run.passed else 0


if __name__ == "__main__":
    sys.exit(main())
