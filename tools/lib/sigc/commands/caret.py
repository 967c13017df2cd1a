"""Runs sigc with the words given, and shows the place of a refusal and how to fix it.

    tools/sigc-caret check examples/watch.sig
    tools/sigc-caret check --lint --explain p.sig

What sigc writes to standard output is passed on, and so is its status. The line that it writes to standard error
is shown as

    FILE:LINE:COLUMN: error: TEXT

with the line of the file, a caret under the place, what was found and what was wanted, what was most likely meant, a
fix that sigc accepts, and the entry of docs/errors.md. Notes follow with the other places that are responsible: of clocks
the least equations that keep the refusal, as sigc-why finds them. Further refusals that are independent of the first
one follow. The first of these lines is what the problem matchers of editors read. A trace that breaks an equation is
shown with that equation and with the line of the trace. A line without a place stands at line 1, column 1. Where a
flow file has no value for an input, a warning says so.

Its own options, before or after the command's:

    --explain   shows the entry of docs/errors.md itself
    --lint      warns of what sigc takes and was hardly meant: a local or a process that is not used, a boolean input
                that nothing reads, a comparison that is written twice where clocks differ by it, an input that comes where a comparison is true,
                an operand that comes more rarely than the one beside it, a condition that is never true as `not E` of
                an event, a side of a `default` that is never taken
    -I DIR      names a folder with modules that the program uses

A program that is no kernel but has constants, arrays, cases and the like is expanded (docs/signal.md).

The program is the file that the variable SIGC names, or else the script ./sigc at the top of the repository. The
tools/sigc --help prints the commands of sigc.
"""
import functools
import os
import re
import shutil
import subprocess
import sys
import tempfile

from sigc.call import command_words, compiler
from sigc.hints import all_advice, file_lines, warnings
from sigc.hints.entries import anchor, entry_of
from sigc.image import image_text, images
from sigc.places import TOOLS, TOP
from sigc.read import files_read, flat_bodies, lexer, plain_kernels, shown_places, syntax
from sigc.why import causes

COMMANDS = ("check", "tree", "code", "print", "judge", "run", "play", "build", "exec")
# What of a file is copied at once, and the bytes by which a terminal is steered.
PIECE = 1 << 20
STEERING = re.compile(r"[\x00-\x08\x0b-\x1f\x7f-\x9f]")
OWN_WORDS = ("--explain", "--lint")


def beside(name):
    """How the script of a name is called that stands beside this one: by the name alone where that leads to it."""
    found = shutil.which(name)
    return name if found and os.path.realpath(found) == f"{TOOLS}/{name}" else f"tools/{name}"


def explained(entry):
    """The lines of an entry of docs/errors.md."""
    found, is_inside, is_code = [], False, False
    for line in text_of(f"{TOP}/docs/errors.md").split("\n"):
        is_code ^= line.startswith("```")
        if line.startswith("#") and not is_code:
            is_inside = anchor(line.lstrip("#").strip()) == entry
        elif is_inside:
            found.append(line)
    return "".join(f"      | {it}".rstrip() + "\n" for it in "\n".join(found).strip().split("\n")) if found else ""


def text_of(path, most=files_read.MOST_BYTES):
    """A file's text; none where it cannot be read or is longer than sigc takes, of which there is nothing to show."""
    try:
        text = files_read.read_text(path, most)
        return text if len(text) <= most else ""
    except OSError:
        return ""


def lines_of(path):
    return text_of(path).split("\n")


def image_hints(path, said):
    """What there is to say of an image file that is refused."""
    try:
        with open(path, "rb") as file:
            data = file.read(images.MOST_BYTES + 1)
        image = images.image_of(data)
    except OSError:
        return []
    except images.Broken as broken:
        if broken.at == 0 and data.lstrip().startswith(b"process"):
            return [f"this is a program: `sigc build {path}` writes its image"]
        return [broken.why]
    number = int(said.split()[1]) if said.startswith("operation") else len(image.operations)
    lines = list(image_text.operation_lines(image))
    return [f"it is {lines[number].split(' ', 1)[1]}"] if number < len(lines) else []


class Shown:
    """How the lines of one call of sigc are shown."""

    def __init__(self, path, plain, command, flags):
        self.path, self.plain, self.command, self.flags = path, plain, command, flags
        self.program, self.second = (plain + ["", ""])[:2]
        self.text = text_of(self.program, files_read.PROGRAM_BYTES) if plain else ""
        self.mends, self.is_refused = [], False

    @functools.cached_property
    def reader(self):
        return syntax.read(self.text)

    @functools.cached_property
    def sigc(self):
        return compiler.Sigc(self.path)

    def placed(self, path, line, col, word, text, entry, hints=()):
        """A refusal as an editor reads it, with its line, its caret, its hints and its entry."""
        shown = shown_places.placed(path, line, col, word, text, text_of(path))
        shown += "".join(f"      {it}\n" for it in hints)
        shown += f"      see docs/errors.md#{entry}\n" if entry else ""
        return shown + (explained(entry) if entry and "--explain" in self.flags else "")

    @functools.cached_property
    def advice(self):
        return all_advice.Advice(self.sigc, self.reader)

    def refused(self, refusal):
        """A refusal of the program, at its place or at 1:1, with what mends it and the other places that it is about."""
        hint = self.advice.hint(refusal)
        lines = [*hint.lines, *self.mended(refusal, hint), *self.of_pace(refusal)]
        shown = self.placed(self.program, refusal.line or 1, refusal.col or 1, "error", refusal.text, hint.entry or entry_of(refusal.text), lines)
        return shown + "".join(shown_places.placed(self.program, it.line, it.col, "note", it.words, self.text) for it in self.advice.notes(refusal))

    def mended(self, refusal, hint):
        """Mends of the program that sigc accepts, at the first refusal that has any; of clocks sigc-why shows more."""
        told, lines = causes.told_of(refusal.text), []
        for it in [] if self.mends else self.advice.mends(refusal, 2 if told and told.sort == "root" else 1):
            self.mends.append(it.text)
            words = f" {it.words}" if it.words not in hint.lines else ""
            lines += [f"mend, accepted by check:{words}", *shown_places.changes(self.text, it.text).splitlines(), *(f"    {note}" for note in it.notes)]
        return [*lines, f"{beside('sigc-why')} {self.program} --mends 3 shows further mends"] if told else lines

    def of_pace(self, refusal):
        """The flag --pace where sigc takes it."""
        told = causes.told_of(refusal.text)
        if told and told.sort == "root" and self.sigc.takes_pace(self.text):
            return ["or leave them independent: with --pace each of their clocks gets a boolean input, pace_1 and so on, that says when it comes"]
        return []

    def warned(self, status=0):
        """Warnings of the program, and of a flow file that has no value for an input: of these also without --lint."""
        found = warnings.warnings_of(self.reader, not self.is_refused) if "--lint" in self.flags else []
        if self.command in ("run", "play") and not status and os.path.isfile(self.second):
            found = found + warnings.empty_flows(self.reader, text_of(self.second), self.second, self.paces())
        shown = "".join(shown_places.placed(self.program, *it[:2], "warning", it.text, self.text) for it in found)
        return shown + (self.of_image_flows() if self.command == "exec" and not status else "")

    def of_image_flows(self):
        """Warnings of a flow file that has no value for an input of an image."""
        try:
            with open(self.program, "rb") as file:
                image = images.image_of(file.read(images.MOST_BYTES + 1))
        except (OSError, images.Broken):
            return ""
        empty = warnings.without_values([it.name for it in image.signals[: image.inputs]], text_of(self.second))
        return "".join(f"{self.second}:1:1: warning: input {it} has no values: the run ends where it is to come\n" for it in empty)

    def paces(self):
        """The inputs that --pace adds to the program."""
        tree = self.sigc.ask("tree", self.text, "--pace").out if "--pace" in self.flags else ""
        declared = {it.name.text for it in self.reader.processes[0].names()} if self.reader.processes else set()
        return [it for it in tree.split("\n")[0].split() if file_lines.PACE.fullmatch(it) and it not in declared]

    def of_file(self, path, line, col, said):
        """What is wrong with a line of a flow, event or trace file."""
        others = dict(zip(self.plain[1:], file_lines.FILES.get(self.command, ())))
        if path == "-":
            return [compiler.NO_DASH]
        if path not in others or not line:
            return []
        return file_lines.hint_of_file(others[path], said, text_of(path), line, col, self.kinds(others[path]), "--pace" in self.flags, self.roles())

    def kinds(self, sort):
        """The kinds of the signals that a file may name."""
        try:
            flat = flat_bodies.FlatBody(self.text)
        except lexer.Unreadable:
            return {}
        return {it.name: it.kind for it in (flat.signals if sort == "trace" else flat.inputs)}

    def roles(self):
        """The outputs and locals of the first process, each with what it is."""
        return {it.name.text: it.role for it in self.reader.processes[0].names() if it.role != "input"} if self.reader.processes else {}

    def broken(self, said):
        """A trace that breaks an equation: the equation at its place, and the line of the trace."""
        instant, number = map(int, re.findall(r"\d+", said))
        try:
            equation = flat_bodies.FlatBody(self.text).equations[number - 1]
        except lexer.Unreadable:
            return self.placed(self.program, 1, 1, "error", said, entry_of(said))
        shown = self.placed(self.program, equation.line, equation.col, "error", said, entry_of(said))
        shown += f"      equation {number} is {equation.text}\n"
        instants = [(at, it) for at, it in enumerate(lines_of(self.second), 1) if it.split()]
        if instant < len(instants):
            header, (at, row) = instants[0][1].split(), instants[instant]
            shown += f"{self.second}:{at}:1: note: instant {instant} is {row.strip()}\n"
            shown += "      " + ", ".join(f"{name} {it}" for name, it in zip(header, row.split()) if it != ".") + "\n"
        return shown

    def of_image(self, said):
        """A refusal of an image file, which has no lines to show: what is wanted at the broken byte, or the operation that is not sound."""
        shown = f"{self.program}: error: {said}\n" + "".join(f"      {it}\n" for it in image_hints(self.program, said))
        entry = entry_of(said)
        return shown + f"      see docs/errors.md#{entry}\n" + (explained(entry) if "--explain" in self.flags else "")

    def line(self, line, words):
        """A line of standard error, shown at its place."""
        if self.command == "exec" and line.startswith("end: "):
            return f"{line}\n"
        found = re.fullmatch(rf"error: {re.escape(self.program)}: (bad image at byte .*|operation \d+ is not sound)", line)
        if found and self.command == "exec":
            return self.of_image(found[1])
        found = re.fullmatch(r"end: (overflow|division by zero) at (\d+):(\d+) (after .*)", line)
        if found:
            text = f"{found[1]} {found[4]}"
            return self.placed(self.program, int(found[2]), int(found[3]), "note", text, entry_of(text))
        found = re.fullmatch(r"error: (instant \d+ breaks equation \d+)", line)
        if found:
            return self.broken(found[1])
        refusal = compiler.refusal_of(line) if self.plain else None
        if refusal:
            self.is_refused = True
            return "".join(self.refused(it) for it in self.advice.refusals(refusal))
        for path in sorted(self.plain, key=len, reverse=True):
            found = re.fullmatch(rf"error: {re.escape(path)}:(?:(\d+):)?(?:(\d+):)? (.*)", line)
            if found:
                at, col = int(found[1] or 0), int(found[2] or 1)
                return self.placed(path, at or 1, col, "error", found[3], entry_of(found[3]), self.of_file(path, at, col, found[3]))
        found = re.fullmatch(r"error: (.*)", line)
        if not found:
            return f"{line}\n"
        lines = []
        if found[1] == compiler.NO_COMMAND:
            lines = [*command_words.words_hint(words), "tools/sigc --help tells the commands, and so does `man sigc` where it is installed"]
        entry = entry_of(found[1])
        shown = f"{line}\n" + "".join(f"      {it}\n" for it in lines) + f"      see docs/errors.md#{entry}\n"
        return shown + (explained(entry) if "--explain" in self.flags else "")


def own_words(words):
    """The words for sigc, and those of this script."""
    end = words.index("--") if "--" in words else len(words)
    flags = [it for it in words[:end] if it in OWN_WORDS]
    return [it for it in words[:end] if it not in OWN_WORDS] + words[end:], flags


def plain_words(words):
    """The plain words behind a command's name."""
    return command_words.split(words[1:])[0]


def copied(words, room):
    """The words for sigc, and the names of copies: a pipe can be read once, and is read here too, so sigc gets a copy."""
    names = {}
    for it in plain_words(words):
        if it not in names and os.path.exists(it) and not os.path.isfile(it) and not os.path.isdir(it):
            names[it] = f"{room}/{len(names)}-{os.path.basename(it)[-100:]}"
            with open(it, "rb") as pipe, open(names[it], "wb") as copy:
                left = files_read.MOST_BYTES + 1
                while left and (piece := pipe.read(min(left, PIECE))):
                    copy.write(piece)
                    left -= len(piece)
    return [names.get(it, it) for it in words], {copy: it for it, copy in names.items()}


def renamed(text, names):
    """A text with the names that the user gave in the place of those of copies, fit for a terminal: no name steers it."""
    for copy, it in names.items():
        text = text.replace(copy, it)
    return STEERING.sub(lambda it: f"\\x{ord(it[0]):02x}", text)


def main():
    words, include = included(sys.argv[1:])
    words, flags = own_words(words)
    if not words or words[0] in ("--help", "-h"):
        print(__doc__.strip())
        return 0
    with tempfile.TemporaryDirectory(prefix="sigc-tools-") as room:
        return called(*copied(words, room), flags, include)


def included(words):
    """The words without `-I DIR`, and these folders, in which modules are looked for."""
    found, rest, words = [], [], list(words)
    while words:
        it = words.pop(0)
        if it == "-I" and words:
            found.append(words.pop(0))
        else:
            rest.append(it)
    return rest, found


def called(words, names, flags, include=()):
    """Calls sigc with these words, shows what it says, and gives its status."""
    path = os.environ.get("SIGC") or f"{TOP}/sigc"
    command = words[0] if words[0] in COMMANDS else ""
    plain = plain_words(words) if command else []
    status = expanded(path, command, words, plain, include, names) if plain and command != "exec" else None
    if status is not None:
        return status
    shown = Shown(path, plain, command, flags + [it for it in words if it == "--pace"])
    try:
        ran = subprocess.Popen([path, *words], stderr=subprocess.PIPE)
    except OSError as error:
        raise compiler.NoProgram(f"{path}: {error.strerror}") from None
    for line in ran.stderr:
        sys.stderr.write(renamed(shown.line(line.decode("latin-1").rstrip("\n"), words), names))
        sys.stderr.flush()
    status = ran.wait()
    sys.stderr.write(renamed(shown.warned(status), names))
    return status if status >= 0 else 128 - status


def expanded(path, command, words, plain, include, names):
    """Calls sigc on a program that is no kernel, and gives the status; None where it is one."""
    if plain_kernels.is_plainly_kernel(text_of(plain[0], files_read.PROGRAM_BYTES)):
        return None
    from sigc.expand import calling

    return calling.called(path, command, words, plain, include, lambda it: sys.stderr.write(renamed(it, names)))


def start():
    sys.exit(compiler.guarded(main))
