"""sigc called on a program that is no kernel: it gets the kernel, and what it says is led home to the user's text and names."""
import re
import subprocess
import sys
import tempfile

from sigc.call import compiler
from sigc.expand.expansion import Expansion, expanded
from sigc.expand.flows import FlowFault
from sigc.expand.messages import At, Refused
from sigc.hints.entries import entry_of
from sigc.read import files_read, shown_places

FLOW_FILES = ("run", "play")
OUT_OF_RANGE = "index out of range"
RESPONSIBLE = "this is one of the equations responsible"
OF_PACE = "or leave them independent: with --pace each of their clocks gets a boolean input, pace_1 and so on, that says when it comes"


def expansion_of(path: str, include=()) -> Expansion | None:
    """A program's expansion; none where it is a kernel, or is left to sigc."""
    try:
        found = expanded(path, include)
    except OSError:
        return None
    return None if found.is_kernel else found


def source(path: str) -> str:
    """The text of a file to be shown; nothing where it cannot be read."""
    try:
        return files_read.read_text(path, files_read.PROGRAM_BYTES)
    except OSError:
        return ""


def placed(at: At | None, word: str, text: str, lines=()) -> str:
    """A line with its place, the line of the text under it, the turn and the call that it is about, and further lines."""
    if at is None:
        return f"{word}: {text}\n" + "".join(f"      {it}\n" for it in lines)
    shown = shown_places.placed(at.place.file, at.place.line, at.place.col, word, text, source(at.place.file))
    lines = [f"here:{at.trail}", *lines] if at.trail else lines
    return shown + "".join(f"      {it}\n" for it in lines)


def refused(found: Refused) -> str:
    """A refusal of the front end."""
    return placed(found.at, "error", found.text, [*found.advice, f"see docs/signal.md{section_of(found.text)}"])


# The section of docs/signal.md that is about a refusal, by what its text begins with.
SECTIONS = {
    "sizes differ": "arrays", "index ": "arrays", "an array": "arrays", "this is no array": "arrays", "`[?]`": "arrays", "an iteration": "arrays", "a left side": "arrays",
    "a constant has no clock": "instants-clocks-and-constants", "this never comes": "instants-clocks-and-constants", "constant ": "constants-types-and-parameters",
    "a constant outside": "instants-clocks-and-constants", "unknown process": "processes-and-calls", "bad call": "processes-and-calls", "recursive call": "processes-and-calls",
    "unknown state": "automata", "state ": "automata", "there is no module": "modules", "modules use": "modules", "no process to run": "modules",
    "bad pragma": "inputs-that-come-by-themselves", "this `else`": "case", "a value of a case": "case", "this value stands twice": "case", "a case of": "case",
    "unknown value": "enumerations", "types clash": "enumerations", "#": "enumerations", "more than 512 signals": "size", "this assert": "claims", "this assume": "claims",
    "a process without a body": "what-is-refused", "pragma ": "what-is-refused", "syntax": "the-text", "unexpected byte": "the-text", "a delay": "delays-and-windows", "a window": "delays-and-windows",
}


def section_of(text: str) -> str:
    """The anchor of a section; nothing where none is about this refusal alone."""
    return next((f"#{anchor}" for begin, anchor in SECTIONS.items() if text.startswith(begin)), "")


class Led:
    """One call of sigc on an expansion, and how its lines are shown."""

    def __init__(self, found: Expansion, command: str, plain: list[str], room: str, path: str, tell):
        self.found, self.command, self.room, self.path, self.tell = found, command, room, path, tell
        self.files = {plain[0]: self.written("kernel.sig", found.kernel)}
        if command in FLOW_FILES and len(plain) > 1:
            self.flows = plain[1]
            text = files_read.read_text(plain[1])
            self.files[plain[1]] = self.written("kernel.flows", found.flows_to_kernel(text))

    def written(self, name: str, text: str) -> str:
        made = f"{self.room}/{name}"
        with open(made, "w", encoding="latin-1", newline="") as it:
            it.write(text)
        return made

    def run(self, words: list[str]) -> int:
        """Calls sigc, and shows what it writes."""
        told = [self.files.get(it, it) for it in words]
        with started(self.path, told) as ran:
            self.outputs(ran.stdout)
            said = ran.stderr.read().decode("latin-1").removeprefix(compiler.UNPROVED)
            status = ran.wait()
        for it in said.splitlines():
            self.tell(self.line(it))
        return status if status >= 0 else 128 - status

    def outputs(self, out) -> None:
        """Passes on what sigc writes, a line of a run or a tree with the user's names."""
        if self.command not in ("run", "play", "tree", "check"):
            sys.stdout.buffer.write(out.read())
            return
        reader = self.found.output_lines()
        for it in out:
            line = it.decode("latin-1").rstrip("\n")
            shown = self.tree_line(line) if self.command == "tree" else reader.line(line)
            if shown is not None:
                sys.stdout.write(shown + "\n")

    def tree_line(self, line: str) -> str:
        """A line of a clock tree without the signals that the user does not know."""
        names = [self.found.name(it) for it in line.split()]
        kept = [it for it in dict.fromkeys(names) if not it.startswith("#") and " " not in it]
        return line[: len(line) - len(line.lstrip())] + (" ".join(kept) or "-")

    def line(self, line: str) -> str:
        """A line of standard error."""
        found = re.fullmatch(r"end: (overflow|division by zero) at (\d+):(\d+) (after .*)", line)
        if found:
            line_, col = int(found[2]), int(found[3])
            what = OUT_OF_RANGE if self.found.is_index(line_, col) else found[1]
            at = self.found.at(line_, col)
            return placed(at, "note", f"{what} {found[4]}") + f"end: {what} at {at} {found[4]}\n"
        refusal = compiler.refusal_of(line)
        if refusal:
            return self.refusal(refusal)
        found = re.fullmatch(rf"error: {re.escape(self.files.get(getattr(self, 'flows', ''), ''))}:(\d+):(?:(\d+):)? (.*)", line)
        if found:
            text = source(self.flows)
            return shown_places.placed(self.flows, int(found[1]), int(found[2] or 1), "error", found[3], text)
        for user, made in self.files.items():
            line = line.replace(made, user)
        return self.found.said(line) + "\n"

    def refusal(self, refusal: compiler.Refusal) -> str:
        """A refusal of the kernel, at the place of the user's text, with the equations that are responsible for one of clocks."""
        text = self.found.said(refusal.text)
        at = self.found.at(refusal.line, refusal.col) if refusal.line else None
        entry = entry_of(refusal.text)
        lines = [*self.of_pace(refusal), *([f"see docs/errors.md#{entry}"] if entry else [])]
        return placed(at, "error", text, lines) + self.responsible(refusal, at)

    def of_pace(self, refusal: compiler.Refusal) -> list[str]:
        """The flag --pace where sigc takes it."""
        is_meant = refusal.text.startswith("no root") and compiler.Sigc(self.path).takes_pace(self.found.kernel)
        return [OF_PACE] if is_meant else []

    def responsible(self, refusal: compiler.Refusal, first: At | None) -> str:
        """The places of the user's text that keep a refusal of clocks."""
        from sigc.call.opened import home_words
        from sigc.hints import all_advice
        from sigc.read import syntax
        from sigc.why import large_guards

        notes = all_advice.Advice(compiler.Sigc(self.path), syntax.read(self.found.kernel)).notes(refusal)
        is_large = large_guards.is_told(refusal.text)
        places: dict[At, str] = {}
        for it in notes:
            places.setdefault(self.found.at(it.line, it.col), home_words(self.found, it.words) if is_large else RESPONSIBLE)
            places.update(self.found.exclusions(it.line, it.col))
        return "".join(placed(it, "note", words) for it, words in places.items() if it != first)


def started(path: str, words: list[str]) -> subprocess.Popen:
    """sigc at work; NoProgram where there is none."""
    try:
        return subprocess.Popen([path, *words], stdin=subprocess.DEVNULL, stdout=subprocess.PIPE, stderr=subprocess.PIPE)
    except OSError as error:
        raise compiler.NoProgram(f"{path}: {error.strerror}") from None


def stops_alike(found: Refused, path: str, program: str) -> bool:
    """Whether sigc's own reader stops where this one does: then the text is a kernel that has a mistake, and sigc's hints help more."""
    if found.text != "syntax" or not found.at or len(found.advice) > 1:
        return False
    place = found.at.place
    with started(path, ["check", program]) as ran:
        _, said = ran.communicate()
    return said.decode("latin-1").startswith(f"error {place.line}:{place.col}: ")


def called(path: str, command: str, words: list[str], plain: list[str], include=(), tell=None) -> int | None:
    """Calls sigc on a program that is no kernel, and gives the status; none where it is one."""
    tell = tell or sys.stderr.write
    try:
        found = expansion_of(plain[0], include)
        large = found.too_large() if found else None
        if large:
            raise large
    except Refused as it:
        if stops_alike(it, path, plain[0]):
            return None
        tell(refused(it))
        return 1
    if found is None:
        return None
    for it in found.notes:
        tell(placed(it.at, "note", it.text))
    with tempfile.TemporaryDirectory(prefix="sigc-tools-") as room:
        try:
            return Led(found, command, plain, room, path, tell).run(words)
        except FlowFault as fault:
            tell(shown_places.placed(plain[1], fault.line, fault.col, "error", fault.text, source(plain[1])) + "".join(f"      {it}\n" for it in fault.advice))
            return 4
        except BrokenPipeError:
            raise
        except OSError:
            tell(f"error: {plain[1]}: not found\n" if len(plain) > 1 else f"error: {room}: write failed\n")
            return 5
