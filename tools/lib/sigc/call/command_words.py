"""The commands of sigc with their words, and what is wrong with words that are no command."""
import re
from typing import NamedTuple

from sigc.hints.near_words import near


class Command(NamedTuple):
    files: tuple
    options: tuple
    does: str


class Option(NamedTuple):
    least: int
    most: int
    usual: int
    does: str


COMMANDS = {
    "check": Command(("PROGRAM",), (), "says `accepted`, or why the program is refused"),
    "tree": Command(("PROGRAM",), (), "writes the hierarchy of the program's clocks"),
    "code": Command(("PROGRAM",), (), "writes the steps of each cluster and of the collector"),
    "print": Command(("PROGRAM",), (), "writes the program as sigc reads it"),
    "judge": Command(("PROGRAM", "TRACE"), (), "says whether a written trace is one of the program"),
    "run": Command(("PROGRAM", "FLOWS"), ("--workers", "--capacity", "--instants"), "runs the program over the values of its inputs"),
    "play": Command(("PROGRAM", "FLOWS", "EVENTS"), ("--capacity", "--instants"), "lets the actors do given steps, writes their state, and finishes the run"),
    "build": Command(("PROGRAM",), (), "writes the image of the program, which exec runs"),
    "exec": Command(("IMAGE", "FLOWS"), ("--instants",), "runs an image over the values of its inputs, without compiling"),
    "load": Command(("SEED", "STAGES"), ("--workers", "--capacity"), "runs a program that is made from a number, and counts what it writes"),
}
OPTIONS = {
    "--workers": Option(0, 64, 2, "the threads at work"),
    "--capacity": Option(1, 65536, 16, "the items that a link holds"),
    "--instants": Option(1, 1000000000, 1000000, "the most instants of a run"),
}
PACED = ("check", "tree", "code", "run", "play")
LETTERS = {"--workers": "W", "--capacity": "C", "--instants": "N"}
STATUSES = (
    "0 done; 1 the program is refused; 2 the words are no command; 3 the run ended at an overflow or a division by zero; "
    "4 a flow, event, trace or image file is refused; 5 a file was not read; 6 a write failed; 7 memory was wanting; "
    "8 too many diagram nodes; 9 the trace is none of the program; 10 the image would be too long"
)


def usage(name):
    command = COMMANDS[name]
    options = "".join(f" [{it} {LETTERS[it]}]" for it in command.options)
    return f"sigc {name} {' '.join(command.files)}{options}{' [--pace]' if name in PACED else ''}"


def help_text():
    """All commands, options and statuses."""
    lines = ["sigc compiles, judges and runs programs in SIGNAL.", ""]
    lines += [f"  {usage(it)}\n      {COMMANDS[it].does}" for it in COMMANDS]
    lines += ["", "options, anywhere behind the command:"]
    lines += [f"  {name} {LETTERS[name]}  {it.does}: {it.least} to {it.most}, else {it.usual}" for name, it in OPTIONS.items()]
    lines += [f"  --pace  of {', '.join(PACED[:-1])} and {PACED[-1]}: independent clocks get a boolean input each, pace_1 and so on"]
    lines += ["", f"status: {STATUSES}", "", "docs/tutorial.md begins, docs/formats.md has all words, docs/errors.md each refusal with its mend."]
    return "\n".join(lines) + "\n"


def split(words):
    """The plain words behind a command's name, and the options as pairs of a name and a value or None."""
    plain, options, rest = [], [], list(words)
    while rest:
        it = rest.pop(0)
        if it == "--":
            return plain + rest, options
        if not it.startswith("-") or it == "-":
            plain.append(it)
        elif it == "--pace":
            options.append((it, ""))
        elif "=" in it:
            options.append(tuple(it.split("=", 1)))
        else:
            options.append((it, rest.pop(0) if rest else None))
    return plain, options


def option_hint(name, value, command):
    if name == "--pace":
        return "`--pace` takes no value" if value and command in PACED else "" if command in PACED else f"`{command}` has no option --pace"
    if name not in OPTIONS:
        meant = near(name, list(OPTIONS)) or next((it for it in OPTIONS if it.startswith(name)), "")
        return f"there is no option {name}" + (f": did you mean `{meant}`?" if meant else "")
    if name not in COMMANDS[command].options:
        return f"`{command}` has no option {name}"
    limits = OPTIONS[name]
    if value is None or not re.fullmatch(r"[0-9]{1,20}", value) or not limits.least <= int(value) <= limits.most:
        return f"{name} wants a number from {limits.least} to {limits.most}"
    return ""


def words_hint(words):
    """What is wrong with words that are no command: lines."""
    if not words:
        return ["a command is wanted: " + ", ".join(COMMANDS)]
    name = words[0]
    if name not in COMMANDS:
        meant = near(name, list(COMMANDS))
        if not meant and name.endswith(".sig"):
            return [f"the command comes first: sigc check {name}"]
        return [f"there is no command {name}" + (f": did you mean `{meant}`?" if meant else "")]
    plain, options = split(words[1:])
    found = [it for it in (option_hint(*option, name) for option in options) if it]
    names = [it for it, _ in options]
    found += [f"{it} stands twice" for it in sorted(set(names)) if names.count(it) > 1]
    if len(plain) != len(COMMANDS[name].files):
        found.append(f"`{name}` takes {' '.join(COMMANDS[name].files)}; {len(plain)} such word{'s stand' if len(plain) != 1 else ' stands'} here")
    return [*found, usage(name)]
