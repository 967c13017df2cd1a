"""Runs a program one instant at a time: prompts for the inputs that are due, shows every signal, and goes on and back.

    tools/sigc-step examples/pump.sig
    tools/sigc-step examples/pump.sig --flows examples/pump.flows

At a terminal an empty line runs the next instant. For each input that is due and has no value, sigc-step shows its kind, when
it is present, and in brackets its last value, which an empty line takes. A command may take the place of a value. The commands
are

COMMANDS

If standard input is no terminal, it holds the same lines, values among them, and there are no prompts. A line that begins with %
is a comment. The status is then that of the first line that failed: 3 if the run ended at an overflow or a division by zero,
else 1; without such a line it is 0. Ctrl-C ends a command at a terminal.

sigc computes each instant: it runs the program, with every signal an output, over the values so far.
The program is the file that the variable SIGC names, or else the script ./sigc at the top of the repository.
"""
import argparse
import sys

from sigc.call import opened, running
from sigc.step import dialogues
from sigc.step.observed_runs import ObservedRuns
from sigc.step.sessions import Session
from sigc.trace import traces


class Terminal:
    """Lines that are typed, with history and completion where the module readline is there."""

    say, status = staticmethod(print), 0

    def __init__(self, names):
        self.words = [*dialogues.COMMANDS, *names]
        try:
            import readline
        except ImportError:
            return
        readline.set_completer_delims(" =,")
        readline.set_completer(self.completed)
        readline.parse_and_bind("tab: complete")

    def completed(self, begun, number):
        return [*(it for it in self.words if it.startswith(begun)), None][number]

    def read(self, prompt):
        """The next line; None at the end, which Ctrl-D is."""
        try:
            return input(prompt).strip()
        except EOFError:
            print()
            return None

    def refuse(self, line, _):
        print(f"  {line}")

    def failed(self, _):
        """A run that has ended may go on here."""

    def interrupted(self):
        print()


class Script:
    """Lines of standard input that is no terminal; status is that of the first that could not be done."""

    say = staticmethod(print)

    def __init__(self):
        self.number = self.status = 0

    def read(self, _):
        """The next line that is no comment."""
        for line in sys.stdin:
            self.number += 1
            if not line.startswith("%"):
                return line.strip()
        return None

    def failed(self, status):
        self.status = self.status or status

    def refuse(self, line, status):
        self.failed(status)
        sys.stdout.flush()
        print(f"sigc-step: line {self.number}: {line}", file=sys.stderr)

    def interrupted(self):
        raise KeyboardInterrupt


def greeted(session, dialogue):
    """What a terminal shows first."""
    flat = session.runs.flat
    print(f"{flat.name}: {len(session.kinds)} inputs, {len(session.runs.names)} signals. An empty line runs one instant; `help` lists the commands.")
    dialogue.line("inputs")


def talked(dialogue, lines):
    """Does line after line."""
    instead = None
    while True:
        try:
            line = instead if instead is not None else lines.read(f"instant {dialogue.session.count + 1}> ")
            instead = None
            if line is None:
                return
            dialogue.line(line)
        except dialogues.Instead as it:
            instead = str(it)
        except dialogues.Quit:
            return
        except (dialogues.Wrong, running.Refused) as it:
            lines.refuse(str(it), it.status)
        except KeyboardInterrupt:
            lines.interrupted()


def main():
    told = __doc__.replace("COMMANDS", "\n".join(dialogues.help_lines()))
    words = argparse.ArgumentParser(prog="sigc-step", description=told, formatter_class=argparse.RawDescriptionHelpFormatter)
    words.add_argument("program", metavar="PROGRAM", help="the file of a program")
    words.add_argument("--flows", metavar="FILE", help="a flow file: its values come before any that sigc-step prompts for")
    words.add_argument("--pace", action="store_true", help=traces.PACE_HELP)
    opened.add_include(words)
    words = words.parse_args()
    is_terminal = sys.stdin.isatty()
    with running.Files(words.include) as files:
        session = Session(ObservedRuns(files, words.program, words.pace))
        lines = Terminal(list(session.runs.names.values())) if is_terminal else Script()
        dialogue = dialogues.Dialogue(session, lines)
        if words.flows:
            dialogue.load(words.flows)
        if is_terminal:
            greeted(session, dialogue)
        talked(dialogue, lines)
        print(f"ended after {session.count} instants")
        return lines.status


def start():
    running.started("sigc-step", main)
