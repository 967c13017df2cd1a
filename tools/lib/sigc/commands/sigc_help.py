"""sigc with help: `tools/sigc --help` prints the commands, `tools/sigc --version` of which program, and all other words go to
sigc-caret.

    tools/sigc check examples/watch.sig
"""
import os
import subprocess
import sys
import time

from sigc.call import command_words, compiler
from sigc.places import TOOLS, TOP, version


def version_line() -> str:
    """The version, when the program was built, and whether it was proved. Nothing is known of the proofs of a file that SIGC names."""
    path = os.environ.get("SIGC")
    if not path:
        return subprocess.run([f"{TOP}/sigc", "--version"], capture_output=True, text=True).stdout.strip() or compiler.program()
    if not os.path.isfile(path):
        raise compiler.NoProgram(f"{path}: No such file or directory")
    built = time.strftime("%Y-%m-%d %H:%M", time.localtime(os.path.getmtime(path)))
    return f"sigc {version()}, built {built}, {'nothing was proved of this program' if os.path.basename(path) == 'unproved' else 'by the file that SIGC names'}"


def main():
    if sys.argv[1:] in ([], ["--help"], ["-h"], ["help"]):
        print(command_words.help_text(), end="")
        return 0
    if sys.argv[1:] == ["--version"]:
        print(version_line())
        return 0
    os.execv(sys.executable, [sys.executable, f"{TOOLS}/sigc-caret", *sys.argv[1:]])


def start():
    sys.exit(compiler.guarded(main))
