"""Lays out programs: one equation a line, long ones broken at `default`, all comments kept.

    tools/sigc-format examples/watch.sig
    tools/sigc-format --check examples/*.sig
    tools/sigc-format --write mine.sig

Writes the text of a program laid out; with --write into its file, and with --check the names of the files that are not laid
out so, with status 1. `-` is standard input. Words and comments stay as they are and in their order, so `sigc print` writes the
same of both texts. A text that is no program is refused, and so is one that passes a limit of sigc on nesting, operators,
numbers or length; its file stays as it is. Formatting twice is formatting once.
"""
import argparse
import os
import stat
import sys
import tempfile

from sigc.call import running
from sigc.read import files_read, layout


def text_of(path):
    """The text of a file, or of standard input, a byte a character; of a longer one a byte more than sigc takes."""
    most = files_read.PROGRAM_BYTES
    return sys.stdin.buffer.read(most + 1).decode("latin-1") if path == "-" else files_read.read_text(path, most)


def replaced(path, text):
    """Puts a text into the place of a file's. The text is written beside the real file under a name that is free, and takes
    its place whole."""
    target = os.path.realpath(path)
    state = os.stat(target)
    if is_written_itself(target, state):
        files_read.write_text(target, text)
        return
    number, made = tempfile.mkstemp(prefix=".sigc-format-", dir=os.path.dirname(target))
    try:
        os.close(number)
        files_read.write_text(made, text)
        os.chmod(made, stat.S_IMODE(state.st_mode))
        os.replace(made, target)
    except BaseException:
        os.unlink(made)
        raise


def is_written_itself(target, state):
    """Whether another file in the place of this one would not be the same: it has further names or another owner, is no
    plain file, or nothing can be written beside it."""
    is_plain = state.st_nlink == 1 and state.st_uid == os.geteuid() and stat.S_ISREG(state.st_mode)
    return not is_plain or not os.access(os.path.dirname(target), os.W_OK)


def one(path, words):
    """Lays out one file; whether it is as it should be, where that is asked."""
    text = text_of(path)
    made = layout.formatted(text)
    if words.check:
        if made != text:
            print(path)
        return made == text
    if words.write and path != "-":
        if made != text:
            replaced(path, made)
    else:
        sys.stdout.buffer.write(made.encode("latin-1"))
        sys.stdout.flush()
    return True


def main():
    words = argparse.ArgumentParser(prog="sigc-format", description=__doc__, formatter_class=argparse.RawDescriptionHelpFormatter)
    words.add_argument("programs", metavar="PROGRAM", nargs="+", help="the file of a program, or - for standard input")
    how = words.add_mutually_exclusive_group()
    how.add_argument("--check", action="store_true", help="tell the files that are not laid out, with status 1")
    how.add_argument("--write", action="store_true", help="put the text into its file")
    words = words.parse_args()
    status = 0
    for path in words.programs:
        try:
            status = status if one(path, words) else 1
        except layout.Unformatted as error:
            print(f"sigc-format: {path}:{' ' if not error.line else ''}{error}", file=sys.stderr)
            status = 1
    return status


def start():
    running.started("sigc-format", main)
