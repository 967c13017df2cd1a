"""Writes the kernel of a program in SIGNAL as designers write it: with constants, sizes, arrays, enumerations, cases and files.

    tools/sigc-expand crossings.sig
    tools/sigc-expand crossings.sig -o kernel.sig --map kernel.map -I ../modules

docs/signal.md has what is taken, what each construct means and what it becomes. A program that is a kernel already is
written as it is. What the front end chose or dropped is printed on standard error, and so is a refusal, as
FILE:LINE:COLUMN: error: TEXT, with status 1. Modules that a program uses are looked for beside it, and in the folders
that -I names. A kernel with more signals than sigc takes is written too, and standard error says what needs how many.

The map is JSON: for each place of the kernel the place in the text, and for each of its signals the user's name, its
kind, and the elements of arrays. `tools/sigc check`, `run` and `tree` expand a program by themselves; its modules stand
beside it there. Nothing about the rewriting is proved; what sigc says of the kernel is.
"""
import argparse
import sys

from sigc.call import running
from sigc.expand import Refused, calling, expanded
from sigc.expand.messages import At


def written(path: str | None, text: str) -> None:
    """Writes a text into a file, or to standard output."""
    if path is None:
        sys.stdout.write(text)
        return
    with open(path, "w", encoding="latin-1", newline="") as it:
        it.write(text)


def main() -> int:
    words = argparse.ArgumentParser(prog="sigc-expand", description=__doc__, formatter_class=argparse.RawDescriptionHelpFormatter)
    words.add_argument("program", metavar="PROGRAM", help="the file of a program")
    words.add_argument("-o", dest="kernel", metavar="KERNEL", help="the file for the kernel (default: standard output)")
    words.add_argument("--map", metavar="FILE", help="the file for places and names")
    words.add_argument("-I", dest="include", metavar="DIR", action="append", default=[], help="a folder with modules")
    words = words.parse_args()
    try:
        found = expanded(words.program, words.include, running.program_text(words.program))
    except Refused as refused:
        sys.stderr.write(calling.refused(refused))
        return 1
    if found.fault:
        told = "this is neither a kernel nor a program that is expanded; tools/sigc check says more"
        sys.stderr.write(calling.placed(At(found.fault), "error", "syntax", [told]))
        return 1
    for it in found.notes:
        sys.stderr.write(calling.placed(it.at, "note", it.text))
    large = found.too_large()
    if large:
        sys.stderr.write(calling.placed(None, "note", large.text, large.advice))
    written(words.kernel, found.kernel)
    if words.map:
        written(words.map, found.map())
    return 0


def start() -> None:
    running.started("sigc-expand", main)
