"""Prints the header of a trace file for a program: each signal's name, in the order of the program.

A trace file, which `sigc judge` reads, begins with a line that names each signal of the program once: those of the
first process, and those of each call, as COUNT#1.N. The program has to be one that `sigc judge` takes.
"""
import argparse
import sys

from sigc.call import compiler
from sigc.read import flat_bodies, lexer


def main():
    words = argparse.ArgumentParser(prog="sigc-header", description=__doc__, formatter_class=argparse.RawDescriptionHelpFormatter)
    words.add_argument("program", metavar="PROGRAM", help="the file of a program")
    words.add_argument("--silent", metavar="N", type=int, default=0, help="N instants after it at which nothing is present, to be filled in")
    words.add_argument("--kinds", action="store_true", help="a line for each signal, with its kind, in place of the header")
    words = words.parse_args()
    try:
        signals = flat_bodies.FlatBody(compiler.read_program(words.program)).signals
    except lexer.Unreadable as error:
        print(f"sigc-header: {words.program}: {error}", file=sys.stderr)
        return 1
    if words.kinds:
        print("".join(f"{it.name} {it.kind}\n" for it in signals), end="")
        return 0
    print(" ".join(it.name for it in signals))
    for _ in range(words.silent):
        print(" ".join("." * len(signals)))
    return 0


def start():
    sys.exit(compiler.guarded(main))
