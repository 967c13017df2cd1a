"""Prints the numbered equations of a program, as `sigc judge` counts them.

`sigc judge` says `error: instant 2 breaks equation 14`. The equations are those of the first process in the
order of the text, a call replaced by the definitions of its inputs, its own equations and the definitions of its
left sides. Each line has the number, the place in the program's text and the equation. The program has to be one
that `sigc judge` takes.
"""
import argparse
import sys

from sigc.call import compiler
from sigc.read import flat_bodies, lexer


def main():
    words = argparse.ArgumentParser(prog="sigc-equations", description=__doc__, formatter_class=argparse.RawDescriptionHelpFormatter)
    words.add_argument("program", metavar="PROGRAM", help="the file of a program")
    words.add_argument("number", metavar="NUMBER", nargs="*", type=int, help="the equations of these numbers alone")
    words = words.parse_args()
    try:
        equations = flat_bodies.FlatBody(compiler.read_program(words.program)).equations
    except lexer.Unreadable as error:
        print(f"sigc-equations: {words.program}: {error}", file=sys.stderr)
        return 1
    for at, it in enumerate(equations, 1):
        if not words.number or at in words.number:
            print(f"{at} {it.line}:{it.col} {it.text}")
    return 0


def start():
    sys.exit(compiler.guarded(main))
