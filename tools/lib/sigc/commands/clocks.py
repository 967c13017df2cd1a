"""Prints in words when the signals of a program come, clock by clock, as `sigc tree` groups them.

    tools/sigc-clocks examples/watch.sig

After the signals of each clock it says when they come: `at every instant`, or `when` conditions of the program hold, which
are signals or expressions as they stand there, those of a call under the names that they have outside of it; and `A or
else B` where A or B comes whenever they do. A clock of the compiler alone is left out. It reads the image that
`sigc build` makes; where the program has no root, --pace adds its paces, as sigc does.
"""
import argparse

from sigc.call import opened, running
from sigc.clocks import clocks_in_words
from sigc.clocks.laid_out import Laid
from sigc.trace import traces


def lines_of(classes, clocks, home):
    for depth, signals in zip(classes.depths, classes.signals):
        known = [home.name(it) for it in signals if home.is_known(it)]
        if known:
            yield f"{'  ' * depth}{' '.join(known)}: {home.words(clocks.words(signals[0]))}"


def main():
    words = argparse.ArgumentParser(prog="sigc-clocks", description=__doc__, formatter_class=argparse.RawDescriptionHelpFormatter)
    words.add_argument("program", metavar="PROGRAM", help="the file of a program")
    words.add_argument("--pace", action="store_true", help=traces.PACE_HELP)
    opened.add_include(words)
    words = words.parse_args()
    with running.Files(words.include) as files:
        laid = Laid(files, words.program, words.pace)
        try:
            clocks = clocks_in_words.of_laid(laid)
        except running.Refused as refusal:
            raise running.Refused(files.renamed(refusal.line), refusal.status) from None
        for line in lines_of(laid.classes, clocks, laid.program.home):
            print(line)
    return 0


def start():
    running.started("sigc-clocks", main)
