"""Draws the clock tree of a program, or its clusters with their links, as a graph for Graphviz.

    tools/clocks2dot --tree examples/watch.sig | dot -Tsvg > tree.svg
    tools/clocks2dot --code examples/watch.sig | dot -Tsvg > code.svg

Of a tree each clock is a box with its signals, below the clock whose instants it is part of; the line between them says
when it comes, as `when SENSE`. Of a code each actor is a
box: the clusters with their signals, those of one clock on lines of their own, and the collector, which writes the
reactions. One arrow stands for all links from one actor to another, with their signals; it is dotted where there is
no more than the report by which a cluster says that it is through with an instant. The signals of a call come after
its path, as TIMER#2/EDGE#3.

Clocks and signals of the compiler are left out, or counted; with --all they are drawn too, and the operations of each
actor in their order. What `sigc tree` or `sigc code` prints is drawn too, from a file or from standard input; there the
calls around a call are not known, and of a code no clocks.

The program is the file that the variable SIGC names, or else the script ./sigc at the top of the repository.
"""
import argparse
import sys

from sigc.call import running
from sigc.clocks import clocks_in_words, laid_out, pace_flag, plans
from sigc.read import files_read, lexer
from sigc.view import picture_names

HEAD = ["  node [shape=box fontname=monospace];", "  edge [fontname=monospace fontsize=10];"]


def quoted(lines):
    """Lines as a label; a single one is centred, several stand at the left."""
    text = [it.replace("\\", "\\\\").replace('"', '\\"') for it in lines]
    return '"' + (text[0] if len(text) == 1 else "".join(f"{it}\\l" for it in text)) + '"'


def tree_graph(classes, names, clocks=None):
    """The graph of a clock tree, with the words of its clocks where these are known."""
    yield from ("digraph clocks {", *HEAD[:1], "  edge [dir=none fontname=monospace fontsize=12];")
    pairs = enumerate(classes.parents()) if names.is_all else classes.declared()
    for number, above in pairs:
        lines = names.lines(classes[number]) or ["-"]
        yield f"  c{number} [label={quoted(lines)}];"
        if above is not None:
            told = clocks.words(classes[number][0]) if clocks and classes[number] else ""
            label = f" [label={quoted([f' {told}'])}]" if told else ""
            yield f"  c{above} -> c{number}{label};"
    yield "}"


def code_graph(code, classes, names):
    """The graph of the actors and of the links between them."""
    yield from ("digraph actors {", "  rankdir=LR;", *HEAD)
    for it in code.actors:
        yield f"  a{it.number} [label={quoted([it.name, *picture_names.signals_of(it, classes, names)])}];"
    for (writer, reader), signals in code.bundles().items():
        how = f"label={quoted(picture_names.arrow_of(signals, names))} penwidth={1 + min(len(signals), 20) / 10}" if signals else "style=dotted"
        yield f"  a{writer} -> a{reader} [{how}];"
    yield "}"


def clocks_of(laid):
    """The clocks in words; None where no image is made of the program."""
    try:
        return clocks_in_words.of_laid(laid)
    except running.Refused:
        return None


def drawn(words):
    """The lines of the graph that is asked for."""
    path = words.tree or words.code
    if not path:
        lines = (running.text_of(words.file) if words.file else sys.stdin.buffer.read(files_read.MOST_BYTES).decode("latin-1")).splitlines()
        if not lines:
            raise lexer.Unreadable("there is nothing to draw")
        names = picture_names.Names(None, words.all)
        is_code = lines[0].startswith("actor ")
        return code_graph(plans.Code(lines), None, names) if is_code else tree_graph(plans.Classes(lines), names)
    with running.Files() as files:
        laid = laid_out.Laid(files, path, words.pace)
        names = picture_names.Names(laid.flat, words.all, laid.program.home)
        if words.tree:
            return list(tree_graph(laid.classes, names, clocks_of(laid)))
        return list(code_graph(plans.Code(laid.program.asked("code", *pace_flag.words_of(words.pace))), laid.classes, names))


def main():
    words = argparse.ArgumentParser(prog="clocks2dot", description=__doc__, formatter_class=argparse.RawDescriptionHelpFormatter)
    what = words.add_mutually_exclusive_group()
    what.add_argument("file", nargs="?", help="what sigc printed (default: standard input)")
    what.add_argument("--tree", metavar="PROGRAM", help="draw the clock tree of this program")
    what.add_argument("--code", metavar="PROGRAM", help="draw the clusters and links of this program")
    words.add_argument("--all", action="store_true", help="draw what belongs to the compiler too")
    words.add_argument("--pace", action="store_true", help="draw the clocks and inputs that sigc --pace adds too")
    for line in drawn(words.parse_args()):
        print(line)
    return 0


def start():
    running.started("clocks2dot", main)
