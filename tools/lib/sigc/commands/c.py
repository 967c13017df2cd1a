"""Writes a program in C11: a step that does one instant, to be embedded, and a main that runs it.

    tools/sigc-c examples/thermostat.sig -o board
    gcc -O2 -o board/thermostat board/*.c
    board/thermostat examples/thermostat.flows

DIR gets NAME.h, NAME.c and main.c, NAME being that of the first process. NAME.c has no allocation and needs nothing but
stdint.h: NAME_init makes a state, of which there may be several, and NAME_step does one instant. It asks for an input
where its clock says so, by r_NAME_INPUT, and gives the outputs by w_NAME_OUTPUT, which are yours to write. A step that
cannot be done leaves the state as it was, and answers which input is exhausted, or which operator overflows or divides by
zero. main.c runs the step over a flow file, and writes what `sigc run` writes, or with --live over standard input.

The text is made of the image that `sigc build` writes. Nothing about it is proved. Where NAME.h would have the name of a
header of C, as math.h, or NAME is main, the files are called NAME_process. docs/shipping.md tells how to embed it.

With --literal the step does each operation of the image by itself, in their order, and is made of the image and of names
alone. Without it the step is shorter: what nobody reads is left out, and values stand inside expressions.

With --types variables and memories have types as narrow as their values: what these may be is computed from the ranges of
the inputs, which --range A=0..100 gives; and delays of one signal that begin alike are one memory. A step that is given
another value answers NAME_OUT_OF_RANGE.

With --pace a program whose parts are independent gets an input for each of them, pace_1 and so on, which tells at each
instant whether that part is there; they are written into the program's text, which is built then.

With --clusters --carrier threads, mpi or dds each cluster gets a state and a step of its own, NAME_clusters.h and .c. A
step that has to wait for another cluster says so, and goes on there when it is called again; get_NAME and put_NAME, which pass
items between clusters, are the carrier's. `sh DIR/build` builds, `DIR/run FLOWS` runs the clusters on threads, on ranks
of MPI or as processes over DDS. With --local-outputs each cluster writes its outputs itself, with --barrier it waits at each
instant until all have done it. docs/spreading.md tells how.

The program sigc is the file that the variable SIGC names, or else the script ./sigc at the top of the repository.
"""
import argparse
import os
import re
import sys

from sigc.c import c_files, c_limits, c_names, literal_guards, literal_unit, main_text, step_text
from sigc.call import running
from sigc.call.opened import add_include
from sigc.clocks import paced_text
from sigc.clusters import carriers, cluster_files, cluster_program
from sigc.image import equal_memories, given_ranges, images, intervals, sources, step_statements
from sigc.read import syntax

NAME = re.compile(r"[A-Za-z][A-Za-z0-9_]*")
WRITTEN = "Written by sigc-c"


def image_of(files, text, called, home=None):
    """The image of a program, as `sigc build` writes it; home leads a refusal to the user's text."""
    path, program = files.written("image", ""), files.written("program.sig", text, called)
    with open(path, "wb") as out, running.Call("build", program, stdout=out) as call:
        line, status = call.ended()
    if status:
        line = files.renamed(line)
        raise running.Refused(home.refusal(line) if home else line, status)
    with open(path, "rb") as it:
        return images.image_of(it.read())


def prefix_of(words, text):
    """What the names of C begin with: the name of the first process, or what was asked for."""
    if words.prefix is None:
        return c_names.prefix_for(syntax.read(text).processes[0].name.text)
    if not NAME.fullmatch(words.prefix):
        raise running.Refused(f"--prefix wants letters, digits and _, a letter first, and not {words.prefix!r}", 2)
    if c_names.is_of_library(words.prefix):
        raise running.Refused(f"--prefix {words.prefix}: C keeps functions that begin so for its library; take another one, as own_{words.prefix}", 2)
    return words.prefix


def steps_of(words, image):
    """The steps of an image, and its ranges where they are asked for."""
    is_narrow = words.types or words.range
    image = equal_memories.merged(image) if is_narrow else image
    steps = step_statements.Steps(image)
    if not is_narrow:
        return steps, None
    ranges = intervals.Ranges(steps, read_ranges(words.range, image))
    return step_statements.Steps(image, ranges.safe), ranges


def read_ranges(asked, image):
    """The ranges that were given for inputs, by their numbers."""
    numbers = {it.name: at for at, it in enumerate(image.signals[: image.inputs])}
    try:
        found = given_ranges.ranges_of(asked, {it.name: it.kind for it in image.signals})
    except given_ranges.Wrong as error:
        raise running.Refused(str(error), 2) from None
    for name in found:
        if name not in numbers:
            raise running.Refused(f"--range {name}={found[name][0]}..{found[name][1]}: {name} is no input; give the ranges of the inputs that it is computed from", 2)
    return {numbers[name]: it for name, it in found.items()}


def refuse_others(folder, names):
    """Refused where a file of one of these names is there that this script did not write: it says so in its first two lines."""
    for path in (f"{folder}/{name}" for name in names):
        if not os.path.exists(path):
            continue
        with open(path, encoding="latin-1") as it:
            if WRITTEN not in it.readline() + it.readline():
                raise running.Refused(f"{path} is there and was not written by sigc-c")


def code_of(files, text, called):
    """The lines of the code of a program, as `sigc code` writes them."""
    try:
        return running.output_of("code", files.written("program.sig", text, called))
    except running.Refused as it:
        raise running.Refused(files.renamed(it.line), it.status) from None


def check_clusters(words):
    """Refused where words about clusters do not go together."""
    if words.clusters and (words.carrier is None or words.literal or words.types or words.range):
        raise running.Refused("--clusters wants --carrier threads, mpi or dds, and none of --literal, --types and --range", 2)
    if not words.clusters and (words.carrier or words.local_outputs or words.barrier):
        raise running.Refused("--carrier, --local-outputs and --barrier want --clusters", 2)


def put_clusters(words, opened, code):
    """Writes the files of a program in clusters."""
    program = cluster_program.Program(opened.image, code, opened.source, opened.prefix, words.local_outputs, words.barrier)
    texts = carriers.files_of(cluster_files.Unit(program, opened.called, opened.title), words.carrier)
    refuse_others(words.folder, texts)
    os.makedirs(words.folder, exist_ok=True)
    for name, text in texts.items():
        put(words.folder, name, text)
    return 0


def put(folder, name, text):
    with open(f"{folder}/{name}", "w", encoding="ascii", newline="\n") as it:
        it.write(text)


class Opened:
    """A program with its image and its names, as every writer takes them."""

    def __init__(self, files, words):
        source = {}
        if words.pace:
            program = paced_text.Paced(files, words.program)
            source = {"places": program.place}
        else:
            program = running.Program(files, words.program)
            source = {"home": program.home}
            words.range = program.home.ranges(words.range)
        self.text, self.called = program.text, words.program
        self.image = image_of(files, program.text, words.program, source.get("home"))
        self.prefix, self.title = prefix_of(words, program.text), syntax.read(program.text).processes[0].name.text
        self.source = sources.Source(program.text, self.image, **source)


def unit_of(opened, words):
    """The files of a program, with the step that was asked for."""
    if words.literal:
        try:
            return literal_unit.LiteralUnit(opened.image, opened.source, opened.prefix, opened.called, opened.title, opened.source.home)
        except literal_guards.TooLong:
            raise running.Refused(f"{opened.called}: the literal step would have more than {literal_guards.MOST_BYTES} bytes; leave --literal out") from None
    steps, ranges = steps_of(words, opened.image)
    return c_files.Unit(step_text.written(steps, opened.source, opened.prefix, ranges), opened.called, opened.title, home=opened.source.home)


def main_of(unit):
    """The text of main.c; of a program that is no kernel with the user's names, values and places."""
    if unit.home is None:
        return main_text.main_text(unit)
    from sigc.c import users_main

    return main_text.main_text(unit, users_main.Users(unit.home, unit))


def look_at_names(unit, is_literal):
    """Refused where two functions have one name as far as C11 promises to look at it, or one of a literal step is longer."""
    alike = c_limits.same_beginning(unit.functions(), c_names.MOST_LETTERS)
    long = [it for it in unit.functions() if is_literal and len(it) > c_names.MOST_LETTERS]
    if alike or long:
        wrong = f"in which these agree: {' '.join(alike)}" if alike else f"and these have more: {' '.join(long)}"
        raise running.Refused(f"C tells names apart by {c_names.MOST_LETTERS} characters, {wrong}; give inputs and outputs shorter names, or a shorter --prefix", 2)


def main():
    words = argparse.ArgumentParser(prog="sigc-c", description=__doc__, formatter_class=argparse.RawDescriptionHelpFormatter)
    words.add_argument("program", metavar="PROGRAM", help="the file of a program")
    words.add_argument("-o", metavar="DIR", dest="folder", required=True, help="the folder of the files, which is made where it is not there")
    words.add_argument("--prefix", metavar="NAME", help="what the names of C begin with, in the place of the process's name")
    words.add_argument("--literal", action="store_true", help="write each operation of the image by itself, in its order; longer, and easier to hold against the program")
    words.add_argument("--types", action="store_true", help="types as narrow as the values, as int8_t, and no test where an operation cannot fail")
    words.add_argument("--range", metavar="A=0..100", action="append", default=[], help="the values that an integer input may have, for --types; others end the run")
    words.add_argument("--clusters", action="store_true", help="a step for each cluster, and what carries items between them")
    words.add_argument("--carrier", choices=carriers.CARRIERS, help="what carries items between clusters: threads of one process, ranks of MPI, or processes over DDS")
    words.add_argument("--local-outputs", action="store_true", help="with --clusters: each cluster gives its outputs itself, and there is no collector")
    words.add_argument("--barrier", action="store_true", help="with --clusters: clusters wait at each instant until all have done it")
    words.add_argument("--pace", action="store_true", help="let clocks stay independent, as sigc --pace does: each gets a boolean input, pace_1 and so on")
    add_include(words)
    words = words.parse_args()
    check_clusters(words)
    if words.literal and (words.types or words.range):
        raise running.Refused("the literal step has the types of the program: --literal stands without --types and --range", 2)
    with running.Files(words.include) as files:
        opened = Opened(files, words)
        if words.clusters:
            return put_clusters(words, opened, code_of(files, opened.text, opened.called))
        unit = unit_of(opened, words)
        texts = {f"{unit.stem}.h": unit.header(), f"{unit.stem}.c": unit.unit(), "main.c": main_of(unit)}
        refuse_others(words.folder, texts)
        look_at_names(unit, words.literal)
    os.makedirs(words.folder, exist_ok=True)
    for name, text in texts.items():
        put(words.folder, name, text)
    for line in c_limits.beyond(texts[f"{unit.stem}.c"], unit.functions()):
        print(f"sigc-c: {line}", file=sys.stderr)
    return 0


def start():
    running.started("sigc-c", main)
