#!/usr/bin/env python3
"""refused_memory.py SIGC [ROW..]: what sigc does where memory is refused, at each of its allocations in turn.

Runs SIGC on each of the rows below once for each number N, with the Nth allocation refused (bench/refuse.c, compiled by gcc,
in the place of malloc), until a run makes no Nth one. Each run must say that memory is wanting, with status 7 and nothing on
standard output, or give what the row gives with ample memory; where one of the first two is refused, the buffers of the
streams, nothing can be said, and the status alone says it. Each run that says so is made once more with a standard error
that takes nothing, and must end with status 7 there too. Prints of each row how many runs ended in which way, and of
each that ended otherwise its number. The status is 0 where there is none. A program with a malloc of its own, as one with an
address sanitizer, makes no allocation that the library sees: that is said, and the status is 1.

`rt try --fail-alloc N` does the same for one number, in the sources as they stand, and builds them anew for each.
"""
import itertools
import os
import subprocess
import sys
import tempfile

HERE = os.path.dirname(os.path.abspath(__file__))

SUM = "process SUM = (? integer A, B ! integer Y) Y := A + B;"
DOWN = (
    "process DOWN = (? integer A ! integer Y) (| Y := A default (ZY - 1) | ZY := Y $ init 0 | A ^= when (ZY <= 0) |) "
    "where integer ZY; end;"
)
TWO = (
    'process TWO = (? integer A, B ! integer Y, Z) pragmas RunOn {B, Z} "1" end pragmas '
    "(| Y := A + 1 | Z := B + 1 | A ^= B |);"
)
TWO_FLOWS = "A 1 2 3 4 5 6\nB 10 20 30\n"
ROOTS = "process TWO = (? integer U, V ! integer Y, Z)\n(| Y := U + 1 | Z := V + 1 |);"
AT_PACES = "pace_1 true false true\npace_2 true true false\nU 1 2\nV 10 20\n"
EVENTS = "act 1\n" + 8 * "act 0\n" + "act 1\nact 1\nact 7\n"

# of each row the words, and the files that they name
ROWS = {
    "sum": (["run", "P", "F"], {"P": SUM, "F": "A 1 2 3\nB 10 20\n"}),
    "tree-down": (["tree", "P"], {"P": DOWN}),
    "code-sum": (["code", "P"], {"P": SUM}),
    "print-sum": (["print", "P"], {"P": SUM}),
    "two-clusters": (["run", "P", "F", "--capacity", "1", "--workers", "2"], {"P": TWO, "F": TWO_FLOWS}),
    "one-thread": (["run", "P", "F", "--workers", "0"], {"P": TWO, "F": TWO_FLOWS}),
    "play-end": (["play", "P", "F", "V", "--capacity", "1"], {"P": SUM, "F": "A 1 2\nB 10\n", "V": EVENTS}),
    "load-3": (["load", "1", "3"], {}),
    "paced": (["run", "P", "F", "--pace"], {"P": ROOTS, "F": AT_PACES}),
    "build-down": (["build", "P"], {"P": DOWN}),
    # the image I is what the program builds of B, with ample memory
    "exec-down": (["exec", "I", "F"], {"B": DOWN, "F": "A 3 2\n"}),
}

REFUSED = (7, b"", b"error: out of memory\n")
SILENT = (7, b"", b"")
BUFFERS = 2


def shim(folder):
    """The library that refuses memory."""
    path = os.path.join(folder, "refuse.so")
    subprocess.run(["gcc", "-O2", "-shared", "-fPIC", "-o", path, os.path.join(HERE, "refuse.c")], check=True)
    return path


def run(words, folder, library=None, number=0, err=subprocess.PIPE):
    """The status, standard output and standard error of a run, and whether its allocation of this number was refused."""
    if library is None:
        ran = subprocess.run(words, cwd=folder, capture_output=True, timeout=60)
        return (ran.returncode, ran.stdout, ran.stderr), False
    mark, told = os.pipe()
    environment = {"LD_PRELOAD": library, "REFUSE": str(number), "REFUSE_FD": str(told)}
    try:
        ran = subprocess.run(
            words, cwd=folder, stdout=subprocess.PIPE, stderr=err, timeout=60, env=environment, pass_fds=[told]
        )
    finally:
        os.close(told)
        with os.fdopen(mark, "rb") as read:
            refused = read.read()
    return (ran.returncode, ran.stdout, ran.stderr), bool(refused)


def run_unheard(words, folder, library, number):
    """The same with a standard error that takes nothing."""
    with open("/dev/full", "wb") as full:
        (status, out, _), _ = run(words, folder, library, number, full)
    return status, out


def tried(sigc, name, library):
    """Tries a row at each allocation, and returns the numbers at which it ended otherwise."""
    words, files = ROWS[name]
    with tempfile.TemporaryDirectory() as folder:
        for file, text in files.items():
            with open(os.path.join(folder, file), "w", encoding="ascii") as out:
                out.write(text)
        if "I" in words:
            (_, image, _), _ = run([sigc, "build", "B"], folder)
            with open(os.path.join(folder, "I"), "wb") as out:
                out.write(image)
        ample, _ = run([sigc, *words], folder)
        if ample[0] == 2:
            print(f"{name}: not a command of this program")
            return []
        wanting, same, silent, other = 0, 0, 0, []
        for number in itertools.count(1):
            ended, refused = run([sigc, *words], folder, library, number)
            if not refused:
                break
            wanting += ended == REFUSED
            same += ended == ample
            if ended == SILENT and number <= BUFFERS:
                silent += 1
            elif ended not in (REFUSED, ample):
                other.append(number)
                print(f"{name}: allocation {number}: {ended}")
            if ended == REFUSED and run_unheard([sigc, *words], folder, library, number) != (7, b""):
                other.append(number)
                print(f"{name}: allocation {number}: another status without standard error")
        if number == 1:
            print(f"{name}: no allocation was seen: the program has a malloc of its own")
            return [0]
        if ended != ample:
            other.append(number)
            print(f"{name}: no allocation {number}: {ended}")
        print(
            f"{name}: {number - 1} allocations, {wanting} times out of memory, {silent} times so without a line, "
            f"{same} times the row, {len(other)} times something else"
        )
    return other


def main():
    sigc = os.path.abspath(sys.argv[1])
    names = sys.argv[2:] or list(ROWS)
    with tempfile.TemporaryDirectory() as folder:
        library = shim(folder)
        others = [tried(sigc, name, library) for name in names]
    return 1 if any(others) else 0


if __name__ == "__main__":
    sys.exit(main())
