"""Runs a system of programs: instances of programs, whose outputs are joined to inputs of others.

    tools/sigc-system examples/system/plant.sys examples/system/plant.flows

The text of a system is

    system PLANT = (? integer LEVEL ! boolean PUMP, ALARM)
    A := "filter.sig"(LEVEL)  B := "control.sig"(A.CLEAN)  C := "watch.sig"(B.STATE, A.CLEAN)
    PUMP := B.PUMP  ALARM := C.ALARM

Files are looked for beside it. CHANNEL[2000] makes so many instances, LEVEL[2000] so many inputs; these are joined one by one,
and what has no count goes to each. CHANNEL[3].Y is an output of one of them. Comments stand between %.

Without FLOWS the system is checked. FLOWS is a flow file as of `sigc run`. Standard output gets a flow file with a line for
each output: instants of different programs have no order. Standard error tells how each instance ended, and which programs wait
for each other. The result is the same in each order of instants. The status is 3 where a program ended at an overflow or a
division by zero, else 1 where programs wait for each other.

With --c the system is built in C by gcc and run so, which is faster where programs depend on each other. With -C threads, mpi or
dds and -o DIR the C is written: `sh DIR/build` builds, `DIR/run FLOWS` runs. --dot draws the system for Graphviz.

The program sigc is the file that the variable SIGC names, or else the script ./sigc at the top of the repository.
"""
import argparse
import os
import sys

from sigc.call import running
from sigc.call.opened import add_include
from sigc.read import files_read, shown_places
from sigc.system import answers, drawn_system, network, programs, system_ends, system_files, system_flows, system_runs, system_text, system_tokens, written_in_c


class Opened:
    """A system with its programs; Refused at the place where something does not fit."""

    def __init__(self, files, path):
        self.files, self.path, self.text = files, path, running.text_of(path, files_read.PROGRAM_BYTES, "{path}: longer than {} bytes", 1)
        try:
            self.system = system_text.read(self.text)
            self.network = network.Network(self.system, self.programs())
            answers.refuse_circles(self.network)
        except system_tokens.Fault as fault:
            raise self.refused(fault) from None

    def programs(self):
        """The programs by the names of their files."""
        found = {}
        for it in self.system.instances:
            if it.file not in found:
                found[it.file] = self.program(it)
        return found

    def program(self, instance):
        path = os.path.join(os.path.dirname(self.path), instance.file)
        try:
            return programs.Program(self.files, path, instance.file)
        except running.Refused as refusal:
            if refusal.status not in (1, 5, 8, 10):
                raise
            told = programs.told(refusal, path)
            raise system_tokens.Fault(instance.file_place, f"sigc refuses {instance.file}", told, f"`tools/sigc check {path}` tells more") from None

    def refused(self, fault):
        shown = shown_places.placed(self.path, *fault.place, "error", fault.text, self.text)
        return running.Refused((shown + "\n".join(f"      {it}" for it in fault.advice)).rstrip("\n"))


def check_words(words):
    """Refused where words do not go together."""
    if not 1 <= words.instants <= 1_000_000_000:
        raise running.Refused("--instants wants a number from 1 to 1000000000", 2)
    if bool(words.carrier) != bool(words.folder):
        raise running.Refused("-C threads, mpi or dds and -o DIR go together", 2)
    if bool(words.carrier) + words.dot + bool(words.flows) > 1 or words.c and not words.flows:
        raise running.Refused("one of FLOWS, -C and --dot stands there, and --c with FLOWS", 2)


def told_by_c(opened, files, flows, limit):
    """The same by the system in C, which tells how the instances ended."""
    run = written_in_c.Run(opened.network, opened.path, files.folder, flows, limit)
    for line in system_flows.output_lines(opened.network, run.flow):
        print(line)
    sys.stdout.flush()
    print(run.said, end="", file=sys.stderr)
    return run.status


def told(opened, run):
    """Writes the outputs and how each instance ended; the status."""
    for line in system_flows.output_lines(opened.network, run.flow):
        print(line)
    sys.stdout.flush()
    ends = [it.end for it in run.given]
    for line in (*system_ends.end_lines(opened.network, ends), *system_ends.waiting_lines(opened.network, ends)):
        print(line, file=sys.stderr)
    return system_ends.status_of(opened.network, ends)


def main():
    words = argparse.ArgumentParser(prog="sigc-system", description=__doc__, formatter_class=argparse.RawDescriptionHelpFormatter)
    words.add_argument("system", metavar="SYSTEM", help="the file of a system, as plant.sys")
    words.add_argument("flows", metavar="FLOWS", nargs="?", help="the values of its inputs; without it the system is checked")
    words.add_argument("--instants", metavar="N", type=int, default=system_runs.MOST_INSTANTS, help="the most instants of each program: 1 to 1000000000, else 1000000")
    words.add_argument("--c", action="store_true", help="build the system in C by gcc, on threads, and run that")
    words.add_argument("-C", "--carrier", choices=system_files.CARRIERS, help="write C for it: on threads of one process, ranks of MPI, or processes over DDS")
    words.add_argument("-o", metavar="DIR", dest="folder", help="the folder of the C, which is made where it is not there")
    words.add_argument("--dot", action="store_true", help="draw the system for Graphviz")
    add_include(words)
    words = words.parse_args()
    check_words(words)
    with running.Files(words.include) as files:
        opened = Opened(files, words.system)
        if words.dot:
            print("\n".join(drawn_system.graph(opened.system)))
            return 0
        if words.carrier:
            written_in_c.put(opened.network, words.system, words.carrier, words.folder)
            return 0
        if words.flows is None:
            print("accepted")
            return 0
        flows = system_flows.read_flows(opened.network, words.flows)
        if words.c:
            return told_by_c(opened, files, flows, words.instants)
        return told(opened, system_runs.Run(files, opened.network, flows, words.instants))


def start():
    running.started("sigc-system", main)
