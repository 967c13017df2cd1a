"""Runs a program with a progress bar, or all programs of a folder, and compares what they write.

    tools/sigc-run examples/watch.sig examples/watch.flows
    tools/sigc-run examples/watch.sig examples/watch.flows --want watch.want
    tools/sigc-run examples/tutorial

The output of one run goes to standard output, as that of `sigc run`, and its end to standard error. How far it is
stands on standard error too, where that is a terminal, or with --progress; it is counted by an output that comes at
every instant, and where there is none it is not shown. Where no --workers are given and the run is a long one, a short
piece of it is tried with several numbers of them, and the fastest is taken.

With --want FILE nothing is written but the first difference from FILE, which holds what a run writes and, as its last
line, how it ends. Of a folder each NAME.sig is run with NAME.flows and with each NAME.CASE.flows, and compared with the
file .want of that name; --update writes these files instead. The status is 1 where something differs.

With --measure nothing of the run is written: it is made several times with several numbers of workers and capacities, in turn
with runs without workers, and it prints what each takes compared with those, and the best arguments. Before it begins standard
error says how long that takes. It keeps to a minute, or to --seconds N: of a long run fewer numbers are tried.

With --watch E, a boolean expression over the signals of the program, those of calls too, the run stops at the first instant
at which E comes and is false, and prints it, with status 1; with --want FILE too, a run that keeps E true is compared.
tools/sigc-prove checks so for all flows.

With --cover nothing of a run is written either: what was not reached by it, or by all runs of a folder, is printed with its place
in the program: clocks that never ticked, conditions that were never true or never false, and branches of a `default` that
never gave the value. The status is 1 where less was reached than --least PERCENT says, 100 if it is not given.
tools/sigc-prove --cover looks for flows that reach the rest.

Ctrl-C ends the run, with status 130; what was written until then stands. The program is the file that the variable SIGC
names, or else the script ./sigc at the top of the repository.
"""
import argparse
import glob
import os
import subprocess
import sys
import threading
import time

from sigc.call import measures, opened, running
from sigc.clocks import pace_flag, plans
from sigc.prove import property_language
from sigc.read import expansion, lexer
from sigc.trace import covered, flow_values, traces

MOST_INSTANTS = 1_000_000
# Flows of fewer bytes than this are run without workers, and without trying.
LONG = 100_000
TRIED = 5_000
PIECE = 65_536
WIDTH = 30
SECONDS = 0.2


class Bar:
    """A progress bar on standard error: how many of how many instants, and the time that is left."""

    def __init__(self, marker, total, is_shown):
        self.marker, self.total, self.is_shown = marker, total, is_shown
        self.count, self.rest = 0, b"\n"
        self.begun = self.told = time.monotonic()

    def seen(self, piece):
        """Counts the instants of a piece of the output, by the output that each of them has."""
        if not self.is_shown:
            return
        text = self.rest + piece
        end = text.rfind(b"\n")
        self.count += text.count(self.marker, 0, end)
        self.rest = text[end:]
        if time.monotonic() - self.told > SECONDS:
            self.tell()

    def tell(self):
        self.told = time.monotonic()
        spent = self.told - self.begun
        share = min(self.count / self.total, 1) if self.total else 0
        left = f", {spent / share - spent:.0f} s left" if 0.01 < share < 1 else ""
        bar = "#" * round(WIDTH * share)
        print(f"\r[{bar:.<{WIDTH}}] {self.count} of {self.total} instants{left}\033[K", end="", file=sys.stderr, flush=True)

    def close(self):
        if self.is_shown:
            self.tell()
            print("\r\033[K", end="", file=sys.stderr, flush=True)


def bar_of(classes, flat, flows, words):
    """The bar of a run. It counts an output that every instant has; where there is none, nothing is shown."""
    outputs = [it.name for it in flat.signals if it.role == "output" and not it.copy and it.name in classes[0]]
    counts = [len(flows[it.name]) for it in flat.inputs() if it.name in classes[0]]
    total = min([words.instants or MOST_INSTANTS, *counts])
    is_shown = bool(outputs) and (words.progress or sys.stderr.isatty())
    return Bar(b"\n" + (outputs[0] if outputs else "").encode() + b" ", total, is_shown)


def seconds_of(program, flows, workers, words):
    """How long a short piece of a run takes with so many workers."""
    begun = time.monotonic()
    limit = str(min(words.instants or TRIED, TRIED))
    with running.Call("run", program, flows, *option_words(words), "--workers", str(workers), "--instants", limit, stdout=subprocess.DEVNULL) as call:
        call.ended()
    return time.monotonic() - begun


def workers_of(program, flows, words, clusters):
    """The number of workers with which a short piece of the run is fastest."""
    most = min(clusters, os.cpu_count() or 1)
    candidates = [0, *(it for it in (1, 2, 4, 8, 16, 32) if it < most), most]
    seconds = {it: min(seconds_of(program, flows, it, words) for _ in range(2)) for it in candidates}
    best = min(candidates, key=seconds.get)
    told = ", ".join(f"{it}: {1000 * spent:.0f} ms" for it, spent in seconds.items())
    print(f"workers: {best} (of a piece of the run: {told})", file=sys.stderr)
    return best


def option_words(words):
    """The words that are handed on to sigc run, the limit aside."""
    return (["--capacity", str(words.capacity)] if words.capacity else []) + pace_flag.words_of(words.pace)


def run_one(words):
    """Runs one program, and writes what it writes."""
    with running.Files(words.include) as files:
        program = running.Program(files, words.program)
        pace = pace_flag.words_of(words.pace)
        classes = plans.Classes(program.asked("tree", *pace))
        flat = expansion.Expansion(program.text)
        text = program.home.flows(words.flows, running.text_of(words.flows))
        flows = files.copied(words.flows, text)
        workers = words.workers
        if workers is None:
            clusters = len(plans.Code(program.asked("code", *pace)).actors) - 1
            workers = workers_of(program.path, flows, words, clusters) if len(text) > LONG else 0
        limit = ["--instants", str(words.instants)] if words.instants else []
        with running.Call("run", program.path, flows, *option_words(words), "--workers", str(workers), *limit) as call:
            bar = bar_of(classes, flat, readings(text, flat, pace_flag.names_in(flat, classes)), words)
            passed_on(call, bar) if program.home.is_kernel else led_home(call, program.home)
            line, status = call.ended()
        print(program.home.end(files.renamed(line)), file=sys.stderr)
        return status


def readings(text, flat, paces):
    """The flows; empty ones where the file has no reading, which sigc will say."""
    inputs = [*(it.name for it in flat.inputs()), *paces]
    try:
        return flow_values.read_flows(text, inputs)
    except lexer.Unreadable:
        return {it: [] for it in inputs}


def passed_on(call, bar):
    """Writes what a run writes, and shows how far it is."""
    try:
        while piece := call.ran.stdout.read1(PIECE):
            sys.stdout.buffer.write(piece)
            bar.seen(piece)
        sys.stdout.flush()
    finally:
        bar.close()


def led_home(call, home):
    """Writes what a run of a kernel writes with the user's names and values."""
    reader = home.outputs()
    for line in call.lines():
        shown = reader(line)
        if shown is not None:
            print(shown)
    sys.stdout.flush()


def said_by(path, flows_path, words):
    """The lines that a run writes, and how it ends, last."""
    with running.Files(words.include) as files:
        try:
            home = running.Program(files, path).home
            if not home.is_kernel:
                flows = files.copied(flows_path, home.flows(flows_path, running.text_of(flows_path)))
                *lines, end = said_of(files.written("kernel.sig", home.text), flows, words)
                return [*filter(lambda it: it is not None, map(home.outputs(), lines)), home.end(files.renamed(end))]
        except running.Refused as refusal:
            if running.PLACED.match(refusal.line):
                return [refusal.line.splitlines()[0]]
    return said_of(path, flows_path, words)


def said_of(program, flows, words):
    """The same of a kernel."""
    limit = ["--instants", str(words.instants)] if words.instants else []
    with running.Call("run", program, flows, *option_words(words), "--workers", str(words.workers or 0), *limit) as call:
        lines = list(call.lines())
        end, _ = call.ended()
    return [*lines, end.replace(os.path.join(os.path.dirname(flows), ""), "") if os.path.dirname(flows) else end]


def difference(wanted, said):
    """The first difference between two lists of lines, or nothing."""
    for number in range(max(len(wanted), len(said))):
        one = wanted[number] if number < len(wanted) else "the end"
        other = said[number] if number < len(said) else "the end"
        if one != other:
            return f"line {number + 1}: wanted {one}, got {other}"
    return ""


def compare_one(words):
    """Compares one run with a file of what is wanted."""
    return compare(words, said_by(words.program, words.flows, words))


def compare(words, said):
    """Tells the first difference between what is wanted and what a run said."""
    found = difference(running.text_of(words.want).splitlines(), said)
    print(f"{words.want}: {found}" if found else f"{words.want}: as wanted")
    return 1 if found else 0


def measure_one(words):
    """Tells how long the run takes with several numbers of workers and capacities."""
    with running.Files(words.include) as files:
        program = running.Program(files, words.program)
        pace = pace_flag.words_of(words.pace)
        clusters = len(plans.Code(program.asked("code", *pace)).actors) - 1
        flows = files.copied(words.flows, program.home.flows(words.flows, running.text_of(words.flows)))
        limit = ["--instants", str(words.instants)] if words.instants else []
        begun = time.monotonic()
        line, status = first_run(["run", program.path, flows, *pace, *limit, "--workers", "0"], words.seconds)
        if status not in (0, 3):
            raise running.Refused(files.renamed(line), status)
        once = time.monotonic() - begun
        plan = measures.planned(once, clusters, words.seconds - once)
        print(f"sigc-run: {plan.words()}", file=sys.stderr, flush=True)
        try:
            table, alone = measures.table_of([program.path, flows, *pace, *limit], plan, begun + words.seconds)
        except measures.Differing as it:
            raise running.Refused(f"{words.program}: another text {it}") from None
        print("\n".join(measures.lines_of(table, alone, clusters)))
        return 0


def first_run(words, seconds):
    """The end of a run and its status; Refused where it takes longer than these seconds."""
    with running.Call(*words, stdout=subprocess.DEVNULL) as call:
        watch = threading.Timer(seconds, call.ran.kill)
        watch.start()
        ended = call.ended()
        is_late = not watch.is_alive()
        watch.cancel()
    if is_late and ended[1] > 128:
        raise running.Refused(f"one run takes more than {seconds} s: measure a part of it with --instants N, or give more time with --seconds N")
    return ended


def property_of(words, flat, home):
    """The property that is watched."""
    try:
        made = property_language.property_of(home.kernel_words(words.watch), {it.name: it.kind for it in flat.signals})
    except property_language.Wrong as error:
        raise running.Refused(str(error), 2) from None
    if made.kind == "integer":
        raise running.Refused(f"`{words.watch}` is an integer, and a truth is wanted", 2)
    return made


def breaks(watched, instant):
    """Why an instant breaks a property, or nothing."""
    try:
        return "is false" if watched.at(property_language.values_of(instant)) == 0 else ""
    except property_language.NoValue:
        return "has no value"
    except property_language.Tied as it:
        of = "its operands" if it.node is watched.property.node else f"the operands of `{watched.property.told(it.node)}`"
        return f"ties the clocks of {of}, of which one comes alone"


def watch_one(words):
    """Runs one program up to the first instant that breaks a property, and writes what it writes up to there, or compares it."""
    with running.Files(words.include) as files:
        run = traces.Run(files, words.program, words.flows, traces.run_words(words))
        watched, home = property_language.Watched(property_of(words, run.flat, run.home)), run.home.outputs()
        outputs, said = [it.name for it in run.flat.signals if it.role == "output" and not it.copy], []
        for number, instant in enumerate(run, 1):
            shown = [home(f"{it} {instant[it]}") for it in outputs if it in instant]
            lines = [f"{it}\n" for it in shown if it is not None]
            if words.want:
                said += (it.rstrip("\n") for it in lines)
            else:
                print("".join(lines), end="")
            why = breaks(watched, instant)
            if why:
                sys.stdout.flush()
                print(f"watch: `{words.watch}` {why} at instant {number}", file=sys.stderr)
                return 1
        return compare(words, [*said, run.end]) if words.want else traces.told(run)


def cover(words):
    """Tells what a run, or the runs of a folder, did not reach."""
    is_folder = os.path.isdir(words.program)
    runs = {}
    for program, flows in pairs_of(words.program.rstrip("/")) if is_folder else [(words.program, words.flows)]:
        runs.setdefault(program, []).append(flows)
    if not runs:
        raise running.Refused(f"{words.program}: no program with flows stands there")
    reached = goals = 0
    for program, files in runs.items():
        one, other = cover_program(program, files, words)
        reached, goals = reached + one, goals + other
    return 1 if 100 * reached < words.least * goals else 0


def cover_program(program, flows, words):
    """Tells what runs of one program did not reach: how many goals were reached, of how many."""
    with running.Files() as files:
        found = covered.Covered(files, program, words.pace)
        for it in flows:
            found.follow(it, words.instants)
        print("\n".join(found.lines()), flush=True)
        return found.share()


def pairs_of(folder):
    """The programs of a folder with their flows."""
    for program in sorted(glob.glob(f"{glob.escape(folder)}/*.sig")):
        name = program.removesuffix(".sig")
        for flows in sorted(glob.glob(f"{glob.escape(name)}.flows") + glob.glob(f"{glob.escape(name)}.*.flows")):
            yield program, flows


def compared(program, flows, words):
    """What comes of one pair: a word, and what is told of it."""
    want = flows.removesuffix(".flows") + ".want"
    said = said_by(program, flows, words)
    if words.update:
        with open(want, "w", encoding="latin-1") as it:
            it.writelines(f"{line}\n" for line in said)
        return "written", want
    if not os.path.isfile(want):
        return "no want", f"{flows}: {said[-1]}"
    found = difference(running.text_of(want).splitlines(), said)
    return ("failed", f"{want}: {found}") if found else ("passed", flows)


def run_folder(words):
    """Runs all pairs of a folder, and adds up what comes of them."""
    running.ensured()
    counts = dict.fromkeys(("written",) if words.update else ("passed", "failed", "no want"), 0)
    for program, flows in pairs_of(words.program.rstrip("/")):
        word, told = compared(program, flows, words)
        counts[word] += 1
        print(f"{word:8}{told}", flush=True)
    if not sum(counts.values()):
        raise running.Refused(f"{words.program}: no program with flows stands there")
    print(", ".join(f"{count} {word}" for word, count in counts.items()))
    return 1 if counts.get("failed") else 0


def main():
    words = argparse.ArgumentParser(prog="sigc-run", description=__doc__, formatter_class=argparse.RawDescriptionHelpFormatter)
    words.add_argument("program", metavar="PROGRAM", help="the file of a program, or a folder")
    words.add_argument("flows", metavar="FLOWS", nargs="?", help="the file of its flows")
    words.add_argument("--workers", metavar="W", type=traces.at_least(0), help="the threads at work (default: what is fastest)")
    words.add_argument("--capacity", metavar="C", type=traces.at_least(1), help="the items of a link, as of sigc run")
    words.add_argument("--instants", metavar="N", type=traces.at_least(1), help="the most instants of the run, as of sigc run")
    words.add_argument("--pace", action="store_true", help=traces.PACE_HELP)
    words.add_argument("--progress", action="store_true", help="show how far it is, also where standard error is no terminal")
    words.add_argument("--watch", metavar="E", help="stop at the first instant at which E is false")
    words.add_argument("--cover", action="store_true", help="tell what the run, or the runs of a folder, did not reach")
    words.add_argument("--least", metavar="PERCENT", type=traces.at_least(0), default=100, help="with --cover the share that has to be reached (100)")
    words.add_argument("--measure", action="store_true", help="tell how long the run takes with workers and without")
    words.add_argument("--seconds", type=traces.at_least(1), default=60, metavar="N", help="how long --measure may take (default: 60)")
    words.add_argument("--want", metavar="FILE", help="compare the run with this file")
    words.add_argument("--update", action="store_true", help="write the files .want of a folder")
    opened.add_include(words)
    words = words.parse_args()
    is_watched = words.watch is not None
    if os.path.isdir(words.program) and not words.flows:
        if is_watched:
            raise running.Refused("--watch wants one program and its flows: sigc-run PROGRAM FLOWS --watch E", 2)
        return cover(words) if words.cover else run_folder(words)
    if not words.flows:
        raise running.Refused("a program wants its flows: sigc-run PROGRAM FLOWS, or sigc-run FOLDER", 2)
    if words.cover:
        return cover(words)
    if words.measure:
        return measure_one(words)
    return watch_one(words) if is_watched else compare_one(words) if words.want else run_one(words)


def start():
    running.started("sigc-run", main)
