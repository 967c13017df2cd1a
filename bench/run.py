#!/usr/bin/env python3
"""run.py SIGC [PART..]: how long a run takes, beside a plain C program written by hand for the same job, and with workers.

Part `run`: `SIGC run --workers 0` on a sum, a thermostat, a watchdog, bench/controller.sig with ten outputs (1,000,000 instants
each), four chains of 64 sums and the generated program of 12 stages (200,000 instants each), files and text included, and
bench/run.c, compiled by gcc -O2, on the same flows. The texts are compared. Prints of each the least processor time of five
runs, their ratio, the time of an instant and the peak memory.

Part `play`: the same of `SIGC play` with no events: the watchdog, bench/controller.sig with ten outputs (1,000,000 instants
each) and the 12 stages (20,000 instants). Then a play of 300,000 events on the watchdog over 20,000 instants, a step of each
actor in turn over links of 16 items: prints the time of an event, which is that of the play without that of one with no events,
by their number.

Part `exec`: the same programs as in `run`, as images: `SIGC exec` and `SIGC run --workers 0` in turn on the same flows. Compares the
texts, and prints the least processor times of five runs each and their ratio; and the least wall times of `SIGC build`, and of an
`exec` of one instant, from its begin to its end.

Part `c`: the same programs as in `run`, written in C by tools/sigc-c, the short and the literal step, and compiled by gcc -O2, and
bench/run.c: files and text included, with the texts compared. Then the steps alone, over values in memory, with the outputs added
up: prints the time of an instant and the bytes of the step's code, and the ratios of the literal step to the short one.

Part `workers`: the 12 stages and a program of four clusters of 64 operations each with 0, 1, 2 and 4 workers. Compares the
texts, and prints the least wall time of five runs, its ratio to that of 0 workers, and the processor time.

Part `items`: a program that hands 32 signals from one cluster to another, and the same in one cluster, with 1 and 2 workers
at the capacities 1, 17 and 64: the difference of the two wall times, for one signal and instant, is what an item of a link costs.
Then the same of a program of which a cluster gives a signal to another that gives one back in the same instant: what a refused
item costs, for which an actor waits.

Part `crowd`: 64 clusters of one operation each over links of one item, without workers and with 2, 8 and 64 of them, on all
processors, on one, and beside twelve busy processes. Compares the texts, and prints the processor times, which are to be at
most 30 times that without workers. Beside them it prints that of bench/rests.c, in which 64 threads that do nothing rest and are
woken once an instant, as those of 64 workers are.

Part `pay`: chains of 16 to 250 sums, and of as many remainders, in two and four clusters that share nothing but their clock,
each of which hands 1, 4 or 16 signals to the collector, without workers and with as many as there are clusters: prints a table
of the ratios of wall times by operations and signals of a cluster, in the median of nine runs in turn. Then the longest ones with
1, 2, 4 and 8 workers at the capacities 1, 17 and 256. The capacity is 17 in the table: with two workers and the capacity of 16,
which are the settings of words that ask for none, a run is made without workers where these would not pay.

Part `clusters`: programs in C by tools/sigc-c, in clusters on threads beside the same in one step, compiled by gcc -O2: chains of 8
to 250 sums, and of as many remainders by falling divisors, in two and four clusters. Compares the texts, and prints a table of the
ratios of wall times, in the median of nine runs in turn, with those of processor times behind them. Then what an item of a stream
costs on threads, and over MPI where that is installed: the program of part `items` in two clusters and in one.
"""
import array
import os
import random
import shutil
import statistics
import subprocess
import sys
import tempfile
import time

from check import stages

HERE = os.path.dirname(os.path.abspath(__file__))
TOOLS = os.path.join(HERE, "..", "tools")
sys.path.insert(0, os.path.join(TOOLS, "lib"))
from sigc.image import images

# The writers of tools/sigc-c, with their words.
WRITERS = {"short": (), "literal": ("--literal",)}
STEP_ROUNDS = 9
C_KINDS = {"integer": "int64_t", "boolean": "int"}
EXAMPLES = os.path.join(HERE, "..", "examples")
INSTANTS = 1_000_000
STAGES = 12
CLUSTERS = 4
OPERATIONS = 64
HANDED = 32
CROWD = 64
BUSY = 12
EVENTS = 300_000
MOST_RATIO = 30
# how many operations each of so many clusters has, up to the most that 512 signals allow
CHAINS = {2: (16, 64, 128, 250), 4: (16, 32, 64, 125)}
# the same for clusters in C
SPREAD = {2: (8, 16, 32, 64, 128, 250), 4: (8, 16, 32, 64, 125)}
# how many signals each of them hands to the collector
HANDED_ON = (1, 4, 16)
# one more than the capacity where none is given
CAPACITY = 17
CAPACITIES = (1, CAPACITY, 256)
ROUNDS = 5
TURNS = 9


def truth(draws):
    return draws.choice(("true", "false"))


def sum_flows(draws):
    return {name: [str(draws.randrange(100_000, 1_000_000)) for _ in range(INSTANTS)] for name in ("A", "B")}


def thermostat_flows(draws):
    return {"TEMPERATURE": [str(draws.randrange(10, 30)) for _ in range(INSTANTS)]}


def controller_flows(draws):
    """Readings that wander, a start at one instant of 50 and a stop at one of 100."""
    flows = {}
    for name, most in (("TEMPERATURE", 35), ("LEVEL", 100)):
        value, values = most // 2, []
        for _ in range(INSTANTS):
            value = min(most, max(0, value + draws.randrange(-3, 4)))
            values.append(str(value))
        flows[name] = values
    for name, rate in (("START", 50), ("STOP", 100)):
        flows[name] = ["false" if draws.randrange(rate) else "true" for _ in range(INSTANTS)]
    return flows


def watch_flows(draws, instants=INSTANTS):
    asked = [truth(draws) for _ in range(instants)]
    values = [str(draws.randrange(1000)) for _ in range(asked.count("true"))]
    return {"TICK": ["true"] * instants, "REQ": asked, "V": values}


def stages_flows(draws):
    """Each input of as many values as are taken in the instants, half of them at each next stage."""
    instants = INSTANTS // 5
    flows = {"A": [str(draws.randrange(1000)) for _ in range(instants)]}
    taken = instants
    for i in range(1, STAGES + 1):
        flows[f"B{i}"] = [truth(draws) for _ in range(taken)]
        taken = flows[f"B{i}"].count("true")
    return flows


def chains(count, operations, operation, handed_on=1):
    """Clusters that share nothing but their clock, each with a chain of operations of which the last ones are outputs:
    `operation(before, j)` is the j-th."""
    name = lambda i, j: f"X{i}n{j}" if j else f"A{i}"
    clusters = range(count)
    inside = operations - handed_on
    inputs = ", ".join(f"A{i}" for i in clusters)
    outputs = ", ".join(name(i, j) for i in clusters for j in range(inside + 1, operations + 1))
    pragmas = "\n".join(
        f'RunOn {{{", ".join(name(i, j) for j in range(operations + 1))}}} "{i}"' for i in clusters
    )
    equations = [f"{name(i, j)} := {operation(name(i, j - 1), j)}" for i in clusters for j in range(1, operations + 1)]
    if count > 1:
        equations.append(" ^= ".join(f"A{i}" for i in clusters))
    locals_ = ", ".join(name(i, j) for i in clusters for j in range(1, inside + 1))
    where = f"where integer {locals_}; end" if locals_ else ""
    return (
        f"process CHAINS = (? integer {inputs} ! integer {outputs})\npragmas\n{pragmas}\nend pragmas\n"
        "(| " + "\n | ".join(equations) + f"\n |)\n{where};\n"
    )


def chains_flows(count, instants=INSTANTS // 5):
    return lambda draws: {f"A{i}": [str(draws.randrange(1000)) for _ in range(instants)] for i in range(count)}


def one_more(before, j):
    return f"{before} + {j}"


def remainder(before, j):
    return f"{before} modulo {1_000 + j}"


def heavy():
    return chains(CLUSTERS, OPERATIONS, one_more)


def handing(apart):
    """Signals of which a cluster takes each from another, or from itself."""
    numbers = range(1, HANDED + 1)
    taken = ", ".join(f"Z{i}" for i in numbers)
    pragma = f'pragmas RunOn {{Y, {taken}}} "1" end pragmas\n' if apart else ""
    sums = "\n | ".join(f"X{i} := A + {i} | Z{i} := X{i} + 1" for i in numbers)
    return (
        f"process HAND = (? integer A ! integer Y)\n{pragma}(| {sums}\n | Y := {' + '.join(f'Z{i}' for i in numbers)}\n |)\n"
        f"where integer {', '.join(f'X{i}' for i in numbers)}, {taken}; end;\n"
    )


def returning(apart):
    """A signal that goes to another cluster and comes back in the same instant, or stays in one."""
    pragma = 'pragmas RunOn {Z} "1" end pragmas\n' if apart else ""
    return (
        f"process BACK = (? integer A ! integer Y)\n{pragma}(| X := A + 1 | Z := X + 1 | Y := Z + 1 |)\n"
        "where integer X, Z; end;\n"
    )


def handing_flows(draws):
    return {"A": [str(draws.randrange(1000)) for _ in range(INSTANTS // 5)]}


def program_of(folder, name):
    with open(os.path.join(folder, name + ".sig"), encoding="ascii") as file:
        return file.read()


def example(name):
    return program_of(EXAMPLES, name)


PROGRAMS = {
    "sum": (lambda: example("sum"), sum_flows),
    "thermostat": (lambda: example("thermostat"), thermostat_flows),
    "watch": (lambda: example("watch"), watch_flows),
    "controller": (lambda: program_of(HERE, "controller"), controller_flows),
    "heavy": (heavy, chains_flows(CLUSTERS)),
    "stages": (lambda: stages(STAGES), stages_flows),
}

PLAYS = {
    "watch": PROGRAMS["watch"],
    "controller": PROGRAMS["controller"],
    "stages": (lambda: stages(STAGES), stages_flows),
}


def measured(words, folder, text, rounds=ROUNDS):
    """The least processor time and the least wall time of several runs in seconds, and the peak memory in MB."""
    times, walls, peak = [], [], 0
    for _ in range(rounds):
        with open(os.path.join(folder, text), "wb") as out:
            begun = time.monotonic()
            child = subprocess.Popen(words, cwd=folder, stdout=out, stderr=subprocess.DEVNULL)
            _, status, usage = os.wait4(child.pid, 0)
            walls.append(time.monotonic() - begun)
        assert status == 0, words
        times.append(usage.ru_utime + usage.ru_stime)
        peak = max(peak, usage.ru_maxrss)
    return min(times), min(walls), peak / 1024


def read(folder, name):
    with open(os.path.join(folder, name), "rb") as file:
        return file.read()


def put_files(folder, program, made):
    """Writes the two files of a run, and tells how many instants it has."""
    with open(os.path.join(folder, "program.sig"), "w", encoding="ascii") as file:
        file.write(program)
    with open(os.path.join(folder, "flows"), "w", encoding="ascii") as file:
        file.writelines(f"{name} {' '.join(values)}\n" for name, values in made.items())
    return max(map(len, made.values()))


def run_words(sigc, workers, capacity=CAPACITY):
    return [sigc, "run", "program.sig", "flows", "--workers", str(workers), "--capacity", str(capacity)]


def compiled(folder, name):
    """A C program of this folder."""
    made = os.path.join(folder, "plain-" + name)
    subprocess.run(["gcc", "-O2", "-pthread", "-o", made, os.path.join(HERE, name + ".c")], check=True)
    return made


def plain_program(folder):
    """The C program of all baselines."""
    return compiled(folder, "run")


def beside_c(sigc, folder):
    plain_run = plain_program(folder)
    for name, (program, flows) in PROGRAMS.items():
        instants = put_files(folder, program(), flows(random.Random(1)))
        own, _, peak = measured(run_words(sigc, 0), folder, "own")
        plain, _, plain_peak = measured([plain_run, name, "flows"], folder, "plain")
        assert read(folder, "own") == read(folder, "plain"), f"{name}: the texts differ"
        print(
            f"{name}: sigc {own:.3f} s ({1e9 * own / instants:.0f} ns an instant, {peak:.0f} MB), "
            f"C {plain:.3f} s ({plain_peak:.0f} MB), ratio {own / plain:.2f}"
        )


def put_first(folder, made):
    """A flow file with the first value of each flow."""
    with open(os.path.join(folder, "first"), "w", encoding="ascii") as file:
        file.writelines(f"{name} {values[0]}\n" for name, values in made.items())


def beside_run(sigc, folder):
    for name, (program, flows) in PROGRAMS.items():
        made = flows(random.Random(1))
        put_files(folder, program(), made)
        put_first(folder, made)
        _, build, _ = measured([sigc, "build", "program.sig"], folder, "image")
        _, first, _ = measured([sigc, "exec", "image", "first"], folder, "text")
        runs, execs = [], []
        for _ in range(ROUNDS):
            runs.append(measured(run_words(sigc, 0), folder, "own", 1)[0])
            execs.append(measured([sigc, "exec", "image", "flows"], folder, "text", 1)[0])
        assert read(folder, "own") == read(folder, "text"), f"{name}: the texts differ"
        print(
            f"{name}: exec {min(execs):.3f} s, run {min(runs):.3f} s, ratio {min(execs) / min(runs):.2f}; "
            f"build {1e3 * build:.1f} ms, exec of one instant {1e3 * first:.1f} ms"
        )


def actors_of(sigc, folder):
    """How many actors the program has."""
    code = subprocess.run([sigc, "code", "program.sig"], cwd=folder, capture_output=True, check=True).stdout
    return sum(line.startswith(b"actor") for line in code.splitlines())


def put_events(folder, events):
    with open(os.path.join(folder, "events"), "w", encoding="ascii") as file:
        file.writelines(f"{event}\n" for event in events)


def played_text(folder, name):
    """The text of a play without its state: what the events commit, and the rest."""
    before, _, behind = read(folder, name).partition(b"events done\n")
    return before + behind.partition(b"finish\n")[2]


def played_beside_c(sigc, folder):
    plain_run = plain_program(folder)
    play = [sigc, "play", "program.sig", "flows", "events"]
    put_events(folder, [])
    for name, (program, flows) in PLAYS.items():
        instants = put_files(folder, program(), flows(random.Random(1)))
        own, _, peak = measured(play, folder, "own")
        plain, _, _ = measured([plain_run, name, "flows"], folder, "plain")
        assert played_text(folder, "own") == read(folder, "plain"), f"{name}: the texts differ"
        print(
            f"{name} played: sigc {own:.3f} s ({1e9 * own / instants:.0f} ns an instant, {peak:.0f} MB), "
            f"C {plain:.3f} s, ratio {own / plain:.2f}"
        )
    events_in_turn(sigc, folder, play)


def events_in_turn(sigc, folder, play):
    """The time of an event, from a play of steps of each actor in turn and one of no events, over few instants."""
    put_files(folder, example("watch"), watch_flows(random.Random(1), INSTANTS // 50))
    actors = actors_of(sigc, folder)
    put_events(folder, [])
    none, _, _ = measured(play, folder, "none")
    put_events(folder, [f"act {i % actors}" for i in range(EVENTS)])
    own, _, _ = measured(play, folder, "own")
    assert played_text(folder, "own") == played_text(folder, "none"), "the texts differ"
    print(
        f"{EVENTS} events in turn at the {actors} actors of the watchdog: {own:.3f} s, {none:.3f} s without them, "
        f"{1e9 * (own - none) / EVENTS:.0f} ns an event"
    )


EMBEDDED = """#include <stdio.h>
#include <stdlib.h>
#include "{p}.h"
static int64_t *values[{inputs}];
static size_t taken[{inputs}], counts[{inputs}];
static uint64_t sum;
{calls}
int main(int count, char **words)
{{
    {p}_state state;
    unsigned long instants = 0;
    for (int i = 0; i < {inputs}; i++) {{
        FILE *file = fopen(words[i + 2], "rb");
        fseek(file, 0, SEEK_END);
        counts[i] = (size_t)ftell(file) / sizeof(int64_t);
        rewind(file);
        values[i] = malloc((counts[i] + 1) * sizeof(int64_t));
        counts[i] = fread(values[i], sizeof(int64_t), counts[i], file);
        fclose(file);
    }}
    {p}_init(&state);
    while (count > 1 && words[1][0] == '1' && {p}_step(&state, 0) == 0) {{
        instants++;
    }}
    printf("%lu %llu\\n", instants, (unsigned long long)sum);
    return 0;
}}
"""


def embedded(folder, inputs, outputs):
    """A C program that has the values in memory, and adds up the outputs: its time is that of steps."""
    calls = [
        f"int r_p_{name}(p_context *it{'' if kind == 'event' else f', {C_KINDS[kind]} *value'}) {{ (void)it; if (taken[{at}] == counts[{at}]) return 0; "
        + ("" if kind == "event" else f"*value = ({C_KINDS[kind]})values[{at}][taken[{at}]]; ") + f"taken[{at}]++; return 1; }}"
        for at, (kind, name) in enumerate(inputs)
    ]
    calls += [f"void w_p_{name}(p_context *it{'' if kind == 'event' else f', {C_KINDS[kind]} value'}) {{ (void)it; sum += (uint64_t){1 if kind == 'event' else 'value'}; }}" for kind, name in outputs]
    with open(os.path.join(folder, "c", "embedded.c"), "w", encoding="ascii") as file:
        file.write(EMBEDDED.format(p="p", inputs=len(inputs), calls="\n".join(calls)))
    made = os.path.join(folder, "embedded")
    subprocess.run(["gcc", "-O2", "-o", made, "c/embedded.c", "c/p.c"], cwd=folder, check=True)
    return made


def code_size(folder):
    """The bytes of the code of a step, without its tables."""
    subprocess.run(["gcc", "-O2", "-c", "-o", "step.o", "c/p.c"], cwd=folder, check=True)
    lines = subprocess.run(["size", "-A", "step.o"], cwd=folder, capture_output=True, text=True, check=True).stdout.splitlines()
    return sum(int(it.split()[1]) for it in lines if it.startswith(".text"))


def put_values(folder, flows):
    """Each flow as a file of integers."""
    numbers = {"true": 1, "false": 0}
    for name, values in flows.items():
        with open(os.path.join(folder, f"{name}.values"), "wb") as file:
            array.array("q", (numbers[it] if it in numbers else int(it) for it in values)).tofile(file)


def in_c(sigc, folder):
    plain_run = plain_program(folder)
    for name, (program, flows) in PROGRAMS.items():
        made = flows(random.Random(1))
        instants = put_files(folder, program(), made)
        put_values(folder, made)
        plain, _, plain_peak = measured([plain_run, name, "flows"], folder, "plain")
        found = {writer: written_in_c(sigc, folder, name, instants, words) for writer, words in WRITERS.items()}
        print(f"{name} in C by hand: {plain:.3f} s ({plain_peak:.0f} MB)")
        for writer, (own, peak, alone, size) in found.items():
            print(
                f"{name} in C, {writer}: {own:.3f} s ({1e9 * own / instants:.0f} ns an instant, {peak:.0f} MB), ratio {own / plain:.2f}; "
                f"steps alone {alone:.1f} ns an instant, to the short one {alone / found['short'][2]:.2f}; "
                f"code {size} bytes, to the short one {size / found['short'][3]:.2f}"
            )


def written_in_c(sigc, folder, name, instants, words):
    """A program by a writer of C: its time and memory, the nanoseconds of a step alone, and the bytes of the step's code."""
    env = {**os.environ, "SIGC": sigc}
    subprocess.run([os.path.join(TOOLS, "sigc-c"), "program.sig", "-o", "c", "--prefix", "p", *words], cwd=folder, check=True, env=env)
    subprocess.run(["gcc", "-O2", "-o", "whole", "c/p.c", "c/main.c"], cwd=folder, check=True)
    own, _, peak = measured([os.path.join(folder, "whole"), "flows"], folder, "own")
    assert read(folder, "own") == read(folder, "plain"), f"{name}: the texts differ"
    image = images.image_of(subprocess.run([sigc, "build", "program.sig"], cwd=folder, capture_output=True, check=True).stdout)
    signals = [(it.kind, it.name) for it in image.signals[: image.inputs + image.outputs]]
    values = [f"{it}.values" for _, it in signals[: image.inputs]]
    program_alone = embedded(folder, signals[: image.inputs], signals[image.inputs :])
    alone, _, _ = measured([program_alone, "1", *values], folder, "alone", STEP_ROUNDS)
    begun, _, _ = measured([program_alone, "0", *values], folder, "begun", STEP_ROUNDS)
    return own, peak, 1e9 * (alone - begun) / instants, code_size(folder)


def with_workers(sigc, folder):
    for name, program, flows in (("stages", stages(STAGES), stages_flows), ("heavy", heavy(), chains_flows(CLUSTERS))):
        instants = put_files(folder, program, flows(random.Random(1)))
        alone = None
        for workers in (0, 1, 2, 4):
            spent, wall, _ = measured(run_words(sigc, workers), folder, str(workers))
            assert read(folder, str(workers)) == read(folder, "0"), f"{name}: the texts differ"
            alone = alone or wall
            print(
                f"{name}, {workers} workers: wall {wall:.3f} s ({1e9 * wall / instants:.0f} ns an instant), "
                f"ratio {wall / alone:.2f}, processors {spent:.3f} s"
            )


def cost_apart(sigc, folder, program, tried):
    """The wall time of an instant of a program in two clusters, over that of it in one, by workers and capacity."""
    walls = {}
    for apart in (False, True):
        instants = put_files(folder, program(apart), handing_flows(random.Random(1)))
        for workers, capacity in tried:
            _, walls[apart, workers, capacity], _ = measured(run_words(sigc, workers, capacity), folder, "own")
    return {it: (walls[(True, *it)] - walls[(False, *it)]) / instants for it in tried}


def items(sigc, folder):
    tried = [(workers, capacity) for workers in (1, 2) for capacity in (1, CAPACITY, 64)]
    for (workers, capacity), cost in cost_apart(sigc, folder, handing, tried).items():
        print(f"an item of a link, {workers} workers, capacity {capacity}: {1e9 * cost / HANDED:.0f} ns")
    for (workers, _), cost in cost_apart(sigc, folder, returning, ((1, CAPACITY), (2, CAPACITY))).items():
        print(f"an item that an actor waits for, {workers} workers: {1e9 * cost / 2:.0f} ns")


def busy(count):
    return [subprocess.Popen([sys.executable, "-c", "while True: pass"]) for _ in range(count)]


def crowd(sigc, folder):
    instants = put_files(folder, chains(CROWD, 1, one_more), chains_flows(CROWD, INSTANTS // 500)(random.Random(1)))
    rests = [compiled(folder, "rests"), str(CROWD), str(instants)]
    for setting, before, beside in (("all processors", [], 0), ("one processor", ["taskset", "-c", "0"], 0), (f"{BUSY} busy processes beside", [], BUSY)):
        others = busy(beside)
        try:
            alone = None
            for workers in (0, 2, 8, 64):
                spent, wall, _ = measured([*before, *run_words(sigc, workers, 1)], folder, str(workers))
                assert read(folder, str(workers)) == read(folder, "0"), "the texts differ"
                alone = alone or spent
                held = "" if spent <= MOST_RATIO * alone else f", more than {MOST_RATIO}"
                print(f"{CROWD} clusters, {setting}, {workers} workers: processors {spent:.3f} s, ratio {spent / alone:.1f}{held}; wall {wall:.3f} s")
            spent, wall, _ = measured([*before, *rests], folder, "rests")
            print(f"{CROWD} threads that only rest, {setting}: processors {spent:.3f} s, ratio {spent / alone:.1f}; wall {wall:.3f} s")
        finally:
            for other in others:
                other.kill()
                other.wait()


def ratio_of(sigc, folder, workers, capacity):
    """The wall time of a run with workers over that of one without, whose text it must give: the median of runs in turn."""
    ratios = []
    for _ in range(TURNS):
        _, alone, _ = measured(run_words(sigc, 0), folder, "alone", 1)
        _, wall, _ = measured(run_words(sigc, workers, capacity), folder, "own", 1)
        assert read(folder, "own") == read(folder, "alone"), "the texts differ"
        ratios.append(wall / alone)
    return statistics.median(ratios)


def paying(sigc, folder):
    for kind, operation in (("sums", one_more), ("remainders", remainder)):
        for count, lengths in CHAINS.items():
            print(f"| {count} clusters of {kind}, {count} workers | " + " | ".join(f"{it} signals" for it in HANDED_ON) + " |")
            print("|---" * (1 + len(HANDED_ON)) + "|")
            for operations in lengths:
                cells = []
                for handed_on in HANDED_ON:
                    program = chains(count, operations, operation, handed_on)
                    put_files(folder, program, chains_flows(count, INSTANTS // 20)(random.Random(1)))
                    cells.append(f"{ratio_of(sigc, folder, count, CAPACITY):.2f}")
                print(f"| {operations} operations each | " + " | ".join(cells) + " |", flush=True)
            put_files(folder, chains(count, lengths[-1], operation), chains_flows(count, INSTANTS // 20)(random.Random(1)))
            for workers in (1, 2, 4, 8):
                row = ", ".join(f"{it}: {ratio_of(sigc, folder, workers, it):.2f}" for it in CAPACITIES)
                print(f"    {lengths[-1]} {kind} in each of {count} clusters with {workers} workers, by capacity: {row}")


def falling(before, j):
    """Compilers drop remainders by rising divisors."""
    return f"{before} modulo {1_003 - j}"


def built_in_c(sigc, folder, carrier=None):
    """A program in C, in one step or in clusters with a carrier: what starts it."""
    made = carrier or "step"
    words = ["--clusters", "--carrier", carrier] if carrier else []
    env = {**os.environ, "SIGC": sigc}
    subprocess.run([os.path.join(TOOLS, "sigc-c"), "program.sig", "-o", made, "--prefix", "p", *words], cwd=folder, check=True, env=env)
    build = ["sh", f"{made}/build"] if carrier else ["gcc", "-O2", "-o", f"{made}/run", f"{made}/p.c", f"{made}/main.c"]
    subprocess.run(build, cwd=folder, check=True)
    return os.path.join(folder, made, "run")


def beside_one_step(folder, clusters, step):
    """The ratios of the wall and of the processor times, in the medians of runs in turn."""
    walls, spents = [], []
    for _ in range(TURNS):
        alone, wall, _ = measured([step, "flows"], folder, "step-text", 1)
        spent, spread, _ = measured([clusters, "flows"], folder, "clusters-text", 1)
        assert read(folder, "step-text") == read(folder, "clusters-text"), "the texts differ"
        walls.append(spread / wall)
        spents.append(spent / alone)
    return statistics.median(walls), statistics.median(spents)


def in_clusters(sigc, folder):
    for kind, operation in (("sums", one_more), ("remainders by falling divisors", falling)):
        for count in SPREAD:
            print(f"{count} clusters of {kind}, by the operations of each: wall time on threads over that of one step (processor times)")
            cells = []
            for operations in SPREAD[count]:
                put_files(folder, chains(count, operations, operation), chains_flows(count)(random.Random(1)))
                ratio = beside_one_step(folder, built_in_c(sigc, folder, "threads"), built_in_c(sigc, folder))
                cells.append(f"{operations}: {ratio[0]:.2f} ({ratio[1]:.2f})")
            print("    " + ", ".join(cells), flush=True)
    for carrier in ("threads", "mpi") if shutil.which("mpicc") else ("threads",):
        print(f"an item of a stream, {carrier}: {1e9 * item_cost(sigc, folder, carrier):.1f} ns", flush=True)


def item_cost(sigc, folder, carrier):
    """The wall time of an item: of a program that passes signals to another cluster, over that of it in one, in medians."""
    walls = []
    for apart in (False, True):
        instants = put_files(folder, handing(apart), handing_flows(random.Random(1)))
        run = built_in_c(sigc, folder, carrier)
        walls.append(statistics.median(measured([run, "flows"], folder, "text", 1)[1] for _ in range(TURNS)))
    return (walls[1] - walls[0]) / (HANDED * instants)


PARTS = {"run": beside_c, "exec": beside_run, "c": in_c, "play": played_beside_c, "workers": with_workers, "items": items, "crowd": crowd, "pay": paying, "clusters": in_clusters}


def main():
    sigc = os.path.abspath(sys.argv[1])
    with tempfile.TemporaryDirectory() as folder:
        for part in sys.argv[2:] or PARTS:
            PARTS[part](sigc, folder)


if __name__ == "__main__":
    main()
