#!/usr/bin/env python3
"""check.py SIGC [FAMILY..]: how long a whole compilation takes, and how that grows.

Runs `SIGC check` on families of programs:

  NAME        n copies of examples/NAME.sig on one clock, by calls of one process model, for n from 1 until 512 signals;
  chain       chains of samplings, each by a condition of its own;
  cases       a chain of `(i when A = i) default ..`;
  sampled     n boolean inputs that sample one signal;
  stages      the generated programs of 1 to 12 stages of sampling and merging;
  sums        512 signals in 64 clusters;
  parts       so many small debouncers that share nothing, with the flag `--pace`;
  inputs      so many inputs that come independently of each other, with the flag `--pace`;
  hostile     hostile texts, flows and images (bench/hostile_cases.py), worst first; words behind it name the beginnings of
              those that are tried.

The last is tried where it is named: of each the answer, its bytes, the processor time and the peak memory are printed, and it
holds within 20 s and 1 GB. Of the others: prints of each program its signals, its answer, the least processor time of three
runs, its ratio to that of `SIGC print` of the same program in the same run, and the peak memory, which is at least that of
this script where it starts them. A family ends where a check takes more than 20 s. The status is 1 where a hostile one does
not hold, or where a check took more than 10 times `print` and more than 50 ms.
"""
import os
import re
import resource
import subprocess
import sys
import tempfile

from hostile_cases import CASES, write

HERE = os.path.dirname(os.path.abspath(__file__))
# the controllers, and of each the signal whose instants are those of the process
CONTROLLERS = {
    "edge": "LEVEL", "debounce": "RAW", "thermostat": "TEMPERATURE", "bucket": "PACKET", "light": "BUTTON",
    "pump": "FRONT", "watch": "TICK", "down": "Y",
}
SIGNALS = 512
SECONDS, MEGABYTES = 20, 1024


def declared(text):
    """The kinds and names of a list of declarations."""
    return [(kind, name) for kind, names in re.findall(r"(event|boolean|integer)\s+([^;]+)", text) for name in names.replace(",", " ").split()]


def copies(name, count):
    """So many calls of a controller, whose clocks are one; and how many signals that makes, at least."""
    with open(os.path.join(HERE, "..", "examples", name + ".sig"), encoding="ascii") as file:
        text = re.sub(r"%[^%]*%", "", file.read()).strip()
    head = re.match(r"process (\w+) = \(\?([^!]*)!([^)]*)\)", text)
    model, inputs, outputs = head.group(1), declared(head.group(2)), declared(head.group(3))
    numbered = lambda signals, i: ", ".join(f"{signal}{i}" for _, signal in signals)
    interface = lambda signals: "; ".join(f"{kind} {signal}{i}" for i in range(1, count + 1) for kind, signal in signals)
    lines = []
    for i in range(1, count + 1):
        left = numbered(outputs, i)
        lines.append(f"{f'({left})' if len(outputs) > 1 else left} := {model}({numbered(inputs, i)})")
    clock = CONTROLLERS[name]
    lines += [f"{clock}{i} ^= {clock}{i + 1}" for i in range(1, count)]
    return f"process COPIES = (? {interface(inputs)} ! {interface(outputs)})\n(| " + "\n | ".join(lines) + f" |)\nwhere\n{text}\nend;\n"


def stages(count):
    """Stage i samples what the stage before gives, and merges it with the result of the stage before."""
    x = lambda i: f"X{i}" if i else "A"
    y = lambda i: f"Y{i}" if i else "A"
    inputs = ", ".join(f"B{i}" for i in range(1, count + 1))
    pragmas = " ".join(f'RunOn {{X{i}, Y{i}}} "{i % 4}"' for i in range(1, count + 1))
    lines = [
        f"B{i} ^= {x(i - 1)} | X{i} := ({x(i - 1)} + {i}) when B{i} | Y{i} := X{i} default {y(i - 1)}"
        for i in range(1, count + 1)
    ]
    names = [f"X{i}" for i in range(1, count + 1)] + [f"Y{i}" for i in range(1, count)]
    return (
        f"process LOAD = (? integer A; boolean {inputs} ! integer Y{count})\n"
        f"pragmas {pragmas} end pragmas\n(| " + "\n | ".join(lines) + f" |)\nwhere integer {', '.join(names)}; end;\n"
    )


def chain(count):
    """Each signal is the one before, sampled by a condition of its own."""
    inputs = "; ".join(f"boolean B{i}" for i in range(1, count + 1))
    lines = ["B1 ^= X0"] + [f"B{i} ^= X{i - 1}" for i in range(2, count + 1)]
    lines += [f"X{i} := X{i - 1} when B{i}" for i in range(1, count + 1)]
    names = [f"X{i}" for i in range(1, count)]
    where = f"\nwhere integer {', '.join(names)}; end;" if names else ";"
    return f"process CHAIN = (? integer X0; {inputs} ! integer X{count})\n(| " + "\n | ".join(lines) + f" |){where}\n"


def cases(count):
    """One value for each of so many values of the input."""
    choice = " default ".join(f"({i} when A = {i})" for i in range(1, count + 1))
    return f"process CASES = (? integer A ! integer Y)\n(| Y := {choice} default A |);\n"


def sampled(count):
    """So many boolean inputs sample one signal, on its clock."""
    inputs = ", ".join(f"B{i}" for i in range(1, count + 1))
    outputs = ", ".join(f"Y{i}" for i in range(1, count + 1))
    lines = [f"B{i} ^= A | Y{i} := A when B{i}" for i in range(1, count + 1)]
    return f"process SAMPLED = (? integer A; boolean {inputs} ! integer {outputs})\n(| " + "\n | ".join(lines) + " |);\n"


def sums(count):
    """So many signals, each the one before and 1, dealt out to all clusters."""
    clusters = [[f"X{i}" for i in range(1, count) if i % 64 == c] for c in range(64)]
    pragmas = " ".join(f'RunOn {{{", ".join(names)}}} "{c}"' for c, names in enumerate(clusters) if names)
    lines = [f"X{i} := X{i - 1} + 1" for i in range(1, count)]
    names = ", ".join(f"X{i}" for i in range(1, count - 1))
    return (
        f"process SUMS = (? integer X0 ! integer X{count - 1})\npragmas {pragmas} end pragmas\n(| "
        + "\n | ".join(lines) + f" |)\nwhere integer {names}; end;\n"
    )


def parts(count):
    """So many debouncers, each of an input of its own: CLEAN follows RAW once RAW has kept its value."""
    numbers = range(1, count + 1)
    lines = [f"CLEAN{i} := (RAW{i} when (RAW{i} = (RAW{i} $ init false))) default (CLEAN{i} $ init false) | CLEAN{i} ^= RAW{i}" for i in numbers]
    raw, clean = (", ".join(f"{name}{i}" for i in numbers) for name in ("RAW", "CLEAN"))
    return f"process PARTS = (? boolean {raw} ! boolean {clean})\n(| " + "\n | ".join(lines) + " |);\n"


def inputs(count):
    """So many inputs, of which one is used."""
    names = ", ".join(f"A{i}" for i in range(1, count + 1))
    return f"process INPUTS = (? integer {names} ! integer Y)\n(| Y := A1 + 1 |);\n"


def growing():
    """1, 2, 3, 4, 6, 8, 12, .."""
    count = 1
    while True:
        yield count
        if count > 2 and count & (count - 1) == 0:
            yield count + count // 2
        count = 3 if count == 2 else count + 1 if count < 2 else 2 ** count.bit_length()


FAMILIES = {name: (lambda count, name=name: copies(name, count)) for name in CONTROLLERS}
FAMILIES |= {"chain": chain, "cases": cases, "sampled": sampled, "stages": stages, "sums": sums, "parts": parts, "inputs": inputs}
COUNTS = {
    "chain": [4, 8, 16, 32, 64, 128], "stages": range(1, 13), "sums": [SIGNALS], "parts": [2, 4, 8, 15, 30, 60],
    "inputs": [2, 10, 25, 50, 100],
}
FLAGS = {"parts": ["--pace"], "inputs": ["--pace"]}


def timed(words, folder):
    """What a run wrote, its processor seconds and its peak memory in KB."""
    limit = lambda: resource.setrlimit(resource.RLIMIT_CPU, (3 * SECONDS, 3 * SECONDS))
    child = subprocess.Popen(words, cwd=folder, stdout=subprocess.PIPE, stderr=subprocess.STDOUT, preexec_fn=limit)
    out = child.stdout.read().decode("ascii").strip()
    _, status, usage = os.wait4(child.pid, 0)
    return out if not os.WIFSIGNALED(status) else f"no answer in {3 * SECONDS} s", usage.ru_utime + usage.ru_stime, usage.ru_maxrss


def least(words, folder):
    """The answer of three runs, the least time and the greatest memory; of one run, where it took long."""
    runs = [timed(words, folder)]
    while len(runs) < 3 and runs[-1][1] < 3:
        runs.append(timed(words, folder))
    return runs[0][0], min(run[1] for run in runs), max(run[2] for run in runs)


def measure(sigc, name, count, folder):
    """Checks one program and prints its line; tells the answer, and whether it was in time."""
    with open(os.path.join(folder, "program.sig"), "w", encoding="ascii") as file:
        file.write(FAMILIES[name](count))
    answer, seconds, memory = least([sigc, "check", "program.sig"] + FLAGS.get(name, []), folder)
    _, base, _ = least([sigc, "print", "program.sig"], folder)
    print(f"{name} {count}: {answer}, {1000 * seconds:.1f} ms, {seconds / base:.1f} times print, {memory} KB", flush=True)
    return answer, seconds, seconds <= max(10 * base, 0.05)


def holds(sigc, name, case, folder):
    """Runs a hostile case and prints its line; tells whether it was in time and in room."""
    size = write(case, folder)
    answer, seconds, memory = timed([sigc, *case.words.split()], folder)
    is_held = seconds <= SECONDS and memory <= 1024 * MEGABYTES
    last = answer.split("\n")[-1] or "no answer"
    print(f"{name}: {last}, {size} bytes, {seconds:.2f} s, {memory // 1024} MB{'' if is_held else ': TOO MUCH'}", flush=True)
    return is_held


def hostile(sigc, beginnings, folder):
    """Tries the hostile cases, or those of these beginnings; tells how many do not hold."""
    names = [it for it in CASES if not beginnings or it.startswith(tuple(beginnings))]
    return sum(not holds(sigc, it, CASES[it], folder) for it in names)


def main():
    sigc, late = os.path.abspath(sys.argv[1]), 0
    with tempfile.TemporaryDirectory() as folder:
        named = sys.argv[2:]
        if "hostile" in named:
            at = named.index("hostile")
            named, beginnings = named[:at], named[at + 1 :]
            late += hostile(sigc, beginnings, folder)
        for name in named or (FAMILIES if len(sys.argv) == 2 else []):
            for count in COUNTS.get(name) or growing():
                answer, seconds, in_time = measure(sigc, name, count, folder)
                late += not in_time
                if answer != "accepted" or seconds > SECONDS:
                    break
    print(f"{late} too much")
    return 1 if late else 0


if __name__ == "__main__":
    sys.exit(main())
