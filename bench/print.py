#!/usr/bin/env python3
"""print.py SIGC: how fast a program is read and printed.

Writes a program of 1,048,576 bytes of ordinary equations, runs `SIGC print` on it and `wc -w` on the same file,
each five times in turns, and prints the least processor times, MB/s, the ratio of the times and the peak memory
of each.
"""
import os
import subprocess
import sys
import tempfile

SIZE = 1_048_576
HEAD = "process BENCH = (? integer A, B; boolean C ! integer Y)\n(| Y := A + B\n"
TAIL = "|);\n"


def program():
    lines, size, number = [HEAD], len(HEAD) + len(TAIL), 0
    while True:
        line = f" | X{number} := (A + B * {number}) default ((X{number} $ 1 init 0) - 1) when C and A <= {number}\n"
        if size + len(line) > SIZE:
            break
        lines.append(line)
        size += len(line)
        number += 1
    return "".join(lines) + " " * (SIZE - size) + TAIL, number


def timed(words, folder):
    """Returns the processor seconds of a run and its peak memory in KB."""
    child = subprocess.Popen(words, cwd=folder, stdout=subprocess.PIPE)
    out = child.stdout.read()
    _, status, usage = os.wait4(child.pid, 0)
    if status != 0 or not out:
        sys.exit(f"{words[0]} ended with status {status}")
    return usage.ru_utime + usage.ru_stime, usage.ru_maxrss


def main():
    sigc = os.path.abspath(sys.argv[1])
    with tempfile.TemporaryDirectory() as folder:
        text, equations = program()
        with open(os.path.join(folder, "program.sig"), "w", encoding="ascii") as file:
            file.write(text)
        runs = {"sigc print": [sigc, "print", "program.sig"], "wc -w": ["wc", "-w", "program.sig"]}
        best = {name: (float("inf"), 0) for name in runs}
        for _ in range(5):
            for name, words in runs.items():
                best[name] = min(best[name], timed(words, folder))
        print(f"{equations} equations, {len(text)} bytes")
        for name, (seconds, memory) in best.items():
            print(f"{name}: {1000 * seconds:.0f} ms, {len(text) / seconds / 1e6:.1f} MB/s, {memory} KB at most")
        print(f"ratio of times: {best['sigc print'][0] / best['wc -w'][0]:.1f}")


if __name__ == "__main__":
    main()
