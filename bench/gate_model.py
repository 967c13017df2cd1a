#!/usr/bin/env python3
"""Estimates how long the gate takes from scratch on another machine, from the times of a run.

    bench/gate_model.py TIMES [PROCESSORS [GB]]     TIMES: what `bench/gate.py --times FILE` wrote

It does as `rt ci` does: a crate's proof begins when those below it are proved, its tests likewise, its edits then too;
those with the longest chain after them come first, as many side by side as there are processors and as memory holds,
each on one processor. It prints the wall time in minutes, at the speed of the machine of the run.
"""
import json
import os
import re
import sys

ROOT = os.path.dirname(os.path.dirname(os.path.abspath(__file__)))


def dependencies(root):
    """The crates of the repository that each crate names, by its name, lowest first."""
    found = {}
    with open(f'{root}/crates.txt') as file:
        for line in file:
            if ':' in line and not line.startswith('#'):
                head, below = line.split(':', 1)
                found[head.split()[0]] = below.split()
    below, placed = {crate: [it for it in names if it in found] for crate, names in found.items()}, {}

    def place(crate):
        if crate not in placed:
            for it in below[crate]:
                place(it)
            placed[crate] = below[crate]

    for crate in below:
        place(crate)
    return placed


def chain_of(below, seconds):
    """The chain of crates, lowest first, that takes longest, with the seconds of each."""
    longest = {}

    def of(crate):
        if crate not in longest:
            best = max((of(it) for it in below[crate]), key=lambda it: it[0], default=(0, ()))
            spent = seconds.get(crate, 0)
            longest[crate] = best[0] + spent, best[1] + ((crate, spent),)
        return longest[crate]

    return list(max((of(crate) for crate in below), key=lambda it: it[0])[1])


def lines_of(folder, ending):
    count = 0
    for at, folders, files in os.walk(folder):
        folders[:] = [it for it in folders if it != 'out']
        for name in files:
            if name.endswith(ending):
                with open(f'{at}/{name}', 'rb') as file:
                    count += file.read().count(b'\n')
    return count


def needs_of(root, below):
    """The memory that `rt ci` keeps for a check of each crate, in bytes."""
    code = {crate: lines_of(f'{root}/crates/{crate}', '.rt') for crate in below}
    logic = {crate: lines_of(f'{root}/crates/{crate}', '.antt') for crate in below}

    def all_below(crate):
        return {crate} | {it for one in below[crate] for it in all_below(one)}

    return {crate: 1e9 + 1e6 * code[crate] + 2e5 * logic[crate] + 8e4 * sum(code[it] for it in all_below(crate) - {crate}) for crate in below}


def tasks_of(figures, below, needs):
    """What is to be done: by name, what it waits for, its seconds and its memory."""
    tasks = {}
    for crate in below:
        of = figures.get(crate, {})
        waits = [(it, 'proof') for it in below[crate]]
        for kind in ('proof', 'tests'):
            tasks[crate, kind] = waits, of.get(kind, 0), needs[crate]
        both = [(crate, 'proof'), (crate, 'tests')]
        if of.get('seed'):
            tasks[crate, 'seed'] = both, of['seed'], needs[crate]
            both = [(crate, 'seed')]
        for number in range(of.get('tried', 0)):
            tasks[crate, 'edits', number] = both, of['edits'] / of['tried'], needs[crate]
    return tasks


def wall_time(tasks, processors, memory):
    """The seconds until all tasks are done."""
    behind = {}
    for key in reversed(list(tasks)):
        behind[key] = behind.get(key, 0) + tasks[key][1]
        for it in tasks[key][0]:
            behind[it] = max(behind.get(it, 0), behind[key])
    left = sorted(tasks, key=lambda it: (it[1] in ('edits', 'seed'), -behind[it]))
    now, running, done = 0.0, {}, set()
    while left or running:
        for key in [it for it in left if all(one in done for one in tasks[it][0])]:
            free = memory - sum(tasks[it][2] for it in running)
            if len(running) < processors and (not running or tasks[key][2] <= free):
                left.remove(key)
                running[key] = now + tasks[key][1]
        first = min(running, key=running.get)
        now = running.pop(first)
        done.add(first)
    return now


def main():
    if not 2 <= len(sys.argv) <= 4 or not all(re.fullmatch(r'\d+', it) for it in sys.argv[2:]):
        sys.exit(__doc__)
    processors, gigabytes = (list(map(int, sys.argv[2:])) + [2, 24][len(sys.argv) - 2:])[:2]
    with open(sys.argv[1]) as file:
        figures = json.load(file)
    below = dependencies(ROOT)
    spent = wall_time(tasks_of(figures, below, needs_of(ROOT, below)), processors, 0.85 * 1e9 * gigabytes)
    print(f'{processors} processors, {gigabytes} GB: {spent / 60:.0f} minutes')


if __name__ == '__main__':
    main()
