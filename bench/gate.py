#!/usr/bin/env python3
"""Runs `rt ci` and prints what each crate's proof, tests and must-fail edits cost. Needs rt.

    bench/gate.py [--log FILE] [--times FILE]     runs `rt ci`, whose own lines go to the log (/tmp/gate.log)
    bench/gate.py --attach PID [--times FILE]     watches an `rt ci` that has begun; what ended before is not seen

The figures are seconds of processor time, read from /proc while the checks run: a check is known by its
command line and its folder. `seed` is the proof that a crate's edits begin with, where there are several;
`edits` all of their checks. Below the table stand the longest chain of crates, each of which waits for the one
before it, and of each crate its ten most expensive functions: while a check from scratch runs, the checker writes a file
for each thing that it has made into a folder of its own, and the time between two files is what the later one cost,
so these figures are good to a third. All goes to standard output, and the times to the file of --times, from which
bench/gate_model.py estimates other machines. The status is that of the run. RT_JOBS in the environment limits the
processors, as for rt.
"""
import argparse
import collections
import json
import os
import re
import resource
import subprocess
import sys
import tempfile
import time

from gate_model import chain_of, dependencies

ROOT = os.path.dirname(os.path.dirname(os.path.abspath(__file__)))
TICKS = os.sysconf('SC_CLK_TCK')
KINDS = ('proof', 'tests', 'seed', 'edits')
DEAREST = 10


class Check:
    """One process that checks or builds a crate: what it is for, what it has used, and what it has made, when."""

    def __init__(self, crate, kind):
        self.crate, self.kind, self.seconds, self.peak, self.made = crate, kind, 0.0, 0, {}


def fields_of(pid):
    """The fields of a process behind its name."""
    with open(f'/proc/{pid}/stat') as file:
        return file.read().rsplit(')', 1)[1].split()


def children():
    """The processes that run, by their parents."""
    found = collections.defaultdict(list)
    for name in os.listdir('/proc'):
        if name.isdigit():
            try:
                found[int(fields_of(name)[1])].append(int(name))
            except OSError:
                pass
    return found


def kind_of(words, folder):
    """What a process is for, where it is a check, a build or a test of a crate by rattle."""
    if not words or not words[0].endswith('/rattle') or '--crate-name' not in words:
        return None
    crate = words[words.index('--crate-name') + 1]
    if words[1] == 'check' and '/rt-edit-' in folder:
        kept = words[words.index('--incremental') + 1] if '--incremental' in words else ''
        return crate, 'seed' if kept.endswith('/seed') else 'edits'
    # a program is checked, and then built of what that kept
    if words[1] in ('build', 'check'):
        return crate, 'tests' if '--test' in words else 'proof'
    return None


def told(pid):
    """The check that a process is, or None."""
    try:
        with open(f'/proc/{pid}/cmdline') as file:
            words = file.read().split('\0')
        kind = kind_of(words, os.readlink(f'/proc/{pid}/cwd'))
        return kind and Check(*kind)
    except OSError:
        return None


def used(pid, below):
    """The processor time of a process, of those that it waited for and of those below it that still run; their memory; and who they are."""
    time_of, memory, left, all_of = 0.0, 0, [pid], []
    while left:
        one = left.pop()
        all_of.append(one)
        left.extend(below[one])
        try:
            time_of += sum(map(int, fields_of(one)[11:15])) / TICKS
            with open(f'/proc/{one}/status') as file:
                held = re.search(r'VmRSS:\s+(\d+)', file.read())
            memory += int(held.group(1)) if held else 0
        except OSError:
            pass
    return time_of, memory, all_of


def look(root, seen):
    """Takes the processor time and memory of each check below root that runs now, copies that it made of itself included.
    It returns the check of each process that takes part in one."""
    below, left, part_of = children(), [root], {}
    while left:
        for pid in below[left.pop()]:
            try:
                # (numbers of processes come again)
                key = pid, fields_of(pid)[19]
            except OSError:
                continue
            check = seen.get(key) or told(pid)
            if not check:
                left.append(pid)
                continue
            seen[key] = check
            spent, memory, all_of = used(pid, below)
            check.seconds, check.peak = max(check.seconds, spent), max(check.peak, memory)
            part_of.update((one, check) for one in all_of)
    return part_of


def look_at_files(part_of):
    """Takes the times of the files that the running checks have made."""
    at = tempfile.gettempdir()
    for name in os.listdir(at):
        folder = re.match(r'rattle-logic-built-locked-(\d+)-', name)
        check = folder and part_of.get(int(folder.group(1)))
        if not check:
            continue
        try:
            with os.scandir(os.path.join(at, name)) as entries:
                for entry in entries:
                    check.made[name, entry.name] = entry.stat(follow_symlinks=False).st_mtime
        except OSError:
            pass


def functions_of(check):
    """What each function cost a check from nothing, in seconds: the gaps between what its process made, scaled to the processor time."""
    cost, whole, last = collections.Counter(), 0.0, {}
    for (folder, file), when in sorted(check.made.items(), key=lambda it: it[1]):
        took = when - last.get(folder, when)
        last[folder] = when
        whole += took
        steps = re.sub(rf'^Rattle-{check.crate}-', '', file).replace('.oantt', '').split('.')
        if steps[0].startswith('proofs') and len(steps) > 2:
            cost['.'.join(steps[1:-1])] += took
    return {name: took * check.seconds / whole for name, took in cost.most_common(DEAREST)} if whole else {}


def summary(seen):
    """The figures of each crate, by its name."""
    found = {}
    for check in seen.values():
        of = found.setdefault(check.crate, {**dict.fromkeys(KINDS, 0.0), 'tried': 0, 'peak': 0, 'dearest': {}})
        of[check.kind] += check.seconds
        of['tried'] += check.kind == 'edits'
        of['peak'] = max(of['peak'], check.peak)
        if check.kind in ('proof', 'tests'):
            of['dearest'].update(functions_of(check))
    return found


def print_table(figures):
    """Prints the table, and returns the seconds that it has."""
    whole = lambda crate: sum(figures[crate][kind] for kind in KINDS)
    crates = sorted(figures, key=lambda it: -whole(it))
    print('| crate | proof | tests | seed | edits | all | tried | GB |')
    print('|---|---|---|---|---|---|---|---|')
    for crate in crates:
        row = [figures[crate][kind] for kind in KINDS] + [whole(crate)]
        print(f'| {crate} | ' + ' | '.join(f'{it:.0f}' for it in row) + f' | {figures[crate]["tried"]} | {figures[crate]["peak"] / 1e6:.1f} |')
    row = [sum(figures[crate][kind] for crate in crates) for kind in KINDS]
    print('| all | ' + ' | '.join(f'{it:.0f}' for it in [*row, sum(row)]) + f' | {sum(it["tried"] for it in figures.values())} | |')
    return sum(row)


def print_chain(figures):
    chain = chain_of(dependencies(ROOT), {crate: it['proof'] + it['tests'] for crate, it in figures.items()})
    print(f'\nlongest chain, {sum(spent for _, spent in chain) / 60:.1f} minutes: ' + ', '.join(f'{crate} {spent:.0f}' for crate, spent in chain))


def print_dearest(figures):
    for crate, of in sorted(figures.items(), key=lambda it: -it[1]['proof']):
        dearest = sorted(of['dearest'].items(), key=lambda it: -it[1])[:DEAREST]
        if dearest:
            print(f'\n{crate}')
        for name, spent in dearest:
            print(f'    {spent:6.1f}  {name}')


def watch(root, is_over, seen):
    """Looks at the checks below root until the run is over."""
    turn = 0
    while not is_over():
        part_of = look(root, seen)
        if turn % 6 == 0:
            look_at_files(part_of)
        turn += 1
        time.sleep(0.5)


def run(log, seen):
    """Runs the gate, and returns its status and its last line."""
    with open(log, 'w') as file:
        ran = subprocess.Popen(['rt', 'ci'], cwd=ROOT, stdout=file, stderr=subprocess.STDOUT)
        watch(ran.pid, lambda: ran.poll() is not None, seen)
    with open(log) as file:
        return ran.returncode, file.read().rstrip().rsplit('\n', 1)[-1]


def main():
    words = argparse.ArgumentParser(description=__doc__, formatter_class=argparse.RawDescriptionHelpFormatter)
    words.add_argument('--attach', type=int, metavar='PID')
    words.add_argument('--log', default='/tmp/gate.log')
    words.add_argument('--times', metavar='FILE')
    given = words.parse_args()
    begun, seen, status, last = time.time(), {}, 0, None
    if given.attach:
        watch(given.attach, lambda: not os.path.exists(f'/proc/{given.attach}'), seen)
    else:
        status, last = run(given.log, seen)
        print(last)
    figures = summary(seen)
    if given.times:
        with open(given.times, 'w') as file:
            json.dump(figures, file, indent=1)
    checks = print_table(figures)
    print(f'\nwall time {(time.time() - begun) / 60:.1f} minutes, processor time of checks {checks / 60:.1f} minutes', end='')
    whole = resource.getrusage(resource.RUSAGE_CHILDREN)
    print('' if given.attach else f', of the whole run {(whole.ru_utime + whole.ru_stime) / 60:.1f}')
    print_chain(figures)
    print_dearest(figures)
    return status


if __name__ == '__main__':
    sys.exit(main())
