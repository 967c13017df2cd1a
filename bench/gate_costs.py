#!/usr/bin/env python3
"""The table of docs/gate-costs.md, from the times of a run of the gate.

    bench/gate_costs.py TIMES            prints it; TIMES: what `bench/gate.py --times FILE` wrote
    bench/gate_costs.py TIMES --write    puts it into the page
"""
import json
import os
import sys

ROOT = os.path.dirname(os.path.dirname(os.path.abspath(__file__)))
sys.path.insert(0, os.path.dirname(os.path.abspath(__file__)))
PAGE = f'{ROOT}/docs/gate-costs.md'
BEGIN, END = '<!-- made by bench/gate_costs.py -->\n', '<!-- end -->\n'


def row(name, proof, tests, edits, memory):
    cells = [name, *(f'{it:,.0f}' if it >= 0.5 else '' for it in (proof, tests, edits)), memory]
    return '|' + '|'.join(cells) + '|\n'


def memory_of(figure):
    """The most memory of one check in GB, where it is much."""
    return f'{figure["peak"] / 1e6:.1f}' if figure['peak'] >= 2e6 else ''


def table(figures):
    """The table as Markdown, the dearest crate first."""
    of = {crate: (it['proof'], it['tests'], it['seed'] + it['edits']) for crate, it in figures.items()}
    lines = ['|Crate|proof|tests|edits|GB|\n|---|---|---|---|---|\n']
    lines += [row(crate, *of[crate], memory_of(figures[crate])) for crate in sorted(of, key=lambda it: -sum(of[it]))]
    return ''.join(lines) + row('all', *(sum(it) for it in zip(*of.values())), '')


def figures_of(page):
    """What the table of a page tells of each crate: seconds of its proof, of its tests, of its edits."""
    rows = page.partition(BEGIN)[2].partition(END)[0].splitlines()[2:]
    cells = [[it.strip() for it in line.split('|')[1:-1]] for line in rows]
    return {it[0].strip('`'): [int(number.replace(',', '') or 0) for number in it[1:4]] for it in cells if it[0] != 'all'}


def read_page():
    with open(PAGE, encoding='utf-8') as file:
        return file.read()


def main():
    if len(sys.argv) not in (2, 3) or sys.argv[2:] not in ([], ['--write']):
        sys.exit(__doc__)
    with open(sys.argv[1]) as file:
        made = table(json.load(file))
    if len(sys.argv) == 2:
        print(made, end='')
        return
    before, _, rest = read_page().partition(BEGIN)
    with open(PAGE, 'w', encoding='utf-8') as file:
        file.write(f'{before}{BEGIN}{made}{END}{rest.partition(END)[2]}')


if __name__ == '__main__':
    main()
