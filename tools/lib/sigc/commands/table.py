"""Turns rows of a table into flows, and a run into rows: CSV, one row an instant, an empty cell where nothing is.

    tools/sigc-table flows pump.csv > pump.flows
    tools/sigc-table rows examples/pump.sig examples/pump.flows > pump.csv
    tools/sigc-table check examples/pump.sig pump.csv

`flows` writes a flow file with the columns of the table; with --program only those that are inputs of it, and with them
the boolean inputs without a column that say when one comes, as SENSED in `POS ^= when SENSED`: they are true in the rows
in which it has a value. `rows` writes the inputs and the outputs of a run, or with --all every signal; from one file it
writes a trace.

A flow does not say at which instants its values come: the program decides that. So `check` runs the program with the
flows of the table, and prints the first row in which it takes another input than the table has, or none, or gives
another output; a row without any value is left out. Values may be spelled as spreadsheets do: TRUE and FALSE.

The program is the file that the variable SIGC names, or else the script ./sigc at the top of the repository.
"""
import argparse
import csv
import io
import itertools
import re
import sys
from typing import NamedTuple

from sigc.call import running
from sigc.clocks import laid_out, pace_flag
from sigc.read import expansion, lexer
from sigc.trace import flow_values, traces

NAME = re.compile(r"[A-Za-z][A-Za-z0-9_]*")
MARK = "\xef\xbb\xbf"


class Row(NamedTuple):
    """A row of a table: its line, and the values by their columns."""

    line: int
    values: dict


def value_of(cell, where):
    """The value of a cell as flows spell it; nothing for an empty one."""
    cell = cell.strip()
    value = cell.lower() if cell.lower() in ("true", "false") else cell
    if value and not traces.VALUE.fullmatch(value):
        raise lexer.Unreadable(f"{where}: {cell} is no value")
    return flow_values.normal(value) if value else ""


def table_of(text, delimiter):
    """The columns of a table, and its rows. Rows without any value are left out."""
    rows = csv.reader(io.StringIO(text.removeprefix(MARK), newline=""), delimiter=delimiter)
    try:
        columns = [it.strip() for it in next(rows, [])]
        for at, it in enumerate(columns):
            if not NAME.fullmatch(it) or it in columns[:at]:
                raise lexer.Unreadable(f"line 1: {it or 'an empty cell'} is no name of a column, or stands there twice")
        if not columns:
            raise lexer.Unreadable("line 1: the names of the columns are wanted")
        return columns, [it for it in rows_of(rows, columns) if it.values]
    except csv.Error as error:
        raise lexer.Unreadable(f"line {rows.line_num}: {error}") from None


def rows_of(rows, columns):
    for cells in rows:
        if len(cells) > len(columns) and any(cells[len(columns) :]):
            raise lexer.Unreadable(f"line {rows.line_num}: there are more cells than columns")
        values = {name: value_of(cell, f"line {rows.line_num}") for name, cell in zip(columns, cells)}
        yield Row(rows.line_num, {name: it for name, it in values.items() if it})


def words_of(values, is_counted):
    """The words of values: with counts, v*k stands for k of them in a row."""
    for value, same in itertools.groupby(values):
        count = sum(1 for _ in same)
        if is_counted and count > 1:
            yield f"{value}*{count}"
        else:
            yield from itertools.repeat(value, count)


def flows_of(columns, rows, is_counted=False):
    """The lines of a flow file."""
    if is_counted:
        yield "flows 2"
    for name in columns:
        yield " ".join([name, *words_of((it.values[name] for it in rows if name in it.values), is_counted)])


def read_table(words):
    try:
        return table_of(running.text_of(words.table), words.delimiter)
    except lexer.Unreadable as error:
        raise lexer.Unreadable(f"{words.table}: {error}") from None


def inputs_of(words, columns, rows):
    """The columns that are inputs of the program, and the rows, both with the inputs that the table does not have and
    that tell whether others come: booleans of the program, and with --pace what that adds."""
    with running.Files() as files:
        laid = laid_out.Laid(files, words.program, True) if words.pace else None
        flat = laid.flat if laid else expansion.Expansion(running.text_of(words.program))
    told = tellers(flat, columns)
    for name, signal in zip(laid.paces, laid.paced) if laid else ():
        if name not in columns:
            told[name] = clock_of(laid, name, signal, columns)
    rows = [Row(it.line, {**it.values, **told_in(it, told)}) for it in rows]
    return [it.name for it in flat.inputs() if it.name in (*columns, *told)], rows


def tellers(flat, columns):
    """The boolean inputs that are no columns and say when a column comes, as C in `X ^= when C`: each with these columns."""
    found = {it.name: [] for it in flat.inputs() if it.kind == "boolean" and it.name not in columns}
    for equation in flat.equations:
        words = [it.text for it in equation.words]
        if len(words) == 4 and words[1:3] == ["^=", "when"] and words[3] in found and words[0] in columns:
            found[words[3]].append(words[0])
    return {name: signals for name, signals in found.items() if signals}


def clock_of(laid, pace, signal, columns):
    """The columns whose signals come where a pace is true."""
    found = [it for it in laid.clock(signal) if it in columns] if signal else []
    if not found:
        raise running.Refused(f"no column tells {pace}: " + (f"it is true where {signal} comes" if signal else "give it one"))
    return found


def told_in(row, told):
    """The values of what tells whether others come: true where one of these has a value in the row."""
    return {name: str(any(it in row.values for it in signals)).lower() for name, signals in told.items()}


def write_flows(words):
    """The command flows."""
    columns, rows = read_table(words)
    if words.program:
        columns, rows = inputs_of(words, columns, rows)
    elif words.pace:
        raise running.Refused("--pace wants a --program, which has the paces", 2)
    for line in flows_of(columns, rows, words.counted):
        print(line)
    return 0


def write_rows(words):
    """The command rows."""
    rows = csv.writer(sys.stdout, delimiter=words.delimiter, lineterminator="\n")
    if not words.flows:
        names, instants = traces.trace_of(running.text_of(words.program))
        rows.writerow(names)
        rows.writerows([instant.get(it, "") for it in names] for instant in traces.window(instants, words))
        return 0
    with running.Files() as files:
        run = traces.Run(files, words.program, words.flows, traces.run_words(words))
        names = [it.name for it in run.flat.signals if words.all or not it.copy and it.role != "local"]
        rows.writerow(names)
        rows.writerows([instant.get(it, "") for it in names] for instant in traces.window(run, words))
        return traces.told(run)


def difference(columns, row, instant):
    """What is different between a row and an instant, or nothing."""
    for it in columns:
        wanted, got = row.values.get(it), instant.get(it)
        if wanted != got:
            return f"line {row.line}: the table has {wanted or 'nothing'} for {it}, and the run {got or 'nothing'}"
    return ""


def check_table(words):
    """The command check: the rows beside the instants of a run."""
    columns, rows = read_table(words)
    with running.Files() as files:
        text = "".join(f"{it}\n" for it in flows_of(*inputs_of(words, columns, rows)))
        run = traces.Run(files, words.program, files.written("table.flows", text, words.table), pace_flag.words_of(words.pace))
        known = {it.name for it in run.flat.signals}
        for it in columns:
            if it not in known:
                raise running.Refused(f"{words.table}: {it} is no signal of the program")
        instants = list(run)
    said = next(filter(None, (difference(columns, *pair) for pair in zip(rows, instants))), "")
    if not said and len(instants) != len(rows):
        said = f"the table has {len(rows)} rows, and the run {len(instants)} instants: {run.end}"
    print(f"{words.table}: {said}" if said else f"{len(rows)} rows as the program has them")
    return 1 if said else 0


def main():
    words = argparse.ArgumentParser(prog="sigc-table", description=__doc__, formatter_class=argparse.RawDescriptionHelpFormatter)
    words.add_argument("--delimiter", metavar="C", default=",", help="what stands between two cells (default: a comma)")
    commands = words.add_subparsers(dest="command", required=True)
    flows = commands.add_parser("flows", help="a table to flows")
    flows.add_argument("table", metavar="TABLE", help="the file of a table")
    flows.add_argument("--program", metavar="FILE", help="write the inputs of this program alone")
    flows.add_argument("--counted", action="store_true", help="write v*k for k values v in a row")
    rows = commands.add_parser("rows", help="a run, or a trace, to a table")
    rows.add_argument("program", metavar="PROGRAM", help="the file of a program, or without FLOWS a trace file")
    rows.add_argument("flows", metavar="FLOWS", nargs="?", help="the file of its flows")
    rows.add_argument("--all", action="store_true", help="every signal, and not inputs and outputs alone")
    traces.add_window_words(rows)
    check = commands.add_parser("check", help="a table beside the run of its flows")
    check.add_argument("program", metavar="PROGRAM", help="the file of a program")
    check.add_argument("table", metavar="TABLE", help="the file of a table")
    for it in (flows, check):
        it.add_argument("--pace", action="store_true", help="as of sigc; a pace without a column is true where a row has a signal of its clock")
    words = words.parse_args()
    if len(words.delimiter) != 1:
        raise running.Refused("a delimiter is one character")
    return {"flows": write_flows, "rows": write_rows, "check": check_table}[words.command](words)


def start():
    running.started("sigc-table", main)
