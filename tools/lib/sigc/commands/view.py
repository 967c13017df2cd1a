"""Writes a page that shows a run: one file of HTML, which reads nothing from the network.

    tools/sigc-view examples/thermostat.sig examples/thermostat.flows > thermostat.html

The page has the program with its clock tree beside it, which says when each clock comes, the waveform of all signals,
the clusters with their links, and the end of the run, whose place is marked in the program. Where the pointer stands on a
signal, its clock, its value and its equations are shown, and it is marked everywhere. The waveform is zoomed by buttons,
the keys + and -, or the wheel with Ctrl, and the cursor stays in view; a click sets the instant whose values are shown;
n and p go to the next and the previous change of the chosen signal. Integers have their values where these have room,
and else are curves, with the least and the greatest value in view. Signals are picked, hidden, dragged to another place,
sorted and searched, those of a copy folded, and each part of the page is closed by its head. All of that is in the
address after the page's name, as #signal=HEATING&instant=3, which opens it there. The page holds up to 100,000
instants; --from and --to choose others.

With --cover the program has marks where the run did not come: clocks that never ticked, conditions that were never true or
never false, branches of a `default` that never gave the value; the pointer shows which.

The program is the file that the variable SIGC names, or else the script ./sigc at the top of the repository.
"""
import argparse
import html
import itertools
import json
import re
import string
import sys

from sigc.call import opened, running
from sigc.clocks import clocks_in_words, pace_flag, plans
from sigc.places import TOOLS
from sigc.read import lexer
from sigc.trace import covered, traces
from sigc.view import drawings, packing, picture_names, run_columns

MOST_INSTANTS = 100_000
SCRIPTS = ("values.js", "rows.js", "drawing.js", "shown.js", "acts.js", "view.js")
FAULT_AT = re.compile(r"end: .* at (\d+):(\d+) after .*")
AFTER = re.compile(r"after (\d+) instants")
EXHAUSTED = re.compile(r"end: input (\S+) exhausted after .*")


def part(name):
    """A part of the page, from the folder view."""
    with open(f"{TOOLS}/lib/sigc/view/page/{name}", encoding="utf-8") as it:
        return it.read()


def place_of_end(run):
    """The place in the program that the end of the run is about, or None."""
    fault, exhausted = FAULT_AT.fullmatch(run.kernel_end), EXHAUSTED.fullmatch(run.kernel_end)
    if fault:
        return int(fault[1]), int(fault[2])
    if exhausted:
        return next(((it.line, it.col) for it in run.flat.inputs() if it.name == exhausted[1]), None)
    return None


def of_comment(text):
    """The text of blanks and comments as a page shows it; what a comment holds is read as UTF-8."""
    text = text.encode("latin-1").decode("utf-8", "replace")
    return re.sub(r"%[^%]*%", lambda it: f"<i>{it[0]}</i>", html.escape(text, quote=False))


def token_shown(token, signals, is_place, unreached=()):
    """A token as the page shows it: with the signals that it names, and marked where the run ended or what it did not reach."""
    text = html.escape(token.text, quote=False)
    kinds = " ".join(["place"] * is_place + ["unreached"] * bool(unreached))
    marks = (f' data-signals="{" ".join(map(str, signals))}"' if signals else "") + (f' class="{kinds}"' if kinds else "") + (' id="place"' if is_place else "")
    marks += f' title="{html.escape("; ".join(unreached))}"' if unreached else ""
    if token.text in lexer.RESERVED:
        return f"<b{marks}>{text}</b>"
    return f'<span data-at="{token.line}:{token.col}"{marks}>{text}</span>' if marks else text


def program_shown(run, numbers, unreached):
    """The text of the program, each of its names with the signals that it stands for; unreached is by places."""
    if not run.home.is_kernel:
        return wider_shown(run)
    text, place, shown, at = run.program.text, place_of_end(run), [], 0
    begins = [0] + [it.end() for it in re.finditer("\n", text)]
    for token, names in run.flat.named_tokens():
        begin = begins[token.line - 1] + token.col - 1
        shown.append(of_comment(text[at:begin]))
        shown.append(token_shown(token, [numbers[it] for it in names], (token.line, token.col) == place, unreached.get((token.line, token.col), ())))
        at = begin + len(token.text)
    return "".join(shown) + of_comment(text[at:])


def wider_shown(run):
    """The user's text of a program that is no kernel, with the place at which the run ended. What a name of it stands for
    depends on indices and calls, so names are not marked."""
    place, text = place_of_end(run), run.home.source
    at = run.home.expansion.at(*place).place if place else None
    if at is None or at.file != run.home.path:
        return of_comment(text)
    begin = sum(len(it) + 1 for it in text.split("\n")[: at.line - 1]) + at.col - 1
    end = begin + len(re.match(r"\w+|[^\w\s]", text[begin:] + " ")[0]) if text[begin : begin + 1].strip() else begin
    return f'{of_comment(text[:begin])}<span class="place" id="place">{html.escape(text[begin:end])}</span>{of_comment(text[end:])}'


def names_shown(signals, run, numbers):
    """The signals of a clock, those of a copy behind its path."""
    shown = []
    known = (it for it in signals if it in numbers and run.home.is_known(it))
    for copy, names in itertools.groupby(known, lambda it: run.home.name(it).rpartition(".")[0]):
        spans = " ".join(f'<span data-signals="{numbers[it]}">{html.escape(run.home.name(it).rpartition(".")[2])}</span>' for it in names)
        shown.append(f"<small>{'/'.join(run.flat.path(copy))}:</small> {spans}" if copy else spans)
    return " ".join(shown)


def clocks_shown(run, words, columns, numbers):
    """The clock tree as a list, each clock with when it comes; clocks of the compiler are counted."""
    classes, depths, items = run.classes, {None: -1}, []
    for number, above in classes.declared():
        depths[number] = depths[above] + 1
        told = f"<em>{html.escape(run.home.words(words[number])) or 'here'}: {columns[classes[number][0]].present()} of {columns.count}</em>"
        items.append(f'<li id="clock-{number}" style="margin-left:{18 * depths[number]}px">{told} {names_shown(classes[number], run, numbers)}</li>')
    hidden = len(classes) - len(items)
    return "\n".join(items + ([f"<li><em>and {hidden} clocks of signals of the compiler</em></li>"] if hidden else []))


def clock_words(run):
    """When the signals of each clock come; nothing for clocks of the compiler, or where no image is made of the program."""
    try:
        clocks = clocks_in_words.of_laid(run.laid)
    except running.Refused:
        return [""] * len(run.classes)
    return [clocks.words(signals[0]) if signals else "" for signals in run.classes.signals]


def data_of(run, words, columns, clocks):
    """What the script of the page reads, and the values of the signals packed."""
    numbers = {name: number for number, signals in enumerate(run.classes.signals) for name in signals}
    equations, states, home = run.flat.equations_by_name(), {**run.flat.states(), **run.home.states()}, run.home
    packed, signals = packing.Packed([columns[it.name] for it in run.flat.signals]), []
    for it, place in zip(run.flat.signals, packed.places):
        signals.append({
            "name": home.name(it.name), "own": home.name(it.name).rpartition(".")[2], "path": path_of(run, it), "kind": it.kind, "role": it.role,
            "clock": numbers[it.name], "packed": place, "equations": list(map(home.words, equations.get(it.name, []))),
        })  # fmt: skip
        signals[-1] |= {"states": states[it.name]} if it.name in states else {}
    found = {"first": words.first, "count": columns.count, "signals": signals, "clocks": clocks}
    return json.dumps(found, separators=(",", ":")).replace("<", "\\u003c"), packed.text()


def path_of(run, signal):
    """The calls around a signal, the outermost first."""
    return "/".join(run.flat.path(signal.copy)) if run.home.is_kernel else run.home.name(signal.name).rpartition(".")[0]


def note_of(run, words, columns):
    """Which instants the page has."""
    if not columns.count:
        return "no instant"
    total = AFTER.search(run.end)[1]
    return f"instants {words.first} to {words.first + columns.count - 1} of {total}"


def unreached_in(files, words):
    """What the run did not reach, by its places, and what is said of it; nothing where that is not asked for."""
    if not words.cover:
        return {}, ""
    found, left = covered.Covered(files, words.program, words.pace), {}
    found.follow(words.flows, words.instants)
    for it in found.coverage.left():
        left.setdefault((it.line, it.column), []).append(it.text)
    reached, goals = found.share()
    return left, f"; {reached} of {goals} reached, what is not is marked"


def page(run, words, columns):
    """The text of the page."""
    unreached, told = unreached_in(run.files, words)
    numbers = {it.name: number for number, it in enumerate(run.flat.signals)}
    names = picture_names.Names(run.flat, False, run.home)
    code = plans.Code(run.program.asked("code", *pace_flag.words_of(words.pace)))
    clocks = clock_words(run)
    data, packed = data_of(run, words, columns, clocks)
    end = run.end + (f" (in the copy {'/'.join(run.flat.path(run.copy))})" if run.copy else "")
    return string.Template(part("page.html")).substitute(
        title=html.escape(run.flat.name),
        style=part("view.css"),
        scheme=part("scheme.js"),
        script="".join(map(part, SCRIPTS)),
        manner="fault" if run.status else "plain",
        end=html.escape(end),
        program=program_shown(run, numbers, unreached),
        covered=told,
        clocks=clocks_shown(run, clocks, columns, numbers),
        links="\n".join(drawings.Drawing(code, run.classes, names).svg()),
        note=note_of(run, words, columns),
        data=data,
        packed=packed,
    )


def main():
    words = argparse.ArgumentParser(prog="sigc-view", description=__doc__, formatter_class=argparse.RawDescriptionHelpFormatter)
    traces.add_run_words(words)
    opened.add_include(words)
    words.add_argument("--cover", action="store_true", help="mark what the run did not reach, as sigc-run --cover prints it")
    words = words.parse_args()
    words.last = min(words.last or words.first + MOST_INSTANTS - 1, words.first + MOST_INSTANTS - 1)
    with running.Files(words.include) as files:
        run = traces.Run(files, words.program, words.flows, traces.run_words(words))
        columns = run_columns.Columns(run, words.first, words.last)
        sys.stdout.buffer.write(page(run, words, columns).encode("utf-8"))
        sys.stdout.flush()
        traces.told(run)
        return 0


def start():
    running.started("sigc-view", main)
