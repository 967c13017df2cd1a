#!/usr/bin/env python3
"""hostile.py SIGC: looks for small programs whose compilation takes long, guided by time.

It draws programs of some families (boolean functions of conditions on one clock as guards, circles of booleans that sample one
another, signals that clock equations tie, nested samplings and merges, clauses that clocks have to meet, held signals, guards
whose diagrams stay small while their pairs are many, independent inputs at paces) and changes those that took longest: names and operators are exchanged, declarations and equations change their places, equations
are repeated or go. `SIGC check` runs on each, one at a time and at low priority, with so much processor time at most. It
prints each program that is worse than its family's worst, and keeps the worst of each family and answer in a folder, as FAMILY-ANSWER.sig with a
first line that tells time and memory. The draws are those of the seed.

hostile.py SIGC --again FOLDER runs the programs of a folder instead, worst first, and prints their times.
"""
import argparse
import os
import random
import re
import resource
import subprocess
import sys
import tempfile
import time

from shapes import merged, names, on_one_clock, pairs_of, program

NAME = re.compile(r"\b[A-Z][0-9]*\b")
GROUPS = [["and", "or", "xor"], ["^+", "^*", "^-"]]
MOST_BYTES = 12_000
# the flags with which the programs of a family are checked
FLAGS = {"paces": ["--pace"]}


def formula(draw, leaves, size):
    """A boolean function of some of these names."""
    if size <= 1:
        return ("not " if draw.random() < 0.2 else "") + draw.choice(leaves)
    left = draw.randrange(1, size)
    return f"({formula(draw, leaves, left)} {draw.choice(GROUPS[0])} {formula(draw, leaves, size - left)})"


def matching(draw, leaves):
    """A disjunction, or a parity, of conjunctions of two, over a random matching."""
    some = draw.sample(leaves, len(leaves) // 2 * 2)
    couples = [f"{a} {draw.choice(['and', 'xor'])} {b}" for a, b in zip(some[::2], some[1::2])]
    return f" {draw.choice(['or', 'xor'])} ".join(f"({it})" for it in couples)


def guards(draw):
    """Guards that are functions of functions of conditions on one clock."""
    count, functions = draw.randrange(6, 40), draw.randrange(1, 8)
    inputs = [f"B{i}" for i in range(count)]
    draw.shuffle(inputs)
    lines, known = [on_one_clock(("B", count))], list(inputs)
    for j in range(functions):
        some = draw.sample(inputs, draw.randrange(4, count + 1))
        text = matching(draw, some) if draw.random() < 0.6 else formula(draw, draw.sample(known, min(len(known), 30)), draw.randrange(2, 40))
        lines.append(f"F{j} := {text}")
        known.append(f"F{j}")
    samplings = draw.randrange(1, 60)
    uses = [f"F{j}" for j in range(functions)] + draw.sample(inputs, 3)
    for k in range(samplings):
        before = "A" if k == 0 or draw.random() < 0.7 else f"Y{draw.randrange(k)}"
        lines.append(f"Y{k} := {before} when {formula(draw, uses, draw.randrange(1, 4))}")
    draw.shuffle(lines)
    return program(f"integer A; boolean {', '.join(inputs)}", lines, f"boolean {names('F', functions)};", f"integer {names('Y', samplings)}")


def circles(draw):
    """Booleans of which each is sampled by some of the others."""
    count = draw.randrange(4, 40)
    all_ = [f"B{i}" for i in range(count)]
    other = lambda i: draw.choice([f"(A > {draw.randrange(9)})", draw.choice(all_)])
    lines = [f"B{i} := {other(i)} when {formula(draw, all_, draw.randrange(1, 5))} default {other(i)}" for i in range(count)]
    lines += [f"C{i} := A when {formula(draw, all_, 2)}" for i in range(draw.randrange(0, 6))]
    outputs = "integer Y" + "".join(f", C{i}" for i in range(len(lines) - count))
    return program("integer A", ["Y := A"] + lines, f"boolean {', '.join(all_)};", outputs)


def clocks(draw, leaves, size):
    """An event of the presences of some of these names."""
    if size <= 1:
        return draw.choice(leaves)
    left = draw.randrange(1, size)
    return f"({clocks(draw, leaves, left)} {draw.choice(GROUPS[1])} {clocks(draw, leaves, size - left)})"


def ties(draw):
    """Signals under one merge that clock equations tie to one another."""
    count = draw.randrange(4, 30)
    all_ = [f"{letter}{i}" for letter in "UV" for i in range(count)]
    lines = [f"Y := {merged(count)}"]
    for i in range(count):
        two = [f"U{i}", f"V{i}"] if draw.random() < 0.7 else draw.sample(all_, 2)
        for _ in range(draw.randrange(1, 3)):
            lines.append(f"{clocks(draw, two, draw.randrange(1, 3))} ^= {clocks(draw, two + ['Y'], draw.randrange(1, 4))}")
    return program(f"integer {', '.join(all_)}", lines)


def samplings(draw):
    """Samplings of samplings by inputs and comparisons, and merges of them."""
    count = draw.randrange(4, 60)
    inputs, lines, outputs = [], ["Y := X0", "X0 := A + 1"], ["X0"]
    for i in range(1, count):
        before = f"X{draw.randrange(max(0, i - 6), i)}"
        is_merge = i > 2 and draw.random() < 0.4
        if is_merge:
            lines.append(f"X{i} := " + " default ".join(draw.sample(outputs, min(i, draw.randrange(2, 6)))))
        else:
            is_input = draw.random() < 0.6
            inputs += [f"B{i}"] if is_input else []
            lines.append(f"B{i} ^= {before}" if is_input else f"B{i} := {before} > {i}")
            lines.append(f"X{i} := {before} when {draw.choice(['', 'not '])}B{i}")
        outputs.append(f"X{i}")
    booleans = [it.split()[0] for it in lines if it.startswith("B") and ":=" in it]
    locals_ = f"integer {', '.join(outputs)};" + (f" boolean {', '.join(booleans)};" if booleans else "")
    return program("integer A" + (f"; boolean {', '.join(inputs)}" if inputs else ""), lines, locals_)


def clauses(draw):
    """Clauses over conditions, which a clock equation asks to be met."""
    count = draw.randrange(6, 60)
    inputs = [f"B{i}" for i in range(count)]
    clause = lambda: " or ".join(draw.choice(["", "not "]) + it for it in draw.sample(inputs, 3))
    asked = [f"(when ({clause()})) ^= A" for _ in range(draw.randrange(count // 2, 4 * count))]
    lines = [on_one_clock(("B", count)), "Y := A"] + asked[: 480 // 8]
    return program(f"integer A; boolean {', '.join(inputs)}", lines)


def holding(draw):
    """Signals that are held by themselves or by one another, under a merge."""
    count = draw.randrange(4, 24)
    lines = [f"Y := A default {' default '.join(f'X{i}' for i in range(count))}"]
    lines.append(f"{draw.choice('YA')} ^= {' ^+ '.join(f'B{i}' for i in range(count))}")
    for i in range(count):
        of = f"X{i}" if draw.random() < 0.7 else f"X{draw.randrange(count)}"
        lines.append(f"X{i} := {of} cell B{i} init 0")
    return program(f"integer A; boolean {names('B', count)}", lines, f"integer {names('X', count)};")


def products(draw):
    """Two guards of pairs of conditions, far from one another, and a third that needs both."""
    count = draw.randrange(4, 14)
    order = [f"{letter}{i}" for letter in draw.sample("BCDE", 4) for i in range(count)]
    first, second = (" or ".join(f"{a}{i} {draw.choice(['and', 'xor'])} {b}{i}" for i in range(count)) for a, b in ("BD", "CE"))
    lines = [f"F := ({first}) {draw.choice(['and', 'or'])} Z", f"G := ({second}) {draw.choice(['and not', 'or', 'or not'])} Z"]
    lines += ["Y := A when G", "W := A when F"] + draw.choice([[], ["V := A when (F and G)"], ["V := Y when F"], ["V := Y + W"]])
    lines.append(on_one_clock(*[(letter, count) for letter in "BCDE"]) + " ^= Z")
    outputs = "integer Y, W" + (", V" if any(it.startswith("V") for it in lines) else "")
    return program(f"integer A; boolean {', '.join(order)}, Z", lines, "boolean F, G;", outputs)


def merges(draw):
    """Merges of samplings by functions of conditions, and samplings of these merges."""
    count, merges_ = draw.randrange(4, 24), draw.randrange(1, 12)
    inputs = [f"{letter}{i}" for letter in "BC" for i in range(count)]
    draw.shuffle(inputs)
    lines = [on_one_clock(("B", count), ("C", count))]
    lines += [f"X{i} := A when ({formula(draw, [f'B{i}', f'C{i}'] + draw.sample(inputs, 2), draw.randrange(1, 4))})" for i in range(count)]
    for j in range(merges_):
        some = draw.sample(range(count), draw.randrange(2, count + 1))
        known = [f"X{i}" for i in some] + [f"Y{i}" for i in range(j)]
        lines.append(f"Y{j} := {' default '.join(draw.sample(known, min(len(known), draw.randrange(2, 20))))}")
        if draw.random() < 0.5:
            lines.append(f"F{j} := (Y{j} when {draw.choice(inputs)}) default 0 when {draw.choice(inputs)}")
    outputs = [it.split()[0] for it in lines if it[0] in "YF"]
    return program(f"integer A; boolean {', '.join(inputs)}", lines, f"integer {names('X', count)};", f"integer {', '.join(outputs)}")


def sums(draw):
    """Guards that each join products of conditions at a small distance, so that a diagram stays small, over conditions of their own
    or shared ones; and samplings that need several of them."""
    functions, each = draw.randrange(2, 4), draw.randrange(8, 26)
    inputs = [f"B{i}" for i in range(functions * each)]
    lines = [on_one_clock(("B", len(inputs)))]
    for j in range(functions):
        own = inputs[j::functions] if draw.random() < 0.7 else inputs[: 2 * each]
        distance, inner, outer = draw.randrange(3, 9), draw.choice(["and", "and", "or", "xor"]), draw.choice(["xor", "xor", "or"])
        lines.append(f"F{j} := " + f" {outer} ".join(f"({a} {inner} {b})" for a, b in zip(own, own[min(distance, each - 1) :])))
    samplings = draw.randrange(2, 6)
    for k in range(samplings):
        before = draw.choice(["A", *(f"Y{i}" for i in range(k))])
        lines.append(f"Y{k} := {before} when {formula(draw, [f'F{j}' for j in range(functions)], draw.randrange(1, 3))}")
    inputs = f"integer A; boolean {', '.join(inputs)}"
    return program(inputs, lines, f"boolean {names('F', functions)};", f"integer {names('Y', samplings)}")


def paces(draw):
    """Merges of inputs that come independently of one another, samplings of them, and some clock equations."""
    count, merges_ = draw.randrange(4, 60), draw.randrange(2, 60)
    inputs = [f"A{i}" for i in range(count)]
    known, lines = list(inputs), []
    for i in range(merges_):
        some = draw.sample(known, draw.randrange(1, min(len(known), 6) + 1))
        lines.append(f"Y{i} := {' default '.join(some)}" + (f" when (B{i % 4} and B{(i + 1) % 4})" if draw.random() < 0.1 else ""))
        known += [f"Y{i}"] if draw.random() < 0.5 else []
    for _ in range(draw.randrange(0, 6)):
        lines.append(f"{clocks(draw, inputs, draw.randrange(1, 3))} ^= {clocks(draw, inputs, draw.randrange(1, 3))}")
    lines.append(on_one_clock(("B", 4)).removeprefix("A ^= "))
    return program(f"integer {', '.join(inputs)}; boolean {names('B', 4)}", lines, output=f"integer {names('Y', merges_)}")


FAMILIES = {
    "merges": merges,
    "guards": guards,
    "circles": circles,
    "ties": ties,
    "samplings": samplings,
    "clauses": clauses,
    "holding": holding,
    "products": products,
    "sums": sums,
    "paces": paces,
}


def parts_of(text):
    """The head of a program, its equations, and its end."""
    head, _, rest = text.partition("\n(| ")
    body, _, end = rest.rpartition("\n |)")
    return head, body.split("\n | "), end


def changed(draw, text):
    """The program with one change, which may be none that is accepted."""
    head, lines, end = parts_of(text)
    at = draw.randrange(len(lines))
    kind = draw.randrange(6)
    if kind == 0:
        found = NAME.findall(lines[at])
        alike = [it for it in NAME.findall(text) if it != "P"]
        lines[at] = exchanged(draw, lines[at], NAME, lambda old: draw.choice([it for it in alike if it[0] == old[0]] or alike)) if found else lines[at]
    elif kind == 1:
        group = draw.choice(GROUPS)
        lines[at] = exchanged(draw, lines[at], re.compile("|".join(map(re.escape, group))), lambda _: draw.choice(group))
    elif kind == 2:
        head = re.sub(r"(boolean|integer) ([^;!)]+)", lambda it: f"{it[1]} {shuffled(draw, it[2])} ", head)
    elif kind == 3:
        other = draw.randrange(len(lines))
        lines[at], lines[other] = lines[other], lines[at]
    elif kind == 4 and not lines[at].startswith(("Y", "X", "F")):
        del lines[at]
    else:
        head, lines = repeated(draw, head, lines, at)
    return f"{head}\n(| " + "\n | ".join(lines) + f"\n |){end}"


def exchanged(draw, line, pattern, choose):
    """The line with something else in the place of one thing found."""
    found = list(pattern.finditer(line))
    if not found:
        return line
    it = draw.choice(found)
    return line[: it.start()] + choose(it[0]) + line[it.end():]


def shuffled(draw, list_):
    """A list of names with some of its names elsewhere."""
    found = list_.replace(",", " ").split()
    start = draw.randrange(len(found))
    piece = found[start : start + draw.randrange(1, len(found) + 1)]
    rest = [it for it in found if it not in piece]
    place = draw.randrange(len(rest) + 1)
    if draw.random() < 0.3:
        draw.shuffle(piece)
    return ", ".join(rest[:place] + piece + rest[place:])


def repeated(draw, head, lines, at):
    """An equation once more, of a new output where it defines a signal."""
    name, is_definition, right = lines[at].partition(" := ")
    if not is_definition or " ! integer " not in head:
        return head, lines + [lines[at]]
    new = f"N{draw.randrange(10**6)}"
    kind = "integer" if name[0] in "YXWVC" and "when" in right or name == "Y" else "boolean"
    head = head.replace(" ! integer ", f" ! {kind} {new}; integer ", 1)
    return head, lines + [f"{new} := {right}"]


def checked(sigc, text, folder, seconds, flags=()):
    """The answer of a check with these flags, its processor seconds, and its peak memory in MB."""
    path = os.path.join(folder, "program.sig")
    with open(path, "w", encoding="ascii") as file:
        file.write(text)

    def limits():
        os.nice(10)
        resource.setrlimit(resource.RLIMIT_CPU, (seconds, seconds + 1))

    child = subprocess.Popen([sigc, "check", path, *flags], stdin=subprocess.DEVNULL, stdout=subprocess.PIPE, stderr=subprocess.STDOUT, preexec_fn=limits)
    out = child.stdout.read().decode("latin-1").strip().split("\n")[-1]
    _, status, usage = os.wait4(child.pid, 0)
    return out if not os.WIFSIGNALED(status) else f"signal {os.WTERMSIG(status)}", usage.ru_utime + usage.ru_stime, usage.ru_maxrss // 1024


def kind_of(answer):
    """The answer without its names and places."""
    if "clock of" in answer:
        return "undetermined"
    return re.sub(r"error ?[0-9:]*:? ?", "", answer.split(":")[0] if answer.startswith("8000000") else answer).split(" ")[0] or "other"


class Search:
    """The worst programs of each family and answer."""

    def __init__(self, words, folder):
        self.words, self.folder, self.worst, self.tried = words, folder, {}, 0

    def begin(self, kept):
        """Runs the programs that an earlier search kept."""
        for name in sorted(os.listdir(kept)):
            family = name.split("-")[0]
            if name.endswith(".sig") and family in self.words.family:
                with open(os.path.join(kept, name), encoding="ascii") as file:
                    text = re.sub(r"\A%.*%\n", "", file.read())
                self.run(family, text)

    def run(self, family, text):
        """Checks a program, and keeps it where it is worse than the worst of its kind."""
        answer, seconds, memory = checked(self.words.sigc, text, self.folder, self.words.seconds, FLAGS.get(family, ()))
        self.tried += 1
        self.keep((family, kind_of(answer)), text, answer, seconds, memory)

    def step(self, draw):
        """Draws a program, or changes one of the worst, and keeps it where it is worse."""
        known = [it for it in self.worst if self.worst[it][0] < 0.9 * self.words.seconds]
        if known and draw.random() < 0.75:
            family, _ = key = draw.choice(known)
            text = self.worst[key][1]
            for _ in range(draw.choice([1, 1, 2, 4, 8])):
                text = changed(draw, text)
        else:
            family = draw.choice(self.words.family)
            text = FAMILIES[family](draw)
        if len(text) <= self.words.bytes:
            self.run(family, text)

    def keep(self, key, text, answer, seconds, memory):
        if seconds <= max(0.05, self.worst.get(key, (0,))[0]):
            return
        self.worst[key] = (seconds, text)
        line = f"{key[0]}-{key[1]}: {seconds:.2f} s, {memory} MB, {len(text)} bytes: {answer}"
        print(f"{self.tried}: {line}", flush=True)
        with open(os.path.join(self.words.keep, f"{key[0]}-{key[1]}.sig"), "w", encoding="ascii") as file:
            file.write(f"% {line.replace('%', '')} %\n{text}")


def again(sigc, kept, seconds, folder):
    """Runs kept programs again, and prints them, worst first."""
    found = []
    for name in sorted(os.listdir(kept)):
        if name.endswith(".sig"):
            with open(os.path.join(kept, name), encoding="ascii") as file:
                found.append((*checked(sigc, file.read(), folder, seconds, FLAGS.get(name.split("-")[0], ())), name))
    for answer, seconds_, memory, name in sorted(found, key=lambda it: -it[1]):
        print(f"{name}: {seconds_:.2f} s, {memory} MB: {answer}")


def main():
    words = argparse.ArgumentParser(description=__doc__, formatter_class=argparse.RawDescriptionHelpFormatter)
    words.add_argument("sigc", help="the program sigc")
    words.add_argument("--minutes", type=float, default=60, help="how long it looks (60)")
    words.add_argument("--seconds", type=int, default=30, help="the most processor time of a check (30)")
    words.add_argument("--bytes", type=int, default=MOST_BYTES, help=f"the longest program ({MOST_BYTES})")
    words.add_argument("--seed", type=int, default=1)
    words.add_argument("--family", action="append", choices=sorted(FAMILIES), help="these families alone")
    words.add_argument("--keep", default="hostile-programs", help="the folder of what is kept (hostile-programs)")
    words.add_argument("--begin", metavar="FOLDER", help="begin with the programs of this folder")
    words.add_argument("--again", metavar="FOLDER", help="run the programs of this folder")
    words = words.parse_args()
    words.sigc, words.family = os.path.abspath(words.sigc), words.family or sorted(FAMILIES)
    with tempfile.TemporaryDirectory() as folder:
        if words.again:
            return again(words.sigc, words.again, words.seconds, folder)
        os.makedirs(words.keep, exist_ok=True)
        search, draw, end = Search(words, folder), random.Random(words.seed), time.time() + 60 * words.minutes
        if words.begin:
            search.begin(words.begin)
        while time.time() < end:
            search.step(draw)
        print(f"{search.tried} programs")
    return 0


if __name__ == "__main__":
    sys.exit(main())
