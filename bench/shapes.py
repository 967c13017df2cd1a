"""Programs that are small and cost much: one generator for each shape, over a count. bench/check.py measures them, and
bench/hostile.py looks for worse ones."""

import random


def program(inputs, lines, locals_="", output="integer Y"):
    """A program with these inputs and equations, of one output."""
    where = f"where {locals_} end" if locals_ else ""
    return f"process P = (? {inputs} ! {output})\n(| " + "\n | ".join(lines) + f"\n |) {where};\n"


def names(letter, count):
    return ", ".join(f"{letter}{i}" for i in range(count))


def pairs_of(count):
    """The disjunction of the conjunctions of two conditions each."""
    return " or ".join(f"B{i} and C{i}" for i in range(count))


def on_one_clock(*groups):
    """One clock equation over A and these signals."""
    return " ^= ".join(["A"] + [f"{letter}{i}" for letter, count in groups for i in range(count)])


def pairs(count):
    """One guard of so many pairs, of which all first conditions are declared before all second ones."""
    inputs = f"integer A; boolean {names('B', count)}, {names('C', count)}"
    return program(inputs, [f"Y := A when ({pairs_of(count)})", on_one_clock(("B", count), ("C", count))])


def pair_guards(count, guards=150):
    """Such a guard, and so many samplings of what it gives, by conditions that are declared before the pairs."""
    inputs = f"integer A; boolean {names('D', guards)}, {names('B', count)}, {names('C', count)}"
    lines = [f"F := {pairs_of(count)}", "Y := A when F", on_one_clock(("B", count), ("C", count), ("D", guards))]
    lines += [f"W{j} := Y when D{j}" for j in range(guards)]
    return program(inputs, lines, "boolean F;", f"integer Y, {names('W', guards)}")


def guards_last(count, guards=150):
    """The same with these conditions behind the pairs, so that each guard has a copy of their diagram."""
    first, last = names("D", guards), f"{names('B', count)}, {names('C', count)}"
    return pair_guards(count, guards).replace(f"boolean {first}, {last}", f"boolean {last}, {first}")


def xor_guards(count, guards=120):
    """So many guards that each are such a disjunction or a condition of their own, and not both."""
    inputs = f"integer A; boolean {names('B', count)}, {names('C', count)}, {names('D', guards)}"
    lines = [f"F := {pairs_of(count)}", on_one_clock(("B", count), ("C", count), ("D", guards))]
    lines += [f"W{j} := A when (F xor D{j})" for j in range(guards)]
    return program(inputs, lines, "boolean F;", f"integer {names('W', guards)}")


def circle(count):
    """A circle of booleans, each sampled by two of the others: its neighbour, and the one across."""
    across = lambda i: f"B{(i + 1) % count} xor B{(i + count // 2) % count}"
    lines = [f"B{i} := (A > {i}) when ({across(i)}) default (A > 0)" for i in range(count)]
    return program("integer A", ["Y := A"] + lines, f"boolean {names('B', count)};")


def distant_circle(count, distance=7):
    """A circle of booleans, each sampled by its neighbour and by one at a distance."""
    across = lambda i: f"B{(i + 1) % count} xor B{(i + distance) % count}"
    lines = [f"B{i} := (A > {i}) when ({across(i)}) default (A > 0)" for i in range(count)]
    return program("integer A", ["Y := A"] + lines, f"boolean {names('B', count)};")


def drawn_circle(count, seed):
    """A circle of booleans, each sampled by a function of some others, which is drawn."""
    draw = random.Random(seed)
    all_ = [f"B{i}" for i in range(count)]

    def function():
        some = draw.sample(all_, draw.randrange(2, 5))
        return "".join(f"({it} {draw.choice(['and', 'or', 'xor'])} " for it in some[1:]) + some[0] + (len(some) - 1) * ")"

    lines = [f"B{i} := (A > {i}) when {function()} default (A > 0)" for i in range(count)]
    return program("integer A", ["Y := A"] + lines, f"boolean {', '.join(all_)};")


def sums_of_products(count, distance, other=None):
    """Two guards that each sum products of conditions at a distance mod 2, of which one samples what the other gives: their
    diagrams are small, and so is that of both, but it has more pairs than a small table keeps. Each has so many conditions of
    its own, which stand in turn; or both have the same, with another distance for the second."""
    step, seconds = (2, 1) if other is None else (1, 0)
    sum_ = lambda begin, distance: " xor ".join(f"B{step * i + begin} and B{step * (i + distance) + begin}" for i in range(count - distance))
    sums = [f"F := {sum_(0, distance)}", f"G := {sum_(seconds, other or distance)}"]
    inputs = f"integer A; boolean {names('B', step * count)}"
    return program(inputs, [*sums, "Y := A when F", "V := Y when G", on_one_clock(("B", step * count))], "boolean F, G;", "integer Y, V")


def paced_merges(count, seed):
    """Merges of inputs that come independently of each other, drawn."""
    draw = random.Random(seed)
    inputs = [f"A{i}" for i in range(count)]
    merge = lambda: " default ".join(draw.sample(inputs, draw.randrange(2, 6)))
    lines = [f"Y{i} := {merge()}" for i in range(count)]
    return program(f"integer {', '.join(inputs)}", lines, output=f"integer {names('Y', count)}")


def merged(count):
    """All first signals of so many pairs, then all second ones."""
    return " default ".join(f"{letter}{i}" for letter in "UV" for i in range(count))


def tied(count):
    """So many signals that come only where another one does, and the other way round, under one merge."""
    inputs = f"integer {names('U', count)}, {names('V', count)}"
    lines = [f"Y := {merged(count)}"]
    for i in range(count):
        lines += [f"U{i} ^= (U{i} ^* V{i})", f"V{i} ^= (V{i} ^* U{i})"]
    return program(inputs, lines)


def apart(count):
    """So many pairs of signals that never come together, under one merge."""
    inputs = f"integer {names('U', count)}, {names('V', count)}"
    return program(inputs, [f"Y := {merged(count)}"] + [f"(U{i} ^* V{i}) ^= (Y ^- Y)" for i in range(count)])


def held(count):
    """So many signals that are held by themselves, under one merge, and the events that hold them under another."""
    merge = " default ".join(f"X{i}" for i in range(count))
    union = " ^+ ".join(f"B{i}" for i in range(count))
    lines = [f"Y := A default {merge}", f"Y ^= {union}"] + [f"X{i} := X{i} cell B{i} init 0" for i in range(count)]
    return program(f"integer A; boolean {names('B', count)}", lines, f"integer {names('X', count)};")


def merged_pairs(count):
    """A merge of signals of which each comes where both conditions of a pair are true, and once more of as many."""
    inputs = f"integer {names('U', count)}, {names('V', count)}; boolean {names('B', count)}, {names('C', count)}"
    lines = [f"Y := {merged(count)}", on_one_clock(("B", count), ("C", count)).removeprefix("A ^= ")]
    for i in range(count):
        lines += [f"U{i} ^= when (B{i} and C{i})", f"V{i} ^= U{i}"]
    return program(inputs, lines)


def clauses(count, conditions=60):
    """So many clauses of three conditions each, which a clock equation asks to hold at every instant; drawn, always the same."""
    draw = random.Random(1)
    inputs = [f"B{i}" for i in range(conditions)]
    clause = lambda: " or ".join(draw.choice(["", "not "]) + it for it in draw.sample(inputs, 3))
    asked = [f"A ^= when ({clause()})" for _ in range(count)]
    return program(f"integer A; boolean {', '.join(inputs)}", ["Y := A", on_one_clock(("B", conditions))] + asked)


def copied(count, equations=50_000):
    """So many calls of a process that has so many clock equations, which say nothing."""
    model = "\n | ".join(["A" + 500 * " ^= A"] * (equations // 500))
    lines = ["X0 := Q(A)"] + [f"X{i} := Q(X{i - 1})" for i in range(1, count)] + [f"Y := X{count - 1}"]
    inner = f"process Q = (? integer A ! integer Y)\n(| Y := A\n | {model} |);"
    return program("integer A", lines, f"integer {names('X', count)};\n{inner}\n")


def many_inputs(count):
    """So many inputs on one clock."""
    inputs = f"integer A, {names('A', count)}"
    return program(inputs, [f"Y := A{count - 1}", on_one_clock(("A", count))])


def products(count, lines, outputs):
    """Two guards F and G over four groups of conditions and one more, Z."""
    pairs = [" or ".join(f"{a}{i} and {b}{i}" for i in range(count)) for a, b in ("BD", "CE")]
    inputs = f"integer A; boolean {', '.join(names(letter, count) for letter in 'BCDE')}, Z"
    clock = on_one_clock(*[(letter, count) for letter in "BCDE"]) + " ^= Z"
    return program(inputs, [it.format(*pairs) for it in lines] + [clock], "boolean F, G;", outputs)


def excluded(count):
    """Two guards of pairs that never meet, of which the last condition alone tells it."""
    return products(count, ["F := ({0}) and Z", "G := ({1}) and not Z", "Y := A when (F and G)"], "integer Y")


def implied(count):
    """Two guards of pairs of which one implies the other, as the last condition alone tells."""
    return products(count, ["F := ({0}) and Z", "G := ({1}) or Z", "Y := A when G", "W := A when F"], "integer Y, W")


# the shapes, and the counts of which each is tried, worst first
SHAPES = {
    "pair-guards": (pair_guards, [20, 18, 14]),
    "guards-last": (guards_last, [14, 12]),
    "circle": (circle, [24, 18, 14]),
    "excluded": (excluded, [16, 14, 12, 10, 8]),
    "implied": (implied, [16, 14, 12, 10, 8]),
    "clauses": (clauses, [60, 50, 40]),
    "copied": (copied, [60, 20]),
    "merged-pairs": (merged_pairs, [24, 20, 18, 16, 14]),
    "tied": (tied, [18, 16, 14]),
    "apart": (apart, [18, 16, 14]),
    "held": (held, [16, 13]),
    "pairs": (pairs, [22, 21, 20, 18]),
    "xor-guards": (xor_guards, [13]),
}
