"""What a change of a crate of sigc touches: what stands above it, what proves again and how long that takes, where its rows
and its wrong bodies stand, and what to run next.

    tools/sigc-dev sig_print

Seconds are those of a processor, by the table of docs/gate-costs.md. CONTRIBUTING.md goes through one change.
"""
import argparse
import glob
import os
import re
import sys

from sigc.call import compiler
from sigc.hints import near_words
from sigc.places import TOP
from sigc.read import files_read

sys.path[:0] = [f"{TOP}/bench", f"{TOP}/tests"]
import crates
import gate_costs
import gate_model


def listed():
    """What crates.txt lists for each crate, the kit's crates too."""
    lines = [it.partition(":") for it in files_read.read_text(f"{TOP}/crates.txt").splitlines() if it and not it.startswith("#")]
    return {head.split()[0]: rest.split() for head, _, rest in lines}


def above(crate, below):
    """The crates that stand on a crate, by way of others too, lowest first."""
    found = [crate]
    for it in gate_model.dependencies(TOP):
        if it not in found and set(below[it]) & set(found):
            found.append(it)
    return found[1:]


def costs(names, below, figures):
    """The seconds that these crates take, and those of the longest chain of them, with its crates."""
    spent = {it: sum(figures.get(it, (0, 0, 0))) for it in names}
    proofs = {it: sum(figures.get(it, (0, 0, 0))[:2]) for it in names}
    chain = gate_model.chain_of({it: [one for one in below[it] if one in names] for it in names}, proofs)
    return sum(spent.values()), sum(it for _, it in chain), [it for it, _ in chain]


def rows(crate):
    """The files of rows whose heads name a crate, each with the number of its rows."""
    for path in sorted(glob.glob(f"{TOP}/tests/rows/*.txt")):
        head, _, rest = files_read.read_text(path).partition("\n\n")
        lines = f"{head}\n{rest}".splitlines()
        if re.search(rf"\b{crate}\b", head):
            yield os.path.basename(path), sum(not re.match(r"%|store |(\\n)?process |$", it) for it in lines)


def callers_of(crate, below):
    """The crates of tests that call a crate."""
    return sorted(it for it in below if it.startswith("sig_tests_") and crate in below[it])


def edits(crate):
    """The edits of the gate, and those that are tried on call, by name."""
    folders = (f"{TOP}/crates/{crate}/must-fail", f"{TOP}/wrong-bodies/{crate}")
    return [sorted(it.removesuffix(".edit") for it in os.listdir(folder)) if os.path.isdir(folder) else [] for folder in folders]


def say(word, text):
    print(f"{word:<11}{text}")


def minutes(seconds):
    return f"{seconds / 60:.1f} minutes"


def tell(crate):
    """All that there is to tell of a crate."""
    below, figures = listed(), gate_costs.figures_of(gate_costs.read_page())
    over = above(crate, below)
    spent, longest, chain = costs([crate, *over], below, figures)
    say(crate, crates.head(crate))
    say("stands on", " ".join(below[crate]) or "nothing")
    say("above it", f"{len(over)} crates: {' '.join(over)}" if over else "nothing")
    proof, tests, gate = figures.get(crate, (0, 0, 0))
    say("costs", f"proof {proof} s" + (f", tests {tests} s" if tests else "") + (f", edits {gate} s" if gate else ""))
    say("a change", f"proves again what took {spent} s, {minutes(spent)} of a processor; on many {minutes(longest)}, by the chain")
    say("", " ".join(chain))
    files, callers = list(rows(crate)), callers_of(crate, below)
    for name, count in files:
        say("rows", f"tests/rows/{name}, {count}")
    for it in callers:
        say("tests", f"crates/{it}")
    must, wrong = edits(crate)
    say("edits", f"crates/{crate}/must-fail: {' '.join(must)}" if must else "none in the gate")
    say("", f"wrong-bodies/{crate}: {len(wrong)}, {' '.join(wrong)}" if wrong else "no wrong bodies")
    next_steps(crate, over, below, proof, [it for it, _ in files], callers, bool(wrong))


def over_program(command, why):
    """A step that is asked of the program without proofs."""
    return command.replace("PROGRAM", "crates/sigc/out/unproved"), why


# What tells who shows or reads the texts of commands.
OVER_PROGRAM = [
    over_program("tools/sigc-build --unproved", "PROGRAM, some three minutes; what follows may go on beside `rt ci`"),
    over_program("python3 tests/rows.py PROGRAM commands", "the rows of commands, tests/rows/commands"),
    over_program("python3 tests/docs.py PROGRAM", "pages that show a text, and the lengths of pages"),
    over_program("SIGC=$PWD/PROGRAM python3 tests/scripts.py", "scripts that read a text; `grep -rn '\"tree\"' tools` finds who calls `sigc tree`"),
    over_program("python3 tests/faults.py PROGRAM", "answers where the outside fails"),
]


def next_steps(crate, over, below, proof, files, callers, has_wrong):
    """The commands to run, in order."""
    tops = [it for it in [crate, *over] if not any(it in below[one] for one in over)]
    steps = [(f"(cd crates/{crate} && rt check)", f"until it proves: {proof} s from nothing, less behind the first")]
    steps += [(f"(cd crates/sig_passes && rt try -- --rows $PWD/../../tests/rows/{it})", "its rows, nothing proved") for it in files]
    steps += [(f"(cd crates/{it} && rt try --test)", "its tests, nothing proved") for it in callers]
    steps += [("python3 tests/edits.py", "each edit of all crates still applies")]
    steps += [(f"bench/wrong_bodies.sh {crate}", "each wrong body is refused")] if has_wrong else []
    steps += [(f"(cd crates/{crate} && rt fmt && rt tidy)", "layout, and imports of proofs")]
    steps += OVER_PROGRAM if "sigc" in over else []
    steps += [(f"rt ci {' '.join(tops)}", "it and all above, from what changed"), (".ci/run", "the gate")]
    print("\nnext, from the top of the repository:")
    for command, why in steps:
        print(f"  {command}\n      {why}")


def main():
    words = argparse.ArgumentParser(prog="sigc-dev", description=__doc__, formatter_class=argparse.RawDescriptionHelpFormatter)
    words.add_argument("crate", metavar="CRATE", help="the name of a crate, as sig_print or print")
    given = words.parse_args().crate
    crate = next((it for it in (given, f"sig_{given}") if it in listed()), None)
    if crate is None:
        meant = near_words.near(given, list(listed())) or near_words.near(f"sig_{given}", list(listed()))
        print(f"sigc-dev: there is no crate {given}" + (f": did you mean {meant}?" if meant else ""), file=sys.stderr)
        return 2
    tell(crate)
    return 0


def start():
    sys.exit(compiler.guarded(main))
