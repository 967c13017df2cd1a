"""Flows for what runs did not reach: sigc-prove --cover.

The runs of a folder are followed as sigc-run --cover does. For each goal that they leave, flows are looked for that reach it;
or it is proved that no run does. Each flow file is written beside the others with what sigc says of it, and followed in
turn, so one file may reach several goals.
"""
import os

from sigc.call import running
from sigc.prove import counterexamples, deciding
from sigc.prove.drawn_flows import Wanted
from sigc.prove.smt_formulas import both, either, negated
from sigc.prove.systems import Claim


def formula_of(step, goal):
    """When an instant reaches a goal."""
    if goal.signal < 0:
        return either(*(step.guards[order] for order in goal.orders))
    seen = step.seen_of(goal.signal)
    return both(seen.there, seen.value if goal.value else negated(seen.value))


def is_reached(goal):
    """Says of a run in Python whether its last instant reached a goal."""
    if goal.signal < 0:
        return lambda run: any(run.done[order] for order in goal.orders)
    return lambda run: run.values[goal.signal] == goal.value


class Covering:
    """Looks for flows, goal after goal."""

    def __init__(self, prover, covered, folder):
        self.prover, self.covered, self.folder, self.written = prover, covered, folder, []
        self.name = os.path.basename(prover.words.program).removesuffix(".sig")
        self.unreachable, self.unknown = [], []

    def whole(self):
        """All goals that are left; the status."""
        for goal in list(self.covered.coverage.left()):
            if goal in self.covered.coverage.left():
                self.look_for(goal)
        path = self.prover.words.program
        for goal, why in [*((it, "no run reaches this") for it in self.unreachable), *((it, "no flows were found") for it in self.unknown)]:
            print(f"{path}:{goal.line}:{goal.column}: {goal.text}: {why}")
        reached, goals = self.covered.share()
        print(f"{path}: {reached} of {goals} reached, {len(self.unreachable)} proved out of reach, {len(self.unknown)} unknown; {len(self.written)} flow {'file' if len(self.written) == 1 else 'files'} written")
        return 2 if self.unknown else 0

    def look_for(self, goal):
        system = self.prover.system
        claim = Claim(goal.text, formula_of(system.step, goal), "true", False)
        verdict = self.prover.decide(claim, Wanted(is_reached=is_reached(goal)))
        if verdict.word == "proved":
            self.unreachable.append(goal)
        elif verdict.word == "unknown" or not self.keep(goal, counterexamples.flows_text(self.prover.asked, verdict.flows)):
            self.unknown.append(goal)

    def keep(self, goal, text):
        """Writes flows with what sigc says of them, where they reach the goal and keep to what is assumed."""
        asked = self.prover.asked
        ran = counterexamples.run_of(asked, text)
        if not counterexamples.meets(asked, ran.instants):
            return False
        path = asked.files.written("reach.flows", text)
        self.covered.follow(path)
        if goal in self.covered.coverage.left():
            return False
        base = self.fresh()
        with open(f"{base}.flows", "w", encoding="ascii") as out:
            out.write(text)
        with open(f"{base}.want", "w", encoding="latin-1") as out:
            out.writelines(f"{line}\n" for line in self.said(path))
        self.written.append(base)
        count = len(ran.instants)
        print(f"{base}.flows: {count} {'instant' if count == 1 else 'instants'}; at {goal.line}:{goal.column} {goal.about} {goal.now}")
        return True

    def said(self, path):
        """What sigc writes of a run, and how it ends."""
        pace = ["--pace"] if self.prover.words.pace else []
        with running.Call("run", self.covered.path, path, "--workers", "0", *pace) as call:
            lines = list(call.lines())
            end, _ = call.ended()
        return [*lines, end]

    def fresh(self):
        """The next name of a case that no file has."""
        number = 1
        while any(os.path.exists(f"{self.folder}/{self.name}.cover{number}.{kind}") for kind in ("flows", "want")):
            number += 1
        return f"{self.folder}/{self.name}.cover{number}"
