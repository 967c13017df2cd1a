"""Proves that a property holds of a program for all flows and at all instants, or shows flows that break it.

    tools/sigc-prove examples/thermostat.sig --never 'HEATING and TEMPERATURE > 30'
    tools/sigc-prove P.sig --never 'LEVEL > 100' --range RAIN=0..10 -o broken.flows
    tools/sigc-prove P.sig --never-ends --assume 'STEP > 0'

A property is an expression of the language over the signals of the program, those of calls too, as STOP#1.HERE; `--always E`
says that E is true whenever it comes, `--never E` that it is not, `--never-ends` that no operation overflows or divides by
zero, `--range A=0..100` that the values of A lie there, or, of an input, that its flow keeps to it. Without any, the boolean
outputs that the program names in comments `%assert B%`, one a comment, are claimed, and with --all all boolean outputs. A
property whose own arithmetic overflows is broken there. An instant at which operands of a property do not come together is
not looked at, which is said.

Claims are about instants that are committed: in these each value is one of the run. `--assume B` leaves out runs in which B is
false at an instant that is committed. In an instant that fails, which only --never-ends and --faults are about, a run
computes what stands before the operation that fails, in the order of the image, and nothing else. So B counts there if all of
its signals stand before that operation, and else nothing is assumed: the result that overflowed is no value of the run, so
`N < 1000` says nothing of it. What is proved so holds of each run that meets the assumptions as far as it has values.

If --never-ends is unknown, the operations that are not decided by themselves follow with their places; that takes as long again.

With --cover FOLDER, the folder of the program, the flow files that stand there are run, and for all that they do not reach
(as sigc-run --cover prints it) flows are looked for that reach it, or it is proved that no run does. They are written into the
folder as NAME.cover1.flows, with what sigc says of them as NAME.cover1.want. The status is 2 where something is not known.

With --certify a second solver (cvc5 or cvc4 of Debian, where there is one) checks what z3 proved: that the invariant which z3
found holds at first, that each instant keeps it, and that no instant within it breaks the claim. What was checked is said.

It queries z3 (Debian's package) about the image that `sigc build` makes, operation by operation, with integers of 64 bits. A
claim that is false is reported with a flow file, after sigc has run it up to the broken instant. What is proved is z3's word on
formulas that this script makes: no proof covers them. The status is 0 where all is proved, 1 where a claim is false, 2
where one is not decided in time, 3 if no query was possible, or no flows meet what is assumed.
"""
import argparse
import os
import sys
import time

from sigc.call import opened, running
from sigc.commands.run import pairs_of
from sigc.image import intervals, step_statements
from sigc.prove import certificates, counterexamples, covering, deciding, shortening, smt_formulas, systems, z3_solver
from sigc.prove.drawn_flows import Drawing, Wanted
from sigc.prove.counterexamples import flows_text, meets, run_of, shown
from sigc.prove.questions import UNASKED, Asked, refused
from sigc.read import lexer
from sigc.trace import covered, traces


class Claimed(argparse.Action):
    """Keeps the claims in the order in which they are made."""

    def __call__(self, parser, namespace, values, option=None):
        namespace.claims = [*(namespace.claims or []), (option.lstrip("-"), values)]


class Told:
    """The line of progress on a terminal."""

    def __init__(self):
        self.is_shown = sys.stderr.isatty()
        self.about = ""

    def __call__(self, what=""):
        if self.is_shown:
            text = f"{self.about}: {what}"[:78] if what else ""
            print(f"\r{text:<78}\r{text}", end="", file=sys.stderr, flush=True)


def formulas(asked):
    """The system of an instant, and the claims as its formulas."""
    properties = [it for _, _, it in asked.claimed]
    step = smt_formulas.Step(asked.image, [*properties, *asked.assumed])
    of_claims, of_assumed = step.watched[: len(properties)], step.watched[len(properties) :]
    claims = [systems.Claim(text, it.broken(is_true), it.comes(), False) for (text, is_true, _), it in zip(asked.claimed, of_claims)]
    return systems.System(step, of_assumed, asked.ranges, computed(asked)), claims, of_claims


def computed(asked):
    """The intervals of the memories, as sigc-c computes them from the ranges of inputs."""
    numbers = {it.name: at for at, it in enumerate(asked.image.signals[: asked.image.inputs])}
    given = {numbers[name]: it for name, it in asked.ranges.items()}
    return intervals.Ranges(step_statements.Steps(asked.image), given).memories


class Prover:
    """Decides claims one after another, and says what came of each."""

    def __init__(self, asked):
        self.asked, self.words, self.told = asked, asked.words, Told()
        self.system, self.claims, self.watched = formulas(asked)
        self.drawing = Drawing(asked.image, asked.ranges, [(it.property, it.last) for it in self.system.assumed])
        self.worst, self.written, self.is_empty = 0, None, False

    def answer(self, status):
        order = {0: 0, 3: 1, 2: 2, 1: 3}
        self.worst = max(self.worst, status, key=order.get)

    def decide(self, claim, wanted, seconds=None):
        self.told.about = claim.text
        try:
            return deciding.decided(self.system, claim, seconds or self.words.seconds, self.told, lambda until: self.drawn(wanted, until))
        except z3_solver.Gone as error:
            self.told()
            print(f"note: {error}", file=sys.stderr)
            return deciding.Verdict("unknown")
        finally:
            self.told()

    def drawn(self, wanted, until):
        self.told("drawn flows")
        return self.drawing.search(wanted, until)

    def whole(self):
        """All that is claimed."""
        if self.asked.assumed and self.may_come("true") is False:
            print("note: no instant of any flows meets what is assumed, so all that is claimed of instants holds")
            self.is_empty = True
            self.answer(UNASKED)
        for it in self.system.assumed:
            self.explain_ties(it)
        for claim, (_, is_true, property_), it in zip(self.claims, self.asked.claimed, self.watched):
            self.explain_ties(it)
            verdict = self.decide(claim, Wanted(property_, is_true))
            if verdict.word == "proved":
                self.proved(claim, verdict)
                if not self.is_empty and self.may_come(claim.comes) is False:
                    print("  note: it never comes")
            elif verdict.word == "false":
                self.refute(claim, verdict, is_true, property_)
            else:
                self.unknown(claim, verdict)
        if self.words.cover:
            self.answer(self.cover())
        any_, each = self.system.ends()
        if self.words.never_ends:
            self.end("never ends", any_)
        if self.words.faults:
            for it, formula in zip(self.system.step.faults, each):
                self.end(f"no {it.what} at {self.fault_place(it)}", formula, it)
            if not self.system.step.faults:
                print("proved: no operation can overflow or divide by zero")
        return self.worst

    def cover(self):
        """Looks for flows that reach what the runs of a folder leave."""
        program, folder = self.words.program, self.words.cover.rstrip("/") or "/"
        found = covered.Covered(self.asked.files, program, self.words.pace)
        for other, flows in pairs_of(folder):
            if os.path.samefile(other, program):
                found.follow(flows)
        print("\n".join(found.lines()), flush=True)
        return covering.Covering(self, found, folder).whole()

    def proved(self, claim, verdict):
        """Says what is proved, and with --certify what a second solver says of it."""
        checked = certificates.certified(self.system, self.system.broken(claim), verdict.proof, self.words.seconds) if self.words.certify else None
        if checked and checked.is_refuted:
            print(f"unknown: {claim.text}: {checked.said}")
        else:
            print(f"proved{' (nothing is left to prove it of)' if self.is_empty else ''}: {claim.text}")
        if checked and not checked.is_refuted:
            print(f"  {checked.said}")
        self.answer(0 if checked is None or checked.is_confirmed else 2)

    def may_come(self, formula):
        try:
            return deciding.may_come(self.system, formula, self.words.seconds / 3)
        except z3_solver.Gone:
            return None

    def unknown(self, claim, verdict):
        searched = f"none of the first {verdict.depth} instants breaks it" if verdict.depth else "no number of first instants is known not to break it"
        print(f"unknown: {claim.text} ({self.words.seconds} s, in which {searched}; --seconds N gives it more)")
        self.answer(2)

    def explain_ties(self, it):
        """Says where a property compares signals that do not always come together."""
        for node, formula in it.tied:
            if self.may_come(formula) is not False:
                text = self.asked.home.words(it.property.told(node))
                print(f"note: `{text}` ties the clocks of its operands, which do not always come together: where they do not, it is not looked at")

    def refute(self, claim, verdict, is_true, property_):
        """Tells a claim that is false, once sigc has run the flows to it."""
        flows, instants, number = shortening.shortened(self.asked, verdict.flows, is_true, property_)
        text = flows_text(self.asked, flows)
        if number is None:
            print(f"unknown: {claim.text}: the flows found do not break it")
            self.answer(2)
            return
        print(f"false: {claim.text}{counterexamples.place_of(claim.text, self.asked.home)}: broken at instant {number}")
        names = list(dict.fromkeys([*property_.signals(), *self.asked.inputs]))
        self.tell_flows(text, shown(instants[:number], names, self.asked.home))
        self.answer(1)

    def end(self, what, formula, fault=None):
        """Decides whether a run may end with a fault, or with this one."""
        claim = systems.Claim(what, formula, "true", True)
        verdict = self.decide(claim, Wanted(order=fault.order, what=fault.what) if fault else Wanted())
        if verdict.word == "proved":
            self.proved(claim, verdict)
        elif verdict.word == "unknown":
            self.unknown(claim, verdict)
            self.tell_reasons(() if fault else self.system.step.faults)
        else:
            self.refute_end(what, verdict, fault)

    def tell_reasons(self, faults):
        """Says of an end that is not decided which operations are the reason: those that are not decided by themselves in
        a share of the time."""
        pairs = [it for it in zip(faults, self.system.ends()[1]) if not deciding.is_soon_proved(self.system, it[1])]
        until = time.monotonic() + self.words.seconds
        for number, (it, formula) in enumerate(pairs):
            what = f"{it.what} at {self.fault_place(it)}"
            seconds = max(1, int((until - time.monotonic()) / (len(pairs) - number)))
            claim = systems.Claim(f"no {what}", formula, "true", True)
            word = self.decide(claim, Wanted(order=it.order, what=it.what), seconds).word if time.monotonic() < until else "unknown"
            if word != "proved":
                print(f"  {'not decided' if word == 'unknown' else 'may come'}: {what}")

    def fault_place(self, it):
        """Where an operation is that may have no value, and its signal."""
        return f"{self.asked.home.place(*self.asked.built.place(it.line, it.column))}{counterexamples.of_target(self.asked.home.name(it.target))}"

    def refute_end(self, what, verdict, fault):
        """Tells the end of a run, once sigc has run the flows to it."""
        text = flows_text(self.asked, verdict.flows)
        ran = run_of(self.asked, text)
        is_meant = ran.fault and (fault is None or ran.fault == (fault.what, *self.asked.built.place(fault.line, fault.column)))
        if not is_meant or not meets(self.asked, ran.instants):
            print(f"unknown: {what}: the flows found do not end so")
            self.answer(2)
            return
        print(f"false: {what}: {ran.line}")
        self.tell_flows(text, shown(ran.instants, self.asked.inputs, self.asked.home, counterexamples.left_of(self.asked, verdict.flows, ran.instants)))
        self.tell_unassumed(verdict.failed)
        self.answer(1)

    def tell_unassumed(self, failed):
        """Says which assumptions speak of what the failing instant does not compute before its fault."""
        for it in self.system.assumed:
            if it.last >= failed:
                text = self.asked.home.words(it.property.told(it.property.node))
                print(f"  note: `{text}` is not assumed of the instant that fails: the run ends before it computes all of that")

    def tell_flows(self, text, table):
        """Writes the flows of the first counterexample where that was asked for, and shows what they do."""
        if self.words.output and self.written is None:
            with open(self.words.output, "w", encoding="ascii") as out:
                out.write(text)
            self.written = self.words.output
            print(f"  flows: {self.words.output} (tools/sigc-trace {self.words.program} {self.words.output} shows all signals)")
        else:
            print("\n".join(f"  flow {line}" for line in text.splitlines()) or "  no flows")
        print("\n".join(table))


def read_words():
    words = argparse.ArgumentParser(prog="sigc-prove", description=__doc__, formatter_class=argparse.RawDescriptionHelpFormatter)
    words.add_argument("program", metavar="PROGRAM", help="the file of a program")
    words.add_argument("--always", metavar="E", action=Claimed, dest="claims", default=[], help="E is true whenever it comes")
    words.add_argument("--never", metavar="E", action=Claimed, dest="claims", default=[], help="E is not true, whenever it comes")
    words.add_argument("--never-ends", action="store_true", help="no operation overflows or divides by zero")
    words.add_argument("--faults", action="store_true", help="so of each operation for itself")
    words.add_argument("--all", action="store_true", help="all boolean outputs are true whenever they come")
    words.add_argument("--range", metavar="A=LOW..HIGH", action="append", default=[], help="the values of A; of an input it is assumed, of another signal claimed")
    words.add_argument("--assume", metavar="B", action="append", default=[], help="only runs at whose instants B is true whenever it comes")
    words.add_argument("--cover", metavar="FOLDER", help="look for flows that reach what those of FOLDER do not, and write them there")
    words.add_argument("--pace", action="store_true", help="let clocks stay independent, as sigc --pace does")
    words.add_argument("--certify", action="store_true", help="check what z3 proved by a second solver, cvc5 or cvc4; status 2 where it does not confirm it")
    words.add_argument("--seconds", metavar="N", type=traces.at_least(1), default=60, help="for each claim (60)")
    words.add_argument("-o", "--output", metavar="FLOWS", help="write the flows of the first claim that is false to this file")
    opened.add_include(words)
    return words.parse_args()


def main():
    words = read_words()
    if z3_solver.path() is None:
        raise refused(z3_solver.MISSING)
    if words.cover and os.path.realpath(words.cover) != os.path.dirname(os.path.realpath(words.program)):
        raise refused(f"--cover {words.cover}: name the folder of {words.program}, whose flows stand there")
    with running.Files(words.include) as files:
        try:
            asked = Asked(files, words)
        except lexer.Unreadable as error:
            raise refused(str(error)) from None
        except running.Refused as refusal:
            raise running.Refused(refusal.line, refusal.status if refusal.status == running.NO_PROGRAM else UNASKED) from None
        return Prover(asked).whole()


def start():
    running.started("sigc-prove", main)
