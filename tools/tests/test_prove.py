"""sigc-prove: formulas that run as sigc does, properties with known answers, and a z3 that is not there or fails."""
import os
import random
import re
import signal
import subprocess
import sys
import tempfile
import time
import unittest

from calling import EXAMPLES, TOOLS, needs_sigc, pairs, ran, sigc, written
from formulas import Runner
from programs import Program

from sigc.call import running
from sigc.image import equal_memories, image_runs, images
from sigc.prove import induction, property_language, searching, smt_formulas, systems, z3_solver
from sigc.trace import flow_values, traces

needs_z3 = unittest.skipUnless(z3_solver.path(), "z3 is not installed")
DRAWN = int(os.environ.get("PROVE_DRAWN", 60))
SECONDS = "20"

COUNTER = "process P = (? boolean B ! integer N) (| ZN := N $ init 0 | N := (0 when B) default (ZN + 1 when ZN < 10) default ZN | N ^= B |) where integer ZN; end;\n"
TURN = "process P = (? event TICK ! integer N; boolean ODD) (| N := ((N $ init 0) + 1) modulo 6 | N ^= TICK | ODD := (N modulo 2) = 1 |);\n"
SLOW = (
    "process P = (? boolean B; integer A ! integer Y; event UP)\n"
    "(| A ^= when B | Y := A cell B init 5 | UP := when (B and not WAS) | WAS := B $ init false |) where boolean WAS; end;\n"
)
CALLS = (
    "process P = (? boolean OPEN, SHUT ! boolean GATE)\n"
    "(| GATE := LATCH(OPEN, SHUT) | OPEN ^= SHUT |)\n"
    "where process LATCH = (? boolean S, R ! boolean Q)\n"
    "  (| Q := (false when R) default (true when S) default Z | Z := Q $ init false | Q ^= S |) where boolean Z; end;\nend;\n"
)
DIVIDES = "process P = (? integer A, B ! integer Q, R) (| Q := A / B | R := A modulo B |);\n"
SUMS = "process P = (? integer A ! integer S, D) (| S := A + A | D := A - 1 |);\n"
TWO = "process P = (? integer U, V ! integer Y, Z) (| Y := U + 1 | Z := V + 1 |);\n"
PACED = "process P = (? integer U, V ! boolean POS; integer Y, Z; boolean OK)\n(| POS := U > 0 | Y := U + 1 | OK := Y > U\n | Z := V + 1 |);\n"
PACED_INSIDE = "process P = (? integer L, Y, N ! boolean OK; integer Z)\n(| OK := L = L\n | Z := L + 1 | K := Y ^* N | K ^= K ^- K | Y ^= when ((N ^+ Y) $ init false) |) where event K; end;\n"
PAIR = "process P = (? boolean B ! integer X, Y) (| X := (X $ init 0) + 1 - (X $ init 0) | Y := X | X ^= B |);\n"
SWAP = "process P = (? event E ! boolean L, R) (| L := R $ init false | R := L $ init true | L ^= E |);\n"
BOUNDED = "process P = (? integer A ! integer M) (| ZM := M $ init 0 | M := (A when A > ZM when A < 1000) default ZM | M ^= A |) where integer ZM; end;\n"
ASSERTED = "process P = (? event E ! integer N; boolean FINE, BAD) (| N := ((N $ init 0) + 1) modulo 4 | N ^= E | FINE := N < 4 %assert FINE% | BAD := N < 3 |);\n"
CALLED = CALLS + "%assert LATCH#1.Q%\n"
HELD = (
    "process P = (? integer A; boolean B ! integer Y)\n"
    "(| M := ((A * 1000 + 7) when B) default ZM | ZM := M $ init 0 | N := ((ZM * 3) when B) default ZN | ZN := N $ init 0\n"
    " | A ^= B ^= M ^= N | Y := ZN * ZN * ZN |) where integer M, ZM, N, ZN; end;\n"
)
ROOT = """constant integer TWO = 2;
process P = (? [2] integer T ! integer Q, N)
(| Q := 100 / (T[0] * T[0] - TWO * T[1] * T[1])
 | N := Q / 3 + T[0]
 |);
"""
LATE = "process P = (? integer A ! integer Y) (| Y := 7 / ((A $ init 1) - 1 + 1) |);\n"
ADDS = "process P = (? integer A ! integer N) (| N := (N $ init 0) + A |);\n"
CHECKED = "process P = (? integer A ! integer Y; boolean SMALL) (| Y := A + 100 | SMALL := A < 100 |);\n"
FIRST = "process P = (? integer A, B ! integer X, Y) (| X := A / B | Y := A + B |);\n"
CROSSING = """process P = (? event SECOND; boolean BUTTON ! integer CARS; boolean WALK)
(| STATE := NEXT $ init 0
 | NEXT := (2 when STATE = 0 and REQUEST and ZT >= 20) default (3 when STATE = 2 and ZT >= 10) default (0 when STATE = 3 and ZT >= 4) default STATE
 | T := (0 when NEXT /= STATE) default (ZT + 1) | ZT := T $ init 0
 | REQUEST := (true when BUTTON) default (false when STATE = 2) default (REQUEST $ init false)
 | REQUEST ^= SECOND ^= BUTTON ^= STATE
 | CARS := (0 when STATE = 0) default (1 when STATE = 1) default (2 when ^STATE) | WALK := STATE = 2
 |)
where integer STATE, NEXT, T, ZT; boolean REQUEST; end;
"""
DEEP = "process P = (? event E ! integer N) (| N := (N $ init 0) + 1 | N ^= E |);\n"
HARD = "process P = (? integer A ! integer Y) (| Y := ((A * A * A) + (ZY * ZY * A)) modulo 1000033 | ZY := Y $ init 1 |) where integer ZY; end;\n"
TWICE = """process P = (? boolean R ! integer X, D)
(| X := (0 when R) default (0 when Z >= 100) default (Z + 1) | X ^= R | Z := X $ init 0
 | Y := X | W := Y $ init 0 | D := W - (X $ init 0) + ((V $ init 5) - (X $ init 5)) + (U $ init 0) | V := X | U := (0 * R2) | R2 := (1 when R) default (2 when ^R)
 |)
where integer Z, Y, W, V, U, R2; end;
"""
CRUISE = """process P = (? boolean SET, ON, OFF; integer SPEED ! integer THROTTLE; boolean ACTIVE)
(| SET ^= ON ^= OFF ^= SPEED ^= ACTIVE
 | ACTIVE := (false when OFF) default (true when ON) default (ACTIVE $ init false)
 | WANTED := (SPEED when SET) default (WANTED $ init 0)
 | ERROR := WANTED - SPEED
 | I := (0 when not ACTIVE) default ((I $ init 0) when (SATURATED $ init false)) default ((I $ init 0) + 2 * ERROR)
 | RAW := (40 * ERROR + I) / 256
 | (THROTTLE, SATURATED) := CLIP{0, 1000}(RAW)
 |)
where
 integer WANTED, ERROR, I, RAW; boolean SATURATED;
 process CLIP = {integer LOW, HIGH} (? integer X ! integer Y; boolean S)
 (| Y := (LOW when X < LOW) default (HIGH when X > HIGH) default X | S := X /= Y |);
end;
"""
NAMELESS = "process P = (? integer A ! integer Y, Z) (| Y := (A + 1) + 2 | Z := F(A) |) where\n"
NAMELESS += "process F = (? integer X ! integer Y)\n   (| Y := X * X * X |); end;\n"

# a program, words, and what is to be said of each claim
ROWS = [
    (COUNTER, ["--always", "N >= 0", "--always", "N <= 10", "--never", "N > 9", "--always", "N <= 11", "--never", "N = 10 and B"], "proved proved false proved proved"),
    (COUNTER, ["--never-ends"], "proved"),
    (COUNTER, ["--range", "N=0..10", "--range", "ZN=0..9"], "proved false"),
    (COUNTER, ["--always", "N <= (N $ init 0) + 1", "--always", "N > N $ init -1"], "proved false"),
    (COUNTER, ["--assume", "B", "--always", "N = 0", "--never", "N = 1"], "proved proved"),
    (COUNTER, ["--assume", "not B", "--always", "N > 0", "--never", "N = 10"], "proved false"),
    (TURN, ["--always", "N < 6", "--always", "N >= 0", "--never", "N = 5", "--always", "ODD = (N modulo 2 = 1)", "--never", "ODD and ODD $ init false"], "proved proved false proved proved"),
    (TURN, ["--never-ends"], "proved"),
    (TURN, ["--always", "N /= N $ init 0", "--always", "(N > N $ init 0) or N = 0"], "proved proved"),
    (SLOW, ["--never", "Y = 5", "--always", "Y = A when B", "--never", "UP and false"], "false proved proved"),
    (SLOW, ["--always", "(Y = Y $ init 5) when (UP ^- ^A)", "--range", "A=0..9", "--range", "Y=0..9"], "proved proved"),
    (SLOW, ["--range", "A=0..9", "--never", "Y > 9", "--never", "Y = 9"], "proved false"),
    (CALLS, ["--always", "GATE = LATCH#1.Q", "--never", "LATCH#1.Q and SHUT", "--never", "GATE", "--always", "GATE or not OPEN or SHUT"], "proved proved false proved"),
    (CALLS, ["--assume", "not OPEN", "--never", "GATE", "--never", "LATCH#1.Z"], "proved proved"),
    (DIVIDES, ["--never-ends"], "false"),
    (DIVIDES, ["--assume", "B > 0", "--never-ends", "--always", "R < B", "--always", "R > - B", "--always", "R >= 0"], "proved proved false proved"),
    (DIVIDES, ["--range", "B=1..9", "--range", "A=0..100", "--range", "Q=0..100", "--range", "R=0..8", "--never-ends"], "proved proved proved"),
    (DIVIDES, ["--faults"], "false false proved"),
    (SUMS, ["--never-ends"], "false"),
    (SUMS, ["--range", "A=-1000..1000", "--never-ends", "--range", "S=-2000..2000", "--range", "D=-1000..999"], "proved false proved"),
    (SUMS, ["--always", "S = 2 * A", "--always", "S * S >= 0"], "proved false"),
    (PAIR, ["--always", "X = 1", "--always", "X = Y"], "proved proved"),
    (SWAP, ["--always", "L xor R", "--never", "L and R", "--always", "L /= L $ init true", "--never", "L"], "proved proved proved false"),
    (BOUNDED, ["--always", "M >= 0", "--always", "M < 1000", "--always", "M >= M $ init 0", "--never", "M = 999", "--never", "M = 1000"], "proved proved proved false proved"),
    (ASSERTED, [], "proved"),
    (ASSERTED, ["--all"], "proved false"),
]


def answers(text):
    """The first words of the lines that tell claims."""
    return " ".join(it.partition(":")[0] for it in text.splitlines() if it.startswith(("proved:", "false:", "unknown:")))


def image_of(path):
    with running.Call("build", path) as call:
        data = call.ran.stdout.read()
        _, status = call.ended()
    return images.image_of(data) if status == 0 else None


def values_of(image, flows):
    """The values of the flows of an image's inputs, by their names."""
    read = flow_values.read_flows(running.text_of(flows), [it.name for it in image.signals[: image.inputs]])
    return {name: [property_language.value_of(it) for it in words] for name, words in read.items()}


def run_by_formulas(path, flows, limit):
    """The text and the end of a run by the formulas; None where the program has no image."""
    image = image_of(path)
    return None if image is None else Runner(smt_formulas.Step(image)).run(values_of(image, flows), limit)


class Exhausted(Exception):
    """The name of an input without a further value."""


def run_in_python(path, flows, limit):
    """So a run in Python."""
    image = image_of(path)
    if image is None:
        return None
    image = equal_memories.merged(image)
    run, text, left = image_runs.ImageRun(image), [], {name: iter(it) for name, it in values_of(image, flows).items()}

    def read(number):
        for value in left[image.signals[number].name]:
            return value
        raise Exhausted(image.signals[number].name)

    for number in range(limit):
        try:
            run.memories = run.instant(read)
        except image_runs.Failed as it:
            place = image.operations[it.order]
            return "".join(text), f"end: {it.what} at {place.line}:{place.column} after {number} instants\n"
        except Exhausted as it:
            return "".join(text), f"end: input {it} exhausted after {number} instants\n"
        outputs = image.signals[image.inputs : image.inputs + image.outputs]
        named = run.named()
        text += (f"{it.name} {named[it.name] if it.kind == 'integer' else 'true' if named[it.name] else 'false'}\n" for it in outputs if it.name in named)
    return "".join(text), f"end: limit after {limit} instants\n"


@needs_sigc
class FormulasRunAsPrograms(unittest.TestCase):
    def same(self, path, flows, limit=200, how=None):
        found = (how or run_by_formulas)(path, flows, limit)
        if found is not None:
            run = sigc("run", path, flows, "--workers", "0", "--instants", str(limit))
            self.assertEqual((run.stdout, run.stderr), found, path)
        return found is not None

    def test_runs_in_python(self):
        """Runs of images in Python, by which flows are drawn and claims attacked."""
        for path, flows in pairs(EXAMPLES):
            if "flows 2" not in running.text_of(flows):
                self.same(path, flows, how=run_in_python)
        with tempfile.TemporaryDirectory() as folder:
            for seed in range(DRAWN):
                it = Program(seed)
                self.same(written(folder, "p.sig", it.text()), written(folder, "p.flows", it.flows()), 40, run_in_python)

    def test_examples(self):
        for path, flows in pairs(EXAMPLES):
            if "flows 2" not in running.text_of(flows):
                self.same(path, flows)

    def test_drawn_programs(self):
        with tempfile.TemporaryDirectory() as folder:
            count = 0
            for seed in range(DRAWN):
                it = Program(seed)
                count += self.same(written(folder, "p.sig", it.text()), written(folder, "p.flows", it.flows()), 40)
        self.assertGreater(count, DRAWN // 2)


@needs_sigc
@needs_z3
class Claims(unittest.TestCase):
    def test_known_answers(self):
        unknown = 0
        with tempfile.TemporaryDirectory() as folder:
            for text, words, wanted in ROWS:
                said = ran("sigc-prove", written(folder, "p.sig", text), *words, "--seconds", SECONDS)
                found = answers(said.stdout)
                unknown += found.count("unknown")
                pairs_ = list(zip(found.split(), wanted.split()))
                self.assertEqual(len(found.split()), len(wanted.split()), (words, said.stdout, said.stderr))
                self.assertTrue(all(a in (b, "unknown") for a, b in pairs_), (words, wanted, said.stdout))
                self.assertEqual(said.returncode, 1 if "false" in found else 2 if "unknown" in found else 0, said.stderr)
        self.assertLessEqual(unknown, 4)

    def test_a_counterexample_is_a_flow_file(self):
        with tempfile.TemporaryDirectory() as folder:
            path, flows = written(folder, "p.sig", BOUNDED), f"{folder}/broken.flows"
            said = ran("sigc-prove", path, "--never", "M > 7", "-o", flows)
            self.assertIn("false: never M > 7: broken at instant 1", said.stdout)
            self.assertGreater(int(sigc("run", path, flows).stdout.split()[1]), 7)

    def test_paces(self):
        with tempfile.TemporaryDirectory() as folder:
            path = written(folder, "p.sig", TWO)
            said = ran("sigc-prove", path, "--never", "Y = 3")
            self.assertEqual((said.returncode, "--pace" in said.stderr), (3, True))
            said = ran("sigc-prove", path, "--pace", "--never", "Y = 3", "--never", "pace_1 and not ^Y")
            self.assertIn("false: never Y = 3", said.stdout)

    def test_claims_with_paces_are_about_the_program(self):
        """Outputs and places are those of the program, also if sigc is asked about another text."""
        with tempfile.TemporaryDirectory() as folder:
            for text, wanted in ((PACED, ["always POS", "always OK"]), (PACED_INSIDE, ["always OK"])):
                path, given = written(folder, "p.sig", text), ["--range", "U=1..5"] if text == PACED else []
                said = ran("sigc-prove", path, "--pace", "--all", *given, "--seconds", SECONDS)
                self.assertEqual((said.stdout, said.stderr), ("".join(f"proved: {it}\n" for it in wanted), ""))
                said = ran("sigc-prove", path, "--pace", "--faults", *given)
                self.assertRegex(said.stdout, r"false: no overflow at 3:11 \(Z\): end: overflow at 3:11 after")
                self.assertEqual(ran("sigc-prove", path, "--pace", "--never", "instant").returncode, 3)

    def test_bounds_of_ranges(self):
        least, most = -(2**63), 2**63 - 1
        with tempfile.TemporaryDirectory() as folder:
            path = written(folder, "p.sig", SUMS)
            for words, told in (([f"A=0..{most + 1}"], f"--range A=0..{most + 1}: values have 64 bits, so bounds are from {least} to {most}"), ([f"S={least - 1}..0"], "values have 64 bits"),
                                (["A=0..1", "A=0..2"], "--range A=0..2: A has a range already, 0..1"), (["S=0..1", "S=0..2"], "S has a range already"), (["A=2..1"], "2 is greater than 1"),
                                (["a=0..1"], "--range a=0..1: there is no signal a: did you mean A?"), (["QQQ=0..1"], "--range QQQ=0..1: there is no signal QQQ"), (["A"], "--range A: write the signal with its least")):
                said = ran("sigc-prove", path, "--never-ends", *(it for word in words for it in ("--range", word)))
                self.assertEqual((said.returncode, said.stdout, told in said.stderr), (3, "", True), said.stderr)
            said = ran("sigc-prove", path, f"--range=S={least}..{most}", f"--range=D={least}..{most - 1}")
            self.assertEqual(answers(said.stdout), "proved proved", said.stdout)
            self.assertIn(f"false: D in {least}..{least}", ran("sigc-prove", path, f"--range=D={least}..{least}").stdout)
            said = ran("sigc-prove", written(folder, "q.sig", COUNTER), "--range", "B=0..1", "--never-ends")
            self.assertEqual(said.stderr, "sigc-prove: --range B=0..1: B is a boolean, and only integers have a range\n")

    def test_what_is_told_beside(self):
        with tempfile.TemporaryDirectory() as folder:
            path = written(folder, "p.sig", COUNTER)
            self.assertIn("it never comes", ran("sigc-prove", path, "--never", "(N when (N > 10)) > 3").stdout)
            self.assertIn("no instant of any flows meets", ran("sigc-prove", path, "--assume", "N < 0", "--always", "N = 7").stdout)
            slow = written(folder, "s.sig", SLOW)
            self.assertIn("ties the clocks", ran("sigc-prove", slow, "--always", "A > 0 or B or not B").stdout)

    def test_comments_that_are_no_claims(self):
        with tempfile.TemporaryDirectory() as folder:
            for comment, wrong in (("assert BAD, FINE", "BAD, FINE"), ("assert: FINE", ": FINE"), ("ASSERT\n FINE and BAD", "FINE and BAD"), ("assert N", "N"), ("assert", "")):
                path = written(folder, "p.sig", f"{ASSERTED}%{comment}%\n")
                said = ran("sigc-prove", path)
                self.assertEqual((said.stdout, said.stderr, said.returncode), ("", f"sigc-prove: {path}:2:1: %assert wants one boolean signal, and not {wrong!r}\n", 3))
            for comment in ("asert BAD", "asserted BAD", "to assert, BAD", " Assert FINE "):
                said = ran("sigc-prove", written(folder, "p.sig", f"{ASSERTED}%{comment}%\n"))
                self.assertEqual((said.stderr, said.returncode), ("", 0), comment)
            said = ran("sigc-prove", written(folder, "p.sig", CALLED))
            self.assertIn("%assert wants one boolean signal, and not 'LATCH#1.Q'", said.stderr)

    def test_the_instant_that_fails(self):
        with tempfile.TemporaryDirectory() as folder:
            said = ran("sigc-prove", written(folder, "p.sig", DIVIDES), "--faults", "--range", "B=-1..0")
            self.assertRegex(said.stdout, r"no division by zero at 1:55 \(Q\): end: .*\n  flow A( -?\d+)+\n  flow B( -?\d+)* 0\n  instant   A +B\n(  \d+ +-?\d+ +-1\n)*  \d+ \(fails\) +-?\d+ +0\n")
            said = ran("sigc-prove", written(folder, "p.sig", LATE), "--never-ends")
            self.assertRegex(said.stdout, r"\n  1 +-?\d+\n(  \d+ +-?\d+\n)*  \d+ \(fails\) +-?\d+\n$")

    def test_operations_without_names(self):
        with tempfile.TemporaryDirectory() as folder:
            said = ran("sigc-prove", written(folder, "p.sig", NAMELESS), "--faults", "--range", "A=0..9")
            self.assertEqual(said.stdout, "".join(f"proved: no overflow at {it}\n" for it in ("1:53", "1:58 (Y)", "3:14 (F#1)", "3:18 (F#1.Y)")))

    def test_intervals_of_memories(self):
        """What a memory may be is reckoned from the program, and believed where z3 finds it kept."""
        with tempfile.TemporaryDirectory() as folder:
            path = written(folder, "p.sig", HELD)
            said = ran("sigc-prove", path, "--never-ends", "--range", "A=0..50", "--seconds", "600")
            self.assertEqual((said.stdout, said.returncode), ("proved: never ends\n", 0))
            step = smt_formulas.Step(image_of(path))
            until = time.monotonic() + 300
            self.assertEqual(induction.kept(systems.System(step, [], {"A": (0, 50)}), ["(<= 0 m0 50007)"], until), ["(<= 0 m0 50007)"])
            self.assertEqual(induction.kept(systems.System(step, [], {"A": (0, 50)}), ["(<= 0 m0 50006)"], until), [])

    def test_the_reason_of_an_end_that_is_not_decided(self):
        """No square is twice another one, which z3 does not know; of all operations the division alone is the reason."""
        with tempfile.TemporaryDirectory() as folder:
            path = written(folder, "p.sig", ROOT)
            said = ran("sigc-prove", path, "--never-ends", "--range", "T=1..100000", "--seconds", "5")
            self.assertEqual((said.returncode, said.stdout.splitlines()[1:]), (2, [f"  not decided: division by zero at {path}:3:13 (Q)"]), said.stdout)
            self.assertTrue(said.stdout.startswith("unknown: never ends (5 s"))

    def test_deep_faults(self):
        """What breaks late is found, by drawn flows and by one question of many instants; how far a search came is said."""
        with tempfile.TemporaryDirectory() as folder:
            path, deep = written(folder, "p.sig", CROSSING), written(folder, "q.sig", DEEP)
            said = ran("sigc-prove", path, "--never", "WALK and ((CARS $ init 0) = 0)", "--seconds", SECONDS)
            self.assertIn("broken at instant 22\n", said.stdout)
            self.assertIn("broken at instant 450\n", ran("sigc-prove", deep, "--never", "N = 450", "--seconds", SECONDS).stdout)
            said = ran("sigc-prove", written(folder, "r.sig", HARD), "--never", "Y = 1000003", "--seconds", "4")
            self.assertRegex(said.stdout, r"^unknown: never Y = 1000003 \(4 s, in which no.* it; --seconds N gives it more\)\n$")
            step = smt_formulas.Step(image_of(deep), [property_language.property_of("N = 25", {"N": "integer"})])
            system = systems.System(step, [], {})
            formula = system.broken(systems.Claim("", step.watched[0].broken(False), "true", False))
            until = time.monotonic() + 200
            self.assertEqual([searching.unrolled(system, formula, depth, until) is None for depth in (24, 25)], [True, False])
            self.assertEqual(len(searching.unrolled(system, formula, 60, until).flows["E"]), 25)

    def test_delays_written_twice(self):
        """Equal delays are one memory, also through copies and in a property."""
        with tempfile.TemporaryDirectory() as folder:
            path = written(folder, "p.sig", TWICE)
            image = equal_memories.merged(image_of(path))
            self.assertEqual([it.init for it in image.memories], [0, 5, 0])
            self.assertEqual(sum(it.kind == "Store" for it in image.operations), 3)
            self.assertEqual(ran("sigc-prove", path, "--never-ends", "--always", "D = 0", "--seconds", SECONDS).stdout, "proved: always D = 0\nproved: never ends\n")
            kinds = {it.name: it.kind for it in image.signals}
            step = smt_formulas.Step(image, [property_language.property_of(it, kinds) for it in ("X > X $ init 0", "X > X $ init 5", "X > X $ init 6")])
            self.assertEqual([it.name for it in step.memories], ["m0", "m1", "m2", "q3"])

    def test_a_controller_with_an_integral(self):
        with tempfile.TemporaryDirectory() as folder:
            said = ran("sigc-prove", written(folder, "p.sig", CRUISE), "--never-ends", "--range", "SPEED=0..300", "--seconds", "600")
            self.assertEqual(said.stdout, "proved: never ends\n")

    def test_nothing_is_left(self):
        with tempfile.TemporaryDirectory() as folder:
            said = ran("sigc-prove", written(folder, "p.sig", COUNTER), "--assume", "B and not B", "--never", "B", "--never-ends")
            told = "note: no instant of any flows meets what is assumed, so all that is claimed of instants holds\n"
            told += "".join(f"proved (nothing is left to prove it of): {it}\n" for it in ("never B", "never ends"))
            self.assertEqual((said.stdout, said.returncode), (told, 3))

    def test_assumptions_say_nothing_of_what_a_failing_instant_does_not_compute(self):
        """A result with more than 64 bits is none of the run, so `N < 1000` does not exclude the overflow of N."""
        small = ["--assume", "N < 1000", "--assume", "N > -1000"]
        with tempfile.TemporaryDirectory() as folder:
            path, checked = written(folder, "p.sig", ADDS), written(folder, "q.sig", CHECKED)
            for how, what in (("--never-ends", "never ends"), ("--faults", "no overflow at 1:60 (N)")):
                said = ran("sigc-prove", path, how, *small)
                self.assertRegex(said.stdout, rf"^false: {re.escape(what)}: end: overflow at 1:60 after \d instants\n")
                self.assertIn("note: `N < 1000` is not assumed of the instant that fails", said.stdout)
                self.assertEqual(ran("sigc-prove", path, how, *small, "--range", "A=-9..9").stdout, f"proved: {what}\n")
                self.assertEqual(ran("sigc-prove", path, how, *small, "--assume", "A < 9 and A > -9").stdout, f"proved: {what}\n")
            self.assertIn("false: never ends", ran("sigc-prove", checked, "--never-ends", "--assume", "SMALL").stdout)
            self.assertEqual(ran("sigc-prove", checked, "--never-ends", "--assume", "A < 100").stdout, "proved: never ends\n")

    def test_an_instant_that_fails_first_elsewhere(self):
        """What is computed before the first fault is assumed, and nothing after it."""
        with tempfile.TemporaryDirectory() as folder:
            path = written(folder, "p.sig", FIRST)
            said = ran("sigc-prove", path, "--faults", "--assume", "B > 0", "--assume", "Y > 0", "--range", "A=0..9")
            self.assertEqual(answers(said.stdout), "proved proved false", said.stdout)
            self.assertRegex(said.stdout, r"\n  1 \(fails\) +[1-9] +-?\d+\n")

    def test_memories_of_properties_stay_within_64_bits(self):
        """The memory of one claim says nothing of another one."""
        with tempfile.TemporaryDirectory() as folder:
            path = written(folder, "p.sig", ADDS)
            said = ran("sigc-prove", path, "--range", "A=0..9", "--never", "((N * N) $ init 0) < 0", "--never", "N < 0", "--never", "(N * N $ init 0) < 0", "--seconds", "3")
            self.assertIn("proved: never N < 0", said.stdout)
            self.assertNotIn("the flows found", said.stdout)

    def test_a_tied_instant_is_not_looked_at(self):
        """Where a function ties the clocks of its operands the whole property is left out, and its memories go on."""
        with tempfile.TemporaryDirectory() as folder:
            path = written(folder, "p.sig", SLOW)
            for claim, wanted in (("(A > 0 or B) default (B and not B)", "proved"), ("((A > 0 or B) default B) and ((Y $ init 5) >= 0)", "proved"), ("((A > 0 or B) default B) and ((Y $ init 5) > 0)", "false")):
                said = ran("sigc-prove", path, "--range", "A=0..9", "--always", claim, "--seconds", SECONDS)
                self.assertEqual(answers(said.stdout), wanted, said.stdout)
            kinds = {"A": "integer", "B": "boolean", "Y": "integer"}
            watched = property_language.Watched(property_language.property_of("(A > 0 or B) and Y = (Y $ init 5)", kinds))
            self.assertRaises(property_language.Tied, watched.at, {"B": 0, "Y": 8})
            self.assertEqual(watched.at({"A": 1, "B": 1, "Y": 8}), 1)

    def test_proved_claims_hold_of_runs(self):
        draws = random.Random(7)
        with tempfile.TemporaryDirectory() as folder:
            for text, words, wanted in ROWS:
                if "--assume" in words or "--range" in words or "--always" not in words:
                    continue
                path = written(folder, "p.sig", text)
                image = image_of(path)
                step = smt_formulas.Step(image)
                claims = [it for it, is_ in zip(zip(words[::2], words[1::2]), wanted.split()) if is_ == "proved" and it[0] == "--always"]
                flows = "".join(f"{it.name} {' '.join(self.word(draws, it.kind) for _ in range(2000))}\n" for it in image.signals[: image.inputs])
                self.assertTrue(claims and step.reads)
                file = written(folder, "p.flows", flows)
                with running.Files() as files:
                    instants = [property_language.values_of(it) for it in traces.Run(files, path, file)]
                for _, claim in claims:
                    watched = property_language.Watched(property_language.property_of(claim, {it.name: it.kind for it in image.signals}))
                    self.assertNotIn(0, [watched.at(it) for it in instants], (text, claim))

    @staticmethod
    def word(draws, kind):
        return str(draws.choice((draws.randrange(-20, 20), draws.randrange(0, 1100)))) if kind == "integer" else draws.choice(("true", "false")) if kind == "boolean" else "true"


@needs_sigc
class Watches(unittest.TestCase):
    def test_a_run_is_stopped(self):
        with tempfile.TemporaryDirectory() as folder:
            path, flows = written(folder, "p.sig", COUNTER), written(folder, "p.flows", "B false false false true false\n")
            said = ran("sigc-run", path, flows, "--watch", "N < 3")
            self.assertEqual((said.stdout, said.stderr, said.returncode), ("N 1\nN 2\nN 3\n", "watch: `N < 3` is false at instant 3\n", 1))
            said = ran("sigc-run", path, flows, "--watch", "N = 0 or N > N $ init 0")
            self.assertEqual((said.stdout.split(), said.returncode), ("N 1 N 2 N 3 N 0 N 1".split(), 0))
            self.assertEqual(ran("sigc-run", path, flows, "--watch", "N +").returncode, 2)
            said = ran("sigc-run", path, flows, "--watch", "")
            self.assertEqual((said.stdout, said.stderr.count("\n"), said.returncode), ("", 1, 2))
            said = ran("sigc-run", folder, "--watch", "N < 3")
            self.assertEqual((said.stdout, said.stderr, said.returncode), ("", "sigc-run: --watch wants one program and its flows: sigc-run PROGRAM FLOWS --watch E\n", 2))

    def test_clocks_that_a_property_ties(self):
        with tempfile.TemporaryDirectory() as folder:
            path, flows = written(folder, "p.sig", SLOW), written(folder, "p.flows", "B false\n")
            for text, of in (("A > 0 or B", "its operands"), ("not (A > 0 or B)", "the operands of `A > 0 or B`")):
                said = ran("sigc-run", path, flows, "--watch", text)
                self.assertEqual((said.stderr, said.returncode), (f"watch: `{text}` ties the clocks of {of}, of which one comes alone at instant 1\n", 1))


@needs_sigc
class WhatCannotBeAsked(unittest.TestCase):
    def said(self, *words, z3=None):
        with tempfile.TemporaryDirectory() as folder:
            path = written(folder, "p.sig", COUNTER)
            env = {**os.environ, **({"Z3": z3} if z3 else {})}
            return subprocess.run([sys.executable, f"{TOOLS}/sigc-prove", path, *words], capture_output=True, text=True, env=env, timeout=60)

    def test_no_z3(self):
        said = self.said("--always", "N >= 0", z3="/nonexistent/z3")
        self.assertEqual((said.returncode, "z3 is not installed" in said.stderr), (3, True))

    def test_a_z3_that_fails(self):
        with tempfile.TemporaryDirectory() as folder:
            for body in ("exit 3", "echo nonsense", "cat > /dev/null"):
                z3 = written(folder, "z3", f"#!/bin/sh\n{body}\n")
                os.chmod(z3, 0o755)
                said = self.said("--never", "N > 10", "--seconds", "1", z3=z3)
                self.assertEqual((said.returncode, answers(said.stdout)), (2, "unknown"), said.stderr)

    @needs_z3
    def test_ctrl_c(self):
        with tempfile.TemporaryDirectory() as folder:
            path = written(folder, "p.sig", COUNTER)
            waits = written(folder, "z3", "#!/bin/sh\nsleep 100\n")
            os.chmod(waits, 0o755)
            child = subprocess.Popen([sys.executable, f"{TOOLS}/sigc-prove", path, "--never", "N > 10"], env={**os.environ, "Z3": waits}, stdout=subprocess.PIPE, stderr=subprocess.PIPE,
                                     preexec_fn=lambda: signal.signal(signal.SIGINT, signal.SIG_DFL))  # a shell's background job ignores it
            time.sleep(1.5)
            child.send_signal(signal.SIGINT)
            _, err = child.communicate(timeout=20)
            self.assertEqual((child.returncode, b"Traceback" in err), (-signal.SIGINT, False), err)

    @needs_z3
    def test_texts_that_are_no_properties(self):
        for text, told in (("N $ init Q = 0", "a number"), ("N $ init true = 0", "a number"), ("B $ init 3", "true or false"), ("N $ init 9223372036854775808 = 0", "64 bits"),
                           ("N > (1 + 2)", "constants alone"), ("N +", "the end"), ("N + 1", "integer"), ("Q", "no signal"), ("N and B", "truths"), ("B $", "init"), ("(N", "wanted"), ("N ยง", "byte")):
            said = self.said("--always", text)
            self.assertEqual((said.returncode, told in said.stderr), (3, True), (text, said.stderr))
        self.assertEqual(self.said("--range", "N=3").returncode, 3)
        self.assertEqual(self.said().returncode, 3)

