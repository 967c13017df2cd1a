"""Scripts over programs that are no kernel: each takes one by itself, and shows the user's names, values and places, in files
that are used too."""
import itertools
import json
import os
import re
import shutil
import subprocess
import sys
import tempfile
import unittest
from unittest import mock

from calling import SIGC, TOOLS, needs_sigc, ran, written
import wider

from sigc.call import compiler, opened
from sigc.call.refusing import Refused
from sigc.editor import documents
from sigc.prove import property_language, z3_solver
from sigc.read import plain_kernels

END = "end: overflow at {0}/ADDS.sig:3:15 in SUMS#1 (called at {0}/row.sig:11:13) after 1 instants"
FORCED = ("with GO := PRESS", "with GO := (PRESS when PRESS)")
TRACE = """PRESS A[0] A[1] A[2] L[0] L[1] L[2] TOTAL GO[0] GO[1] GO[2] SUMS#1.ZS
true  1    2    3    #lit #off #off 3     false false false 0
false 4    5    6    #off #lit #off 9     true  false false 3
false 7    8    9    #off #off #lit 18    false true  false 9
"""

# An automaton that defines Y at 6:22 and 7:21 if a line with another definition comes before it.
CLASH = """type MODE = enum (off, on);
process P = (? event TICK; boolean GO; integer A ! MODE M; integer Y)
(| M ^= TICK ^= GO
{} | automaton M
     state off do (| Y := 0 |) until GO go on
     state on do (| Y := 1 |) until GO go off
   end
{} |);
"""
TWO = """constant integer N = 2;
process P = (? [N] integer T; integer V ! [N] integer Y; integer Z)
(| Y := T + 1
 | Z := V * N
 |);
"""
CYCLE = """constant integer N = 2;
process P = (? integer V ! integer Z, Y)
(| Z := Y * N + V
 | Y := Z + 1
 |);
"""
NAMED = """constant integer N = 3, MOST = 90;
type A = enum (red, green);
type B = enum (green, red);
process P = (? [N] integer T; A S; B U ! boolean HOT)
(| S ^= U ^= T | HOT := T[N - 1] > MOST |);
"""


class Properties(unittest.TestCase):
    """Expressions over the user's signals know the constants, the types and the arrays of the program."""

    def test_expressions(self):
        home = opened.Opened("p.sig", NAMED)
        for text, wanted in [
            ("T[N - 1] > MOST", "T_2 > 90"), ("T[0] + N", "T_0 + 3"), ("S = #red", "S = 0"), ("U = #red", "U = 1"), ("#red /= U", "1 /= U"), ("not (S = #green and U = #green)", "not (S = 1 and U = 0)"),
            ("max(T) <= MOST", "((T_0 <= 90) and (T_1 <= 90) and (T_2 <= 90))"), ("max(T) > 5", "((T_0 > 5) or (T_1 > 5) or (T_2 > 5))"),
            ("min(T) > T[1]", "((T_0 > T_1) and (T_1 > T_1) and (T_2 > T_1))"), ("HOT or S = A#green", "HOT or S = 1"),
        ]:
            with self.subTest(text):
                self.assertEqual(home.kernel_words(text), wanted)

    def test_the_largest_and_the_smallest_element(self):
        """Anywhere in an expression, beside other operators and on both sides of a comparison."""
        home = opened.Opened("p.sig", NAMED)
        cases = {
            "max(T) - min(T)": lambda t: max(t) - min(t), "max(T) <= T[0] + 1": lambda t: max(t) <= t[0] + 1, "1 >= max(T)": lambda t: max(t) <= 1, "2 * max(T) <= 2": lambda t: 2 * max(t) <= 2,
            "min(T) = max(T)": lambda t: min(t) == max(t), "min(T) > T[1] - 1": lambda t: min(t) > t[1] - 1, "max(T) >= 1 and min(T) < 0": lambda t: max(t) >= 1 and min(t) < 0,
        }
        for text, wanted in cases.items():
            made = property_language.property_of(home.kernel_words(text), {f"T_{at}": "integer" for at in range(3)})
            for values in itertools.product(range(-2, 3), repeat=3):
                with self.subTest(text, values=values):
                    self.assertEqual(property_language.Watched(made).at({f"T_{at}": it for at, it in enumerate(values)}), int(wanted(values)))

    def test_what_is_refused(self):
        home = opened.Opened("p.sig", NAMED)
        for text, why in [("(S when HOT) = #blue", "#blue is no value of an enumeration"), ("(S when HOT) = #red", "#red is a value of several types")]:
            with self.subTest(text), self.assertRaisesRegex(Refused, why):
                home.kernel_words(text)


@needs_sigc
class Wider(unittest.TestCase):
    def setUp(self):
        self.room = tempfile.mkdtemp(prefix="sigc-test-")
        self.addCleanup(shutil.rmtree, self.room)
        self.row, self.flows, self.over = wider.written_in(self.room), f"{self.room}/row.flows", f"{self.room}/over.flows"
        self.end = END.format(self.room)

    def with_fault(self, old, new):
        """The program with a fault."""
        return written(self.room, "wrong.sig", wider.LAMPS.replace(old, new))

    def test_sigc_trace(self):
        done = ran("sigc-trace", self.row, self.flows)
        self.assertEqual((done.stdout, done.stderr, done.returncode), (TRACE, "end: input PRESS exhausted after 3 instants\n", 0))
        done = ran("sigc-trace", self.row, self.over, "--signals", "L,SUMS#1")
        self.assertEqual((done.stdout, done.stderr, done.returncode), ("L[0] L[1] L[2] SUMS#1.ZS\n#lit #off #off 0\n", f"{self.end}\n", 3))

    def test_a_refusal_of_the_expansion(self):
        path = self.with_fault("if GO[?]", "if GI[?]")
        for script, words in [("sigc-trace", [path, self.flows]), ("sigc-run", [path, self.flows]), ("sigc-clocks", [path]), ("sigc-step", [path]), ("sigc-view", [path, self.flows]), ("sigc-c", [path, "-o", f"{self.room}/c"])]:
            with self.subTest(script):
                done = ran(script, *words)
                self.assertTrue(done.stderr.startswith(f"{path}:7:20: error: unknown name GI\n"), done.stderr)
                self.assertIn("[I=0]", done.stderr)
                self.assertEqual(done.returncode, 1)

    def test_a_refusal_of_the_kernel(self):
        path = self.with_fault(*FORCED)
        for script, words in [("sigc-trace", [path, self.flows]), ("sigc-run", [path, self.flows]), ("sigc-step", [path])]:
            with self.subTest(script):
                self.assertIn(f"{path}:4:26: error: condition PRESS is forced", ran(script, *words).stderr)

    def test_sigc_why(self):
        path = self.with_fault(*FORCED)
        done = ran("sigc-why", path)
        self.assertTrue(done.stdout.startswith(f"{path}:4:26: error: condition PRESS is forced\n"), done.stdout)
        self.assertIn(f"{path}:10:9: note: GO[-1] := PRESS when PRESS\n", done.stdout)
        self.assertEqual(done.returncode, 1)
        self.assertEqual(ran("sigc-why", self.row).stdout, "accepted\n")
        self.assertIn(":7:20: error: unknown name GI\n", ran("sigc-why", self.with_fault("if GO[?]", "if GI[?]")).stdout)

    def test_fixes_of_sigc_why(self):
        """They change the user's text, and sigc accepts what comes of them."""
        path = written(self.room, "two.sig", TWO)
        done = ran("sigc-why", path)
        self.assertIn("mend, accepted by check: the clock equation T[0] ^= V\n    5 +  | T[0] ^= V\n", done.stdout)
        self.assertIn(f"mend, accepted by check: sigc check {path} --pace\n", done.stdout)
        self.assertIn("    2 + process P = (? boolean T_0_COMES; boolean V_COMES; [N] integer T; integer V", done.stdout)
        mended = written(self.room, "mended.sig", TWO.replace(" |);", " | T[0] ^= V\n |);"))
        self.assertEqual(ran("sigc-why", mended).stdout, "accepted\n")
        path = written(self.room, "cycle.sig", CYCLE)
        done = ran("sigc-why", path)
        self.assertIn("    4 -  | Y := Z + 1\n    4 +  | Y := (Z $ init 0) + 1\n", done.stdout)
        self.assertIn(f"with this, Y is 1 where the equation at {path}:4:4 gives", done.stdout)
        self.assertNotIn("mend", ran("sigc-why", path, "--mends", "0").stdout)
        path = written(self.room, "turns.sig", "process P = (? boolean B; integer V ! [3] integer Z)\n(| array I to 2 of Z[I] := Z[I] + V end\n | V ^= B\n |);\n")
        self.assertIn("    2 + (| array I to 2 of Z[I] := (Z[I] $ init 0) + V end\n", ran("sigc-why", path).stdout)

    def test_sigc_caret(self):
        path = self.with_fault(*FORCED)
        self.assertTrue(ran("sigc-caret", "check", path).stderr.startswith(f"{path}:4:26: error: condition PRESS is forced\n"))
        done = ran("sigc-caret", "run", self.row, self.over)
        self.assertIn(f"{self.room}/ADDS.sig:3:15: note: overflow after 1 instants\n", done.stderr)
        self.assertEqual(done.stdout, f"L [#lit,#off,#off]\nTOTAL {wider.LARGE}\n")

    def test_paces(self):
        """Clocks may stay independent with --pace, also of a program that has arrays."""
        path = written(self.room, "two.sig", "constant integer N = 2;\nprocess P = (? [N] integer T; integer V ! [N] integer Y; integer Z)\n(| Y := T + 1 | Z := V * N |);\n")
        flows = written(self.room, "two.flows", "T [1,2] [3,4]\nV 10 20\npace_1 true false true\npace_2 true true false\n")
        self.assertIn("      or leave them independent: with --pace", ran("sigc-caret", "check", path).stderr)
        self.assertEqual(ran("sigc-caret", "check", path, "--pace").stdout, "accepted\n")
        self.assertEqual(ran("sigc-caret", "tree", path, "--pace").stdout, "pace_1 pace_2\n  T[0] T[1] Y[0] Y[1]\n  V Z\n")
        done = ran("sigc-caret", "run", path, flows, "--pace")
        self.assertEqual((done.stdout, done.stderr, done.returncode), ("Y [2,3]\nZ 20\nZ 40\nY [4,5]\n", "end: input pace_1 exhausted after 3 instants\n", 0))

    def test_a_sigc_that_is_missing(self):
        with mock.patch.dict(os.environ, {"SIGC": f"{self.room}/none"}):
            for script, words in [("sigc", ["run", self.row, self.flows]), ("sigc", ["check", self.row]), ("sigc-run", [self.row, self.flows]), ("sigc-step", [self.row])]:
                with self.subTest(script):
                    done = ran(script, *words)
                    self.assertIn(f"{self.room}/none: No such file or directory\n", done.stderr)
                    self.assertEqual(done.returncode, 70)

    def test_a_clash_with_an_automaton(self):
        """It is where the states define the signal, not where the automaton begins."""
        told = "have to exclude each other: they never come together"
        path = written(self.room, "clash.sig", CLASH.format(" | Y := A\n", ""))
        said = ran("sigc-caret", "check", path).stderr
        self.assertTrue(said.startswith(f"{path}:6:22: error: Y is defined twice\n"), said)
        self.assertIn(f"      the other definition is at {path}:4:4\n", said)
        for lines, place, other in [((" | Y ::= A\n", ""), "6:22", "4:4"), (("", " | Y ::= A\n"), "8:4", "5:22")]:
            path = written(self.room, "clash.sig", CLASH.format(*lines))
            wanted = f"{path}:{place}: note: this definition of Y and the one at {path}:{other} {told}\n"
            self.assertIn(wanted, ran("sigc-caret", "check", path).stderr)
            self.assertIn(wanted, ran("sigc-why", path).stdout)

    def test_sigc_clocks(self):
        self.assertEqual(ran("sigc-clocks", self.row).stdout, f"{' '.join(TRACE.splitlines()[0].split())}: at every instant\n")

    def test_sigc_run(self):
        wanted = "L [#lit,#off,#off]\nTOTAL 3\nL [#off,#lit,#off]\nTOTAL 9\nL [#off,#off,#lit]\nTOTAL 18\n"
        done = ran("sigc-run", self.row, self.flows)
        self.assertEqual((done.stdout, done.stderr), (wanted, "end: input PRESS exhausted after 3 instants\n"))
        done = ran("sigc-run", self.row, self.over)
        self.assertEqual((done.stderr, done.returncode), (f"{self.end}\n", 3))
        done = ran("sigc-run", self.row, self.flows, "--watch", "L[1] = #off")
        self.assertEqual((done.stdout, done.stderr), ("".join(f"{it}\n" for it in wanted.splitlines()[:4]), "watch: `L[1] = #off` is false at instant 2\n"))
        want = written(self.room, "row.want", f"{wanted}end: input PRESS exhausted after 3 instants\n")
        self.assertEqual(ran("sigc-run", self.row, self.flows, "--want", want).stdout, f"{want}: as wanted\n")
        os.remove(f"{self.room}/over.flows")
        self.assertIn("1 passed, 0 failed", ran("sigc-run", self.room).stdout)

    def test_flows_that_are_refused(self):
        wrong = written(self.room, "wrong.flows", "PRESS true\nA [1,2]\n")
        for script in ("sigc-trace", "sigc-run", "sigc-view"):
            with self.subTest(script):
                done = ran(script, self.row, wrong)
                self.assertIn(f"{wrong}:2:3: error: bad value\n", done.stderr)
                self.assertEqual(done.returncode, 4)

    def test_sigc_view(self):
        page = ran("sigc-view", self.row, self.flows).stdout
        names = re.findall(r'"name":"([^"]*)"', page)
        self.assertEqual(names, TRACE.splitlines()[0].split())
        self.assertIn("array I to N - 1 of", re.sub("<[^>]*>", "", page))
        self.assertIn('"states":["#off","#lit"]', page)
        fault = self.with_fault("TOTAL := SUMS(A[2])", "TOTAL := A[2] * 2")
        self.assertIn('class="place" id="place">*</span>', ran("sigc-view", fault, self.over).stdout)

    def test_trace2vcd(self):
        """Elements have the kernel's names there, since [ ] of a waveform are bits; values of enumerations have their own."""
        done = ran("trace2vcd", self.row, self.flows)
        self.assertIn("$var string 1 % L_0 $end\n", done.stdout)
        self.assertEqual(re.findall(r"^s(\S+) %$", done.stdout, re.M), ["#lit", "#off"])

    def test_sigc_c(self):
        self.assertEqual(ran("sigc-c", self.row, "-o", f"{self.room}/narrow", "--types", "--range", "A=0..9").returncode, 0)
        with open(f"{self.room}/narrow/ROW.h", encoding="ascii") as it:
            self.assertIn("int8_t", it.read())
        done = ran("sigc-c", self.row, "-o", f"{self.room}/c")
        self.assertEqual((done.stderr, done.returncode), ("", 0))
        with open(f"{self.room}/c/ROW.c", encoding="ascii") as it:
            text = it.read()
        self.assertIn(f"/* {self.row}:7:17 [I=1] L[1] := (1 when GO[0]) default (0 when ^GO[0]) */", text)
        self.assertIn(f"/* {self.room}/ADDS.sig:3:15 in SUMS#1 (called at {self.row}:11:13) TOTAL := A[2] + SUMS#1.ZS */", text)

    @unittest.skipUnless(z3_solver.path(), "z3 is not installed")
    def test_sigc_prove(self):
        done = ran("sigc-prove", self.row, "--always", "L[1] = #lit or L[1] = #off", "--never-ends", "-o", f"{self.room}/out.flows")
        proved, false, *_ = done.stdout.splitlines()
        self.assertEqual(proved, "proved: always L[1] = #lit or L[1] = #off")
        self.assertRegex(false, rf"false: never ends: {re.escape(self.end.rpartition(' after')[0])} after \d+ instants\Z")
        self.assertEqual(ran("sigc-run", self.row, f"{self.room}/out.flows").stderr, false.removeprefix("false: never ends: ") + "\n")
        done = ran("sigc-prove", self.row, "--range", "A=0..9", "--range", "TOTAL=0..100")
        self.assertRegex(done.stdout, r"false: TOTAL in 0\.\.100: broken at instant \d+\n")
        self.assertRegex(done.stdout, r"  flow A\[2\]( [0-9]){12,}\n")
        done = ran("sigc-prove", self.row, "--always", "L[1] = #lit or A[1] < 10", "--range", "A[1]=0..9")
        self.assertEqual(done.stdout, "proved: always L[1] = #lit or A[1] < 10\n")
        done = ran("sigc-prove", self.with_fault(" | TOTAL", " | assert(L[2] = #off)\n | TOTAL"))
        self.assertRegex(done.stdout, r"^false: always assert_1 \(the assert at .*/wrong.sig:11:4\): broken at instant \d+\n")

    @unittest.skipUnless(z3_solver.path(), "z3 is not installed")
    def test_a_long_counterexample(self):
        """It has no instant that can be left out, and its last ones are shown."""
        text = "process P = (? [2] boolean A ! integer N)\n(| N := if A[0] then 0 else (N $ 1 init 0) + 1\n | A ^= N\n | assert(N < 14)\n |);\n"
        lines = ran("sigc-prove", written(self.room, "p.sig", text)).stdout.splitlines()
        self.assertEqual(lines[0], f"false: always assert_1 (the assert at {self.room}/p.sig:4:4): broken at instant 14")
        self.assertEqual((lines[1], lines[3], len(lines)), ("  flow A[0]" + " false" * 14, "  the last 10 of 14 instants:", 15))

    def test_sigc_lsp(self):
        sigc = compiler.Sigc(SIGC)
        document = documents.Document(f"file://{self.row}", wider.LAMPS, sigc)
        self.assertEqual(document.diagnostics(), [])
        document.take(wider.LAMPS.replace("if GO[?]", "if GI[?]"))
        (it,) = document.diagnostics()
        self.assertEqual((it["range"]["start"], it["message"].splitlines()[0]), ({"line": 6, "character": 19}, "unknown name GI"))
        document.take(wider.LAMPS.replace(*FORCED))
        first, *others = document.diagnostics()
        self.assertEqual((first["range"]["start"], first["message"]), ({"line": 3, "character": 25}, "condition PRESS is forced"))
        self.assertIn({"line": 9, "character": 8}, [it["range"]["start"] for it in others])
        self.assertEqual(document.actions(first["range"]), [])
        module = wider.ADDS.replace("S := X + ZS", "S := X + ZT")
        written(self.room, "ADDS.sig", module)
        document.take(wider.LAMPS)
        (it,) = document.diagnostics()
        self.assertIn(f"{self.room}/ADDS.sig:3:", it["message"])

    def test_modules_in_another_folder(self):
        """-I names it; without, the module is not found."""
        os.mkdir(f"{self.room}/modules")
        os.rename(f"{self.room}/ADDS.sig", f"{self.room}/modules/ADDS.sig")
        for script, words in [("sigc-trace", [self.row, self.flows]), ("sigc-run", [self.row, self.flows]), ("sigc-clocks", [self.row]), ("sigc-step", [self.row]), ("sigc-why", [self.row]), ("sigc-c", [self.row, "-o", f"{self.room}/c"])]:
            with self.subTest(script):
                done = ran(script, *words)
                self.assertIn("ADDS", done.stdout + done.stderr)
                self.assertEqual(done.returncode, 1)
                self.assertEqual(ran(script, *words, "-I", f"{self.room}/modules").returncode, 0)

    def test_a_reader_that_is_gone(self):
        done = subprocess.run(["bash", "-c", f"{sys.executable} {TOOLS}/sigc-caret run {self.row} {self.flows} | head -n 1"], capture_output=True, text=True)
        self.assertEqual(done.stdout, "L [#lit,#off,#off]\n")
        self.assertNotIn("Traceback", done.stderr)

    def test_hover(self):
        document = documents.Document(f"file://{self.row}", wider.LAMPS, compiler.Sigc(SIGC))
        self.assertTrue(json.dumps(document.hover({"line": 4, "character": 4})))


class PlainKernels(unittest.TestCase):
    def test_what_is_plainly_a_kernel(self):
        head = "process P = (? integer A; boolean B ! integer Y) "
        for body in ("Y := A + 1;", "Y := (1 when B) default A;", "(| Y := A $ init 0 | A ^= when B |);", "Y := A cell B init -1;"):
            self.assertTrue(plain_kernels.is_plainly_kernel(head + body), body)
        for body in ("Y := A default 0;", "Y := 1;", "Y := if B then A else 0;", "Y := 1 + 2;", "Y := A + (5 * 5);", "Y := max(A, A);", "Y := A when true;", "Y := A cell B;", "Y := max(A, 1);", ""):
            self.assertFalse(plain_kernels.is_plainly_kernel(head + body), body)
        self.assertFalse(plain_kernels.is_plainly_kernel("process P = (? integer A ! integer Y) Y := Q{1}(A); process Q = {integer N} (? integer A ! integer Y) Y := A default N;"))
        self.assertFalse(plain_kernels.is_plainly_kernel(wider.LAMPS))
        self.assertFalse(plain_kernels.is_plainly_kernel("(" * 100_000))


if __name__ == "__main__":
    unittest.main()
