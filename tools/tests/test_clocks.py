"""sigc-clocks: the words of guards, beside the guards themselves and beside runs."""
import itertools
import random
import tempfile
import unittest

from calling import EXAMPLES, TUTORIAL, needs_sigc, ran, written

from sigc.clocks import clocks_in_words

SLOW = (
    "process P = (? boolean B; integer A, C ! integer Y; event UP)\n"
    "(| A ^= when B | C ^= when (A > 3) | Y := A default 0 - C | UP := when (B and not WAS) | WAS := B $ init false |)\n"
    "where boolean WAS; end;\n"
)
MERGED = (
    "process P = (? boolean SENSE, HELD; integer A, B ! integer Y, Z)\n"
    "(| SENSE ^= HELD | A ^= when SENSE | B ^= when HELD | Y := A default B | Z := A when not HELD default B when SENSE |);\n"
)
# Conditions inside of calls: an output, an expression, a local, and one that hangs on an instant before.
CALLED = (
    "process P = (? integer A ! integer Y, COLD, DEEP, ROSE)\n"
    "(| ON := OVER{3}(A) | Y := A when ON | COLD := BELOW{-18}(A) | DEEP := FAR(A) | ROSE := MORE(A) |)\n"
    "where boolean ON; end;\n"
    "process OVER = {integer MOST} (? integer X ! boolean B) (| B := X > MOST |);\n"
    "process BELOW = {integer LOW} (? integer X ! integer Z) (| Z := X when (X < LOW) |);\n"
    "process FAR = (? integer X ! integer Z) (| Z := X when IS_FAR | IS_FAR := X > 100 |) where boolean IS_FAR; end;\n"
    "process MORE = (? integer X ! integer Z) (| Z := X when IS_MORE | IS_MORE := X > WAS | WAS := X $ init 0 |) where boolean IS_MORE; integer WAS; end;\n"
)


class Sums(unittest.TestCase):
    def random_diagram(self, draws, diagrams, count):
        it = draws.randrange(2)
        for variable in reversed(range(count)):
            it = diagrams.node(variable, *draws.choice(((it, draws.randrange(2)), (draws.randrange(2), it), (it, diagrams.negated(it)))))
        return it

    def value(self, diagrams, it, truths):
        while it > 1:
            variable, low, high = diagrams.nodes[it]
            it = high if truths[variable] else low
        return it

    def test_a_sum_is_the_function_between_its_bounds(self):
        draws = random.Random(5)
        for _ in range(200):
            diagrams = clocks_in_words.Diagrams()
            guard, care = (self.random_diagram(draws, diagrams, 6) for _ in range(2))
            found, whole = diagrams.products(diagrams.both(guard, care), diagrams.either(guard, diagrams.negated(care)))
            for truths in itertools.product((False, True), repeat=6):
                is_covered = any(all(truths[variable] == is_true for variable, is_true in it) for it in found)
                self.assertEqual(bool(self.value(diagrams, whole, truths)), is_covered)
                if self.value(diagrams, care, truths):
                    self.assertEqual(bool(self.value(diagrams, guard, truths)), is_covered)


@needs_sigc
class Words(unittest.TestCase):
    def test_examples(self):
        self.assertIn("  V: when REQ\n", ran("sigc-clocks", f"{EXAMPLES}/watch.sig").stdout)
        self.assertIn("  B: when not FRONT\n", ran("sigc-clocks", f"{EXAMPLES}/pump.sig").stdout)
        self.assertIn("  A: when ZY <= 0\n", ran("sigc-clocks", f"{EXAMPLES}/down.sig").stdout)
        self.assertIn("  RED REDS: when pace_1\n", ran("sigc-clocks", "--pace", f"{EXAMPLES}/buttons.sig").stdout)
        self.assertIn("no root", ran("sigc-clocks", f"{EXAMPLES}/buttons.sig").stderr)

    def test_clocks_below_clocks(self):
        with tempfile.TemporaryDirectory() as folder:
            said = ran("sigc-clocks", written(folder, "p.sig", SLOW)).stdout
        self.assertEqual(said, "B WAS: at every instant\n  A Y: when B\n    UP: when B and not WAS\n    C: when A > 3\n")

    def said(self, program, *words):
        with tempfile.TemporaryDirectory() as folder:
            return ran("sigc-clocks", written(folder, "p.sig", program), *words).stdout

    def test_one_or_else_another(self):
        self.assertIn("  Y: A or else B, when SENSE or HELD\n", self.said(MERGED))
        self.assertIn("  CALLED: CALL or else POS, when SENSED or PRESSED\n", ran("sigc-clocks", f"{TUTORIAL}/lift.sig").stdout)

    def test_conditions_have_the_names_of_the_program(self):
        said = self.said(CALLED)
        for line in ("  Y: when ON\n", "  COLD BELOW#2.Z: when A < -18\n", "  DEEP FAR#3.Z: when A > 100\n", "  ROSE MORE#4.Z: when MORE#4.IS_MORE\n"):
            self.assertIn(line, said)

    def test_of_too_many_products_only_what_they_are_about(self):
        pairs = "".join(f" | E{it} := (when C{2 * it}) ^+ (when C{2 * it + 1})\n" for it in range(24))
        program = f"process P = (? boolean {', '.join(f'C{it}' for it in range(48))}! event ALL)\n(| {' ^= '.join(f'C{it}' for it in range(48))}\n"
        program += f"{pairs} | ALL := {' ^* '.join(f'E{it}' for it in range(24))} |)\nwhere event {', '.join(f'E{it}' for it in range(24))}; end;\n"
        said = self.said(program)
        self.assertIn("  E23: when C46 or C47\n", said)
        self.assertIn("  ALL: when a condition over C0, C1, C2 and 45 more holds\n", said)

    def test_with_paces(self):
        paced = CALLED.replace("integer A !", "integer A, B !").replace("! integer Y,", "! integer Y, TWICE,").replace("| Y :=", "| TWICE := B + B | Y :=")
        said = self.said(paced, "--pace")
        for line in ("  B TWICE: when pace_2\n", "    DEEP FAR#3.Z: when A > 100\n", "    Y: when ON\n"):
            self.assertIn(line, said)


if __name__ == "__main__":
    unittest.main()
