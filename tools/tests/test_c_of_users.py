"""The main that sigc-c writes of a program that is no kernel: it reads and writes the user's names and values, and ends at places of the text."""
import unittest

from calling import needs_sigc, ran, written
from test_c import Making, needs_gcc
import wider

LIGHTS = """type LIGHT = enum (red, amber, green);
process LIGHTS = (? LIGHT S; [2, 2] integer A; integer I; [2] LIGHT W; event T ! LIGHT U; [2, 2] integer Y; integer Z; [2] LIGHT X; boolean B; event T2)
(| S ^= A ^= I ^= W ^= T
 | U := S | Y := A | Z := A[0][I] | X := W | B := S = #red | T2 := T
 |);
"""
FLOWS = """flows 2
S #red*2 #green
A [[1,2],[3, 4]]*2 [[5,6],[7,8]]
I 0 1 2
W [#red,#green] [#amber,#red]*2
T true true true
"""
WANTED = """U #red
Y [[1,2],[3,4]]
Z 1
X [#red,#green]
B true
T2 true
"""
HELP = "one word for each input, `.` for an absent one: S A I W T\n"


@needs_sigc
@needs_gcc
class Users(Making, unittest.TestCase):
    def setUp(self):
        super().setUp()
        self.lights, self.flows = written(self.room, "lights.sig", LIGHTS), written(self.room, "lights.flows", FLOWS)
        self.out_of_range = f"end: index out of range at {self.room}/lights.sig:4:31 after 2 instants"

    def as_run(self, made, program, flows):
        """Compares a run with that of `tools/sigc run`, whose lines before the last one show places."""
        done = ran("sigc", "run", program, flows)
        out, err, status = self.said(made, flows)
        self.assertEqual((out, err, status), (done.stdout, done.stderr.splitlines(True)[-1], done.returncode))
        return out, err, status

    def test_arrays_and_enumerations(self):
        made = self.made(self.lights)
        out, err, status = self.as_run(made, self.lights, self.flows)
        self.assertEqual((out[: len(WANTED)], err, status), (WANTED, f"{self.out_of_range}\n", 3))
        self.assertIn(HELP, self.said(made, "--help")[0])
        with open(f"{self.room}/c/LIGHTS.h", encoding="ascii") as it:
            header = it.read()
        self.assertIn("enum { LIGHTS_LIGHT_red, LIGHTS_LIGHT_amber, LIGHTS_LIGHT_green };", header)
        self.assertIn("LIGHTS_INDEX_OUT_OF_RANGE", header)
        with open(f"{self.room}/c/LIGHTS.c", encoding="ascii") as it:
            self.assertRegex(it.read(), r'\{LIGHTS_INDEX_OUT_OF_RANGE, 4, 31, "[^"]*", "[^"]*lights.sig:4:31"\}')

    def test_the_literal_step(self):
        self.as_run(self.made(self.lights, "--literal"), self.lights, self.flows)

    def test_modules_and_their_places(self):
        row = wider.written_in(self.room)
        made = self.made(row)
        for it in ("row.flows", "over.flows"):
            out, err, status = self.as_run(made, row, f"{self.room}/{it}")
        self.assertEqual((err, status), (f"end: overflow at {self.room}/ADDS.sig:3:15 in SUMS#1 (called at {row}:11:13) after 1 instants\n", 3))

    def test_elements_by_themselves(self):
        given = "A_0_0 1 2\nA_0_1 2 3\nA[1][0] 1 1\nA_1_1 8 8\nS #red #green\nI 1 0\nW [#red,#red]\nT true\n"
        out, err, status = self.said(self.made(self.lights), written(self.room, "e.flows", given))
        self.assertEqual((out.split("\n")[:4], err, status), (["U #red", "Y [[1,2],[1,8]]", "Z 2", "X [#red,#red]"], "end: input W[0] exhausted after 1 instants\n", 0))

    def test_wrong_flows(self):
        made = self.made(self.lights)
        for text, place in (("S #blue\n", "1:3"), ("S 0\n", "1:3"), ("A [[1,2],[3,4]] [1,2]\n", "1:17"), ("A [[1,2],[3,4]]*2\n", "1:3"), ("W [#red,1]\n", "1:3")):
            with self.subTest(text):
                path = written(self.room, "w.flows", text)
                self.assertEqual(self.said(made, path)[1:], (f"error: {path}:{place}: bad value\n", 4))

    def test_live(self):
        made = self.made(self.lights)
        good, bad, few = "#red [[1,2],[3, 4]] 0 [#red,#green] true\n", "#re [[1,2],[3,4]] 0 [#red,#red] true\n", "#red [[1,2],3] 0 [#red,#red] true\n#red\n"
        out, err, _ = self.said(made, "--live", given=good + bad + few)
        self.assertEqual(out, WANTED)
        self.assertEqual(err, "S: this is no value of it\nA[0][0]: this is no value of it\n1 word, where 5 are wanted, `.` where an input does not come: S A I W T\nend: no line after 1 instants\n")
        _, err, _ = self.said(made, "--live=values", given="blue\n#red\n")
        self.assertEqual(err, "S? #red or #amber or #green is wanted\nS? A[0][0]? end: input A[0][0] exhausted after 0 instants\n")

    def test_a_refusal_has_the_place_of_the_text(self):
        path = written(self.room, "p.sig", "process P = (? [2] integer A; integer B ! integer Y)\n  Y := A[0] + 1;\n")
        done = ran("sigc-c", path, "-o", f"{self.room}/no")
        self.assertTrue(done.stderr.startswith(f"{path}:1:"), done.stderr)
        self.assertIn("no root: A[0] and B are independent", done.stderr)


if __name__ == "__main__":
    unittest.main()
