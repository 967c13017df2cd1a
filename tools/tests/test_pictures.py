"""clocks2dot: pictures of clock trees and of clusters."""
import re
import tempfile
import unittest

from calling import EXAMPLES, needs_sigc, ran, written

from sigc.clocks import plans
from sigc.view import drawings, picture_names

CODE = "actor 0\n0 0 read A\n1 1 send 0\n2 2 compute #2:3\n3 3 send 1\n4 4 report 2\nactor 1\n0 1 receive 0\n1 3 receive 1\n2 4 collect 2\n3 5 commit\n"
CALLS = """process P = (? integer A; boolean B ! integer Y)
(| A ^= B | Y := F(A) |);
process F = (? integer X ! integer Z) Z := G(X);
process G = (? integer U ! integer V) V := U;
"""


class Trees(unittest.TestCase):
    def test_clocks_of_the_compiler_are_left_out(self):
        done = ran("clocks2dot", given="Y ZY\n  -\n    A\n  B\n")
        self.assertEqual(re.findall(r"c\d -> c\d", done.stdout), ["c0 -> c2", "c0 -> c3"])
        self.assertNotIn('label="-"', done.stdout)

    def test_all_of_them(self):
        done = ran("clocks2dot", "--all", given="Y ZY\n  A\n    -\n  B\n")
        self.assertEqual(re.findall(r"c\d -> c\d", done.stdout), ["c0 -> c1", "c1 -> c2", "c0 -> c3"])
        self.assertIn('c2 [label="-"];', done.stdout)

    def test_what_is_neither(self):
        for text in ("", "A\n      B\n", "actor 0\nnonsense\n", "A\n\nB\n"):
            self.assertEqual(ran("clocks2dot", given=text).returncode, 1)

    @needs_sigc
    def test_signals_of_copies_stand_behind_their_path(self):
        with tempfile.TemporaryDirectory() as room:
            done = ran("clocks2dot", "--tree", written(room, "p.sig", CALLS))
        self.assertIn(r'c0 [label="A B Y\lF#1: X Z\lF#1/G#2: U V\l"];', done.stdout)


    @needs_sigc
    def test_a_line_says_when_a_clock_comes(self):
        drawn = ran("clocks2dot", "--tree", f"{EXAMPLES}/pump.sig").stdout
        self.assertIn('[label=" when FRONT"];', drawn)
        self.assertIn('[label=" when not FRONT"];', drawn)
        self.assertIn('[label=" when pace_1"];', ran("clocks2dot", "--pace", "--tree", f"{EXAMPLES}/buttons.sig").stdout)


class Codes(unittest.TestCase):
    def test_one_arrow_for_all_links(self):
        done = ran("clocks2dot", given=CODE)
        self.assertEqual(re.findall(r"a\d -> .*", done.stdout), [r'a0 -> a1 [label="A\land 1 of the compiler\l" penwidth=1.2];'])
        self.assertIn(r'a0 [label="cluster 0\l\lA\l"];', done.stdout)

    def test_all_of_it(self):
        done = ran("clocks2dot", "--all", given=CODE)
        self.assertIn(r'a0 [label="cluster 0\lread A\lcompute #2:3\l"];', done.stdout)
        self.assertIn('label="A #2:3"', done.stdout)

    def test_a_report_alone_is_dotted(self):
        done = ran("clocks2dot", given="actor 0\n0 0 read A\n1 2 report 0\nactor 1\n0 2 collect 0\n1 3 commit\n")
        self.assertIn("a0 -> a1 [style=dotted];", done.stdout)

    @needs_sigc
    def test_signals_of_one_clock_stand_together(self):
        done = ran("clocks2dot", "--code", f"{EXAMPLES}/watch.sig")
        self.assertIn(r'a0 [label="cluster 0\l\lTICK REQ HELD LATE WAS\l\lV\l"];', done.stdout)
        self.assertIn(r'a1 [label="cluster 1\l\lALARM AGE\lCOUNT#1: R N ZN\l"];', done.stdout)


class Drawings(unittest.TestCase):
    def test_arrows_beside_one_another_have_lanes_of_their_own(self):
        self.assertEqual(drawings.lanes_of([(0, 1), (1, 2), (0, 2), (2, 0), (3, 0)]), {(0, 1): 0, (1, 2): 0, (0, 2): 1, (2, 0): 2, (3, 0): 3})

    def test_an_arrow_for_each_two_actors(self):
        code = plans.Code(CODE.splitlines())
        drawn = "\n".join(drawings.Drawing(code, None, picture_names.Names(None, False)).svg())
        self.assertEqual((drawn.count("<rect"), drawn.count("marker-end")), (2, 1))
        self.assertIn(">and 1 of the compiler</text>", drawn)


if __name__ == "__main__":
    unittest.main()
