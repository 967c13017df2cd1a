"""What runs reached: sigc-run --cover, its marks in a page of sigc-view, and the flows that sigc-prove --cover finds for the rest."""
import tempfile
import unittest

from calling import EXAMPLES, needs_sigc, ran, sigc, written

from sigc.prove import z3_solver

needs_z3 = unittest.skipUnless(z3_solver.path(), "z3 is not installed")
# Of R, A > 5 and A > 9 both truths, five branches, and the clocks of R and M: 13 goals.
PICKS = (
    "process P = (? boolean R; integer A ! integer N, M; boolean B)\n(| N := (0 when R) default ((A + 1) when A > 5) default A\n"
    " | M := 7 when B\n | B := (true when R) default (R and A > 9)\n | A ^= R\n |);\n"
)
CALLED = (
    "process P = (? event E; boolean R ! integer N, K)\n(| N := COUNT(R)\n | K := COUNT(R or not R)\n | R ^= E\n |)\n"
    "where process COUNT = (? boolean R ! integer N)\n (| N := (0 when R) default ZN + 1\n  | ZN := N $ init 0 | N ^= R |) where integer ZN; end;\nend;\n"
)
DEEP = "process P = (? boolean UP ! integer N; event TOP, NEVER)\n(| N := (ZN + 1 when UP) default (0 when ZN >= 0) default ZN\n | ZN := N $ init 0\n | TOP := when (N >= 12)\n | NEVER := when (N < 0)\n | N ^= UP\n |)\nwhere integer ZN; end;\n"
PACED = "process P = (? integer U, V ! integer Y; integer Z)\n(| Y := (1 when U > 0) default U\n | Z := V\n |);\n"


@needs_sigc
class Runs(unittest.TestCase):
    def setUp(self):
        room = tempfile.TemporaryDirectory()
        self.addCleanup(room.cleanup)
        self.room = room.name

    def said(self, program, flows, *words, status=1):
        path, runs = written(self.room, "p.sig", program), written(self.room, "p.flows", flows)
        done = ran("sigc-run", path, runs, "--cover", *words)
        self.assertEqual((done.stderr, done.returncode), ("", status), done.stdout)
        first, *rest = done.stdout.splitlines()
        return first.removeprefix(f"{path}: "), [it.removeprefix(f"{path}:") for it in rest]

    def test_goals_by_their_places(self):
        first, left = self.said(PICKS, "R true false\nA 3 4\n")
        self.assertEqual(first, "10 of 13 reached by 1 run of 2 instants")
        self.assertEqual(left, ["2:37: branch `(A + 1) when A > 5` of a default never gave the value", "2:44: condition `A > 5` was never true", "4:40: condition `A > 9` was never true"])
        _, left = self.said(PICKS, "R false false\nA 3 6\n")
        self.assertEqual(left, ["1:24: condition R was never true", "1:50: the clock of M never ticked", "2:12: branch `0 when R` of a default never gave the value",
                                "4:15: branch `true when R` of a default never gave the value", "4:40: condition `A > 9` was never true"])
        self.assertEqual(self.said(PICKS, "R true false false\nA 3 6 10\n"), ("12 of 13 reached by 1 run of 3 instants", ["2:57: branch `A` of a default never gave the value"]))
        self.assertEqual(self.said(PICKS, "R true false false false\nA 3 6 10 0\n", status=0)[1], [])

    def test_an_instant_that_fails_reaches_nothing(self):
        first, left = self.said(PICKS, "R true false\nA 3 9223372036854775807\n")
        self.assertIn("2:37: branch `(A + 1) when A > 5` of a default never gave the value", left)
        self.assertIn("2:44: condition `A > 5` was never true", left)
        self.assertTrue(first.endswith("1 run of 1 instants"), first)

    def test_calls_and_bounds(self):
        flows = "E true true\nR true false\n"
        first, left = self.said(CALLED, flows, "--least", "80", status=0)
        self.assertEqual(left, ["7:32: branch `ZN + 1` of a default in COUNT#2 never gave the value"])
        self.said(CALLED, flows, "--least", "99")

    def test_a_folder_adds_up(self):
        for name, text in (("q.sig", PICKS), ("q.one.flows", "R true false\nA 3 4\n"), ("q.two.flows", "R false false\nA 6 10\n"), ("q.three.flows", "R true\nA 10\n")):
            written(self.room, name, text)
        done = ran("sigc-run", self.room, "--cover")
        self.assertEqual((done.stdout, done.returncode), (f"{self.room}/q.sig: 13 of 13 reached by 3 runs of 5 instants\n", 0))

    def test_paces_and_examples(self):
        path, flows = written(self.room, "p.sig", PACED), written(self.room, "p.flows", "U 1\nV 2\npace_1 true false\npace_2 true true\n")
        done = ran("sigc-run", path, flows, "--cover", "--pace")
        self.assertIn(":2:", done.stdout)
        self.assertIn("branch `U` of a default never gave the value", done.stdout)
        self.assertNotIn("pace_2 was never true", done.stdout)
        self.assertIn(" of ", ran("sigc-run", f"{EXAMPLES}/watch.sig", f"{EXAMPLES}/watch.flows", "--cover").stdout)


    def test_marks_in_a_page(self):
        path, flows = written(self.room, "p.sig", PICKS), written(self.room, "p.flows", "R true false\nA 3 4\n")
        page = ran("sigc-view", path, flows, "--cover").stdout
        self.assertIn("10 of 13 reached, what is not is marked", page)
        self.assertIn('class="unreached" title="condition `A &gt; 9` was never true"', page)
        self.assertEqual(page.count('class="unreached"'), 3)
        plain = ran("sigc-view", path, flows).stdout
        self.assertNotIn('class="unreached"', plain)
        self.assertNotIn("$covered", plain)


@needs_sigc
@needs_z3
class Flows(unittest.TestCase):
    def setUp(self):
        room = tempfile.TemporaryDirectory()
        self.addCleanup(room.cleanup)
        self.room = room.name

    def proved(self, *words):
        return ran("sigc-prove", f"{self.room}/p.sig", "--cover", self.room, "--seconds", "60", *words)

    def test_flows_for_what_is_left(self):
        path = written(self.room, "p.sig", DEEP)
        written(self.room, "p.flows", "UP true false\n")
        said = self.proved()
        self.assertEqual((said.stderr, said.returncode), ("", 0), said.stdout)
        for told in ("branch `ZN` of a default never gave the value: no run", "condition `N < 0` was never true: no run reaches", "the clock of NEVER never ticked: no run"):
            self.assertIn(told, said.stdout)
        self.assertRegex(said.stdout, r"p.cover1.flows: \d+ instants; at 1:46 the clock of TOP ticks\n")
        self.assertRegex(said.stdout, r"proved out of reach, 0 unknown; \d flow files? written\n$")
        run = ran("sigc-run", self.room, "--cover", "--least", "0")
        self.assertNotIn("N >= 12", run.stdout)
        self.assertIn("N < 0", run.stdout)
        self.assertIn(" 0 failed", ran("sigc-run", self.room).stdout)
        self.assertIn("TOP true", sigc("run", path, f"{self.room}/p.cover1.flows").stdout + sigc("run", path, f"{self.room}/p.cover2.flows").stdout)

    def test_flows_keep_to_what_is_assumed(self):
        written(self.room, "p.sig", PICKS)
        said = self.proved("--range", "A=0..7", "--assume", "not R")
        self.assertIn("1:24: condition R was never true: no run reaches this", said.stdout)
        self.assertIn("4:40: condition `A > 9` was never true: no run reaches this", said.stdout)
        run = ran("sigc-run", self.room, "--cover", "--least", "0")
        self.assertNotIn("A > 5", run.stdout)

    def test_another_folder_is_refused(self):
        written(self.room, "p.sig", PICKS)
        said = ran("sigc-prove", f"{self.room}/p.sig", "--cover", EXAMPLES)
        self.assertEqual((said.stdout, said.returncode), ("", 3))
        self.assertIn("name the folder of", said.stderr)


if __name__ == "__main__":
    unittest.main()
