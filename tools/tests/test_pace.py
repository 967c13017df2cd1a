"""The scripts with --pace, over a stand-in that has the flag for programs whose paces are written out by hand, and over
sigc itself where it has it."""
import contextlib
import os
import tempfile
import unittest
from unittest import mock

from calling import EXAMPLES, SIGC, needs_sigc, ran, sigc, written

from sigc.call import running
from sigc.clocks import pace_flag, plans
from sigc.read import expansion

TWO = "process TWO = (? integer U, V ! integer Y, Z)\n(| Y := U + 1 | Z := V + 1 |);\n"
TWO_PACED = "process TWO = (? integer U, V; boolean pace_1, pace_2 ! integer Y, Z)\n(| Y := U + 1 | Z := V + 1 | pace_1 ^= pace_2 | U ^= when pace_1 | V ^= when pace_2 |);\n"
FLOWS = "U 1 2\nV 10 20\npace_1 true false true\npace_2 true true false\n"
TRACE = "U V  Y Z\n1 10 2 11\n. 20 . 21\n2 .  3 .\n"
END = "end: input pace_1 exhausted after 3 instants\n"
# One whose clock K is never there.
NEVER = "process P = (? integer U, V ! event K; integer Y, Z)\n(| Y := U | Z := V | K := U ^- U |);\n"
NEVER_PACED = NEVER.replace("V !", "V; boolean pace_1, pace_2 !").replace(" |)", " | pace_1 ^= pace_2 | U ^= when pace_1 | V ^= when pace_2 |)")
NEVER_FLOWS = "U 1\nV 2\npace_1 true false\npace_2 false true\n"
NEVER_TRACE = "U V K Y Z\n1 . . 1 .\n. 2 . . 2\n"
# One in which an expression has the second clock.
HIDDEN = "process P = (? integer L, Y, N ! integer Z)\n(| Z := L | K := Y ^* N | K ^= K ^- K | Y ^= when ((N ^+ Y) $ init false) |)\nwhere event K; end;\n"
HIDDEN_PACED = HIDDEN.replace("N !", "N; boolean pace_1, pace_2 !").replace(" |)", " | pace_1 ^= pace_2 | L ^= when pace_1 | (N ^+ Y) ^= when pace_2 |)")
HIDDEN_FLOWS = "L 1 2\nY 5 6\nN 7\npace_1 true false true\npace_2 true true true\n"
HIDDEN_TRACE = "L Y N Z K\n1 . 7 1 .\n. 5 . . .\n2 6 . 2 .\n"
# What stands before the name of the program, and what in the place of a program whose paces are written out.
STAND_IN = """#!/bin/sh
words= is_paced=
for it; do
    if [ "$it" = --pace ]; then is_paced=1; continue; fi
    if [ -f "$it" ] && cmp -s "$it" {room}/plain.sig; then it={room}/paced.sig; fi
    words="$words $it"
done
[ -n "$is_paced" ] && exec {sigc} $words
exec {sigc} "$@"
"""
WITHOUT = '#!/bin/sh\ncase " $* " in *" --pace "*) echo "error: these words are not a command" >&2; exit 2;; esac\nexec {sigc} "$@"\n'


@contextlib.contextmanager
def stood_in(text, **texts):
    """A folder with these programs, where the variable SIGC names a stand-in."""
    with tempfile.TemporaryDirectory() as room:
        for name, it in texts.items():
            written(room, f"{name}.sig", it)
        path = written(room, "sigc", text.format(room=room, sigc=SIGC))
        os.chmod(path, 0o755)
        with mock.patch.dict(os.environ, {"SIGC": path}):
            yield room


@needs_sigc
class Paced(unittest.TestCase):
    def setUp(self):
        context = stood_in(STAND_IN, plain=TWO, paced=TWO_PACED)
        self.room = context.__enter__()
        self.addCleanup(context.__exit__, None, None, None)
        self.words = [f"{self.room}/plain.sig", written(self.room, "two.flows", FLOWS), "--pace"]

    def test_the_trace_is_one_of_the_program_itself(self):
        done = ran("sigc-trace", *self.words)
        self.assertEqual((done.stdout, done.stderr, done.returncode), (TRACE, END, 0))
        self.assertEqual(sigc("judge", self.words[0], written(self.room, "two.trace", done.stdout)).stdout, "accepted\n")

    def test_the_paces_are_shown_where_they_are_asked_for(self):
        self.assertEqual(ran("sigc-trace", *self.words, "--signals", "pace_2,U", "--from", "2").stdout, "U pace_2\n. true\n2 false\n")

    def test_a_run_with_its_words(self):
        done = ran("sigc-run", *self.words)
        self.assertEqual((done.stdout, done.stderr), ("Y 2\nZ 11\nZ 21\nY 3\n", END))

    def test_pictures(self):
        self.assertIn("$var wire 1 # pace_1 $end", ran("trace2vcd", *self.words).stdout)
        self.assertIn('"name":"pace_2","own":"pace_2"', ran("sigc-view", *self.words).stdout)
        self.assertIn('c0 [label="pace_1 pace_2"]', ran("clocks2dot", "--tree", self.words[0], "--pace").stdout)

    def test_tables(self):
        rows = ran("sigc-table", "rows", *self.words).stdout
        self.assertEqual(rows, "U,V,pace_1,pace_2,Y,Z\n1,10,true,true,2,11\n,20,false,true,,21\n2,,true,false,3,\n")
        for text in (rows, "U,V,Y,Z\n1,10,2,11\n,20,,21\n2,,3,\n", "U,Z\n1,11\n,21\n2,\n"):
            path = written(self.room, "two.csv", text)
            self.assertIn("pace_1 true false true\npace_2 true true false\n", ran("sigc-table", "flows", path, "--program", self.words[0], "--pace").stdout)
            if "V" in text:
                self.assertEqual(ran("sigc-table", "check", self.words[0], path, "--pace").stdout, "3 rows as the program has them\n")
        done = ran("sigc-table", "flows", written(self.room, "one.csv", "U\n1\n"), "--program", self.words[0], "--pace")
        self.assertEqual(done.stderr, "sigc-table: no column tells pace_2: it is true where V comes\n")

    def test_a_program_with_a_root(self):
        words = [f"{EXAMPLES}/watch.sig", f"{EXAMPLES}/watch.flows"]
        self.assertEqual(ran("sigc-trace", *words, "--pace").stdout, ran("sigc-trace", *words).stdout)

    def test_both_ways_out_are_told(self):
        done = ran("sigc-caret", "check", self.words[0])
        self.assertIn("mend, accepted by check: the clock equation U ^= V", done.stderr)
        self.assertIn("with --pace each of their clocks gets a boolean input, pace_1 and so on", done.stderr)
        self.assertIn(f"mend, accepted by check: sigc check {self.words[0]} --pace\n", ran("sigc-why", self.words[0]).stdout)


class Clocks(unittest.TestCase):
    @needs_sigc
    def test_a_clock_that_is_never_there_gets_no_pace(self):
        with stood_in(STAND_IN, plain=NEVER, paced=NEVER_PACED) as room:
            done = ran("sigc-trace", f"{room}/plain.sig", written(room, "p.flows", NEVER_FLOWS), "--pace")
        self.assertEqual((done.stdout, done.returncode), (NEVER_TRACE, 0))

    @needs_sigc
    def test_a_clock_of_an_expression(self):
        with stood_in(STAND_IN, plain=HIDDEN, paced=HIDDEN_PACED) as room:
            path, flows = f"{room}/plain.sig", written(room, "p.flows", HIDDEN_FLOWS)
            done = ran("sigc-trace", path, flows, "--pace")
            self.assertEqual((done.stdout, done.returncode), (HIDDEN_TRACE, 0))
            self.assertEqual(sigc("judge", path, written(room, "p.trace", done.stdout)).stdout, "accepted\n")
            self.assertIn('"name":"pace_2"', ran("sigc-view", path, flows, "--pace").stdout)
            table = written(room, "p.csv", "L,Y,N\n1,,7\n,5,\n2,6,\n")
            self.assertIn("no column tells pace_2: give it one", ran("sigc-table", "flows", table, "--program", path, "--pace").stderr)

    def test_a_name_that_is_declared_is_no_pace(self):
        flat = expansion.Expansion("process P = (? integer A ! integer pace_3) pace_3 := A;")
        self.assertEqual(pace_flag.names_in(flat, [["pace_10", "pace_1", "pace_02", "pace_3", "A"]]), ["pace_1", "pace_10"])

    def test_which_clocks_are_paced(self):
        flat = expansion.Expansion("process P = (? integer A, B ! integer Y) Y := A;")
        tops = pace_flag.tops_of(flat, plans.Classes(["pace_1 pace_2", "  -", "  Y B", "    A"]))
        self.assertEqual(tops, ["B", None])
        self.assertEqual(pace_flag.paced(["A", "B"], 2, None, None), (["A", "B"], None))
        self.assertEqual(pace_flag.paced(["A", "B", "C"], 2, None, lambda it, _: "A" not in it), (["B", "C"], None))
        self.assertEqual(pace_flag.paced(tops, 2, lambda _: ["X", "Z"], lambda _, hidden: hidden == "Z"), (["B", None], "Z"))
        for found, accepts in ((["B", None, None], True), (tops, False)):
            with self.assertRaisesRegex(running.Refused, "give its expression a name"):
                pace_flag.paced(found, len(found), lambda _: ["X"], lambda *_: accepts)


@needs_sigc
class NotBuilt(unittest.TestCase):
    def test_one_line_says_so(self):
        with stood_in(WITHOUT, plain=TWO) as room:
            words = [f"{room}/plain.sig", written(room, "two.flows", FLOWS), "--pace"]
            table = written(room, "two.csv", "U,V\n1,10\n")
            for script, *rest in (["sigc-trace", *words], ["sigc-view", *words], ["trace2vcd", *words], ["sigc-run", *words], ["sigc-table", "rows", *words], ["sigc-table", "check", words[0], table, "--pace"], ["clocks2dot", "--tree", words[0], "--pace"]):
                with self.subTest(script):
                    done = ran(script, *rest)
                    self.assertEqual((done.stdout, done.stderr, done.returncode), ("", f"{script}: {pace_flag.NOT_BUILT}\n", 2))
            self.assertNotIn("--pace", ran("sigc-caret", "check", words[0]).stderr)
            self.assertNotIn("--pace", ran("sigc-why", words[0]).stdout)


@needs_sigc
class Itself(unittest.TestCase):
    """sigc itself, where it has the flag."""

    def test_two_roots(self):
        if not pace_flag.is_built(SIGC):
            self.skipTest("this sigc does not take --pace")
        with tempfile.TemporaryDirectory() as room:
            done = ran("sigc-trace", written(room, "two.sig", TWO), written(room, "two.flows", FLOWS), "--pace")
            self.assertEqual((done.stdout, done.stderr), (TRACE, END))
            done = ran("sigc-trace", written(room, "never.sig", NEVER), written(room, "never.flows", NEVER_FLOWS), "--pace")
            self.assertEqual(done.stdout, NEVER_TRACE)
            done = ran("sigc-trace", written(room, "hidden.sig", HIDDEN), written(room, "hidden.flows", HIDDEN_FLOWS), "--pace")
            self.assertEqual(done.stdout, HIDDEN_TRACE)


if __name__ == "__main__":
    unittest.main()
