"""sigc-run and sigc-table: runs that are compared, and tables that become flows."""
import os
import shutil
import tempfile
import time
import unittest
import unittest.mock

from calling import EXAMPLES, TUTORIAL, module_of, needs_sigc, pairs, ran, sigc, written

from sigc.call import measures
from sigc.read import files_read

runner, table = module_of("sigc-run"), module_of("sigc-table")
WATCH = (f"{EXAMPLES}/watch.sig", f"{EXAMPLES}/watch.flows")
PUMP = "FRONT,A,B,PUMPING\nTRUE,40,,FALSE\n,,,\nfalse,, 085,true\n"


@needs_sigc
class OneRun(unittest.TestCase):
    def test_what_it_writes_is_what_sigc_writes(self):
        for words in ((), ("--instants", "3"), ("--workers", "2", "--capacity", "1")):
            done, own = ran("sigc-run", *WATCH, *words), sigc("run", *WATCH, *words)
            self.assertEqual((done.stdout, done.stderr, done.returncode), (own.stdout, own.stderr, own.returncode))

    def test_the_bar(self):
        done = ran("sigc-run", *WATCH, "--progress")
        self.assertIn("[" + "#" * 30 + "] 7 of 7 instants", done.stderr)

    def test_workers_are_measured_for_a_long_run(self):
        with tempfile.TemporaryDirectory() as room:
            flows = written(room, "w.flows", "TICK" + " true" * 20_000 + "\nREQ" + " false" * 20_000 + "\n")
            done = ran("sigc-run", WATCH[0], flows)
        self.assertRegex(done.stderr, r"^workers: [012] \(of a piece of the run: 0: \d+ ms, 1: \d+ ms, 2: \d+ ms\)\nend: ")
        self.assertEqual(len(done.stdout.splitlines()), 40_000)

    def test_what_workers_gain(self):
        done = ran("sigc-run", f"{EXAMPLES}/sum.sig", f"{EXAMPLES}/sum.flows", "--measure")
        self.assertRegex(done.stdout, r"^without workers: \d+ ms, 1 cluster\none cluster is run without workers\n$")
        with tempfile.TemporaryDirectory() as room:
            flows = written(room, "w.flows", "TICK" + " true" * 60_000 + "\nREQ" + " false" * 60_000 + "\n")
            done = ran("sigc-run", WATCH[0], flows, "--measure")
        self.assertRegex(done.stdout, r"^without workers: \d+ ms, 2 clusters\n(times|a run of less)")
        self.assertEqual(done.returncode, 0)

    def test_a_run_that_writes_another_text_is_told(self):
        with unittest.mock.patch.object(measures, "run", lambda words, workers, capacity: (1, str(workers))):
            self.assertRaises(measures.Differing, measures.table_of, ["P", "F"], measures.Plan((32,), (1,), 1, 1))

    def test_a_measurement_fits_into_its_time(self):
        """By how long one run takes: five turns of all ways, fewer turns, fewer ways, runs without workers alone."""
        with unittest.mock.patch("os.cpu_count", lambda: 4):
            self.assertEqual(measures.planned(0.5, 4, 60), measures.Plan((32, 64, 256), (1, 2, 4), 5, 45))
            self.assertEqual(measures.planned(1, 4, 59), measures.Plan((32, 64, 256), (1, 2, 4), 3, 54))
            self.assertEqual(measures.planned(2, 4, 58), measures.Plan((64,), (1, 2, 4), 4, 48))
            self.assertEqual(measures.planned(6, 4, 54), measures.Plan((64,), (4,), 4, 48))
            self.assertEqual(measures.planned(20, 4, 40), measures.Plan((64,), (4,), 1, 40))
            self.assertEqual(measures.planned(25, 4, 35), measures.Plan((), (), 1, 25))
            self.assertEqual(measures.planned(0.01, 4, 60), measures.Plan((), (), 5, 0.05))
            for once in (0.01, 0.3, 1, 3, 7, 13, 29):
                self.assertLessEqual(measures.planned(once, 4, 60 - once).seconds, 60 - once)

    def test_it_says_before_how_long_it_takes(self):
        done = ran("sigc-run", f"{EXAMPLES}/sum.sig", f"{EXAMPLES}/sum.flows", "--measure")
        self.assertEqual(done.stderr, "sigc-run: this takes some 1 s: 5 runs without workers\n")

    def test_turns_end_with_the_time(self):
        """Workers that take longer than the run without them end the measurement early, and not late."""
        at, spent = [0.0], []

        def run(words, workers, capacity):
            at[0] += 10 if workers else 1
            spent.append(workers)
            return (10 if workers else 1), "same"

        with unittest.mock.patch.object(measures, "run", run), unittest.mock.patch.object(measures.time, "monotonic", lambda: at[0]):
            table, alone = measures.table_of(["P", "F"], measures.Plan((64,), (2,), 5, 10), 30)
        self.assertEqual((spent, table, alone), ([0, 2] * 3, {(64, 2): 10}, 1))

    def test_a_run_that_is_too_long_to_measure(self):
        with tempfile.TemporaryDirectory() as room:
            slow = written(room, "slow", "#!/bin/sh\n[ $1 = code ] && echo actor 0\n[ $1 = run ] && exec sleep 20\nexit 0\n")
            os.chmod(slow, 0o700)
            with unittest.mock.patch.dict(os.environ, {"SIGC": slow}):
                begun = time.monotonic()
                done = ran("sigc-run", *WATCH, "--measure", "--seconds", "1")
        self.assertEqual((done.stdout, done.stderr, done.returncode), ("", "sigc-run: one run takes more than 1 s: measure a part of it with --instants N, or give more time with --seconds N\n", 1))
        self.assertLess(time.monotonic() - begun, 15)

    def test_the_table_of_what_workers_gain(self):
        table = {(capacity, workers): 1 / workers for capacity in measures.CAPACITIES for workers in (1, 2)}
        self.assertEqual(list(measures.lines_of(table, 0.2, 2)), [
            "without workers: 200 ms, 2 clusters", "times that, by capacity and workers:", "capacity       1       2",
            "      32    1.00    0.50", "      64    1.00    0.50", "     256    1.00    0.50", "take --workers 2 --capacity 32"])

    def test_the_words_that_sigc_refuses(self):
        done = ran("sigc-run", WATCH[0], f"{EXAMPLES}/wrong.flows")
        self.assertEqual((done.stderr, done.returncode), (f"error: {EXAMPLES}/wrong.flows:1: not an input\n", 4))

    def test_a_want(self):
        with tempfile.TemporaryDirectory() as room:
            right = written(room, "right.want", "Y 11\nY 22\nend: input B exhausted after 2 instants\n")
            wrong = written(room, "wrong.want", "Y 11\nend: input B exhausted after 2 instants\n")
            sums = (f"{EXAMPLES}/sum.sig", f"{EXAMPLES}/sum.flows", "--want")
            self.assertEqual(ran("sigc-run", *sums, right).returncode, 0)
            done = ran("sigc-run", *sums, wrong)
        self.assertEqual((done.stdout, done.returncode), (f"{wrong}: line 2: wanted end: input B exhausted after 2 instants, got Y 22\n", 1))

    def test_a_want_beside_a_watch(self):
        with tempfile.TemporaryDirectory() as room:
            right = written(room, "right.want", "Y 11\nY 22\nend: input B exhausted after 2 instants\n")
            wrong = written(room, "wrong.want", "Y 11\nY 23\nend: input B exhausted after 2 instants\n")
            words = (f"{EXAMPLES}/sum.sig", f"{EXAMPLES}/sum.flows", "--watch")
            for claim, want, told, status in (
                ("Y > A", right, f"{right}: as wanted\n", 0),
                ("Y > A", wrong, f"{wrong}: line 2: wanted Y 23, got Y 22\n", 1),
                ("Y < 20", right, "", 1),
            ):
                done = ran("sigc-run", *words, claim, "--want", want)
                self.assertEqual((done.stdout, done.returncode), (told, status))
                self.assertEqual(done.stderr, "" if told else "watch: `Y < 20` is false at instant 2\n")


@needs_sigc
class Folders(unittest.TestCase):
    def test_the_tutorial(self):
        done = ran("sigc-run", TUTORIAL)
        self.assertEqual((done.stdout.splitlines()[-1], done.returncode), (f"{len(pairs(TUTORIAL))} passed, 0 failed, 0 no want", 0), done.stdout)

    def test_pairs_wants_and_differences(self):
        with tempfile.TemporaryDirectory() as room:
            for name in ("sum.sig", "sum.flows", "wrong.flows", "edge.sig", "down.sig"):
                shutil.copy(f"{EXAMPLES}/{name}", room)
            os.rename(f"{room}/wrong.flows", f"{room}/sum.bad.flows")
            shutil.copy(f"{EXAMPLES}/edge.flows", room)
            self.assertEqual(ran("sigc-run", room).stdout.splitlines()[-1], "0 passed, 0 failed, 3 no want")
            self.assertEqual(ran("sigc-run", room, "--update").stdout.splitlines()[-1], "3 written")
            self.assertEqual(files_read.read_text(f"{room}/sum.bad.want"), "error: sum.bad.flows:1:7: bad value\n")
            self.assertEqual(ran("sigc-run", room).stdout.splitlines()[-1], "3 passed, 0 failed, 0 no want")
            written(room, "edge.want", "RISE true\n")
            done = ran("sigc-run", room)
            self.assertEqual((done.stdout.splitlines()[-1], done.returncode), ("2 passed, 1 failed, 0 no want", 1))
            self.assertIn("edge.want: line 2: wanted the end, got FALL true\n", done.stdout)

    def test_a_folder_without_programs(self):
        with tempfile.TemporaryDirectory() as room:
            self.assertEqual(ran("sigc-run", room).returncode, 1)


class Bars(unittest.TestCase):
    def test_instants_are_counted_in_pieces_of_any_size(self):
        text = b"Y 1\nZ 2\nY 3\nY2 4\nY 5\n"
        for size in (1, 2, 5, 100):
            bar = runner.Bar(b"\nY ", 3, True)
            bar.tell = lambda: None
            for at in range(0, len(text), size):
                bar.seen(text[at : at + size])
            self.assertEqual(bar.count, 3)


class Tables(unittest.TestCase):
    def flows(self, text, *words):
        with tempfile.TemporaryDirectory() as room:
            return ran("sigc-table", "flows", written(room, "t.csv", text), *words)

    @needs_sigc
    def test_booleans_that_tell_whether_others_come(self):
        program = "process P = (? boolean SENSED, PRESSED; integer POS; event B ! integer LAST; event C)\n(| SENSED ^= PRESSED | POS ^= when SENSED | B ^= when PRESSED | LAST := POS | C := B |);\n"
        with tempfile.TemporaryDirectory() as room:
            path, table = written(room, "p.sig", program), written(room, "t.csv", "POS,B,LAST\n3,,3\n,true,\n4,true,4\n")
            done = ran("sigc-table", "flows", table, "--program", path)
            self.assertEqual(done.stdout, "SENSED true false true\nPRESSED false true true\nPOS 3 4\nB true true\n")
            self.assertEqual(ran("sigc-table", "check", path, table).stdout, "3 rows as the program has them\n")
            table = written(room, "t.csv", "POS,SENSED,B\n3,true,\n,false,true\n")
            self.assertTrue(ran("sigc-table", "flows", table, "--program", path).stdout.startswith("SENSED true false\nPRESSED false true\n"))

    def test_flows(self):
        self.assertEqual(self.flows(PUMP).stdout, "FRONT true false\nA 40\nB 85\nPUMPING false true\n")
        self.assertEqual(self.flows(PUMP, "--program", f"{EXAMPLES}/pump.sig").stdout, "FRONT true false\nA 40\nB 85\n")

    def test_counts(self):
        self.assertEqual(self.flows("A,B\n1,\n1,2\n3,\n", "--counted").stdout, "flows 2\nA 1*2 3\nB 2\n")

    def test_a_delimiter_and_a_mark(self):
        self.assertEqual(table.table_of("\xef\xbb\xbfA;B\n1;2\n", ";")[0], ["A", "B"])

    def test_what_is_no_table(self):
        for text, told in (("", "line 1"), ("A,A\n1,2\n", "line 1"), ("A,1\n", "line 1"), ("A\nx\n", "line 2: x is no value"), ("A\n1,2\n", "line 2")):
            with self.subTest(text):
                done = self.flows(text)
                self.assertEqual((done.stdout, done.returncode), ("", 1))
                self.assertIn(told, done.stderr)

    def test_rows_of_a_trace(self):
        self.assertEqual(ran("sigc-table", "rows", f"{EXAMPLES}/early.trace").stdout, "A,Y,ZY\n1,1,0\n5,5,1\n")

    @needs_sigc
    def test_there_and_back(self):
        with tempfile.TemporaryDirectory() as room:
            for name in ("pump", "down", "edge"):
                program, flows = f"{EXAMPLES}/{name}.sig", f"{EXAMPLES}/{name}.flows"
                with self.subTest(name):
                    rows = written(room, "t.csv", ran("sigc-table", "rows", program, flows).stdout)
                    done = ran("sigc-table", "check", program, rows)
                    said = sigc("run", program, written(room, "t.flows", ran("sigc-table", "flows", rows, "--program", program).stdout))
                    self.assertEqual(said.stdout, sigc("run", program, flows).stdout)
                    self.assertEqual(done.returncode, 0, done.stdout)

    @needs_sigc
    def test_a_table_that_the_program_does_not_keep_to(self):
        for change, told in (
            (("false,, 085", "false,3,85"), "line 4: the table has 3 for A, and the run nothing"),
            (("085,true", "085,false"), "line 4: the table has false for PUMPING, and the run true"),
            (("false,, 085,true", "false,,,true"), "the table has 2 rows, and the run 1 instants: end: input B exhausted after 1 instants"),
            (("PUMPING", "PUMP"), "PUMP is no signal of the program"),
        ):
            with self.subTest(told), tempfile.TemporaryDirectory() as room:
                done = ran("sigc-table", "check", f"{EXAMPLES}/pump.sig", written(room, "t.csv", PUMP.replace(*change)))
                self.assertEqual(done.returncode, 1)
                self.assertIn(told, done.stdout + done.stderr)


if __name__ == "__main__":
    unittest.main()
