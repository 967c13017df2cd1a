"""sigc-c --clusters: on each carrier a program writes, says and answers what `sigc run` does, at any capacity."""
import glob
import json
import os
import shutil
import signal
import subprocess
import tempfile
import time
import unittest
from unittest import mock

from calling import EXAMPLES, HERE, TUTORIAL, needs_sigc, ran, sigc, written
from helping import only_with

from sigc.c import expressions
from sigc.clusters import cluster_steps, fates

needs_gcc = only_with(shutil.which("gcc"), "gcc is not installed: the tests of clusters in C are left out")
needs_clang = only_with(shutil.which("clang"), "clang is not installed: the test of clusters in C with it is left out")
needs_mpi = only_with(shutil.which("mpicc") and shutil.which("mpirun"), "mpicc is not installed: the tests of clusters over MPI are left out")
needs_dds = only_with(shutil.which("idlc") and os.path.exists("/usr/include/dds/dds.h"), "cyclonedds-dev is not installed: the tests of clusters over DDS are left out")
STRICT = "-O1 -Wconversion -Werror"
OF_DDS = "-O1 -Wconversion -Wno-sign-conversion -Werror"
CAPACITIES = (1, 4, 1024)
SECONDS = 120

# Rows that end by the first of two faults near one instant: that of the operation that comes first, or that of the lesser instant.
FAULTS = """process FAULTS = (? integer A, B, C ! integer X, Y, Z)
pragmas RunOn {X} "0" RunOn {Y} "1" RunOn {Z} "2" end pragmas
(| X := 100 / A | Y := 100 / B | Z := (100 / C) + (X $ init 0) | A ^= B ^= C |);
"""
# A signal that goes to another cluster and comes back in the same instant.
CIRCLE = """process CIRCLE = (? integer A ! integer Y)
pragmas RunOn {Z} "1" end pragmas
(| X := A + (Y $ init 0) | Z := X + 1 | Y := Z - A |)
where integer X, Z; end;
"""


PAIRS = range(6)
TRUTHS = [f"{it}{at}" for it in "BC" for at in PAIRS]
# A guard of many tests, whose parts get names: conditions of a pair stand far from each other.
GUARDS = f"""process GUARDS = (? boolean {", ".join(TRUTHS)}; integer A ! integer Y, Z)
pragmas RunOn {{Z}} "1" end pragmas
(| Y := A when ({" or ".join(f"(B{it} and C{it})" for it in PAIRS)}) | Z := (Y default (0 when ^A)) + 1 | A ^= {" ^= ".join(TRUTHS)} |);
"""
# A chain of clusters, each of which takes a signal from the one before.
CHAIN = range(64)
MANY_CLUSTERS = f"""process CHAIN = (? integer A ! integer Y)
pragmas {" ".join(f'RunOn {{X{it}}} "{it}"' for it in CHAIN)} end pragmas
(| X0 := A + 1 | {" | ".join(f"X{it} := X{it - 1} + {it}" for it in CHAIN[1:])} | Y := X63 modulo 100 |)
where integer {", ".join(f"X{it}" for it in CHAIN)}; end;
"""
MANY_FLOWS = f"A {' '.join(map(str, range(2000)))}\n"
# More outputs that may be missing than one item tells of.
MANY = f"""process MANY = (? integer A ! integer {", ".join(f"Y{it}" for it in range(40))}; event E; boolean G)
pragmas RunOn {{{", ".join(f"Y{it}" for it in range(40))}, E}} "1" end pragmas
(| G := A > 3 | E := when (A modulo 7 = 0) | {" | ".join(f"Y{it} := A when (A modulo {it + 2} = 0)" for it in range(40))} |);
"""


def cases():
    """Programs of 2 to 64 clusters, with what their runs are to write, say and answer."""
    with open(f"{HERE}/clusters.jsonl", encoding="ascii") as it:
        return [json.loads(line) for line in it]


def flows_of(instants, **faults):
    """Flows without a 0, but those that are asked for: the name of an input, and the instant at which it has one."""
    lines = []
    for name in "ABC":
        values = ["7"] * instants
        if name in faults:
            values[faults[name] - 1] = "0"
        lines.append(f"{name} {' '.join(values)}\n")
    return "".join(lines)


class Room(unittest.TestCase):
    """A folder in which programs are built and run."""

    carrier, seconds = "threads", SECONDS

    def setUp(self):
        room = tempfile.TemporaryDirectory()
        self.addCleanup(room.cleanup)
        self.room = room.name

    def made(self, text, *words, flags=STRICT):
        """The folder of a program, built without a warning."""
        folder = tempfile.mkdtemp(dir=self.room)
        done = ran("sigc-c", written(folder, "p.sig", text), "--clusters", "--carrier", self.carrier, "-o", f"{folder}/c", *words)
        self.assertEqual((done.stdout, done.stderr, done.returncode), ("", "", 0))
        done = subprocess.run(["sh", f"{folder}/c/build"], capture_output=True, text=True, env={**os.environ, "CFLAGS": flags})
        self.assertEqual((done.stdout, done.stderr, done.returncode), ("", "", 0))
        return folder

    def said(self, folder, flows, *words):
        """What a run writes, says and answers."""
        path = written(folder, "flows", flows)
        done = subprocess.run([f"{folder}/c/run", path, *words], capture_output=True, text=True, encoding="latin-1", timeout=self.seconds)
        return done.stdout, done.stderr, done.returncode

    def wanted(self, folder, flows, *words):
        """What `sigc run` writes, says and answers."""
        done = sigc("run", f"{folder}/p.sig", written(folder, "flows", flows), "--workers", "0", *words)
        return done.stdout, done.stderr, done.returncode

    def check(self, text, all_flows, capacities=CAPACITIES, words=(), flags=STRICT):
        """Runs a program over flows as sigc does, at each capacity."""
        folder = self.made(text, *words, flags=flags)
        for flows in all_flows:
            wanted = self.wanted(folder, flows)
            for capacity in capacities:
                self.assertEqual(self.said(folder, flows, "--capacity", str(capacity)), wanted, (flows, capacity))

    def check_cases(self, rows, capacities, *words, flags=STRICT):
        for it in rows:
            folder = self.made(it["program"], flags=flags)
            for capacity in capacities:
                with self.subTest(it["name"], capacity=capacity):
                    self.assertEqual(self.said(folder, it["flows"], "--instants", "12", "--capacity", str(capacity), *words), (it["out"], it["err"], it["status"]))


@needs_sigc
@needs_gcc
class Threads(Room):
    def test_cases(self):
        self.check_cases(cases(), CAPACITIES)

    def test_two_faults_near_one_instant(self):
        """The named cause is the first in the order of the operations, of the least instant."""
        places = [{"A": 50, "B": 50}, {"A": 50, "C": 50}, {"B": 50, "C": 50}, {"A": 51, "B": 50}, {"A": 50, "B": 51}, {"C": 49, "A": 50, "B": 50}, {"A": 50, "B": 50, "C": 50}]
        self.check(FAULTS, [flows_of(100, **it) for it in places] + ["A 1 2 3\nB 1 2 0\nC 1 2\n"])

    def test_a_circle_within_an_instant(self):
        self.check(CIRCLE, ["flows 2\nA 3*5000\n"])

    def test_a_circle_within_an_instant_over_many_instants(self):
        """Of each instant two items are waited for; the links hold as many as they do where nothing is said."""
        self.check(CIRCLE, ["flows 2\nA 3*100000\n"], (16384,))

    def test_sixty_four_clusters_on_four_threads(self):
        folder = self.made(MANY_CLUSTERS)
        self.assertEqual(self.said(folder, MANY_FLOWS, "--threads", "4"), self.wanted(folder, MANY_FLOWS))

    def test_any_number_of_threads(self):
        folder = self.made(FAULTS)
        flows = flows_of(3000, B=2900)
        for count in (1, 2, 3, 4, 9):
            with self.subTest(threads=count):
                self.assertEqual(self.said(folder, flows, "--threads", str(count), "--capacity", "5"), self.wanted(folder, flows))
        self.assertEqual(self.said(folder, flows, "--cpus", "0"), self.wanted(folder, flows))

    def test_no_race(self):
        """What ThreadSanitizer finds would be on standard error."""
        flags = "-O1 -g -fsanitize=thread -Wconversion -Werror"
        self.check(FAULTS, [flows_of(400, A=390, B=390)], words=(), flags=flags)
        self.check(CIRCLE, ["flows 2\nA 3*400\n"], flags=flags)

    @needs_clang
    def test_clang(self):
        with mock.patch.dict(os.environ, {"CC": "clang"}):
            self.check(FAULTS, [flows_of(60, A=51, B=50)], (1, 1024))

    def test_a_long_guard(self):
        truths = [f"{it} {' '.join('true' if at * 7919 % (number + 3) == 0 else 'false' for at in range(90))}\n" for number, it in enumerate(TRUTHS)]
        self.check(GUARDS, ["".join(truths) + f"A {' '.join(map(str, range(90)))}\n"], (2,))

    def test_many_outputs_that_may_be_missing(self):
        self.check(MANY, [f"A {' '.join(map(str, range(90)))}\n"], (3,))

    def test_a_barrier(self):
        self.check(FAULTS, [flows_of(300, A=250, B=250), flows_of(20)], words=("--barrier",))

    def test_examples(self):
        """A program of one cluster has one, too."""
        for program, flows in ((f"{TUTORIAL}/clusters", f"{TUTORIAL}/clusters"), (f"{EXAMPLES}/watch", f"{EXAMPLES}/watch")):
            with open(f"{program}.sig", encoding="ascii") as text, open(f"{flows}.flows", encoding="ascii") as values:
                self.check(text.read(), [values.read()], (3,))


# Faults planted in the writer: what stands there, and what stands there then.
PLANTED = {
    "no guard is asked": (cluster_steps.Cluster, "choice", lambda found: lambda self, guard: expressions.constant(1)),
    "the ends are in another order": (fates.Fates, "__init__", lambda found: lambda self, operations, *words: found(self, operations[::-1], *words)),
    "each output comes": (cluster_steps.Cluster, "here", lambda found: lambda self, signal: None),
    "a memory begins with another value": (cluster_steps.Cluster, "state", lambda found: lambda self: {it: (kind, "1") for it, (kind, _) in found(self).items()}),
    "nothing is kept where a step waits": (cluster_steps.Cluster, "kept_variables", lambda found: lambda self: set(self.here_words)),
}


@needs_sigc
@needs_gcc
class Faults(Room):
    """Each fault in the writer of steps shows in a run, if only in how it fails to build or to end."""

    seconds = 30

    def is_right(self, text, flows):
        try:
            self.check(text, [flows], (1,), flags="-O0 -w")
        except (AssertionError, subprocess.TimeoutExpired):
            return False
        return True

    def test_each_is_found(self):
        rows = [(FAULTS, flows_of(60, B=50, C=50)), (MANY, f"A {' '.join(map(str, range(30)))}\n")]
        self.assertTrue(all(self.is_right(*it) for it in rows))
        for name, (where, what, planted) in PLANTED.items():
            with mock.patch.object(where, what, planted(getattr(where, what))):
                self.assertFalse(all(self.is_right(*it) for it in rows), name)


@needs_sigc
@needs_gcc
class Local(Room):
    """Outputs where they arise: each cluster writes its own."""

    def lines(self, text, name):
        return [it for it in text.splitlines() if it.startswith(f"{name} ")]

    def test_outputs_begin_one_another(self):
        """What a cluster has written and that output's flow in the one trace begin one another; so does the cause."""
        folder = self.made(FAULTS, "--local-outputs")
        flows = flows_of(300, B=200)
        wanted = self.wanted(folder, flows)
        for capacity in CAPACITIES:
            out, err, status = self.said(folder, flows, "--capacity", str(capacity))
            self.assertEqual((err, status), wanted[1:])
            for name in "XYZ":
                one, other = self.lines(out, name), self.lines(wanted[0], name)
                least = min(len(one), len(other))
                self.assertEqual(one[:least], other[:least])
            self.assertEqual(self.lines(out, "Y"), self.lines(wanted[0], "Y"))

    def test_outputs_with_a_barrier(self):
        """With a barrier no cluster gives an output of an instant that another one cannot do."""
        folder = self.made(FAULTS, "--local-outputs", "--barrier")
        flows = flows_of(300, B=200, C=201)
        wanted = self.wanted(folder, flows)
        os.makedirs(f"{folder}/out")
        out, err, status = self.said(folder, flows, "--into", f"{folder}/out", "--capacity", "7")
        self.assertEqual((out, err, status), ("", *wanted[1:]))
        for number, name in enumerate("XYZ"):
            with open(f"{folder}/out/cluster_{number}", encoding="ascii") as it:
                self.assertEqual(it.read().splitlines(), self.lines(wanted[0], name))


class Apart(Room):
    """Programs whose actors are processes: what their runs write, and how they end where one of these is lost."""

    few = ("two clusters, a divisor 0", "three clusters, an input without values", "four clusters, an output that another cluster reads", "six clusters, an overflow", "four clusters, items that come behind an end")
    # more than any of the tests below waits for
    endless = "flows 2\nA 3*4000000\n"

    def rows(self):
        return [it for it in cases() if it["name"] in self.few]

    def begun(self, *words):
        """A process that is to be lost or to see it, with files for what it writes and says."""
        self.outs = [open(f"{self.room}/{it}", "w+", encoding="latin-1") for it in ("out", "err")]
        for it in self.outs:
            self.addCleanup(it.close)
        return subprocess.Popen(words, stdout=self.outs[0], stderr=self.outs[1])

    def wait_for_text(self):
        """Waits until something was written."""
        until = time.monotonic() + SECONDS
        while not os.path.getsize(f"{self.room}/out") and time.monotonic() < until:
            time.sleep(0.1)

    def check_lost(self, process, cause):
        """An end with its cause and a status of its own; what was written begins the text of the run."""
        status = process.wait(timeout=SECONDS)
        texts = []
        for it in self.outs:
            it.seek(0)
            texts.append(it.read())
        self.assertEqual(texts[0].splitlines(), self.circle(texts[0].count("\n")))
        self.assertRegex(texts[1], cause)
        self.assertNotEqual(status, 0)

    def circle(self, count):
        """The lines of CIRCLE over threes: its output is one more than that of the instant before."""
        return [f"Y {it + 1}" for it in range(count)]


@needs_sigc
@needs_mpi
class Mpi(Apart):
    carrier = "mpi"
    ranks = "3"

    def said(self, folder, flows, *words):
        with mock.patch.dict(os.environ, {"RANKS": self.ranks}):
            return super().said(folder, flows, *words)

    def test_cases(self):
        self.check_cases(self.rows(), CAPACITIES)

    def test_sixty_four_clusters_on_four_ranks(self):
        self.ranks = "4"
        folder = self.made(MANY_CLUSTERS)
        self.assertEqual(self.said(folder, MANY_FLOWS), self.wanted(folder, MANY_FLOWS))

    def test_a_rank_for_each_actor(self):
        self.ranks = "9"
        self.check_cases(self.rows()[-1:], (1,))

    def test_two_faults_near_one_instant(self):
        self.check(FAULTS, [flows_of(60, A=51, B=50), flows_of(60, A=50, B=50)], (1, 1024))

    def test_local_outputs(self):
        folder = self.made(FAULTS, "--local-outputs", "--barrier")
        os.makedirs(f"{folder}/out")
        flows = flows_of(40, B=30)
        wanted = self.wanted(folder, flows)
        self.assertEqual(self.said(folder, flows, "--into", f"{folder}/out"), ("", *wanted[1:]))
        texts = [open_text(f"{folder}/out/cluster_{it}") for it in range(3)]
        self.assertEqual(sorted("".join(texts).splitlines()), sorted(wanted[0].splitlines()))

    def test_words_are_refused_once(self):
        self.assertEqual(self.said(self.made(CIRCLE), "A 1\n", "--capacity", "0"), ("", "error: these words are not a command\n", 2))

    def lost(self, signal_sent, cause):
        folder = self.made(CIRCLE)
        path = written(folder, "flows", self.endless)
        with mock.patch.dict(os.environ, {"RANKS": "3"}):
            process = self.begun(f"{folder}/c/run", path, "--deadline", "3", "--capacity", "1")
        self.wait_for_text()
        for it in ranks_of(f"{folder}/c/program")[-1:]:
            os.kill(it, signal_sent)
        self.check_lost(process, cause)

    def test_a_rank_that_is_killed(self):
        self.lost(signal.SIGKILL, "signal 9|Killed")

    def test_a_rank_that_stops(self):
        self.lost(signal.SIGSTOP, "nothing within 3 seconds, seen by")


def ranks_of(path):
    """The processes that run a program."""
    found = []
    for it in glob.glob("/proc/[0-9]*/cmdline"):
        try:
            with open(it, "rb") as words:
                if words.read().split(b"\0")[0] == path.encode():
                    found.append(int(it.split("/")[2]))
        except OSError:
            continue
    return sorted(found)


def open_text(path):
    with open(path, encoding="latin-1") as it:
        return it.read()


@needs_sigc
@needs_dds
class Dds(Apart):
    carrier = "dds"

    def setUp(self):
        super().setUp()
        self.domain = str(1 + os.getpid() % 200)

    def made(self, text, *words, flags=OF_DDS):
        return super().made(text, *words, flags=flags)

    def said(self, folder, flows, *words):
        return super().said(folder, flows, "--domain", self.domain, *words)

    def test_cases(self):
        self.check_cases(self.rows(), CAPACITIES, flags=OF_DDS)

    def test_two_faults_near_one_instant(self):
        self.check(FAULTS, [flows_of(60, A=51, B=50), flows_of(60, A=50, B=50)], (1, 1024), flags=OF_DDS)

    def test_one_process(self):
        """Without --own all actors are in one process, and nothing goes over DDS."""
        folder = self.made(FAULTS)
        flows = flows_of(60, B=50)
        done = subprocess.run([f"{folder}/c/program", written(folder, "flows", flows)], capture_output=True, text=True, timeout=SECONDS)
        self.assertEqual((done.stdout, done.stderr, done.returncode), self.wanted(folder, flows))

    def lost(self, signal_sent):
        folder = self.made(CIRCLE)
        path = written(folder, "flows", self.endless)
        words = [f"{folder}/c/program", path, "--domain", self.domain, "--deadline", "3", "--own"]
        with mock.patch.dict(os.environ, {"CYCLONEDDS_URI": f"file://{folder}/c/loopback.xml"}):
            others = [subprocess.Popen([*words, it], stderr=subprocess.DEVNULL) for it in "01"]
            process = self.begun(*words, "2")
        self.wait_for_text()
        others[1].send_signal(signal_sent)
        self.check_lost(process, r"\Aerror: (cluster [01]: .*, seen by the collector after \d+ instants|another process has lost a partner)\n\Z")
        others[1].kill()
        self.assertEqual([others[0].wait(timeout=SECONDS), others[1].wait()], [11, -signal.SIGKILL])

    def test_a_process_that_is_killed(self):
        self.lost(signal.SIGKILL)

    def test_a_process_that_stops(self):
        self.lost(signal.SIGSTOP)

    def test_a_process_that_never_comes(self):
        folder = self.made(CIRCLE)
        words = [f"{folder}/c/program", written(folder, "flows", "A 1\n"), "--own", "1,2", "--domain", self.domain, "--deadline", "1"]
        env = {**os.environ, "CYCLONEDDS_URI": f"file://{folder}/c/loopback.xml"}
        done = subprocess.run(words, capture_output=True, text=True, env=env, timeout=SECONDS)
        self.assertEqual((done.stdout, done.returncode), ("", 11))
        self.assertRegex(done.stderr, r"\Aerror: cluster 0: nothing within 1 seconds, seen by (cluster 1|the collector) after 0 instants\n\Z")


@needs_sigc
class Words(Room):
    """Words that do not go together."""

    def test_of_sigc_c(self):
        program = written(self.room, "p.sig", FAULTS)
        for words in (("--clusters",), ("--carrier", "threads"), ("--barrier",), ("--local-outputs",), ("--clusters", "--carrier", "threads", "--types")):
            done = ran("sigc-c", program, "-o", f"{self.room}/c", *words)
            self.assertEqual((done.stdout, done.returncode), ("", 2), words)
            self.assertIn("--clusters", done.stderr)

    @needs_gcc
    def test_of_a_run(self):
        folder = self.made(FAULTS)
        for words in (["--capacity", "0"], ["--capacity", "65537"], ["--threads", "65"], ["--cpus", "a"], ["more"], ["--instants", "0"], ["--into", "x"]):
            self.assertEqual(self.said(folder, flows_of(3), *words), ("", "error: these words are not a command\n", 2), words)

    @needs_gcc
    def test_files_that_are_no_flows(self):
        folder = self.made(FAULTS)
        for text in ("A 1 x\n", "D 1\n", "A 99999999999999999999\n", "A 1\x01\n"):
            self.assertEqual(self.said(folder, text), self.wanted(folder, text))


if __name__ == "__main__":
    unittest.main()
