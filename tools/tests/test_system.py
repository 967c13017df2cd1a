"""sigc-system: what a system gives and how it ends, by sigc and by C, and each refusal at its place."""
import os
import shutil
import subprocess
import tempfile
import unittest
from unittest import mock

from calling import EXAMPLES, needs_sigc, ran, written
from helping import only_with

from sigc.system import system_text, system_tokens, wave_order

needs_gcc = only_with(shutil.which("gcc"), "gcc is not installed: the tests of systems in C are left out")
needs_mpi = only_with(shutil.which("mpicc") and shutil.which("mpirun"), "mpicc is not installed: the tests of systems over MPI are left out")
needs_dds = only_with(shutil.which("idlc") and os.path.exists("/usr/include/dds/dds.h"), "cyclonedds-dev is not installed: the tests of systems over DDS are left out")
PLANT = f"{EXAMPLES}/system/plant"
STRICT = "-O1 -Wconversion -Werror"
PROGRAMS = {
    "add": "process ADD = (? integer A, B ! integer Y) (| Y := A + B |);\n",
    "tally": "process TALLY = (? integer A ! integer N) (| N := A + (N $ init 0) |);\n",
    "divide": "process DIVIDE = (? integer A ! integer Y)\n(| Y := 100 / A |);\n",
    "truth": "process TRUTH = (? boolean B ! boolean C) (| C := not B |);\n",
    # 0, and then what it reads
    "first": """process FIRST = (? integer A ! integer Y)
(| IS_FIRST := NEXT $ init true
 | NEXT := IS_FIRST and (not IS_FIRST)
 | A ^= when (not IS_FIRST)
 | Y := A default (0 when IS_FIRST)
 |)
where boolean IS_FIRST, NEXT; end;
""",
    # 0, 1, 2, and then what it reads
    "three": """process THREE = (? integer A ! integer Y)
(| N := NEXT $ init 0
 | NEXT := N + 1
 | A ^= when (N >= 3)
 | Y := A default (N when (N < 3))
 |)
where integer N, NEXT; end;
""",
    # every second value of what it reads
    "half": """process HALF = (? integer A ! integer Y)
(| B := not (B $ init false) | A ^= B | Y := A when B |)
where boolean B; end;
""",
    "bad": "process BAD = (? integer A; boolean B ! integer Y) (| Y := A + (A when B) |);\n",
    # arrays and an enumeration
    "lamps": """type LAMP = enum (red, green);
process LAMPS = (? [2] integer L ! LAMP C; [2] integer M)
(| C := if L[0] < L[1] then #red else #green
 | M := [L[1], L[0]]
 |);
""",
    "shown": """type LAMP = enum (red, green);
process SHOWN = (? LAMP C; [2] integer M ! LAMP D; integer N)
(| D := C | N := if C = #red then M[0] else M[1]
 | C ^= M[0] |);
""",
    "other": """type LAMP = enum (red, amber, green);
process OTHER = (? LAMP C ! integer N)
(| N := if C = #red then 1 else 2 |);
""",
}


class Room(unittest.TestCase):
    """A folder with the programs above, and runs of systems there."""

    def setUp(self):
        room = tempfile.TemporaryDirectory()
        self.addCleanup(room.cleanup)
        self.room = room.name
        for name, text in PROGRAMS.items():
            written(self.room, f"{name}.sig", text)

    def said(self, text, flows, *words):
        """What a run of a system writes, says and answers."""
        done = ran("sigc-system", written(self.room, "s.sys", text), written(self.room, "s.flows", flows), *words)
        return done.stdout, done.stderr, done.returncode

    def both(self, text, flows, *words):
        """The same, which has to be what the system in C does."""
        said = self.said(text, flows, *words)
        if shutil.which("gcc"):
            with mock.patch.dict(os.environ, {"CFLAGS": "-O0"}):
                self.assertEqual(self.said(text, flows, "--c", *words), said)
        return said


def plant_of(levels):
    """What the plant of the examples gives, by its programs' words: a mean, a pump with two bounds, and an alarm."""
    clean = [(it + before) // 2 for it, before in zip(levels, [0, *levels])]
    states, pump, alarms, is_on, count = [], [], [], False, 0
    for it in clean:
        was, is_on = is_on, it >= 80 or is_on and it >= 40
        pump += [is_on] if is_on != was else []
        count = count + 1 if is_on else 0
        alarms += [True] if count == 3 and it >= 80 else []
    return "".join(f"{' '.join([name, *(str(it).lower() for it in values)])}\n" for name, values in (("PUMP", pump), ("ALARM", alarms)))


@needs_sigc
class Runs(Room):
    def test_the_plant(self):
        with open(f"{PLANT}.flows", encoding="ascii") as it:
            levels = [int(word) for word in it.read().split()[1:]]
        done = ran("sigc-system", f"{PLANT}.sys", f"{PLANT}.flows")
        ends = [f"end: {it} exhausted after {len(levels)} instants\n" for it in ("A: input LEVEL", "B: input LEVEL, from A.CLEAN,", "C: input STATE, from B.STATE,")]
        self.assertEqual((done.stdout, done.stderr, done.returncode), (plant_of(levels), "".join(ends), 0))
        self.assertIn("ALARM true", done.stdout)
        done = ran("sigc-system", f"{PLANT}.sys")
        self.assertEqual((done.stdout, done.stderr, done.returncode), ("accepted\n", "", 0))

    def test_a_fault_ends_one_program_and_starves_its_readers(self):
        text = 'system S = (? integer X, Z ! integer U, V)\nA := "divide.sig"(X) B := "tally.sig"(A.Y)\nC := "tally.sig"(Z) U := B.N V := C.N'
        out, err, status = self.both(text, "X 1 2 0 4\nZ 1 2 3 4 5\n")
        self.assertEqual((out, status), ("U 100 150\nV 1 3 6 10 15\n", 3))
        self.assertEqual(err.splitlines(), ["end: A: division by zero at divide.sig:2:13 after 2 instants", "end: B: input A, from A.Y, exhausted after 2 instants", "end: C: input A, from Z, exhausted after 5 instants"])

    def test_a_circle_that_goes_on(self):
        """The sum of what came, by a program that gives a first value before it reads."""
        text = 'system S = (? integer X ! integer U)\nSUM := "add.sig"(X, OLD.Y)\nOLD := "first.sig"(SUM.Y)\nU := SUM.Y'
        out, err, status = self.both(text, "X 1 2 3 4\n")
        self.assertEqual((out, status), ("U 1 3 6 10\n", 0))
        self.assertEqual(err.splitlines(), ["end: SUM: input A, from X, exhausted after 4 instants", "end: OLD: input A, from SUM.Y, exhausted after 5 instants"])

    def test_programs_that_wait_for_each_other(self):
        """Of three values that go round half is left each time, the last one."""
        text = "system S = (? ! integer U)\nA := \"half.sig\"(B.Y) B := \"three.sig\"(A.Y) U := B.Y"
        out, err, status = self.both(text, "")
        self.assertEqual((out, status), ("U 0 1 2 0 2 2\n", 1))
        self.assertEqual(err.splitlines()[-1], "end: waiting: A for B.Y, B for A.Y")

    def test_a_limit(self):
        text = "system S = (? ! integer U)\nA := \"three.sig\"(A.Y) U := A.Y"
        out, err, status = self.both(text, "", "--instants", "7")
        self.assertEqual((out, err, status), ("U 0 1 2 0 1 2 0\n", "end: A: limit after 7 instants\n", 0))

    def test_counts(self):
        text = 'system S = (? integer X[3], K ! integer S[3], T; integer U)\nA[3] := "tally.sig"(X) B[3] := "add.sig"(A.N, K)\nC := "tally.sig"(B[1].Y) S := B.Y T := C.N U := A[2].N'
        out, err, status = self.both(text, "flows 2\nX[0] 1*3\nX[1] 5 6\nX[2]\nK 10 20 30 40\n")
        self.assertEqual((out, status), ("S[0] 11 22 33\nS[1] 15 31\nS[2]\nT 15 46\nU\n", 0))
        self.assertIn("end: A[0]: input A, from X, exhausted after 3 instants\nend: A[1]: input A, from X, exhausted after 2 instants\n", err)

    def test_two_thousand_instances(self):
        text = 'system S = (? integer X[2000]; integer K ! integer S[2000])\nA[2000] := "tally.sig"(X) B[2000] := "add.sig"(A.N, K) S := B.Y'
        flows = "".join(f"X[{it}] {it % 3} {it % 3 + 1}\n" for it in range(2000)) + "K 7 8 9\n"
        out, err, status = self.both(text, flows)
        self.assertEqual(out.splitlines(), [f"S[{it}] {it % 3 + 7} {2 * (it % 3) + 1 + 8}" for it in range(2000)])
        self.assertEqual((err, status), ("end: A[0] to A[1999]: input A, from X, exhausted after 2 instants\nend: B[0] to B[1999]: input A, from A.N, exhausted after 2 instants\n", 0))

    def test_arrays_and_enumerations(self):
        text = 'system S = (? [2] integer L ! LAMP D; integer N; [2] integer M)\nA := "lamps.sig"(L) B := "shown.sig"(A.C, A.M)\nD := B.D N := B.N M := A.M'
        out, err, status = self.both(text, "L [1,2] [5,4] [3,3]\n")
        self.assertEqual((out, status), ("D #red #green #green\nN 2 5 3\nM [2,1] [4,5] [3,3]\n", 0))
        self.assertEqual(err.splitlines()[0], "end: A: input L exhausted after 3 instants")

    def test_flows_are_refused_at_their_place(self):
        text = 'system S = (? integer X[2]; boolean B ! integer U; boolean C)\nA[2] := "tally.sig"(X) T := "truth.sig"(B) U := A[0].N C := T.C'
        for flows, wanted in (("X[0] 1 x\n", "1:8: error: bad value"), ("B true\nX 1\n", "2:1: error: not an input"), ("X[2] 1\n", "1:1: error: not an input"), ("B 1\n", "1:3: error: bad value"), ("X[1] 9223372036854775808", "1:6: error: out of range")):
            out, err, status = self.said(text, flows)
            self.assertEqual((out, status), ("", 4))
            self.assertTrue(err.startswith(f"{self.room}/s.flows:{wanted}\n"), err)

    def test_the_picture(self):
        done = ran("sigc-system", f"{PLANT}.sys", "--dot")
        self.assertEqual(done.returncode, 0)
        for edge in ('"LEVEL" -> "A";', '"A" -> "B" [label="CLEAN"];', '"B" -> "C" [label="STATE"];', '"C" -> "ALARM" [label="ALARM"];'):
            self.assertIn(edge, done.stdout)


HEAD = "system S = (? integer X; boolean B ! integer U)\n"
GOOD = 'T := "truth.sig"(B) '
# What is wrong with a text, and where: line, column and the beginning of what is said.
REFUSED = [
    ("", "1:1: error: found the end of the text; wanted `system`"),
    ("system S = (? integer X ! integer U", "1:36: error: found the end of the text; wanted `)`"),
    ("system S = (? integer X & integer U", "1:25: error: `&` begins no word of a system"),
    ("% a comment", "1:1: error: this comment does not end"),
    (HEAD + 'A := "tally.sig', "2:6: error: this name of a file does not end on its line"),
    ("system S = (? integer X[0] ! )", "1:25: error: 0 is no number from 1 to 100000"),
    ("system S = (? integer X; boolean X ! )", "1:34: error: X is an input already, at 1:23"),
    ("system S = (? ! )", "1:1: error: no instance of a program stands here"),
    (HEAD + 'X := "tally.sig"(X)', "2:1: error: X is an input already, at 1:23"),
    (HEAD + 'A := "none.sig"(X)', "2:6: error: sigc refuses none.sig"),
    (HEAD + 'A := "bad.sig"(X, B) U := A.Y', "2:6: error: sigc refuses bad.sig"),
    (HEAD + 'A := "tally.sig"(X, B) U := A.N', "2:21: error: tally.sig has 1 input, and 2 stand here"),
    (HEAD + 'A := "add.sig"(X) U := A.Y', "2:6: error: add.sig has 2 inputs, and 1 stand here"),
    (HEAD + 'A := "tally.sig"(B) U := A.N', "2:18: error: B is of kind boolean, and A of tally.sig of kind integer"),
    (HEAD + 'A := "tally.sig"(Q) U := A.N', "2:18: error: Q is no input of the system"),
    (HEAD + 'A := "tally.sig"(Q.N) U := A.N', "2:18: error: Q is no instance"),
    (HEAD + 'A := "tally.sig"(X) C := "tally.sig"(A.M) U := A.N', "2:38: error: tally.sig has no output M"),
    (HEAD + 'A := "tally.sig"(X) C := "tally.sig"(A) U := A.N', "2:38: error: A is an instance, and which output is wanted?"),
    (HEAD + GOOD + 'A := "tally.sig"(X) U := A.N U := A.N', "2:50: error: the output U is given values twice"),
    (HEAD + GOOD + 'A := "tally.sig"(X)', "1:46: error: the output U is given no value"),
    (HEAD + GOOD + 'A := "tally.sig"(X) U := A.N V := A.N', "2:50: error: V is no output of the system"),
    (HEAD + GOOD + 'A := "tally.sig"(X) U := X', "2:46: error: X is an input of the system, and U wants an output of an instance"),
    (HEAD + 'A := "tally.sig"(X) U := A.N', "1:34: error: no instance reads the input B"),
    (HEAD + GOOD + 'A[3] := "tally.sig"(X) U := A.N', "2:49: error: there are 3 of A.N, and U wants one"),
    (HEAD + GOOD + 'A[3] := "tally.sig"(X) U := A[3].N', "2:49: error: there are 3 of A, and 3 is none of them"),
    (HEAD + GOOD + 'A := "tally.sig"(X) U := A[0].N', "2:46: error: there is one A, and no count of it"),
    (HEAD + GOOD + 'A[3] := "tally.sig"(X) C[2] := "tally.sig"(A.N) U := A[0].N', "2:64: error: there are 3 of A.N, and A of tally.sig wants 2"),
    (HEAD + GOOD + 'A[0] := "tally.sig"(X)', "2:22: error: 0 instances are none"),
    (HEAD + GOOD + 'A := "add.sig"(X, C.Y)\nC := "add.sig"(A.Y, X) U := C.Y', "2:39: error: A and C wait for each other, and none can begin"),
    (HEAD + GOOD + 'A := "add.sig"(X, A.Y) U := A.Y', "2:39: error: A waits for the answer to what it gives, and none can begin"),
    ('system S = (? [2] integer L ! integer N)\nA := "lamps.sig"(L) B := "other.sig"(A.C) N := B.N', "2:38: error: A.C is of kind LAMP, and C of other.sig of kind LAMP"),
    ('system S = (? [3] integer L ! LAMP C)\nA := "lamps.sig"(L) C := A.C', "2:18: error: L is of kind [3] integer, and L of lamps.sig of kind [2] integer"),
]


@needs_sigc
class Refusals(Room):
    def test_each_is_at_its_place(self):
        for text, wanted in REFUSED:
            with self.subTest(text):
                path = written(self.room, "s.sys", text)
                done = ran("sigc-system", path)
                self.assertEqual((done.stdout, done.returncode), ("", 1))
                self.assertEqual(done.stderr.splitlines()[0].removeprefix(f"{path}:")[: len(wanted)], wanted)

    def test_what_sigc_says_is_told(self):
        done = ran("sigc-system", written(self.room, "s.sys", HEAD + 'A := "bad.sig"(X, B) U := A.Y'))
        self.assertIn(f"{self.room}/bad.sig:1:", done.stderr)

    def test_words_that_do_not_go_together(self):
        for words in (("--c",), ("-C", "threads"), ("-o", "x"), ("--dot", f"{PLANT}.flows"), (f"{PLANT}.flows", "--instants", "0")):
            with self.subTest(words):
                self.assertEqual(ran("sigc-system", f"{PLANT}.sys", *words).returncode, 2)


class Parts(unittest.TestCase):
    """What needs no program: texts, and the order of runs."""

    def test_each_beginning_of_a_text_is_read_or_refused(self):
        with open(f"{PLANT}.sys", encoding="ascii") as it:
            text = it.read()
        for end in range(len(text)):
            try:
                system_text.read(text[:end])
            except system_tokens.Fault as fault:
                self.assertLessEqual(fault.place.line, text.count("\n") + 1)

    def test_waves(self):
        """What is in a circle is in one wave, behind all that it depends on; a long chain and a long circle end."""
        self.assertEqual([sorted(it) for it in wave_order.waves_of([[], [0, 2], [1], [2], [0]])], [[0], [1, 2, 4], [3]])
        self.assertEqual(len(wave_order.waves_of([[it - 1] if it else [] for it in range(5000)])), 5000)
        self.assertEqual(len(wave_order.waves_of([[(it + 1) % 5000] for it in range(5000)])), 1)


class Carried(Room):
    """The same system on each carrier: what its instances give and how they end."""

    text = ('system S = (? integer X, Z ! integer U, V, W)\nSUM := "add.sig"(X, OLD.Y) OLD := "first.sig"(SUM.Y)\n'
            'A := "divide.sig"(Z) B := "tally.sig"(A.Y) C := "tally.sig"(SUM.Y) U := SUM.Y V := B.N W := C.N')
    flows = "flows 2\nX 1*300\nZ 7*250 0 3*9\n"

    def made(self, carrier, text=None, flags=STRICT):
        """The folder of a system in C, built without a warning."""
        folder = tempfile.mkdtemp(dir=self.room)
        done = ran("sigc-system", written(self.room, "s.sys", text or self.text), "-C", carrier, "-o", folder)
        self.assertEqual((done.stdout, done.stderr, done.returncode), ("", "", 0))
        done = subprocess.run(["sh", f"{folder}/build"], capture_output=True, text=True, env={**os.environ, "CFLAGS": flags})
        self.assertEqual((done.stdout, done.stderr, done.returncode), ("", "", 0))
        return folder

    def flow_lines(self, text):
        """Lines of C as flows: the values of each output in their order."""
        found = {}
        for line in text.splitlines():
            name, value = line.split()
            found.setdefault(name, []).append(value)
        return "".join(f"{' '.join([name, *found[name]])}\n" for name in sorted(found))

    def check(self, folder, capacities, words=(), env=None):
        out, err, status = self.said(self.text, self.flows)
        for capacity in capacities:
            with self.subTest(capacity=capacity, words=words):
                done = subprocess.run([f"{folder}/run", f"{self.room}/s.flows", "--capacity", str(capacity), *words], capture_output=True, text=True, timeout=120, env={**os.environ, **(env or {})})
                self.assertEqual((self.flow_lines(done.stdout), sorted(done.stderr.splitlines()), done.returncode), (out, sorted(err.splitlines()), status))


@needs_sigc
@needs_gcc
class Threads(Carried):
    def test_any_capacity_and_any_number_of_threads(self):
        folder = self.made("threads")
        for count in (1, 2, 4):
            self.check(folder, (1, 4, 1024), ("--threads", str(count)))

    def test_no_race(self):
        """What ThreadSanitizer finds would be on standard error."""
        self.check(self.made("threads", flags="-O1 -g -fsanitize=thread -Wconversion -Werror"), (1, 1024))

    def test_a_circle_is_named_on_any_number_of_threads(self):
        folder = self.made("threads", "system S = (? ! integer U)\nA := \"half.sig\"(B.Y) B := \"three.sig\"(A.Y) U := B.Y")
        path = written(self.room, "none", "")
        for count in ("1", "2"):
            done = subprocess.run([f"{folder}/run", path, "--threads", count], capture_output=True, text=True, timeout=60)
            self.assertEqual((done.stderr.splitlines()[-1], done.returncode), ("end: waiting: A for B.Y, B for A.Y", 1))

    def test_a_link_without_room(self):
        """Three values before the first answer need room for three; with less both wait, and say so."""
        folder = self.made("threads", "system S = (? ! integer U)\nA := \"three.sig\"(A.Y) U := A.Y")
        path = written(self.room, "none", "")
        done = subprocess.run([f"{folder}/run", path, "--capacity", "2"], capture_output=True, text=True, timeout=60)
        self.assertEqual((done.stderr, done.returncode), ("end: A: no room for A.Y after 2 instants\nend: waiting: A for room for A.Y\n", 1))
        done = subprocess.run([f"{folder}/run", path, "--capacity", "3", "--instants", "9"], capture_output=True, text=True, timeout=60)
        self.assertEqual((done.stderr, done.returncode), ("end: A: limit after 9 instants\n", 0))


@needs_sigc
@needs_mpi
class Mpi(Carried):
    def test_any_capacity(self):
        self.check(self.made("mpi"), (1, 1024), env={"RANKS": "3"})


@needs_sigc
@needs_dds
class Dds(Carried):
    def test_any_capacity(self):
        domain = str(1 + os.getpid() % 200)
        self.check(self.made("dds", flags="-O1 -Wconversion -Wno-sign-conversion -Werror"), (1, 1024), ("--domain", domain), {"PROCESSES": "3"})


if __name__ == "__main__":
    unittest.main()
