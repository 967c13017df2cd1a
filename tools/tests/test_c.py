"""sigc-c: what its programs in C write is what sigc runs write."""
import os
import shutil
import subprocess
import tempfile
import unittest
from unittest import mock

from calling import EXAMPLES, SIGC, TUTORIAL, needs_sigc, pairs, ran, sigc, written
from helping import only_with
from edges import Edge
from programs import Program

import compiled
from sigc.c import c_files, c_names, expressions, step_text
from sigc.image import sources

needs_gcc = only_with(shutil.which("gcc"), "gcc is not installed: the tests of sigc-c that compile are left out")
needs_tcc = only_with(shutil.which("tcc"), "tcc is not installed: the test of sigc-c with it is left out")
needs_clang = only_with(shutil.which("clang"), "clang is not installed: the test of sigc-c with it is left out")
COUNT = int(os.environ.get("SIGC_C_PROGRAMS", "40"))
LIMIT = 40

# Programs with flows that end in each way, and names that C has for itself.
SPECIAL = {
    "quotient": ("process P = (? integer A, B ! integer Q) Q := A / B;", ["A -9223372036854775808 7\nB 1 0", "A 7 -7 -9223372036854775808\nB -2 2 -1"]),
    "remainder": ("process P = (? integer A, B ! integer Q) Q := A modulo B;", ["A -9223372036854775808 -7 7 5\nB -1 3 -3 0"]),
    "by constants": (
        "process P = (? integer A ! integer Q, R, S, T) (| Q := A / -1 | R := A modulo -1 | S := A / 3 | T := A modulo -3 |);",
        ["A 7 -7 9223372036854775807 -9223372036854775808"],
    ),
    "of constants": ("process P = (? integer A ! integer Q, R) (| Q := 7 / A | R := -7 modulo A |);", ["A 2 -2 -1 0"]),
    "by zero": ("process P = (? integer A; boolean B ! integer Y, Z) (| Y := (A when B) / 0 | Z := A + 1 | B ^= A |);", ["A 1 2 3\nB false false true"]),
    "always by zero": ("process P = (? integer A ! integer Y) Y := A / 0;", ["A 1", ""]),
    "unread": (
        "process P = (? integer A, B ! integer Y) (| Y := A | U := A / B | V := A + B | W := A < B | X := V $ init 3 | Z := X + 1 |)\n"
        "where integer U, V, X, Z; boolean W; end;",
        ["A 1 2 3\nB 1 2 0", "A 1 9223372036854775807\nB 1 1", "A 9223372036854775806 1\nB 1 1"],
    ),
    "comparisons": (
        "process P = (? integer A; boolean B; event E ! boolean C, D, F, G, H, I, J, K, L, M)\n"
        "(| C := A <= 9223372036854775807 | D := A > 9223372036854775807 | F := A = A | G := A /= A | H := A < A | I := B = true\n"
        " | J := B /= false | K := B and true | L := B xor E | M := (3 <= A) = (A >= 3) | A ^= B ^= E |);",
        ["A 3 -9223372036854775808 9223372036854775807\nB true false true\nE true true true"],
    ),
    "relations": (
        "process P = (? integer A, B ! boolean C, D, E, F, G, H, I, J, K) (| C := A < B | D := A <= B | E := A > B | F := A >= B | G := A = B | H := A /= B\n"
        " | I := A <= A | J := A >= A | K := A > A |);",
        ["A 1 2 3 -9223372036854775808 9223372036854775807\nB 2 2 2 9223372036854775807 -9223372036854775808"],
    ),
    "signs": ("process P = (? integer A ! integer Y, Z) (| Y := - A | Z := - - - A - -5 |);", ["A 1 -2 -9223372036854775808", "A 9223372036854775807"]),
    "sums": (
        "process P = (? integer A, B ! integer Y) Y := A + B;",
        ["A 9223372036854775806 -9223372036854775807 -9223372036854775808 0 9223372036854775807\nB 1 -1 9223372036854775807 -9223372036854775808 1", "A -9223372036854775808\nB -1"],
    ),
    "differences": (
        "process P = (? integer A, B ! integer Y) Y := A - B;",
        ["A 9223372036854775806 -9223372036854775807 -1 9223372036854775807 0\nB -1 1 -9223372036854775808 0 -9223372036854775808", "A -9223372036854775808\nB 1", "A -2\nB 9223372036854775807"],
    ),
    "products": (
        "process P = (? integer A, B ! integer Y) Y := A * B;",
        ["A 3 -3 3037000500\nB 7 -7 3037000500", "A -9223372036854775808\nB -1", "A -1 0\nB -9223372036854775808 5", "A 4611686018427387904 -4611686018427387904 4611686018427387904\nB -2 2 2"],
    ),
    "no input": ("process P = (? ! integer Y) Y := (Y $ init 9223372036854775770) + 1;", [""]),
    "no output": ("process P = (? integer A ! ) X := A + 1 where integer X; end;", ["A 1 9223372036854775807"]),
    "no state": ("process P = (? boolean A; event E ! boolean Y; event F) (| Y := not A | F := E ^* (when A) | E ^= when A |);", ["A true false true\nE true"]),
    "names": (
        "process NAMES = (? integer int, state, context, INT64_MAX, int64_t, NAMES_step, value, add ! integer main, r_NAMES_int, linux, errno, a)\n"
        "(| main := int + state | r_NAMES_int := context + INT64_MAX | linux := int64_t - NAMES_step | errno := value * add | a := linux / errno\n"
        " | int ^= state ^= context ^= INT64_MAX ^= int64_t ^= NAMES_step ^= value ^= add |);",
        ["int 1\nstate 2\ncontext 3\nINT64_MAX 4\nint64_t 5\nNAMES_step 6\nvalue 7\nadd 8"],
    ),
    "remainder by what may be -1 and not 0": (
        "process P = (? integer A, B ! integer Y, Z) (| N := B < 0 | Y := (A when N) modulo (B when N) | Z := ((A when N) modulo (B when N)) + 1 | A ^= B |)\n"
        "where boolean N; end;",
        ["A -9223372036854775808 7 -9223372036854775808 -7\nB -1 -1 -2 3"],
    ),
    "choice of what is alike": ("process P = (? integer A ! integer Y) (| S := A > 0 | Y := (A when S) default A |) where boolean S; end;", ["A 1 -1 0"]),
    "always too large": (
        "process P = (? boolean B ! integer Y, Z, T, U, V) (| X := (2 when B) default (3 when not B) | Y := X * 9223372036854775807 | Z := Y when B | T := Z default X\n"
        " | U := Y modulo 3 | V := Y modulo X |)\n"
        "where integer X; end;",
        ["B true", "B false", ""],
    ),
    "names of a step": (
        "process P = (? integer a, b, result; boolean divide, subtract ! integer Y, Y_comes, next_Z; boolean P_step)\n"
        "(| Y := a / b | Y_comes := result modulo b | Z := (Z $ init 1) + Y | next_Z := Z when divide | P_step := divide and not subtract\n"
        " | a ^= b ^= result ^= divide ^= subtract |) where integer Z; end;",
        ["a 7 -7 5\nb 2 2 0\nresult 5 5 5\ndivide true false true\nsubtract false true true"],
    ),
    "trigraphs": ("process P = (? integer A ! integer Y) Y := A + 1; % what??/ \n *" + "/ and /" + "* \xe9 %", ["A 1"]),
}
# A call whose names C would take for others.
COPIES = """process P = (? integer F_1_X ! integer Y, Z) (| Y := F(F_1_X) | Z := F(F_1_X + 1) |)
where process F = (? integer X ! integer Y) (| Y := X + Z | Z := Y $ init 1 |) where integer Z; end; end;"""


def built(text):
    """The image of a program; None where it is refused."""
    with tempfile.TemporaryDirectory() as room:
        done = subprocess.run([SIGC, "build", written(room, "p.sig", text)], capture_output=True)
    return done.stdout if done.returncode == 0 else None


def wanted(text, flows, limit):
    """What `sigc run` writes and says."""
    with tempfile.TemporaryDirectory() as room:
        done = sigc("run", written(room, "p.sig", text), written(room, "p.flows", flows), "--workers", "0", "--instants", str(limit))
    return done.stdout + done.stderr


def drawn(count, first=0, kind=Program):
    """Programs drawn at random that are accepted, each with the texts of three flows."""
    found, seed = [], first
    while len(found) < count:
        program = kind(seed)
        text, seed = program.text(), seed + 1
        image = built(text)
        if image is not None:
            found.append((text, image, [program.flows() for _ in range(3)]))
    return found


def special():
    rows = [(text, flows) for text, flows in SPECIAL.values()] + [(COPIES, ["F_1_X 1 2 3", "F_1_X 9223372036854775807"])]
    return [(text, built(text), flows) for text, flows in rows]


class Compared:
    """Programs with what sigc says of their runs, to be compared with what C says."""

    def __init__(self, rows):
        self.rows = rows
        self.wanted = [(at, flows, wanted(text, flows, LIMIT)) for at, (text, _, all_flows) in enumerate(rows) for flows in all_flows]

    def differences(self, folder, bounds=None, is_literal=False, **how):
        """The runs that differ, or what a compiler says."""
        units = [compiled.unit_of(image, text, f"p{at}", bounds, is_literal) for at, (text, image, _) in enumerate(self.rows)]
        many = compiled.Many(folder, units, **how)
        if many.failed.returncode:
            return [many.failed.stderr]
        said, errors = many.run([(at, LIMIT, flows) for at, flows, _ in self.wanted])
        if errors or len(said) != len(self.wanted):
            return [errors or "the run has stopped"]
        return [(self.rows[at][0], flows, one, other) for (at, flows, one), other in zip(self.wanted, said) if one != other]


@needs_sigc
@needs_gcc
class Runs(unittest.TestCase):
    """Steps of the short writer. Those of the literal one stand the same tests, but for narrow types."""

    is_literal = False

    def setUp(self):
        room = tempfile.TemporaryDirectory()
        self.addCleanup(room.cleanup)
        self.room = room.name

    def same(self, rows, folder="", **how):
        """Whether C says of rows what sigc does."""
        self.assertEqual(Compared(rows).differences(f"{self.room}{folder}", is_literal=self.is_literal, **how), [])

    def test_programs_of_every_kind(self):
        self.same(special())

    def test_drawn_programs(self):
        self.same(drawn(COUNT))

    def test_programs_at_the_ends_of_64_bits(self):
        self.same(drawn(COUNT // 2, 3000, Edge))

    @needs_clang
    def test_clang(self):
        self.same([*special(), *drawn(6, 1000)], compiler=("clang", "-O1"), flags=compiled.STRICT)

    @needs_tcc
    def test_tcc(self):
        self.same([*special(), *drawn(6, 1000)], compiler=("tcc",), flags=compiled.STRICT)

    def test_examples(self):
        rows = []
        for program, flows in pairs(EXAMPLES) + pairs(TUTORIAL):
            with open(program, encoding="latin-1") as it, open(flows, encoding="latin-1") as values:
                text = it.read()
                rows.append((text, built(text), [values.read()]))
        rows = [it for it in rows if it[1] is not None]
        self.assertGreaterEqual(len(rows), 20)
        self.same(rows)


class LiteralRuns(Runs):
    is_literal = True

    def test_levels(self):
        rows = special()
        for compiler in filter(shutil.which, ("gcc", "clang")):
            for level in ("-O0", "-O2"):
                with self.subTest(f"{compiler} {level}"):
                    self.same(rows, f"/{compiler}{level}", compiler=(compiler, level), flags=compiled.STRICT)


@needs_sigc
@needs_gcc
class ShortRuns(unittest.TestCase):
    """What the short writer alone has: narrow types, and the builtins of a compiler."""

    def setUp(self):
        room = tempfile.TemporaryDirectory()
        self.addCleanup(room.cleanup)
        self.room = room.name

    def test_narrow_types(self):
        """The flows of drawn programs have values from -20 to 20; those of the others any."""
        self.assertEqual(Compared(drawn(COUNT // 2, 2000)).differences(f"{self.room}/drawn", bounds=(-20, 20)), [])
        self.assertEqual(Compared(special()).differences(f"{self.room}/special", bounds=()), [])
        self.assertEqual(Compared(drawn(COUNT // 4, 3000, Edge)).differences(f"{self.room}/edges", bounds=()), [])

    @needs_clang
    def test_narrow_types_by_clang(self):
        rows = Compared(drawn(6, 1000))
        self.assertEqual(rows.differences(self.room, bounds=(-20, 20), compiler=("clang", "-O1"), flags=compiled.STRICT), [])

    def test_no_builtins_of_a_compiler(self):
        written = c_files.functions
        with mock.patch.object(c_files, "functions", lambda *given: written(*given).replace("#ifdef __GNUC__", "#ifdef NO_COMPILER")):
            self.assertEqual(Compared(special()).differences(self.room), [])


# Faults planted in the writer: what stands there, and what stands there then.
FAULTS = {
    "a comparison takes equals": (expressions, "compared", lambda found: lambda name, a, b: found({"Lt": "Le", "Ge": "Gt"}.get(name, name), a, b)),
    "a negation is lost": (expressions, "negation", lambda found: lambda it: it),
    "a conjunction is its first part": (expressions, "conjunction", lambda found: lambda parts: found(parts[:1])),
    "a memory begins with another value": (step_text, "first_value", lambda found: lambda memory: str(1 - memory.init)),
    "a memory is not set": (step_text.Step, "store", lambda found: lambda self, it: None),
    "two cases have each other's values": (step_text.Step, "chosen", lambda found: lambda self, *words: turned(found(self, *words))),
    "a guard is not asked": (step_text.Step, "enter", lambda found: lambda self, guard: None),
    "a place is one column off": (sources.Source, "place", lambda found: lambda self, it: (it.line, it.column + 1)),
    "the quotient of the least integer and -1 is not looked at": (step_text.Step, "fail", lambda found: lambda self, test, what, it: None if what == step_text.OVERFLOW and it.fields[1] == "Div" else found(self, test, what, it)),
    "outputs come in another order": (step_text.Step, "used", lambda found: lambda self: (self.outputs.reverse(), found(self))[1]),
    "an overflow is not told": (step_text.Step, "fail", lambda found: lambda self, test, what, it: None if what == step_text.OVERFLOW and it.fields[1] == "Sub" else found(self, test, what, it)),
    "a memory is set before what may fail": (step_text.Step, "write", lambda found: hasty),
}


def turned(cases):
    values = [it for _, it in cases][::-1]
    return [(test, value) for (test, _), value in zip(cases, values)]


def hasty(step):
    """Writes a step that sets each memory as soon as its value is there."""
    for it in step.statements:
        if it.operation.kind != "Store":
            step.statement(it)
        for store in step.statements:
            if store.operation.kind == "Store" and store.operation.fields[1] == it.operation.target:
                step.store(store)
    for signal in step.outputs:
        step.output(signal)
    step.close()
    step.line("return 0;")
    return step


@needs_sigc
@needs_gcc
class Faults(unittest.TestCase):
    def test_each_is_found(self):
        rows = Compared([*special(), *drawn(3)])
        for name, (where, what, planted) in FAULTS.items():
            with self.subTest(name), tempfile.TemporaryDirectory() as room:
                with mock.patch.object(where, what, planted(getattr(where, what))):
                    self.assertNotEqual(rows.differences(room, compiler=("gcc", "-O0"), flags=["-w"]), [])


TWO = r"""#include <stdio.h>
#include "THERMOSTAT.h"
struct THERMOSTAT_context { int64_t next; int heats; };
int r_THERMOSTAT_TEMPERATURE(THERMOSTAT_context *it, int64_t *value) { *value = it->next; return 1; }
void w_THERMOSTAT_HEATING(THERMOSTAT_context *it, int value) { it->heats = value; }
int main(void)
{
    THERMOSTAT_state first, second;
    THERMOSTAT_context warm = {22, -1}, cold = {17, -1};
    THERMOSTAT_init(&first);
    THERMOSTAT_init(&second);
    for (int i = 0; i < 2; i++) {
        int one = THERMOSTAT_step(&first, &warm), other = THERMOSTAT_step(&second, &cold);
        printf("%d %d %d %d\n", one, warm.heats, other, cold.heats);
        cold.next = warm.next = 20;
    }
    return 0;
}
"""


class Making:
    """Programs that sigc-c writes, made with their mains."""

    writer = ()

    def setUp(self):
        room = tempfile.TemporaryDirectory()
        self.addCleanup(room.cleanup)
        self.room = room.name

    def made(self, program, *words, flags=("-O1", *compiled.SANITIZED)):
        """The program that runs it, compiled with all warnings, as errors, and the sanitizers."""
        folder = f"{self.room}/c"
        shutil.rmtree(folder, ignore_errors=True)
        done = ran("sigc-c", program, "-o", folder, *self.writer, *words)
        self.assertEqual((done.stdout, done.stderr, done.returncode), ("", "", 0))
        files = sorted(f"{folder}/{it}" for it in os.listdir(folder) if it.endswith(".c"))
        done = subprocess.run(["gcc", *flags, *compiled.STRICT, "-I", folder, "-o", f"{self.room}/it", *files], capture_output=True, text=True)
        self.assertEqual((done.stderr, done.returncode), ("", 0))
        return f"{self.room}/it"

    def said(self, made, *words, given=""):
        done = subprocess.run([made, *words], input=given, capture_output=True, text=True, encoding="latin-1", cwd=self.room)
        return done.stdout, done.stderr, done.returncode

    def as_sigc(self, made, program, *words):
        with mock.patch("os.getcwd", lambda: self.room):
            done = subprocess.run([SIGC, "run", program, "--workers", "0", *words], capture_output=True, text=True, encoding="latin-1", cwd=self.room)
        self.assertEqual(self.said(made, *words), (done.stdout, done.stderr, done.returncode))


@needs_sigc
@needs_gcc
class Written(Making, unittest.TestCase):
    """What sigc-c writes, with its main."""

    def test_runs_of_files(self):
        made = self.made(f"{EXAMPLES}/watch.sig")
        self.as_sigc(made, f"{EXAMPLES}/watch.sig", f"{EXAMPLES}/watch.flows")
        self.as_sigc(made, f"{EXAMPLES}/watch.sig", f"{EXAMPLES}/watch.flows", "--instants", "3")
        for at, text in enumerate(FLOWS):
            with self.subTest(text[:60]):
                self.as_sigc(made, f"{EXAMPLES}/watch.sig", os.path.basename(written(self.room, f"{at}.flows", text)), "--instants=6")
        self.as_sigc(made, f"{EXAMPLES}/watch.sig", "nothing")
        self.as_sigc(made, f"{EXAMPLES}/watch.sig", self.room)
        for words in ([], ["a", "b"], ["a", "--instants"], ["a", "--instants", "0"], ["a", "--instants", "1000000001"], ["a", "--workers", "1"], ["a", "--instants=1", "--instants=1"]):
            self.assertEqual(self.said(made, *words), ("", "error: these words are not a command\n", 2))

    def test_overflow(self):
        made = self.made(f"{EXAMPLES}/overflow.sig")
        self.as_sigc(made, f"{EXAMPLES}/overflow.sig", f"{EXAMPLES}/overflow.flows")
        self.assertEqual(self.said(made, f"{EXAMPLES}/overflow.flows")[2], 3)

    def test_names_of_headers(self):
        text, (flows,) = SPECIAL["names"]
        for name in ("main", "math", "string", "stdint", "NAMES", "int"):
            program = written(self.room, "p.sig", text.replace("process NAMES", f"process {name}"))
            self.as_sigc(self.made(program, flags=["-O0"]), program, os.path.basename(written(self.room, "p.flows", flows)))
        self.assertEqual(sorted(os.listdir(f"{self.room}/c")), ["int.c", "int.h", "main.c"])
        self.made(program, "--prefix", "math", flags=["-O0"])
        self.assertEqual(sorted(os.listdir(f"{self.room}/c")), ["main.c", "math_process.c", "math_process.h"])

    def test_mains_of_every_kind(self):
        """Programs without inputs, without outputs, and with events alone: nothing of their mains is unused."""
        for name in ("no input", "no output", "no state"):
            program = written(self.room, "p.sig", SPECIAL[name][0])
            made = self.made(program)
            self.as_sigc(made, program, os.path.basename(written(self.room, "p.flows", SPECIAL[name][1][0])), "--instants", "50")
            if shutil.which("clang"):
                done = subprocess.run(["clang", *compiled.STRICT, "-fsyntax-only", f"{self.room}/c/main.c"], capture_output=True, text=True)
                self.assertEqual(done.stderr, "")
        with open(f"{self.room}/events.sig", "w", encoding="ascii") as it:
            it.write("process P = (? event E ! event F) F := E;\n")
        self.assertEqual(self.said(self.made(f"{self.room}/events.sig"), "--live", given="true\ntrue\n"), ("F true\nF true\n", "end: no line after 2 instants\n", 0))

    def test_live_rows(self):
        made = self.made(f"{EXAMPLES}/watch.sig")
        rows = "true true 5\ntrue false .\ntrue false 7\ntrue true .\n\ntrue x 1\ntrue true\ntrue\ntrue false . . .\ntrue false .\n"
        wrong = "V: it does not come at this instant, and the line has a value\nV: it comes at this instant, and the line has no value\n"
        wrong += "REQ: this is no value of it\n"
        wrong += "".join(f"{it}, where 3 are wanted, `.` where an input does not come: TICK REQ V\n" for it in ("2 words", "1 word", "5 words"))
        self.assertEqual(self.said(made, "--live", given=rows), ("HELD 5\nALARM false\nHELD 5\nALARM false\nHELD 5\nALARM false\n", f"{wrong}end: no line after 3 instants\n", 0))
        self.assertEqual(self.said(made, "--live", "--instants=1", given=rows), ("HELD 5\nALARM false\n", "end: limit after 1 instants\n", 0))
        out, err, status = self.said(made, "--help")
        self.assertEqual((out.count(made), err, status), (3, "", 0))
        self.assertIn(" TICK REQ V\n", out)
        self.assertEqual(self.said(made, "--halp"), ("", "error: these words are not a command\n", 2))

    def test_live_values(self):
        made = self.made(f"{EXAMPLES}/watch.sig")
        said = self.said(made, "--live=values", given="true\ntrue\nx\n5\ntrue\nfalse\ntrue")
        self.assertEqual(said, ("HELD 5\nALARM false\nHELD 5\nALARM false\n", "TICK? REQ? V? an integer is wanted\nV? TICK? REQ? TICK? REQ? end: input REQ exhausted after 2 instants\n", 0))

    def test_a_line_that_holds_a_nul(self):
        """What stands after the NUL is part of the line: neither word is a value, and a NUL between blanks is a word."""
        made = self.made(f"{EXAMPLES}/watch.sig")
        wrong = "V: this is no value of it\n4 words, where 3 are wanted, `.` where an input does not come: TICK REQ V\n"
        said = self.said(made, "--live", given="true true 5\0junk\ntrue true \0 5\ntrue true 5\n")
        self.assertEqual(said, ("HELD 5\nALARM false\n", f"{wrong}end: no line after 1 instants\n", 0))
        said = self.said(made, "--live=values", given="true\0x\ntrue\ntrue\n5")
        self.assertEqual(said, ("HELD 5\nALARM false\n", "TICK? true is wanted\nTICK? REQ? V? TICK? end: input TICK exhausted after 1 instants\n", 0))

    def test_answers_come_at_once(self):
        made = self.made(f"{EXAMPLES}/sum.sig")
        with subprocess.Popen([made, "--live"], stdin=subprocess.PIPE, stdout=subprocess.PIPE, stderr=subprocess.PIPE) as it:
            for one, other in ((1, 2), (40, 2)):
                it.stdin.write(f"{one} {other}\n".encode())
                it.stdin.flush()
                self.assertEqual(it.stdout.readline(), f"Y {one + other}\n".encode())
            it.stdin.close()
            self.assertEqual(it.stderr.read(), b"end: no line after 2 instants\n")

    def test_two_instances(self):
        self.made(f"{EXAMPLES}/thermostat.sig")
        main = written(f"{self.room}/c", "main.c", TWO)
        done = subprocess.run(["gcc", *compiled.STRICT, "-o", f"{self.room}/two", main, f"{self.room}/c/THERMOSTAT.c"], capture_output=True, text=True)
        self.assertEqual(done.stderr, "")
        self.assertEqual(self.said(f"{self.room}/two")[0], "0 0 0 1\n0 0 0 1\n")

    def test_what_a_step_wants(self):
        """Nothing but stdint.h and what the header tells."""
        self.made(f"{EXAMPLES}/watch.sig")
        done = subprocess.run(["gcc", "-O2", "-c", "-o", f"{self.room}/o", f"{self.room}/c/WATCH.c"], capture_output=True, text=True)
        self.assertEqual(done.stderr, "")
        if shutil.which("nm"):
            wanted = subprocess.run(["nm", "-u", f"{self.room}/o"], capture_output=True, text=True).stdout.split()
            self.assertEqual(set(wanted) - {"U", "_GLOBAL_OFFSET_TABLE_"}, {f"r_WATCH_{it}" for it in ("TICK", "REQ", "V")} | {"w_WATCH_HELD", "w_WATCH_ALARM"})


class LiteralWritten(Written):
    writer = ("--literal",)


@needs_sigc
@needs_gcc
class Ranged(Making, unittest.TestCase):
    def test_equal_delays_are_one_memory(self):
        """With --types, of which a state has fewer fields; the run is the same."""
        text = "process P = (? boolean R ! integer X, D)\n(| X := (0 when R) default (Z + 1) | X ^= R | Z := X $ init 0\n | Y := X | W := Y $ init 0 | D := W - (X $ init 0) + (X $ init 5) |)\nwhere integer Z, Y, W; end;\n"
        program, flows = written(self.room, "p.sig", text), os.path.basename(written(self.room, "p.flows", "R false false true false true true false\n"))
        for words, fields in (([], 4), (["--types"], 2)):
            self.as_sigc(self.made(program, *words), program, flows)
            with open(f"{self.room}/c/P.h", encoding="ascii") as it:
                state = it.read().partition("typedef struct {")[2].partition("}")[0]
            self.assertEqual(state.count(";"), fields, state)

    def test_values_outside_of_a_range(self):
        made = self.made(f"{EXAMPLES}/thermostat.sig", "--range", "TEMPERATURE=-5..300")
        flows = written(self.room, "p.flows", "TEMPERATURE -5 300 301")
        self.assertEqual(self.said(made, flows), ("HEATING true\nHEATING false\n", "end: input TEMPERATURE out of range after 2 instants\n", 3))
        self.assertEqual(self.said(made, written(self.room, "p.flows", "TEMPERATURE 65536")), ("", "end: input TEMPERATURE out of range after 0 instants\n", 3))
        told = "TEMPERATURE: this is outside of its range\n"
        self.assertEqual(self.said(made, "--live", given="-6\n-5\n301\n300\n"), ("HEATING true\nHEATING false\n", f"{told}{told}end: no line after 2 instants\n", 0))
        asked = "TEMPERATURE? an integer from -5 to 300 is wanted\n"
        said = self.said(made, "--live=values", given="-6\nx\n-5\n300")
        self.assertEqual(said, ("HEATING true\nHEATING false\n", f"{asked}{asked}TEMPERATURE? TEMPERATURE? TEMPERATURE? end: input TEMPERATURE exhausted after 2 instants\n", 0))


FLOWS = [
    "", "\n \n\t\r\n", "TICK true true\r\nREQ false false\n", "flows 2\nTICK true*5\nREQ true*2 false*3\nV 1 -0002", "flows 2\nV 1*0", "flows 2\nV 9223372036854775808*2",
    "flows 2\nV 9223372036854775808*0", "flows 2\nV *2", "flows 2\nV 1*-2", "flows 2\nV 1*", "flows 2\nV 1*4000001", "flows 2\nV 0*4000000\nREQ true", "flows 2 \nTICK true", "flows 2 3\n", "flows 3\n",
    "TICK true\nW 1", "TICK true false", "REQ 1", "V 1 2x", "V 9223372036854775807 -9223372036854775808", "V 9223372036854775808", "V -9223372036854775809", "V 1-", "V -", "V 1 \x01",
    "2 1", "V\r1", "V 1\r", "\xe9", "V 1*2", "TICK\ttrue  true\nREQ true\tfalse\nV 00000000000000000000000000007\n", "V 1\0 2", "V 99999999999999999999x",
]


class Words(unittest.TestCase):
    @needs_sigc
    def test_refusals(self):
        with tempfile.TemporaryDirectory() as room:
            for program, words, line, status in (
                (f"{EXAMPLES}/buttons.sig", [], "error 3:28: no root: RED and GREEN are independent\n", 1),
                (f"{room}/nothing", [], f"error: {room}/nothing: not found\n", 5),
                (f"{EXAMPLES}/sum.sig", ["--range", "A=5..1"], "sigc-c: --range A=5..1: 5 is greater than 1; write the least value first\n", 2),
                (f"{EXAMPLES}/sum.sig", ["--range", "Y=1..5"], "sigc-c: --range Y=1..5: Y is no input; give the ranges of the inputs that it is computed from\n", 2),
                (f"{EXAMPLES}/sum.sig", ["--range", "a=1..5"], "sigc-c: --range a=1..5: there is no signal a: did you mean A?\n", 2),
                (f"{EXAMPLES}/sum.sig", ["--literal", "--types"], "sigc-c: the literal step has the types of the program: --literal stands without --types and --range\n", 2),
                (f"{EXAMPLES}/sum.sig", ["--prefix", "toy"], "sigc-c: --prefix toy: C keeps functions that begin so for its library; take another one, as own_toy\n", 2),
                (f"{EXAMPLES}/sum.sig", ["--prefix", "a-b"], "sigc-c: --prefix wants letters, digits and _, a letter first, and not 'a-b'\n", 2),
            ):
                done = ran("sigc-c", program, "-o", f"{room}/c", *words)
                self.assertEqual((done.stdout, done.stderr, done.returncode), ("", line, status))

    @needs_sigc
    def test_files_of_others(self):
        with tempfile.TemporaryDirectory() as room:
            for name in ("main.c", "SUM.h", "SUM.c"):
                shutil.rmtree(f"{room}/c", ignore_errors=True)
                for _ in range(2):
                    self.assertEqual(ran("sigc-c", f"{EXAMPLES}/sum.sig", "-o", f"{room}/c").returncode, 0)
                written(f"{room}/c", name, "int main(void)\n{\n}\n/* Written by sigc-c */\n")
                before = {it: os.stat(f"{room}/c/{it}").st_mtime_ns for it in os.listdir(f"{room}/c")}
                done = ran("sigc-c", f"{EXAMPLES}/sum.sig", "-o", f"{room}/c")
                self.assertEqual((done.stdout, done.stderr, done.returncode), ("", f"sigc-c: {room}/c/{name} is there and was not written by sigc-c\n", 1))
                self.assertEqual({it: os.stat(f"{room}/c/{it}").st_mtime_ns for it in os.listdir(f"{room}/c")}, before)

    @needs_sigc
    def test_functions_of_the_library(self):
        """C keeps names as strong_step for its library, also those that it has not yet."""
        with tempfile.TemporaryDirectory() as room:
            for name, stem in (("strong", "own_strong"), ("mtx", "own_mtx"), ("str", "str"), ("STRONG", "STRONG"), ("mtx_2", "mtx_2")):
                shutil.rmtree(f"{room}/c", ignore_errors=True)
                program = written(room, "p.sig", f"process {name} = (? integer A ! integer Y) Y := A;")
                done = ran("sigc-c", program, "-o", f"{room}/c")
                self.assertEqual((done.stdout, done.stderr, done.returncode), ("", "", 0))
                self.assertEqual(sorted(os.listdir(f"{room}/c")), sorted(["main.c", f"{stem}.c", f"{stem}.h"]))

    @needs_sigc
    def test_long_names(self):
        """Names of functions that agree in 31 characters are reported, those that agree in 63 are refused."""
        with tempfile.TemporaryDirectory() as room:
            for length, status, said in ((23, 0, ""), (30, 0, "a linker may look at 31 characters of a function's name, in which these agree: r_P_{0}A r_P_{0}B\n"), (60, 2, "C tells names apart by 63 characters, in which these agree: r_P_{0}A r_P_{0}B; give inputs and outputs shorter names, or a shorter --prefix\n")):
                name = "X" * length
                program = written(room, "p.sig", f"process P = (? integer {name}A, {name}B ! integer Y) Y := {name}A + {name}B;")
                for words in ([], ["--literal"]):
                    done = ran("sigc-c", program, "-o", f"{room}/c", *words)
                    self.assertEqual((done.stdout, done.stderr, done.returncode), ("", f"sigc-c: {said.format(name)}" if said else "", status))

    @needs_sigc
    def test_one_long_name(self):
        """A literal step has no name of more than 63 characters."""
        with tempfile.TemporaryDirectory() as room:
            name = "X" * 59
            program = written(room, "p.sig", f"process P = (? integer {name}, A{name} ! integer Y) Y := {name} + A{name};")
            said = f"sigc-c: C tells names apart by 63 characters, and these have more: r_P_A{name}; give inputs and outputs shorter names, or a shorter --prefix\n"
            for words, line, status in (([], "", 0), (["--literal"], said, 2)):
                done = ran("sigc-c", program, "-o", f"{room}/c", *words)
                self.assertEqual((done.stdout, done.stderr, done.returncode), ("", line, status))

    def test_names_of_63_letters(self):
        names, long = c_names.Names("P"), "A" * 70
        found = [names.fresh(long) for _ in range(12)] + [names.fresh(f"P_{long}"), names.fresh(f"{long[:62]}_")]
        self.assertEqual(len({it[:63] for it in found}), len(found))
        self.assertTrue(all(len(it) <= 63 for it in found))
        self.assertEqual(c_names.Names("own").fresh("own_A"), "its_own_A")
        self.assertEqual(c_names.Names("own_own").fresh("own_own_A"), "its_own_own_A")

    def test_names(self):
        names = c_names.Names("P")
        self.assertEqual([names.fresh(it) for it in ("A", "A", "COUNT#1.N", "int", "P_step", "INT64_MAX", "x_t", "state")], ["A", "A_", "COUNT_1_N", "int_", "own_P_step", "INT64_MAX_", "x_t_", "state_"])
        self.assertEqual([c_names.stem(it) for it in ("SUM", "main", "STRING")], ["SUM", "main_process", "STRING_process"])


if __name__ == "__main__":
    unittest.main()
