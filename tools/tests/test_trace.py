"""sigc-trace and trace2vcd: traces that judge accepts, of the runs that sigc makes."""
import re
import tempfile
import unittest
from concurrent.futures import ThreadPoolExecutor

from calling import EXAMPLES, TUTORIAL, module_of, needs_sigc, pairs, ran, sigc, written
from programs import Program

from sigc.call import running
from sigc.read import expansion, files_read, flat_bodies, lexer
from sigc.trace import flow_values, traces

DRAWN = 200
COUNTER = "process COUNT = (? boolean B; integer A ! integer N)\n(| N := (N $ init 0) + 1 | N ^= B | A ^= when B |);\n"


def text_of_trace(run):
    """The trace of a run, and what the run would write."""
    names = [it.name for it in run.flat.signals if it.name not in run.paces]
    outputs = [it.name for it in run.flat.signals if it.role == "output" and not it.copy]
    rows, text = [names], []
    for instant in run:
        rows.append([instant.get(it, ".") for it in names])
        text += [f"{it} {instant[it]}\n" for it in outputs if it in instant]
    return "".join(f"{' '.join(row)}\n" for row in rows), "".join(text)


def fault_of(program, flows):
    """What is wrong with the trace of a run, or nothing; Refused where sigc refuses the program."""
    words = ["--pace"] if "pace_1 " in running.text_of(flows) else []
    with running.Files() as files:
        run = traces.Run(files, program, flows, words)
        try:
            trace, text = text_of_trace(run)
        except running.Refused as refusal:
            return f"as it is written anew: {refusal.line}"
        verdict = sigc("judge", program, files.written("drawn.trace", trace))
        done = sigc("run", program, flows, "--workers", "0", *words)
    if verdict.stdout != "accepted\n":
        return f"judge: {verdict.stderr}"
    if (done.stdout, done.stderr, done.returncode) != (text, f"{run.end}\n", run.status):
        return f"the run ends by {done.stderr}, and the trace by {run.end}"
    return ""


@needs_sigc
class TracesOfRuns(unittest.TestCase):
    def test_every_example(self):
        for program, flows in pairs(EXAMPLES) + pairs(TUTORIAL):
            with self.subTest(program):
                self.assertEqual(fault_of(program, flows), "")

    def test_programs_that_are_drawn(self):
        with tempfile.TemporaryDirectory() as room, ThreadPoolExecutor(4) as pool:
            self.assertEqual(list(filter(None, pool.map(lambda seed: self.drawn(room, seed), range(DRAWN)))), [])

    def drawn(self, room, seed):
        """What is wrong with the trace of the program of a seed, or of the next one that is accepted."""
        while True:
            made = Program(seed)
            program, flows = written(room, f"{seed}.sig", made.text()), written(room, f"{seed}.flows", made.flows())
            try:
                fault = fault_of(program, flows)
                return f"{seed}: {fault}" if fault else ""
            except running.Refused as refusal:
                self.assertEqual(refusal.status, 1)
                seed += DRAWN

    def test_a_program_without_a_declared_root(self):
        program = "process P = (? integer A, B ! integer Y, Z)\n(| Y := A + 1 | Z := B | A ^= when (((A default B) $ init 1) > 0) | B ^= ^(A default B) ^- A |);\n"
        with tempfile.TemporaryDirectory() as room:
            path = written(room, "p.sig", program)
            self.assertEqual(sigc("tree", path).stdout, "-\n  A Y\n  B Z\n")
            self.assertEqual(fault_of(path, written(room, "p.flows", "A 3 -1 2\nB 5 -2 7\n")), "")

    def test_a_program_of_as_many_signals_as_there_may_be(self):
        names = [f"S{at}" for at in range(510)]
        equations = " | ".join(f"{name} := {before}" for before, name in zip(["A", *names], names))
        program = f"process P = (? integer A; boolean B ! integer {', '.join(names)})\n(| {equations} | B ^= A |);\n"
        with tempfile.TemporaryDirectory() as room:
            self.assertEqual(fault_of(written(room, "p.sig", program), written(room, "p.flows", "A 1 2\nB true false\n")), "")

    def test_a_program_that_has_no_room_for_one_more(self):
        names = [f"S{at}" for at in range(508)]
        equations = " | ".join(f"{name} := {before}" for before, name in zip(["A", *names], names))
        program = f"process P = (? integer A; boolean C; integer B ! integer {', '.join(names)})\n(| {equations} | C ^= A | B ^= when C |);\n"
        with tempfile.TemporaryDirectory() as room:
            path, flows = written(room, "p.sig", program), written(room, "p.flows", "A 1 2\nC true false\nB 3\n")
            self.assertEqual(sigc("check", path).stdout, "accepted\n")
            done = ran("sigc-trace", path, flows)
        self.assertEqual((done.stdout, done.stderr, done.returncode), ("", "error: more than 512 signals once every signal is an output\n", 1))


@needs_sigc
class Words(unittest.TestCase):
    watch = (f"{EXAMPLES}/watch.sig", f"{EXAMPLES}/watch.flows")

    def test_the_whole_trace(self):
        done = ran("sigc-trace", f"{EXAMPLES}/pump.sig", f"{EXAMPLES}/pump.flows")
        with open(f"{EXAMPLES}/pump.trace", encoding="utf-8") as it:
            self.assertEqual([line.split() for line in done.stdout.splitlines()], [line.split() for line in it])
        self.assertEqual((done.stderr, done.returncode), ("end: input FRONT exhausted after 6 instants\n", 0))

    def test_signals_and_instants(self):
        done = ran("sigc-trace", *self.watch, "--signals", "V,COUNT#1", "--from", "6", "--to", "6")
        self.assertEqual(done.stdout, "V COUNT#1.R COUNT#1.N COUNT#1.ZN\n9 true      0         3\n")
        self.assertEqual(done.stderr, "end: input TICK exhausted after 7 instants\n")

    def test_the_limit(self):
        done = ran("sigc-trace", *self.watch, "--instants", "2")
        self.assertEqual((len(done.stdout.splitlines()), done.stderr), (3, "end: limit after 2 instants\n"))

    def test_what_sigc_refuses(self):
        for program, flows in ((f"{EXAMPLES}/operators.sig", self.watch[1]), (f"{EXAMPLES}/sum.sig", f"{EXAMPLES}/wrong.flows"), self.watch[::-1]):
            with self.subTest(program):
                done, own = ran("sigc-trace", program, flows), sigc("run", program, flows)
                self.assertEqual((done.stdout, done.stderr, done.returncode), ("", own.stderr, own.returncode))

    def test_states_by_their_names(self):
        words = [f"{TUTORIAL}/boiler.sig", f"{TUTORIAL}/boiler.flows", "--signals", "STATE,MODES#1.NEXT", "--from", "2", "--to", "3"]
        self.assertEqual(ran("sigc-trace", *words).stdout, "STATE MODES#1.NEXT\n0     1\n1     1\n")
        self.assertEqual(ran("sigc-trace", *words, "--states").stdout, "STATE MODES#1.NEXT\nREST  HEAT\nHEAT  HEAT\n")

    def test_signals_that_are_not_there(self):
        self.assertEqual(ran("sigc-trace", *self.watch, "--signals", "Q").returncode, 1)

    def test_the_place_of_a_fault_in_a_copy(self):
        program = "process P = (? integer A ! integer Y)\n(| Y := F(A) |);\nprocess F = (? integer X ! integer Z)\n(| Z := G(X - 1) |);\nprocess G = (? integer U ! integer V)\n(| V := 10 / U |);\n"
        with tempfile.TemporaryDirectory() as room:
            done = ran("sigc-trace", written(room, "p.sig", program), written(room, "p.flows", "A 3 1\n"))
        self.assertEqual((done.stderr, done.returncode), ("end: division by zero at 6:12 after 1 instants\nnote: in the copy F#1/G#2\n", 3))

    def test_a_long_run_in_columns_at_first(self):
        with tempfile.TemporaryDirectory() as room:
            program, flows = written(room, "c.sig", COUNTER), written(room, "c.flows", "flows 2\nB true false*2999\nA 5\n")
            lines = ran("sigc-trace", program, flows).stdout.splitlines()
        self.assertEqual((lines[1], lines[-1], len(lines)), ("true  5 1", "false . 3000", 3001))


class Flows(unittest.TestCase):
    def test_both_versions(self):
        self.assertEqual(flow_values.read_flows("A 1 2\r\n\nB true\nA 3\n", ["A", "B"]), {"A": ["1", "2", "3"], "B": ["true"]})
        self.assertEqual(flow_values.read_flows("flows 2\nA 1*2 7\n", ["A"]), {"A": ["1", "1", "7"]})
        self.assertEqual(flow_values.read_flows("flows 2\n", ["flows"]), {"flows": ["2"]})

    def test_what_is_none(self):
        for text in ("B 1\n", "flows 2\nA 1*x\n"):
            with self.assertRaises(lexer.Unreadable):
                flow_values.read_flows(text, ["A"])


class Expansions(unittest.TestCase):
    def test_the_same_as_the_flat_body(self):
        for name in ("watch", "thermostat", "operators", "balance"):
            text = files_read.read_text(f"{EXAMPLES}/{name}.sig")
            one, other = expansion.Expansion(text), flat_bodies.FlatBody(text)
            self.assertEqual([(it.name, it.kind) for it in one.signals], [(it.name, it.kind) for it in other.signals])
            words = [lexer.words_of(word.text for word in it.words) for it in one.equations]
            self.assertEqual(words, [it.text for it in other.equations])

    def test_paths_and_inits(self):
        flat = expansion.Expansion(
            "process P = (? integer A ! integer Y) Y := Q{-3}(A);"
            "process Q = {integer K} (? integer U ! integer S) S := W{K}(U + K);"
            "process W = {integer K} (? integer X ! integer M init K) M := X $;"
        )
        self.assertEqual(flat.path("W#2"), ["Q#1", "W#2"])
        self.assertEqual(["".join(word.text for word in it.init) for it in flat.signals if it.name == "W#2.M"], ["-3"])
        self.assertIn("W#2.X := Q#1.U + - 3", [lexer.words_of(word.text for word in it.words) for it in flat.equations])


class Waveforms(unittest.TestCase):
    vcd = module_of("trace2vcd")

    def drawn(self, trace, *words):
        with tempfile.TemporaryDirectory() as room:
            return ran("trace2vcd", written(room, "t.trace", trace), *words)

    def test_a_trace(self):
        done = self.drawn("A E\n-1 true\n. .\n2 true\n")
        self.assertIn('$var integer 64 ! A $end\n$var wire 1 " E $end\n', done.stdout)
        self.assertIn(f"#0\nb{'1' * 64} !\n1\"\n#10\nbz !\nz\"\n#20\nb10 !\n1\"\n#30\n", done.stdout)

    def test_what_a_run_prints_is_refused(self):
        done = self.drawn("Y 1\nY 2\n")
        self.assertEqual((done.stdout, done.returncode), ("", 1))
        self.assertIn("does not tell its instants", done.stderr)

    def test_short_names(self):
        self.assertEqual(len({self.vcd.code_of(it) for it in range(9000)}), 9000)

    def test_what_is_neither(self):
        for text in ("", "A B\n1\n", "A B\n1 x\n", "A\n1\ntrue\n", "A {\n"):
            self.assertEqual(self.drawn(text).returncode, 1)

    @needs_sigc
    def test_events(self):
        edge = (f"{EXAMPLES}/edge.sig", f"{EXAMPLES}/edge.flows")
        self.assertIn('$var event 1 " RISE $end', ran("trace2vcd", *edge).stdout)
        self.assertIn('#10\n1!\n1"\n#20\n', ran("trace2vcd", *edge).stdout)
        pulse = ran("trace2vcd", *edge, "--events", "pulse").stdout
        self.assertIn('$var wire 1 " RISE $end', pulse)
        self.assertIn('\n0"\n0#\n#10\n1!\n1"\n#15\n0"\n#20\n', pulse)

    @needs_sigc
    def test_a_run_with_its_save_file(self):
        with tempfile.TemporaryDirectory() as room:
            program = f"{EXAMPLES}/watch.sig"
            done = ran("trace2vcd", program, f"{EXAMPLES}/watch.flows", "-o", f"{room}/w.vcd")
            self.assertEqual((done.stdout, done.stderr, done.returncode), ("", "end: input TICK exhausted after 7 instants\n", 0))
            drawing, save = files_read.read_text(f"{room}/w.vcd"), files_read.read_text(f"{room}/w.gtkw")
        self.assertIn("$scope module COUNT_1 $end\n$var wire 1 ) R $end\n", drawing)
        self.assertIn('[dumpfile] "w.vcd"\n', save)
        self.assertIn("@800200\n-COUNT_1\n@28\nWATCH.COUNT_1.R\n", save)
        shown = re.findall(r"^WATCH\..*", save, flags=re.M)
        self.assertEqual(len(shown), len(expansion.Expansion(files_read.read_text(program)).signals))

    @needs_sigc
    def test_states_by_their_names(self):
        boiler = (f"{TUTORIAL}/boiler.sig", f"{TUTORIAL}/boiler.flows")
        with tempfile.TemporaryDirectory() as room:
            ran("trace2vcd", *boiler, "-o", f"{room}/b.vcd")
            drawing, save = files_read.read_text(f"{room}/b.vcd"), files_read.read_text(f"{room}/b.gtkw")
            trace = written(room, "b.trace", ran("sigc-trace", *boiler).stdout)
            self.assertIn("\nsHEAT ", ran("trace2vcd", trace, "--program", boiler[0]).stdout)
        code = re.search(r"\$var string 1 (\S+) STATE \$end", drawing)[1]
        self.assertEqual(re.findall(rf"^s(\S+) {re.escape(code)}$", drawing, flags=re.M), ["REST", "HEAT", "REST", "HEAT", "BROKEN"])
        self.assertIn("@820\nBOILER.STATE\n", save)
        numbers = ran("trace2vcd", *boiler, "--states", "number").stdout
        self.assertIn(f"$var integer 64 {code} STATE $end", numbers)
        self.assertNotIn("\ns", numbers)

    @needs_sigc
    def test_scopes_inside_one_another(self):
        program = "process P = (? integer A ! integer Y) Y := F(A);\nprocess F = (? integer X ! integer Z) Z := G(X);\nprocess G = (? integer U ! integer V) V := U;\n"
        with tempfile.TemporaryDirectory() as room:
            done = ran("trace2vcd", written(room, "p.sig", program), written(room, "p.flows", "A 3\n"))
        scopes = re.findall(r"^\$(?:up)?scope.*", done.stdout, flags=re.M)
        self.assertEqual([it.split(" ")[0][1:] for it in scopes], ["scope", "scope", "scope", "upscope", "upscope", "upscope"])


if __name__ == "__main__":
    unittest.main()
