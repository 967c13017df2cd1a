"""sigc-why, and what it stands on: the reader, the expanded equations, the least of them, and mends that sigc accepts."""
import os
import random
import tempfile
import unittest

from helping import EXAMPLES, NEEDS_SIGC, program, ran

from sigc.call import compiler
from sigc.hints import gathered
from sigc.read import editing, shown_places, syntax
from sigc.why import causes, changed_signals, least_part, loops, mending, unreached, weighed

LIMITER = """% A ramp with a limiter. %
process RAMP = (? boolean TICK; integer A ! integer Y)
(| A ^= TICK
 | B := A + 1
 | Y := LIMIT{10}(B, TICK)
 | W := A * 2
 |)
where integer B, W;
  process LIMIT = {integer MAX} (? integer X; boolean GO ! integer Z)
  (| HIGH := X > MAX
   | CUT := MAX when HIGH
   | M := X when GO
   | Z := (CUT default X) + M
   |)
  where boolean HIGH; integer CUT, M; end;
end;
"""
# Bytes of bits, which come at every second half.
BYTES = """process BYTES = (? boolean HALF ! boolean BIT; integer BYTE)
(| FIRST := HALF and not WAS_FIRST
 | WAS_FIRST := FIRST $ init false
 | BIT := HALF when not FIRST
 | VALUE := (2 * ZVALUE + 1 when BIT) default (2 * ZVALUE)
 | ZVALUE := (0 when LAST) default (VALUE $ init 0)
 | N := (0 when LAST) default (ZN + 1)
 | ZN := N $ init 0
 | LAST := ZN = 7
 | BYTE := VALUE when LAST
{} |)
where boolean FIRST, WAS_FIRST, LAST; integer VALUE, ZVALUE, N, ZN; end;
"""


class Reader(unittest.TestCase):
    def test_every_example_is_read(self):
        for name in sorted(os.listdir(EXAMPLES)):
            if name.endswith(".sig"):
                with self.subTest(name):
                    reader = syntax.read(compiler.read_program(f"{EXAMPLES}/{name}"))
                    self.assertEqual(reader.faults, [])
                    self.assertTrue(all(it.form != "faulty" for process in reader.processes for it in process.equations))

    def test_what_was_wanted(self):
        (fault,) = syntax.read("process P = (? integer A ! integer Y)\n(| Y := (A + |);").faults
        self.assertEqual((fault.found.line, fault.found.col, fault.found.text), (2, 14, "|)"))
        self.assertIn("an expression", fault.wanted)
        self.assertEqual([close for _, close in fault.open], [";", "|)", ")"])

    def test_several_faults(self):
        reader = syntax.read("process P = (? integer A ! integer Y, Z)\n(| Y = A | Z := A + | W := A A |);")
        self.assertEqual([it.found.col for it in reader.faults], [10, 21, 30])

    def test_precedences(self):
        def shape(node):
            return f"({node.op} {' '.join(map(shape, node.parts))})" if node.parts else node.at.text

        for text, wanted in [
            ("A default B when C or D and not E < F + G * - H $", "(default A (when B (or C (and D (not (< E (+ F (* G (neg ($ H))))))))))"),
            ("A - B - C", "(- (- A B) C)"),
            ("when A ^+ B when C", "(when (at (^+ A B)) C)"),
            ("^ A cell B init -1", "(cell (^ A) B)"),
        ]:
            reader = syntax.read(f"process P = (? ! ) Y := {text};")
            self.assertEqual(reader.faults, [], text)
            self.assertEqual(shape(reader.processes[0].equations[0].right), wanted)

    def test_it_ends_on_any_bytes(self):
        chance = random.Random(1)
        pieces = ["process", "P", "=", "(", "?", "!", ")", "(|", "|)", "|", ":=", "A", ";", "where", "end", "integer", ",", "%", "init", "1", "{", "}", "\x00", "\xff", "^", "when"]
        for _ in range(300):
            syntax.read(" ".join(chance.choice(pieces) for _ in range(chance.randrange(60))))
        syntax.read("process P = (? ! ) Y := " + "(" * 3000)
        syntax.read("process P = (? ! ) " + "(| " * 3000)


class Least(unittest.TestCase):
    def test_the_least_part(self):
        self.assertEqual(least_part.least(20, lambda kept: {3, 7, 16} <= set(kept)), [3, 7, 16])
        self.assertEqual(least_part.least(20, lambda kept: True), [])
        self.assertEqual(least_part.least(3, lambda kept: len(kept) == 3), [0, 1, 2])
        self.assertEqual(least_part.least(0, lambda kept: True), [])

    def test_an_edit_between_two_texts(self):
        for old, new in [("abc", "abc"), ("abc", "axc"), ("aa", "aaa"), ("", "x"), ("x", ""), ("abab", "ab")]:
            edit = editing.difference(old, new)
            self.assertEqual(editing.applied(old, [edit]), new)

    def test_a_window_of_a_long_line(self):
        shown = shown_places.pointed("x" * 300 + "q" + "x" * 300, 1, 301).split("\n")
        self.assertEqual(shown[0][shown[1].index("^")], "q")
        self.assertLess(len(shown[0]), 130)


@NEEDS_SIGC
class Causes(unittest.TestCase):
    @classmethod
    def setUpClass(cls):
        cls.sigc = compiler.Sigc(program())

    def cause(self, text):
        told = causes.told_of(self.sigc.check(text).text)
        cause = causes.cause_of(self.sigc, syntax.read(text).processes, told)
        return told, cause, [it.place.line for it in cause.equations()]

    def mend(self, text):
        mends = mending.mends_of(self.sigc, text, 1)
        self.assertTrue(mends)
        self.assertIsNone(self.sigc.check(mends[0].text))
        return mends[0]

    def test_a_fault_in_a_called_process(self):
        told, cause, lines = self.cause(LIMITER)
        self.assertEqual(told, causes.Told("forced", ("TICK",)))
        self.assertEqual(self.sigc.check(LIMITER)[:2], (2, 27))
        self.assertEqual(lines, [3, 4, 5, 5, 10, 11, 12, 13])
        self.assertEqual(causes.called_by(cause.equations()[-1]), "in LIMIT, called at 5:9")
        self.assertIn("(M default (0 when ^(CUT default X)))", self.mend(LIMITER).text)

    def test_none_of_the_equations_can_be_left_out(self):
        told, cause, _ = self.cause(LIMITER)
        for it in cause.kept:
            rest = [other for other in cause.kept if other != it]
            self.assertFalse(causes.same(cause.expanded.told(self.sigc, rest, told.names), told))

    def test_a_comparison_that_is_written_twice(self):
        text = "process P = (? integer A ! integer Z)\n(| X := A when (A < 10)\n | Y := (A + 1) when (A < 10)\n | Z := X + Y\n | W := A * 2\n |)\nwhere integer X, Y, W; end;\n"
        self.assertEqual(self.cause(text)[2], [2, 3, 4])
        mend = self.mend(text)
        self.assertEqual(mend.words, "one name for A < 10, which is written 2 times")
        self.assertEqual(mend.text.count("A < 10"), 1)

    def test_no_root(self):
        text = "process P = (? event TICK ! integer N)\n(| N := ZN + 1\n | ZN := N $ init 0\n |)\nwhere integer ZN; end;\n"
        self.assertEqual(self.cause(text)[2], [])
        self.assertIn("| N ^= TICK\n", self.mend(text).text)

    def test_a_counter_in_a_called_process(self):
        text = "process P = (? event TICK; boolean R ! integer Y)\n(| R ^= TICK | Y := COUNT(R) |)\nwhere process COUNT = (? boolean S ! integer N)\n(| N := ZN + 1\n | ZN := N $ init 0\n |)\nwhere integer ZN; end;\nend;\n"
        self.assertEqual(self.mend(text).words, "the clock equation N ^= S")
        self.assertIn("| N ^= S\n |)\nwhere integer ZN; end;\nend;", self.mend(text).text)
        hint = gathered.hint_of(text, syntax.read(text), self.sigc.check(text))
        self.assertEqual(hint.lines, ["N of COUNT is made of its own past: say there when it comes, as N ^= S"])

    def test_signals_that_are_made_of_their_own_past(self):
        text = BYTES.format("")
        self.assertEqual(self.mend(text).words, "the clock equation VALUE ^= N ^= BIT")
        hint = gathered.hint_of(text, syntax.read(text), self.sigc.check(text))
        self.assertEqual(hint.lines, ["VALUE and N are made of their own past: say when they come, as VALUE ^= N ^= BIT"])
        self.assertEqual(self.mend(BYTES.format(" | VALUE ^= BIT\n")).words, "the clock equation N ^= VALUE")
        self.assertIn("the clock equation VALUE ^= BIT", [it.words for it in mending.mends_of(self.sigc, BYTES.format(" | N ^= BIT\n"), 3)])

    def test_two_faults_of_different_sorts(self):
        text = "process P = (? boolean LINE ! integer BYTE)\n(| IDLE := N = 0\n | N := (1 when BEGIN) default (ZN + 1)\n | ZN := N $ init 0\n | BEGIN := not LINE and IDLE\n | SHIFT := ((SHIFT $ init 0) + 1) when LINE\n | BYTE := SHIFT when BEGIN\n |)\nwhere boolean BEGIN, IDLE; integer N, ZN, SHIFT; end;\n"
        refusal = self.sigc.check(text)
        self.assertEqual(refusal.text, "clock of SHIFT is not determined")
        self.assertEqual(gathered.hint_of(text, syntax.read(text), refusal).lines, ["SHIFT is made of its own past: say when it comes, as SHIFT ^= when LINE"])
        mend = self.mend(text)
        self.assertTrue(mend.words.startswith("the clock equation SHIFT ^= LINE; then sigc says `condition LINE is forced`, and SHIFT keeps its value"))
        self.assertEqual(list(unreached.unreached_parts(mend.text, syntax.read(mend.text).processes[0])), [])

    def test_loops(self):
        (process,) = syntax.read(BYTES.format("")).processes
        self.assertEqual([(sorted(it.names), it.name, it.others) for it in loops.untied(process)], [(["VALUE", "ZVALUE"], "VALUE", ["BIT", "LAST"]), (["LAST", "N", "ZN"], "N", [])])
        self.assertEqual([it.name for it in loops.loops(process)], ["FIRST", "VALUE", "N"])

    def test_two_inputs_that_come_by_themselves(self):
        text = "process LIFT = (? integer POS; boolean B ! integer LAST; boolean ASKED)\n(| LAST := POS + 1\n | ASKED := B or (B $ init false)\n |);\n"
        one, other = mending.mends_of(self.sigc, text, 2)
        self.assertIn("(? boolean POS_COMES; integer POS; boolean B_COMES, B !", one.text)
        self.assertIn(" | POS_COMES ^= B_COMES\n | POS ^= when POS_COMES\n | B ^= when B_COMES\n |);", one.text)
        self.assertEqual(other.words, "the clock equation POS ^= B")

    def test_two_inputs_that_are_merged(self):
        text = "process P = (? integer A; event B ! boolean C; integer Y)\n(| Y := A + 1\n | C := B default (false when ^A)\n |);\n"
        mended = self.mend(text).text
        self.assertIn("(? boolean A_COMES; integer A; boolean B !", mended)
        self.assertIn(" | C := (when B) default (false when ^A)\n | A_COMES ^= B\n | A ^= when A_COMES\n", mended)
        self.assertIn("two boolean inputs that come together tell which does", gathered.hint_of(text, syntax.read(text), self.sigc.check(text)).lines[0])

    def test_events_that_are_all_asked(self):
        text = "process P = (? event A, B, C ! event E; integer N)\n(| N := ((ZN + 5) when A) default ((ZN + 10) when B) default ((ZN - 15) when E) default ZN\n | ZN := N $ init 0\n | E := C when (ZN >= 15)\n |)\nwhere integer ZN; end;\n"
        mended = self.mend(text).text
        self.assertIn("(? boolean A, B, C !", mended)
        self.assertIn(" | E := (when C) when (ZN >= 15)\n", mended)

    def test_mends_that_begin_in_different_ways_come_first(self):
        text = "process P = (? integer A, B, C ! integer Y, Z, W)\n(| Y := A | Z := B | W := C |);\n"
        begins = [it.words.split(";")[0] for it in mending.mends_of(self.sigc, text, 2)]
        self.assertEqual(begins[1], "the clock equation A ^= B")

    def test_two_inputs_that_meet(self):
        text = "process P = (? boolean B; integer A ! integer Y)\n(| Y := A when B |);\n"
        one, other = mending.mends_of(self.sigc, text, 2)
        self.assertEqual(one.words, "the clock equation B ^= A")
        self.assertIn("(? boolean B_COMES, B, A_COMES; integer A !", other.text)

    def test_an_input_that_a_boolean_was_to_tell(self):
        for kind in ("event", "boolean"):
            text = f"process C = (? boolean SENSED, PRESSED; integer POS; {kind} B ! integer N, LAST)\n(| SENSED ^= PRESSED\n | POS ^= when SENSED\n | N := ((ZN + 1) when ^B) default ZN\n | ZN := N $ init 0\n | LAST := POS cell ^SENSED init 0\n | N ^= SENSED\n |)\nwhere integer ZN; end;\n"
            self.assertEqual(self.mend(text).words, "the clock equation B ^= when PRESSED")
        text = "process C = (? boolean SENSED, PRESSED; integer POS; event B ! boolean KEPT)\n(| SENSED ^= PRESSED\n | POS ^= when SENSED\n | KEPT := B default (false when ^POS) default WAS\n | WAS := KEPT $ init false\n | KEPT ^= SENSED\n |)\nwhere boolean WAS; end;\n"
        self.assertEqual(self.mend(text).words, "the clock equation B ^= when PRESSED")

    def test_a_mouse(self):
        """One clock for both events is accepted, and makes what asks for a click constant: two booleans are meant."""
        for outputs, equations, locals_ in [
            ("boolean CLICKED", ["CLICKED := CLICK default (false when TICK)"], ""),
            ("boolean CLICKED; integer N", ["CLICKED := (true when CLICK) default (false when TICK)", "N := ((N $ init 0) + 1) when CLICKED"], ""),
            ("event CLICKED; integer N", ["N := (N $ init 0) + 1", "CLICKED := CLICK when (N > 3)", "M := TICK cell CLICK init true"], "where boolean M; end"),
        ]:
            text = f"process MOUSE = (? event TICK, CLICK ! {outputs})\n(| {' | '.join(equations)} |)\n{locals_};\n"
            first = self.mend(text)
            self.assertIn("(? boolean TICK, CLICK !", first.text)
            self.assertIn("| TICK ^= CLICK", first.text)

    def test_how_much_a_mend_leaves_to_change(self):
        before = "process P = (? event A, B ! boolean Y)\n(| Y := A default (false when B) |);"
        mended = "process P = (? boolean C, D; event A, B ! boolean Y)\n(| Y := A default (false when B) | C ^= D | A ^= when C | B ^= when D |);"
        self.assertEqual(weighed.weight_of(self.sigc, before, mended).key(), (0, 0, 0, 1, 1))
        self.assertEqual(weighed.weight_of(self.sigc, before, "process P = (? event A, B ! boolean Y)\n(| Y := A default (false when B) | A ^= B |);").key(), (-1, 0, 0, 0, 0))
        self.assertEqual([changed_signals.is_changing("boolean", it) for it in ([], ["true"] * 9, ["true", None], ["true", "false"])], [False, False, False, True])
        self.assertEqual([changed_signals.is_changing("event", it) for it in (["true"] * 9, ["true", None])], [False, True])

    def test_the_two_sides_of_a_counter(self):
        text = "process P = (? event UP, DOWN ! integer N)\n(| N := ((N $ init 0) + 1 when UP) default ((N $ init 0) - 1 when DOWN) |);\n"
        mended = self.mend(text).text
        self.assertIn("(? boolean UP, DOWN !", mended)
        self.assertIn("| UP ^= DOWN | N ^= (when UP) ^+ (when DOWN)", mended)

    def test_three_roots(self):
        self.assertIsNone(self.sigc.check(self.mend("process P = (? integer A, B, C ! integer Y)\n(| Y := A |);\n").text))
        mended = self.mend("process P = (? integer A, B, C ! integer Y, Z, W)\n(| Y := A | Z := B | W := C |);\n").text
        self.assertIn("(? boolean A_COMES, B_COMES, C_COMES; integer A, B, C !", mended)

    def test_an_event_as_a_reset(self):
        text = "process P = (? event TICK, RESET ! integer N)\n(| N := (0 when RESET) default (ZN + 1)\n | ZN := N $ init 0\n | N ^= TICK\n |)\nwhere integer ZN; end;\n"
        self.assertEqual(self.cause(text)[2], [2])
        self.assertIn("(? event TICK; boolean RESET !", self.mend(text).text)

    def test_an_event_that_is_asked(self):
        text = "process P = (? event TICK, PRESS ! integer N)\n(| N := ((ZN + 1) when PRESS) default ZN\n | ZN := N $ init 0\n | N ^= TICK\n |)\nwhere integer ZN; end;\n"
        self.assertIn("(? event TICK; boolean PRESS !", self.mend(text).text)

    def test_a_slower_operand_is_held(self):
        text = "process P = (? integer A; boolean ASK; integer T ! integer Y)\n(| A ^= ASK\n | T ^= when ASK\n | Y := A + T\n |);\n"
        first, other, *_ = (it.text for it in mending.mends_of(self.sigc, text, 3))
        self.assertIn("A + (T default (0 when ^A))", first)
        self.assertIn("A + (T cell ^A init 0)", other)
        self.assertIn("A > (T cell ^A init 0)", self.mend(text.replace("A + T", "A > T").replace("integer Y", "boolean Y")).text)

    def test_a_case_that_is_left_out(self):
        text = "process P = (? boolean R ! integer AGE)\n(| AGE := (0 when R) default ((ZAGE + 1) when not FULL)\n | ZAGE := AGE $ init 0\n | FULL := ZAGE >= 3\n | AGE ^= R\n |)\nwhere integer ZAGE; boolean FULL; end;\n"
        self.assertEqual(self.mend(text).words, "AGE keeps its value, ZAGE, where no condition of it is true")
        self.assertIn("without the condition not FULL of the last default", [it.words for it in mending.mends_of(self.sigc, text, 3)])

    def test_a_cycle(self):
        text = "process P = (? integer A ! integer X, Y)\n(| X := Y + 1\n | Y := X - 1\n | X ^= A\n |);\n"
        self.assertEqual(self.cause(text)[2], [2, 3])
        self.mend(text)

    def test_no_reaction(self):
        text = "process P = (? integer A; boolean B ! integer Y)\n(| Y := (A when B) + (A when not B)\n | A ^= B\n |);\n"
        self.assertEqual(self.cause(text)[2], [2, 3])
        self.assertIn("(A when B) default (A when not B)", self.mend(text).text)

    def test_a_parameter_that_is_an_init(self):
        text = "process P = (? integer A; boolean B ! integer Y)\n(| Y := Q{-3}(A) | A ^= B ^= when B |)\nwhere process Q = {integer K} (? integer X ! integer Z) (| Z := ZX + K | ZX := X $ init K |) where integer ZX; end; end;\n"
        told, cause, lines = self.cause(text)
        self.assertEqual((told.sort, lines), ("forced", [2]))


@NEEDS_SIGC
class Script(unittest.TestCase):
    def why(self, text, *words):
        with tempfile.TemporaryDirectory() as room:
            with open(f"{room}/p.sig", "wb") as it:
                it.write(text)
            done = ran("sigc-why", f"{room}/p.sig", *words)
            return done.returncode, done.stdout.decode().replace(f"{room}/", ""), done.stderr.decode()

    def test_what_it_shows(self):
        status, shown, _ = self.why(LIMITER.encode())
        self.assertEqual(status, 1)
        self.assertTrue(shown.startswith("p.sig:2:27: error: condition TICK is forced\n"))
        self.assertIn("of 10 equations, calls expanded, these 8 keep it refused; none of them can be left out\n", shown)
        self.assertIn("p.sig:13:6: note: in LIMIT, called at 5:9: LIMIT#1.Z := (LIMIT#1.CUT default LIMIT#1.X) + LIMIT#1.M\n   13 |    | Z := (CUT default X) + M\n      |      ^\n", shown)
        self.assertIn("mend, accepted by check: ", shown)
        self.assertIn("   13 + ", shown)

    def test_nothing_ties_two_inputs(self):
        _, shown, _ = self.why(b"process P = (? integer A; boolean B ! integer Y)\n(| Y := A when B |);\n")
        self.assertIn("nothing ties A and B", shown)
        self.assertIn("p.sig:2:4: note: Y := A when B\n", shown)

    def test_an_accepted_program(self):
        self.assertEqual(self.why(b"process P = (? integer A ! integer Y) Y := A;")[:2], (0, "accepted\n"))

    def test_what_is_no_program(self):
        for text in (b"", bytes(random.Random(2).randrange(256) for _ in range(3000))):
            status, shown, err = self.why(text)
            self.assertEqual((status, err), (1, ""))
            self.assertIn("sigc-caret", shown)

    def test_a_folder_and_no_file(self):
        for it in ("/", "/nothing/at/all"):
            done = ran("sigc-why", it)
            self.assertEqual(done.returncode, 5)
            self.assertEqual(len(done.stderr.splitlines()), 1)


if __name__ == "__main__":
    unittest.main()
