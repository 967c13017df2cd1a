"""Mends that mean what was written: the plain reading of equations against sigc, and the first mends of refused programs
against the programs that their writers came to."""
import os
import tempfile
import unittest

from calling import EXAMPLES, HERE, SIGC, TUTORIAL, needs_sigc, ran, sigc, written
from programs import Program

from sigc.call import compiler
from sigc.hints import all_advice, forced_hints, warnings
from sigc.read import editing, files_read, syntax
from sigc.why import choices, circles, mending, plain_reading, unreached, weighed
from sigc.why.plain_reading import ABSENT, TORN, UNKNOWN, Reading

NEWCOMERS = f"{HERE}/newcomers"
TEXT = "process P = (? integer A ! integer B, C) (| B := A $ init 0 | C := (B $ init 1) + A |);"
COUNT = int(os.environ.get("SIGC_READ_PROGRAMS", "12"))


def process_of(text):
    return syntax.read(text).processes[0]


def value_of(expression, **instant):
    """What an expression is at one instant of these signals."""
    process = process_of(f"process P = (? ! ) Y := {expression};")
    return Reading(process).value(process.equations[0].right, instant)


class Read(unittest.TestCase):
    """docs/language.md has the table of which these are rows."""

    def test_functions(self):
        self.assertEqual([value_of("A + B", A=1, B=2), value_of("A + 3", A=ABSENT), value_of("A + B", A=ABSENT, B=ABSENT)], [3, ABSENT, ABSENT])
        self.assertIs(value_of("A + B", A=1, B=ABSENT), TORN)
        self.assertEqual([value_of("A / 2", A=-7), value_of("A modulo 2", A=-7), value_of("A modulo -2", A=7)], [-3, -1, 1])
        self.assertIs(value_of("A / B", A=1, B=0), UNKNOWN)
        self.assertIs(value_of("A + 1", A=plain_reading.MOST), UNKNOWN)
        self.assertEqual([value_of("not A and B", A=False, B=True), value_of("A xor true", A=True), value_of("A /= B", A=True, B=False)], [True, False, True])

    def test_clocks(self):
        self.assertEqual([value_of("A when B", A=1, B=it) for it in (True, False, ABSENT)], [1, ABSENT, ABSENT])
        self.assertEqual([value_of("2 when B", B=True), value_of("when B", B=False), value_of("^A", A=0)], [2, ABSENT, True])
        self.assertEqual([value_of("A default B", A=it, B=2) for it in (1, ABSENT)], [1, 2])
        self.assertEqual([value_of("A ^+ B", A=ABSENT, B=0), value_of("A ^* B", A=ABSENT, B=0), value_of("A ^- B", A=1, B=ABSENT)], [True, ABSENT, True])

    def test_a_sum_left_of_a_default(self):
        self.assertEqual(value_of("(A + B) default B", A=ABSENT, B=2), 2)
        self.assertIs(value_of("B default (A + B)", A=1, B=ABSENT), TORN)

    def test_delays_and_cells(self):
        process = process_of("process P = (? integer A; event B ! integer Y, Z, W init 4) (| Y := A $ init 9 | Z := A cell B init 7 | W := A $ |);")
        reading, found = Reading(process), []
        for a, b in ((ABSENT, True), (1, ABSENT), (ABSENT, ABSENT), (2, True), (ABSENT, True), (UNKNOWN, True), (3, ABSENT), (4, ABSENT)):
            found.append([reading.value(it.right, {"A": a, "B": b}, it.lefts[0].text) for it in process.equations])
        self.assertEqual(found, [[ABSENT, 7, ABSENT], [9, 1, 4], [ABSENT] * 3, [1, 2, 1], [ABSENT, 2, ABSENT], [UNKNOWN] * 3, [UNKNOWN, 3, UNKNOWN], [3, 4, 3]])

    def test_what_does_not_hold(self):
        process = process_of("process P = (? integer A, B ! integer Y) (| Y := A + B | A ^= B |);")
        self.assertEqual(Reading(process).broken({"A": 1, "B": 2, "Y": 3}), [])
        self.assertEqual(Reading(process).broken({"A": 1, "B": 2, "Y": 4}), [(0, "Y", 3, 4)])
        self.assertEqual(Reading(process).broken({"A": 1, "B": ABSENT, "Y": 4}), [(1, "", 1, ABSENT)])
        self.assertEqual(Reading(process).broken({"A": 1, "B": 2}), [])


@needs_sigc
class AsSigc(unittest.TestCase):
    """In runs of sigc every equation holds as it is read here."""

    def texts(self):
        for folder in (EXAMPLES, TUTORIAL):
            yield from (files_read.read_text(f"{folder}/{it}") for it in sorted(os.listdir(folder)) if it.endswith(".sig"))
        yield from (files_read.read_text(f"{NEWCOMERS}/{it}") for it in sorted(os.listdir(NEWCOMERS)) if it.endswith(".wanted.sig"))
        yield from (Program(seed).text() for seed in range(COUNT))

    def test_every_equation_holds(self):
        asked, instants = compiler.Sigc(SIGC), 0
        for text in self.texts():
            if asked.check(text) is None:
                weight = weighed.weight_of(asked, text, text)
                self.assertEqual(weight.broken, {}, text)
                instants += weight.instants
        self.assertGreater(instants, 5000)

    def test_another_equation_does_not(self):
        asked, text = compiler.Sigc(SIGC), files_read.read_text(f"{EXAMPLES}/down.sig")
        for old, new in (("ZY - 1", "ZY - 2"), ("init 0", "init 1"), ("A default", "(A + 1) default"), ("ZY <= 0", "ZY <= 1")):
            weight = weighed.weight_of(asked, text.replace(old, new), text)
            self.assertEqual(len(weight.broken), 1, new)


@needs_sigc
class Newcomers(unittest.TestCase):
    """Programs as newcomers wrote them, and what they came to: the first mend runs as the latter does."""

    @classmethod
    def setUpClass(cls):
        cls.sigc = compiler.Sigc(SIGC)

    def mends(self, name):
        self.text = files_read.read_text(f"{NEWCOMERS}/{name}.sig")
        return mending.mends_of(self.sigc, self.text, 3)

    def run_of(self, text, flows, share):
        with tempfile.TemporaryDirectory() as room:
            lines = "".join(f"{name} {' '.join(values)}\n" for name, values in flows.items())
            done = sigc("run", written(room, "p.sig", text), written(room, "p.flows", lines), "--workers", "0", "--instants", "200")
            self.assertGreater(len(done.stdout), 100 if share > 0.1 else 10)
            return done.stdout

    def compared(self, name, text, others=()):
        """A program runs as the wanted one does, whose inputs may have other names."""
        wanted = files_read.read_text(f"{NEWCOMERS}/{name}.wanted.sig")
        for share in (0.5, 0.1, 0.05):
            flows = weighed.drawn_flows(process_of(wanted), share)
            renamed = {dict(others).get(it, it): values for it, values in flows.items()}
            self.assertEqual(self.run_of(text, renamed, share), self.run_of(wanted, flows, share))

    def test_a_traffic_light(self):
        """The button is asked where it is true, and the time that a delay keeps already is used."""
        first, *others = self.mends("traffic")
        self.compared("traffic", first.text)
        self.assertIn("then sigc says `cycle through NEXT`, and (T $ init 0) for T in NEXT", first.words)
        self.assertIn("REQUEST := (when BUTTON) default", first.text)
        self.assertEqual(len(first.notes), 1)
        for it in others:
            self.assertTrue(it.notes)
            self.assertNotIn("STATE /= STATE", it.text)

    def test_a_vending_machine(self):
        first, *_ = self.mends("vending")
        self.compared("vending", first.text, [("PAID", "COIN_COMES")])
        self.assertIn("(? boolean COIN_COMES; integer COIN; boolean TEA, COFFEE, CANCEL !", first.text)
        self.assertEqual(first.notes, ())

    def test_a_lift(self):
        first, *_ = self.mends("lift")
        self.compared("lift", first.text)
        self.assertIn("with this, SERVED0 is false where the equation at 7:4 gives true", first.notes[0])

    def first_mend(self, name):
        """The first mend that sigc-caret shows."""
        text = files_read.read_text(f"{NEWCOMERS}/{name}.sig")
        advice = all_advice.Advice(self.sigc, syntax.read(text))
        return advice.mends(advice.refusals(self.sigc.check(text))[0], 1)[0]

    def test_a_crossing(self):
        """A constant without a clock, an event that is asked, and a circle that takes two delays, which the program has."""
        first = self.first_mend("crossing")
        self.compared("crossing", first.text)
        self.assertIn("ZASKED for ASKED in STATE, ZTIME for TIME in STATE", first.words)

    def test_a_machine_of_one_drink(self):
        """An event that is a condition, and a coin that comes now and then."""
        first = self.first_mend("drinks")
        self.compared("drinks", first.text)
        self.assertIn("(? boolean COIN_COMES; integer COIN; boolean DRINK, CANCEL !", first.text)

    def test_a_lift_of_three_floors(self):
        """No mend is right without a word: the delay of OPEN and the one of UP are told."""
        first = self.first_mend("floors")
        self.assertEqual([it.split(" is ")[0] for it in first.notes[:3]], ["with this, AT0", "with this, AT2", "with this, DOWN"])

    def test_inputs_that_no_longer_come_by_themselves(self):
        """What sigc called independent and a mend ties is told, in both ways."""
        text = "process P = (? integer COIN; event BUTTON ! boolean GIVE)\n(| SUM := (SUM $ init 0) + COIN\n | GIVE := (SUM >= 50) when BUTTON\n |)\nwhere integer SUM; end;\n"
        self.assertEqual(self.sigc.check(text).text, "no root: COIN and BUTTON are independent")
        notes = {it.words: it.notes for it in mending.mends_of(self.sigc, text, 6)}
        self.assertEqual(notes["BUTTON as a boolean that comes with COIN"], ("with this, BUTTON never comes without COIN",))
        self.assertEqual(notes["the clock equation COIN ^= BUTTON"], ("with this, COIN and BUTTON always come together",))

    def test_what_a_mend_changes_is_shown(self):
        for script, *words in (("sigc-why", f"{NEWCOMERS}/lift.sig"), ("sigc-caret", "check", f"{NEWCOMERS}/lift.sig")):
            done = ran(script, *words)
            self.assertIn("    with this, SERVED0 is false where the equation at 7:4 gives true (", done.stdout + done.stderr)

    def test_wrong_mends_weigh_less(self):
        """What was proposed for these programs before: each breaks an equation of theirs, or has a part that never counts."""
        text = files_read.read_text(f"{NEWCOMERS}/traffic.sig")
        plain = text.replace("event BUTTON", "boolean BUTTON").replace("| STATE ^= SECOND", "| STATE ^= SECOND ^= BUTTON")
        weight = weighed.weight_of(self.sigc, text, plain.replace("T >=", "(T $ init 0) >="))
        (cases,) = [cases for cases in weight.broken.values() if cases[0][1].name == "REQUEST"]
        self.assertEqual({it.had for _, it in cases}, {False})
        self.assertIn("with this, REQUEST is false where the equation at 9:4 gives true", "\n".join(weighed.notes_of(text, weight)))
        asked = text.replace("event BUTTON", "boolean BUTTON").replace("| STATE ^= SECOND", "| STATE ^= SECOND ^= BUTTON").replace("BUTTON default", "(when BUTTON) default")
        weight = weighed.weight_of(self.sigc, text, asked.replace("NEXT /=", "(NEXT $ init 0) /="))
        self.assertEqual(weight.unreached, ["`(NEXT $ init 0) /= STATE` is never true: both sides are the same"])
        vending, wanted = (files_read.read_text(f"{NEWCOMERS}/{it}.sig") for it in ("vending", "vending.wanted"))
        weight = weighed.weight_of(self.sigc, vending, wanted.replace("COIN + (ZCREDIT when PAID)", "(COIN cell ^PAID init 0) + ZCREDIT"))
        self.assertIn("CREDIT", [cases[0][1].name for cases in weight.broken.values()])
        self.assertTrue(weight.unreached)


class Circles(unittest.TestCase):
    def test_circles(self):
        process = process_of(files_read.read_text(f"{NEWCOMERS}/lift.sig"))
        one, other = circles.circles_of(process)
        self.assertEqual((one.names, other.names), ({"R0", "R1", "SERVED0", "SERVED1", "OPEN", "DOORTIME"}, {"UP", "DOWN"}))
        self.assertEqual(one.way, ["R0", "SERVED0", "OPEN", "R0"])
        self.assertEqual((circles.breakers(process, one)[0], circles.breakers(process, other)), (("OPEN",), [("UP",), ("DOWN",)]))
        self.assertTrue(all(len(it) == 2 and "OPEN" not in it for it in circles.breakers(process, one)[1:]))
        self.assertEqual(circles.circles_of(process_of(files_read.read_text(f"{NEWCOMERS}/lift.wanted.sig"))), [])
        self.assertEqual(circles.circles_of(process_of("process P = (? ! integer N) N := (N $ init 0) + 1;")), [])

    def test_delays_that_are_there(self):
        process = process_of(TEXT)
        self.assertEqual([circles.existing_delay(TEXT, process, it) for it in "ABC"], ["B", "(B $ init 1)", None])


class Forced(unittest.TestCase):
    """A condition that is forced is told by the names of the program."""

    def lines(self, text, name):
        return forced_hints.forced_lines(syntax.read(text), name)

    def test_a_circle(self):
        condition, circle = self.lines(files_read.read_text(f"{NEWCOMERS}/lift.sig"), "#10:51")
        self.assertEqual(condition, "the equations leave `DOORTIME > 0` only one of its two truths")
        self.assertEqual(circle, "within one instant R0 is computed from SERVED0, SERVED0 from OPEN, and OPEN from R0: a circle, which `OPEN $ init ..` for OPEN breaks")
        text = "process P = (? boolean A ! boolean X, Y)\n(| X := A and not Y\n | Y := X or not X $ init false\n |);\n"
        self.assertIn("X is computed from Y, and Y from X: a circle, which `X $ init ..` for X breaks", self.lines(text, "#3:20")[1])

    def test_a_truth_that_cannot_be(self):
        text = "process P = (? integer A; boolean B ! integer Y)\n(| Y := A + (A when {})\n | A ^= B\n |);\n"
        self.assertEqual(self.lines(text.format("B"), "B"), ["by the equations `B` could never be false here"])
        self.assertEqual(self.lines(text.format("not B"), "B"), ["by the equations `B` could never be true here"])
        self.assertEqual(self.lines(text.format("(A > 3)"), "#2:24"), ["by the equations `A > 3` could never be false here"])
        self.assertEqual(self.lines(text, "NONE"), [])
        self.assertEqual(self.lines(text, "#9:9"), [])

    def test_in_a_called_process(self):
        text = "process P = (? integer A; boolean B ! integer Y)\n(| Y := Q(A, B) |)\nwhere process Q = (? integer X; boolean C ! integer Z)\n  (| Z := X + (X when C) | C ^= X |);\nend;\n"
        self.assertEqual(self.lines(text, "Q#1.C"), ["by the equations `C` could never be false here"])


class Warned(unittest.TestCase):
    """Warnings are of what matters."""

    def words(self, text):
        return [it.text for it in warnings.warnings_of(syntax.read(text))]

    def test_comparisons_that_are_written_twice(self):
        """Only where clocks differ by them: not where one side of a `default` comes within the other, and not as values."""
        text = "process P = (? integer S ! integer Y; boolean B)\n(| Y := {}\n | B := {}\n |);\n"
        for y, b, is_warned in (
            ("S when (S = 0)", "true when (S = 0)", True), ("(1 when (S = 0)) default S", "(S = 0) and (S > 1)", False), ("(1 when (S = 0)) default S", "true when (S = 0)", False),
            ("(1 when (S = 0)) default (2 when (S = 0))", "S > 1", True), ("(1 when (S = 0)) default (2 when (S = 1)) default (3 when ^S)", "(true when (S = 1)) default (false when ^S)", False),
        ):
            self.assertEqual(any("two conditions to sigc" in it for it in self.words(text.format(y, b))), is_warned, (y, b))
        self.assertEqual(self.words(files_read.read_text(f"{NEWCOMERS}/traffic.wanted.sig")), [])

    def test_operands_that_an_equation_ties(self):
        text = "process P = (? boolean PAID; integer COIN ! integer CREDIT)\n(| CREDIT := {} default ZCREDIT\n | ZCREDIT := CREDIT $ init 0\n | CREDIT ^= PAID\n | COIN ^= when PAID\n |)\nwhere integer ZCREDIT; end;\n"
        for right, is_warned in (("COIN + (ZCREDIT when PAID)", False), ("(ZCREDIT when ^COIN) + COIN", False), ("COIN + (ZCREDIT when not PAID)", True), ("ZCREDIT + (ZCREDIT when PAID)", True)):
            self.assertEqual(any("are present together" in it for it in self.words(text.format(right))), is_warned, right)

    def test_a_condition_that_compares_the_same(self):
        text = "process P = (? integer A ! integer Y, Z)\n(| Y := (0 when (A /= Z)) default A\n | Z := {}\n |);\n"
        self.assertEqual(self.words(text.format("A")), ["`A /= Z` is never true: both sides are the same"])
        self.assertEqual(self.words(text.format("A $ init 0")), [])


class Chosen(unittest.TestCase):
    """What a mend chose is told; what the text had before is not."""

    def test_choices(self):
        old = "Y := A\nZ := B default (false when ^C)\nW := V $ init 3\nU := V $\n"
        for one, other, wanted in (
            ("A", "A default (0 when ^B)", ["0 stands where nothing came"]), ("V $\n", "V $ init 0\n", ["the first value is 0"]), ("A", "(1 when ^B) default A", ["1 comes wherever B does"]),
            ("B default", "(when B) default", []), ("Y := A", "Y := V $ init 3", []), ("Y := A", "Y := A cell B init -1", ["the first value is -1"]), ("A", "A default (0 when ^B) default (0 when ^C)", ["0 stands where nothing came"]),
        ):
            found = choices.choices(old, old.replace(one, other, 1))
            self.assertEqual([it.removeprefix("with this, ").partition(":")[0] for it in found], wanted, other)


class Edits(unittest.TestCase):
    def test_kinds_of_inputs_in_their_order(self):
        text = "process P = (? event A, B, C; boolean D; integer E ! integer Y) Y := E;"
        process = process_of(text)
        for names, wanted in (("A", "boolean A; event B, C; boolean D"), ("B", "event A; boolean B; event C; boolean D"), ("C", "event A, B; boolean C, D"), ("AC", "boolean A; event B; boolean C, D"), ("ABC", "boolean A, B, C, D")):
            chosen = [it for it in process.inputs if it.name.text in names]
            self.assertIn(f"(? {wanted}; integer E !", editing.applied(text, editing.with_kind(process, chosen, "boolean")))

    def test_inputs_beside_those_that_they_tell_of(self):
        text = "process P = (? integer A, B; boolean C; integer D ! integer Y) Y := A;"
        process = process_of(text)
        a, b, c, d = process.inputs
        for tellers, wanted in (([(a, "X")], "boolean X; integer A, B; boolean C; integer D"), ([(d, "X")], "integer A, B; boolean C, X; integer D"), ([(c, "X")], "integer A, B; boolean X, C; integer D"), ([(b, "Y"), (a, "X")], "boolean X, Y; integer A, B; boolean C; integer D")):
            self.assertIn(f"(? {wanted} !", editing.applied(text, editing.with_tellers(process, tellers)))

    def test_sides_that_are_the_same(self):
        for condition, is_never in (("Z /= (A $ init 0)", True), ("A < A", True), ("B and A > A", True), ("Z /= (A $ init 1)", False), ("A = A", False), ("Z /= A", False)):
            process = process_of(f"process P = (? integer A; boolean B ! integer Y, Z) (| Y := 1 when ({condition}) | Z := A $ init 0 |);")
            self.assertEqual(unreached.is_always_false(process.equations[0].right.parts[1], {"Z": process.equations[1].right}), is_never, condition)


if __name__ == "__main__":
    unittest.main()
