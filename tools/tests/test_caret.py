"""sigc-caret over the program: beginners' mistakes with their mends, further refusals, warnings, words and files."""
import os
import tempfile
import unittest
import unittest.mock

from helping import NEEDS_SIGC, TOP, module_of, program, ran

from sigc.call import command_words, compiler
from sigc.hints import file_lines, further, gathered, near_words, warnings
from sigc.read import editing, syntax

HEAD = "process P = (? integer A ! integer Y)\n"
TRUTHS = "process P = (? integer A ! boolean Y)\n"
# A mistake, the entry of docs/errors.md that it leads to, and what stands in the place of it, where one mend is clear.
MISTAKES = {
    "process P = (? bool A ! boolean Y)\n(| Y := not A |);\n": ("bool-and-int", "(? boolean A"),
    HEAD + "(| Z := A + 1\n | Y := Z\n |)\nwhere\n  integer Z;\n": ("end-is-missing", "integer Z;\nend;"),
    HEAD + "(| Z := A + 1\n | Y := Z\n |)\nwhere\n  integer Z;\n;\n": ("end-is-missing", "integer Z;\n end;"),
    "process P (? integer A ! integer Y)\n(| Y := A |);\n": ("the--of-a-process-is-missing", "process P = (?"),
    TRUTHS + "(| LOW := A < 3\n | HIGH := A > 9\n | Y := LOW or HIGH |)\nwhere boolean LOW; HIGH; end;\n": ("boolean-low-high", "boolean LOW, HIGH;"),
    HEAD + "(| Y := A + K |)\nwhere constant integer K = 5; end;\n": ("constant-integer-k--5", ""),
    HEAD + "(| Y := A + OFFSET |)\nwhere integer OFFSET init 3; end;\n": ("offset-init-3-as-a-constant", "Y := A + 3"),
    "process P = (? integer A, OFFSET init 3 ! integer Y)\n(| Y := A + OFFSET |);\n": ("offset-init-3-as-a-constant", ""),
    "process P = (? event A, B ! event Y)\n(| Y := A or B |);\n": ("a-or-b-of-events", "A ^+ B"),
    "process P = (? event A, B; boolean C ! boolean Y)\n(| Y := A or (B when C) | A ^= when Y |);\n": ("a-or-b-of-events", ""),
    HEAD + "(| Y := A mod 2 |);\n": ("marks-and-words-of-other-languages", "A modulo 2"),
    HEAD + "(| Y := A -- the sum\n |);\n": ("marks-and-words-of-other-languages", "A % the sum %"),
    HEAD + "(| Y := A // the sum\n |);\n": ("marks-and-words-of-other-languages", "A % the sum %"),
    "process P = (? integer A ! integer Y, Z)\n(| Y := A;\n   Z := A\n |);\n": ("marks-and-words-of-other-languages", "A |\n"),
    TRUTHS + "(| Y := A != 2 |);\n": ("marks-and-words-of-other-languages", "A /= 2"),
    TRUTHS + "(| Y := A <> 2 |);\n": ("marks-and-words-of-other-languages", "A /= 2"),
    TRUTHS + "(| Y := A == 2 |);\n": ("marks-and-words-of-other-languages", "A = 2"),
    "process P = (? integer A; boolean B ! integer Y)\n(| Y := A when B else 0 | A ^= B |);\n": ("if-then-else", ""),
    "process P = (? integer A; boolean B ! integer Y)\n(| Y := if B then A else 0 |);\n": ("if-then-else", ""),
    HEAD + "(| Y = A + 1 |);\n": ("y--a--1", "Y := A + 1"),
    HEAD + "(| Y := 0 -> pre Y + 1 |);\n": ("0---pre-n--1", ""),
    HEAD + "(| Y := A + TWICE(A) |);\n": ("a-call-inside-an-expression", ""),
    HEAD + "(| Y := TWICE(A) + 1 |);\n": ("a-call-inside-an-expression", ""),
    "process P = (? integer A, boolean B ! integer Y)\n(| Y := A when B |);\n": ("syntax", "integer A; boolean B"),
    HEAD + "(| Y := (A + 1 |);\n": ("syntax", "(A + 1)"),
    HEAD + "(| Y := A |)\n": ("syntax", "|);"),
    HEAD + "(| Y := Z | Z := A |)\nwhere integer Z end;\n": ("syntax", "integer Z; end"),
    "process P = (? integer A; boolean B ! integer Y)\n(| Y := A wehn B | A ^= B |);\n": ("syntax", "A when B"),
    HEAD + "(| Y := A |)\nwher integer Z; end;\n": ("syntax", "where integer"),
    "process P = (? integer A ! integer Y, Z)\n(| Y := A\n   Z := A + 1\n |);\n": ("syntax", "| Z := A"),
    "process P = (? integer A ! integer Y, Z)\n(| Y := A |\n | Z := A + 1\n |);\n": ("syntax", ""),
    "process P = (? integer Level ! integer Y)\n(| Y := level + 1 |);\n": ("unknown-name-x", "Level + 1"),
    HEAD + "(| Y := TWICE(A) |)\nwhere process TWCE = (? integer X ! integer Z) Z := X; end;\n": ("unknown-name-x", "TWCE(A)"),
    "% A sum\nprocess P = (? integer A ! integer Y)\n(| Y := A + 1 |);\n% the end\n": ("two-comments-with-a-program-between-them", ""),
    HEAD + "(| Y := A + 1 |);   % a sum\n": ("comment-not-closed", "% a sum %"),
    HEAD + "(| Y := 1 |);\n": ("y--1", "Y := 1 when ^A"),
    HEAD + "(| Y := (A when (A > 0)) default 0 |);\n": ("bare-constant", "default (0 when ^A)"),
    TRUTHS + "(| Y := Q{5}(A) |)\nwhere process Q = {integer K} (? integer X ! boolean Z) Z := X < -K; end;\n": ("-limit-and-m---1-of-a-parameter", ""),
    "process Q = {integer K} (? integer X ! boolean Z) Z := X < K;\nprocess P = (? integer A ! boolean Y) Y := Q{5}(A);\n": ("a-called-process-before-the-main-one", ""),
    "process P = (? event T ! integer N)\n(| N := ZN + 1 | ZN := N $ init 0 |)\nwhere integer ZN; end;\n": ("a-counter-without-a-clock", ""),
    "process P = (? event T, R ! integer N)\n(| N := (0 when R) default (ZN + 1) | ZN := N $ init 0 | N ^= T |)\nwhere integer ZN; end;\n": ("an-event-as-a-reset", ""),
    "process P = (? integer A; boolean B ! integer Y)\n(| Y := A when B |);\n": ("a-when-b-of-two-inputs", ""),
    "process P = (? integer A; event T ! integer Y)\n(| Y := A cell T init 0 |);\n": ("two-events-or-a-value-that-is-held-between-two-ticks", ""),
    "process P = (? integer A; boolean B ! integer Y)\n(| Y := A + (A when B) | A ^= B |);\n": ("a--a-when-b", ""),
    "process P = (? integer A, B ! integer Y)\n(| Y := A + 1 |);\n": ("an-unused-input", ""),
    "process P = (? integer A, Y)\n(| Y := A + 1 |);\n": ("syntax", "(? integer A ! integer Y)"),
    "process P = (integer A ! integer Y)\n(| Y := A |);\n": ("syntax", "(? integer A"),
    HEAD + "begin Y := A + 1 end;\n": ("syntax", "(| Y := A + 1 |);"),
    HEAD + "{ Y := A + 1 };\n": ("syntax", "(| Y := A + 1 |);"),
    HEAD + "(| Y := A + 1 |)\nend;\n": ("syntax", "|);"),
    HEAD + "Y := Z\n| Z := A;\n": ("syntax", "(| Y := Z\n| Z := A |);"),
    HEAD + "(| Y := Z | Z := A |)\ninteger Z;\nend;\n": ("syntax", "where integer Z;"),
    TRUTHS + "(| Y := 0 < A < 10 |);\n": ("syntax", "(0 < A) and (A < 10)"),
    TRUTHS + "(| Y := A > 0 and < 10 |);\n": ("syntax", "A > 0 and A < 10"),
    HEAD + "(| Y ::= A |);\n": ("y--a--1", "Y := A"),
    HEAD + "(| Y <- A |);\n": ("y--a--1", "Y := A"),
    "process P = (? boolean A, B ! boolean Y)\n(| Y := A && B |);\n": ("marks-and-words-of-other-languages", "A and B"),
    "process P = (? boolean A ! boolean Y)\n(| Y := !A |);\n": ("marks-and-words-of-other-languages", "Y := not A"),
    HEAD + "(| Y := A # the sum\n |);\n": ("marks-and-words-of-other-languages", "A % the sum %"),
    HEAD + "(| Y := A when A |);\n": ("types-clash", "A when (A /= 0)"),
    "process P = (? integer A ! event Y)\n(| Y := A > 3 |);\n": ("types-clash", "Y := when (A > 3)"),
    HEAD + "(| Y := A > 3 |);\n": ("types-clash", "! boolean Y)"),
    HEAD + "(| X := A when (A < 9) | Z := (A + 1) when (A < 9) | Y := X + Z |)\nwhere integer X, Z; end;\n": ("the-same-comparison-twice", ""),
}


class Hints(unittest.TestCase):
    def hint(self, text, line, col, said):
        return gathered.hint_of(text, syntax.read(text), compiler.Refusal(line, col, said))

    def test_a_name_of_the_process_around(self):
        text = HEAD + "(| Y := Q(A) |)\nwhere process Q = (? integer X ! integer Z) Z := X + A; end;\n"
        self.assertIn("it is a name of P, at 1:24", self.hint(text, 3, 54, "unknown name A").lines[0])

    def test_the_numbers_of_a_call(self):
        text = HEAD + "(| Y := Q(A) |)\nwhere process Q = {integer K} (? integer X ! integer Z) Z := X * K; end;\n"
        self.assertEqual(self.hint(text, 2, 9, "bad call of Q").lines, ["Q has 1 constant, 1 argument, 1 left side; here are 0, 1, 1"])

    def test_bytes(self):
        self.assertIn("byte order mark", self.hint("\xef\xbb\xbfprocess", 1, 1, "unexpected byte").lines[0])
        self.assertIn("`and`", self.hint("A & B", 1, 3, "unexpected byte").lines[0])

    def test_what_is_open_at_the_end(self):
        lines = self.hint(HEAD + "(| Y := (A", 2, 11, "syntax").lines
        self.assertEqual(lines[0], "found the end of the text; wanted `)` or an operator")
        self.assertEqual(lines[1:], ["the `(` at 2:9 wants `)`", "the `(|` at 2:1 wants `|)`"])

    def test_near_words(self):
        for word, words, meant in [("chek", command_words.COMMANDS, "check"), ("level", ["LEVEL"], "LEVEL"), ("A", ["B", "C"], ""), ("proces", ["process"], "process"), ("GO", ["G0", "H"], "G0")]:
            self.assertEqual(near_words.near(word, list(words)), meant)


class Words(unittest.TestCase):
    def test_hints(self):
        for words, wanted in [
            (["chek", "p"], "did you mean `check`?"),
            (["run", "p", "f", "--instant", "3"], "did you mean `--instants`?"),
            (["run", "p", "f", "--instants", "0"], "--instants wants a number from 1 to 1000000000"),
            (["check", "p", "--workers", "3"], "`check` has no option --workers"),
            (["run", "p", "f", "--capacity"], "--capacity wants a number from 1 to 65536"),
            (["run", "p", "f", "--capacity=1", "--capacity=2"], "--capacity stands twice"),
            (["check"], "`check` takes PROGRAM; 0 such words stand here"),
            (["p.sig"], "the command comes first: sigc check p.sig"),
            (["build", "p", "q"], "`build` takes PROGRAM; 2 such words stand here"),
            (["check", "--pace=1", "p"], "`--pace` takes no value"),
            (["print", "p", "--pace"], "`print` has no option --pace"),
            (["check", "--pace", "p", "--pace"], "--pace stands twice"),
            ([], "a command is wanted: check, tree, code, print, judge, run, play, build, exec, load"),
        ]:
            self.assertIn(wanted, " ".join(command_words.words_hint(words)))

    def test_the_commands_of_the_documents(self):
        with open(f"{TOP}/docs/formats.md", encoding="utf-8") as it:
            text = it.read()
        for name in command_words.COMMANDS:
            self.assertIn(f"    {command_words.usage(name)}\n", text)
            self.assertIn(command_words.usage(name), command_words.help_text())
        for name, it in command_words.OPTIONS.items():
            row = next(line for line in text.split("\n") if line.startswith(f"| `{name} "))
            self.assertEqual([cell.strip().replace(",", "") for cell in row.strip("|").split("|")][2:], [str(it.least), str(it.most), str(it.usual)])


class Files(unittest.TestCase):
    SIGNALS = {"A": "integer", "B": "boolean", "E": "event"}

    def said(self, sort, said, text, line, col=1):
        return " ".join(file_lines.hint_of_file(sort, said, text, line, col, self.SIGNALS))

    def test_flows(self):
        for text, said, line, col, wanted in [
            ("% three\nA 1", "bad line", 1, 1, "no comments"),
            ("A 1, 2", "bad value", 1, 3, "not by `,`"),
            ("B 1 0", "bad value", 1, 3, "`true` or `false`"),
            ("B true fals", "bad value", 1, 8, "`true` or `false`"),
            ("A,1,2", "bad line", 1, 1, "not by `,`"),
            ("E false", "bad value", 1, 3, "`true` where it comes"),
            ("A 1 .", "bad value", 1, 5, "absences are left out"),
            ("A 3*2", "bad value", 1, 3, "`flows 2`"),
            ("A 1.5", "bad value", 1, 3, "an integer is digits"),
            ("\xef\xbb\xbfA 1", "bad line", 1, 1, "byte order mark"),
            ("A: 1", "bad line", 1, 1, "without `:`"),
            ("1 2", "bad line", 1, 1, "an input's name and then its values"),
            ("A 1\xc2\xa02", "bad line", 1, 1, "column 4"),
            ("a 1", "not an input", 1, 1, "did you mean `A`?"),
            ("Q 1", "not an input", 1, 1, "the inputs are A, B, E"),
            ("pace_1 true", "not an input", 1, 1, "run with --pace"),
            ("pace_2 1", "bad value", 1, 8, "`true` or `false`"),
        ]:
            self.assertIn(wanted, self.said("flow", said, text, line, col), text)

    def test_traces(self):
        for text, said, line, col, wanted in [
            ("A B\n1", "bad header", 1, 1, "it does not name E"),
            ("A B E Q", "bad header", 1, 1, "it names Q"),
            ("A B E\n1 true", "bad width", 2, 1, "2 words, and the header has 3 names"),
            ("A B E\n1 0 .", "bad value", 2, 3, "`true` or `false`"),
            ("A B E\n1 true -", "bad value", 2, 8, "absent is written `.`"),
            ("A B E\n% one\n", "bad width", 2, 1, "no comments"),
            ("A,B,E\n", "bad header", 1, 1, "not by `,`"),
        ]:
            self.assertIn(wanted, self.said("trace", said, text, line, col), text)

    def test_events(self):
        self.assertIn("did you mean `act`?", self.said("event", "bad event", "atc 1", 1))
        self.assertIn("`act K` or `look K`", self.said("event", "bad event", "0 0", 1))


class Lint(unittest.TestCase):
    def warned(self, text):
        return [(it.line, it.text) for it in warnings.warnings_of(syntax.read(text))]

    def test_what_is_warned_of(self):
        text = "process L = (? integer A; boolean B ! integer Y, S)\n(| Y := (A when (A < 10)) default (1 when (A < 10))\n | S := A + (A when B)\n | U := U $ init 0\n | A ^= when (S > 0)\n |)\nwhere integer U;\n process Q = (? integer X ! integer W) W := W $ init 0;\nend;\n"
        found = self.warned(text)
        for line, words in [(2, "A < 10 stands at 2:20 too"), (3, "A has to come as rarely as A when B here"), (7, "local U is not used"), (8, "process Q is not called"), (8, "input X is not used"), (5, "input A is taken where S > 0")]:
            self.assertTrue(any(at == line and it.startswith(words) for at, it in found), (words, found))

    def test_delays_that_keep_the_same(self):
        text = "process P = (? integer A; boolean B ! integer Y; boolean Q)\n(| Y := A - (A $ init 0) + Z + W\n | Z := A $ | W := A $ init 1\n | Q := B and (B $ init false)\n | B ^= A\n |)\nwhere integer Z init 0, W; end;\n"
        self.assertEqual(self.warned(text), [(3, "the delay of A at 2:16 keeps the same: two memories with one value; name it once, and use the name")])
        self.assertEqual(self.warned(text.replace("Z init 0", "Z init 2")), [])

    def test_a_boolean_that_nothing_asks(self):
        text = "process C = (? boolean SENSED, PRESSED; integer POS ! integer LAST)\n(| SENSED ^= PRESSED\n | POS ^= when SENSED\n | LAST := POS cell ^SENSED init 0\n |);\n"
        self.assertEqual([words.split(":")[0] for _, words in self.warned(text)], ["nothing asks the boolean input PRESSED"])
        self.assertEqual(self.warned(text.replace(" |)", " | LAST ^= PRESSED |)")), [])

    def test_no_state_of_an_automaton(self):
        table = "automaton DOOR\ninput boolean OPEN, CALLED\noutput boolean MOVES\ntransitions {}\nstate | MOVES\nSHUT | true\nWIDE | false\nfrom | when | to\nSHUT | OPEN | WIDE\n"
        automaton = module_of("sigc-automaton")
        caller = "process P = (? boolean OPEN, CALLED ! boolean MOVES)\n(| (STATE, MOVES) := DOOR(OPEN, CALLED) |)\nwhere integer STATE; end;\n"
        for mode in ("until", "unless"):
            text = "\n".join(automaton.process_of(automaton.Automaton(table.format(mode)))) + "\n"
            self.assertEqual(self.warned(text), [])
            self.assertEqual(self.warned(caller + text), [])

    def test_what_is_not(self):
        self.assertEqual(self.warned("process P = (? integer A; boolean B ! integer Y)\n(| Y := (A when B) default (Z + 1)\n | Z := Y $ init 0\n | A ^= B ^= Z\n |)\nwhere integer Z; end;\n"), [])

    def test_empty_flows(self):
        reader = syntax.read("process P = (? integer A, B ! integer Y) Y := A + B;")
        self.assertEqual([it.col for it in warnings.empty_flows(reader, "A 1\nB\n")], [27])


@NEEDS_SIGC
class OverTheProgram(unittest.TestCase):
    @classmethod
    def setUpClass(cls):
        cls.sigc = compiler.Sigc(program())
        cls.caret = module_of("sigc-caret")

    def test_beginners_mistakes_lead_to_their_mends(self):
        for text, (entry, mended) in MISTAKES.items():
            with self.subTest(text):
                reader, refusal = syntax.read(text), self.sigc.check(text)
                hint = gathered.hint_of(text, reader, refusal)
                self.assertEqual(hint.entry or self.caret.entry_of(refusal.text), entry)
                self.assertTrue(self.caret.explained(entry), entry)
                self.assertTrue(hint.lines)
                if mended:
                    self.assertIn(mended, editing.applied(text, hint.edits))

    def test_the_reader_stops_where_sigc_does(self):
        for text in MISTAKES:
            refusal = self.sigc.check(text)
            if refusal.text == "syntax":
                fault = syntax.read(text).faults[0].found
                self.assertEqual((fault.line, fault.col), refusal[:2], text)

    def test_several_refusals(self):
        text = "process P = (? integer A; boolean B ! integer Y, Z, W)\n(| Y = A + 1\n | Z := if B then A\n | W := A + q\n | V := A + B\n |)\nwhere integer V, U; end;\n"
        first = self.sigc.check(text)
        found = further.later_refusals(self.sigc, syntax.read(text), first)
        self.assertEqual((first.line, first.col), (3, 2))
        self.assertEqual({(it.line, it.col, it.text) for it in found}, {(3, 12, "syntax"), (4, 13, "unknown name q"), (5, 11, "types clash"), (7, 18, "U is not defined")})

    def hint(self, text):
        refusal = self.sigc.check(text)
        return refusal.text, gathered.hint_of(text, syntax.read(text), refusal).lines

    def test_a_call_with_other_left_sides(self):
        called = "\nprocess Q = {integer K} (? boolean B ! integer N; boolean U; event E)\n(| N := N $ init K | U := B | E := when B | N ^= B |);\n"
        outputs = "Q has 3 outputs: integer N, boolean U, event E; "
        for head, equation, wanted in [
            ("? boolean B ! boolean U; event E", "(U, E) := Q{1}(B)", ("types clash", [outputs + "two left sides stand here"])),
            ("? boolean B ! boolean U", "U := Q{1}(B)", ("types clash", [outputs + "one left side stands here"])),
            ("? boolean B ! integer N; event E", "N := Q{1}(B)", ("E is not defined", [outputs + "one left side stands here, at 2:4"])),
            ("? boolean B ! boolean U, N; event E", "(U, N, E) := Q{1}(B)", ("types clash", [outputs + "N goes to a signal of kind boolean"])),
            ("? boolean B ! integer N; boolean U, E", "(N, U, E) := Q{1}(3 when B)", ("types clash", ["the input B of Q is boolean, and integer is given"])),
            ("? boolean B ! integer N; boolean U, E", "(N, U, E) := Q{true}(B)", ("types clash", ["the parameter K of Q is integer, and boolean is given"])),
        ]:
            self.assertEqual(self.hint(f"process P = ({head})\n(| {equation} |);{called}"), wanted, equation)

    def test_what_is_no_program_at_all(self):
        for text, wanted in [("module M:\ninput A;\nend module\n", "begins with `process NAME"), ("node F(a) returns (y) let y = a tel\n", "begins with `process NAME"), ("automaton T\nstate\nA\n", "sigc-automaton")]:
            self.assertIn(wanted, " ".join(self.hint(text)[1]))

    def test_pragmas(self):
        for pragma, wanted in [('RunOn {Y} "x"', "a number from 0 to 63"), ('RunOn {y} "1"', "did you mean `Y`?"), ('RunOn {Q} "1"', "Q is no signal of P"), ('RunOn {Y} "1" RunOn {Y} "2"', "Y stands in a pragma before")]:
            said, lines = self.hint(f"process P = (? integer A ! integer Y)\npragmas {pragma} end pragmas\n(| Y := A |);\n")
            self.assertEqual(said, "bad pragma")
            self.assertIn(wanted, " ".join(lines))

    def test_words_of_esterel_and_lustre(self):
        for equation, wanted in [("Y := A when present B", "there is no `present`"), ("emit Y", "there is no `emit`"), ("await B; Y := A", "is a state"), ("Y := ?A", "a signal's name is its value"), ("Y := pre(A)", "`X $ init C`")]:
            _, lines = self.hint(f"process P = (? integer A; boolean B ! integer Y)\n(| {equation} |);\n")
            self.assertIn(wanted, " ".join(lines), equation)

    def test_a_boolean_that_was_to_tell(self):
        text = "process C = (? boolean SENSED, PRESSED; integer POS; event B ! event E; integer LAST)\n(| SENSED ^= PRESSED\n | POS ^= when SENSED\n | LAST := POS\n | E := B |);\n"
        self.assertEqual(self.hint(text)[1], ["nothing asks the boolean PRESSED: is `B ^= when PRESSED` meant?"])

    def test_two_inputs_that_nothing_ties(self):
        self.assertIn("say how A and B relate", self.hint("process P = (? integer A, B ! integer Y, Z)\n(| Y := A | Z := B |);\n")[1][0])

    def later(self, text):
        found = further.later_refusals(self.sigc, syntax.read(text), self.sigc.check(text))
        return [(it.line, it.col, it.text) for it in found]

    def test_a_mend_that_is_known_is_taken_to_go_on(self):
        text = "process P = (? bool A; int B ! boolean Y, Z)\n(| Y := not a;\n   Z := B != q\n |);\n"
        self.assertEqual(self.later(text), [(1, 24, "syntax"), (2, 14, "syntax"), (3, 11, "syntax"), (2, 13, "unknown name a"), (3, 14, "unknown name q")])

    def test_a_clock_equation_defines_nothing(self):
        text = "process P = (? integer A ! integer Y)\n(| Y := A\n | Y ^= A +\n | A ^= b\n |);\n"
        self.assertEqual(self.later(text), [(4, 9, "unknown name b")])

    def test_no_refusal_behind_one_of_clocks(self):
        text = "process P = (? integer A, B ! integer Y) Y := A;"
        self.assertEqual(further.later_refusals(self.sigc, syntax.read(text), self.sigc.check(text)), [])

    def shown(self, text, *words, flows=None):
        with tempfile.TemporaryDirectory() as room:
            for name, it in (("p.sig", text), ("p.flows", flows)):
                if it is not None:
                    with open(f"{room}/{name}", "w", encoding="latin-1") as file:
                        file.write(it)
            done = ran("sigc-caret", *words, cwd=room)
            return done.returncode, done.stderr.decode()

    def test_a_program_of_which_nothing_was_proved(self):
        text = "process P = (? integer A ! integer Y)\n(| Y := X + A | X := Y |)\nwhere integer X; end;\n"
        with tempfile.TemporaryDirectory() as room:
            with open(f"{room}/sigc", "w", encoding="ascii") as it:
                it.write(f"#!/bin/sh\necho 'sigc: nothing was proved of this program' >&2\nexec {program()} \"$@\"\n")
            os.chmod(f"{room}/sigc", 0o755)
            with unittest.mock.patch.dict(os.environ, {"SIGC": f"{room}/sigc"}):
                status, shown = self.shown(text, "check", "p.sig")
        self.assertEqual((status, shown.replace("sigc: nothing was proved of this program\n", "")), self.shown(text, "check", "p.sig"))
        self.assertIn("cycle through", shown)

    def test_the_entry_itself(self):
        status, shown = self.shown("process P = (? bool A ! boolean Y)\n(| Y := not A |);\n", "check", "--explain", "p.sig")
        self.assertEqual(status, 1)
        self.assertIn("did you mean `boolean`?\n      mend, accepted by check:\n", shown)
        self.assertIn("      see docs/errors.md#bool-and-int\n", shown)
        self.assertIn("      | + process P = (? boolean A ! boolean Y)\n", shown)

    def test_warnings(self):
        status, shown = self.shown("process P = (? integer A ! integer Y)\n(| Y := A | Z := A |)\nwhere integer Z; end;\n", "--lint", "run", "p.sig", "p.flows", flows="")
        self.assertEqual(status, 0)
        self.assertIn("p.sig:3:15: warning: local Z is not used\n", shown)
        self.assertIn("p.sig:1:24: warning: input A has no values", shown)

    def test_a_line_of_a_flow_file(self):
        status, shown = self.shown("process P = (? boolean A ! boolean Y)\n(| Y := A |);\n", "run", "p.sig", "p.flows", flows="A 1\n")
        self.assertEqual(status, 4)
        self.assertIn("p.flows:1:3: error: bad value\n    1 | A 1\n      |   ^\n      a boolean is written `true` or `false`\n", shown)

    def test_pace_where_sigc_takes_it(self):
        text = "process P = (? integer A, B ! integer Y)\n(| Y := A |);\n"
        stand_in = "#!/bin/sh\ncase $* in *--pace*) echo accepted;; *) echo 'error 1:24: no root: A and B are independent' >&2; exit 1;; esac\n"
        with tempfile.TemporaryDirectory() as room:
            for name, it in (("p.sig", text), ("sigc", stand_in)):
                with open(f"{room}/{name}", "w", encoding="utf-8") as file:
                    file.write(it)
            os.chmod(f"{room}/sigc", 0o755)
            for words in (["sigc-caret", "check"], ["sigc-why"]):
                done = ran(*words, "p.sig", cwd=room, env={"SIGC": f"{room}/sigc"})
                self.assertIn(b"--pace", done.stderr + done.stdout)

    def test_pace_is_named_only_where_sigc_takes_it(self):
        text = "process P = (? integer A, B ! integer Y)\n(| Y := A |);\n"
        _, shown = self.shown(text, "check", "p.sig")
        self.assertEqual("--pace" in shown, self.sigc.takes_pace(text))
        self.assertIn("sigc-why p.sig", shown)


if __name__ == "__main__":
    unittest.main()
