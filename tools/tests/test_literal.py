"""The literal step of sigc-c: its text, what it is made of, and that faults planted in its writer are found."""
import re
import shutil
import tempfile
import unittest
from unittest import mock

from calling import EXAMPLES, needs_sigc, ran, written
from edges import Edge
from test_c import Compared, built, drawn, needs_gcc, special, wanted

import compiled
import small_c
from sigc.c import c_limits, comments, literal_guards, literal_helpers, literal_names, literal_text, names_file
from sigc.image import images, sources
from sigc.trace import flow_values

# Expressions of programs over integers A and B and booleans C and D, and what stands in the step for them.
LINES = {
    "A + B": ["if (add(A, B, &Y)) { return 3; }", "Y_comes = 1;"],
    "A - B": ["if (subtract(A, B, &Y)) { return 3; }"],
    "A * -3": ["if (multiply(A, -3, &Y)) { return 3; }"],
    "- A": ["if (subtract(0, A, &Y)) { return 3; }"],
    "A / B": ["if (B == 0) { return 3; }", "if (divide(A, B, &Y)) { return 4; }"],
    "A modulo B": ["if (B == 0) { return 3; }", "if (modulo(A, B, &Y)) { return 3; }"],
    "A / 10": ["if (10 == 0) { return 3; }", "if (divide(A, 10, &Y)) { return 4; }"],
    "A + 2147483647": ["if (add(A, 2147483647, &Y)) { return 3; }"],
    "A + 2147483648": ["if (add(A, INT64_C(2147483648), &Y)) { return 3; }"],
    "A + -2147483648": ["if (add(A, -INT64_C(2147483648), &Y)) { return 3; }"],
    "A + 9223372036854775807": ["if (add(A, INT64_MAX, &Y)) { return 3; }"],
}
TRUTHS = {
    "A < B": "Y = A < B;", "A <= 3": "Y = A <= 3;", "A > B": "Y = A > B;", "A >= B": "Y = A >= B;", "A = B": "Y = A == B;", "A /= -1": "Y = A != -1;",
    "A = A": "Y = 1;", "A >= A": "Y = 1;", "A <= A": "Y = 1;", "A /= A": "Y = 0;", "A < A": "Y = 0;", "A > A": "Y = 0;", "C xor C": "Y = 0;", "C = C": "Y = 1;",
    "C and D": "Y = C && D;", "C or true": "Y = C || 1;", "C xor D": "Y = C != D;", "C = D": "Y = C == D;", "C /= false": "Y = C != 0;", "not C": "Y = !C;", "C": "Y = C;",
}
GUARDS = {
    "A when C": "if (C) {", "A when not C": "if (!C) {", "A when (C and D)": "if (C && D) {", "A when (C or D)": "if (C || D) {", "A when (C and not D)": "if (C && !D) {",
    "A when (D and not C)": "if (!C && D) {", "A when (C or not D)": "if (C || !D) {", "A when (D or not C)": "if (!C || D) {", "A when (C = D)": "if (C ? D : !D) {",
    "A when (C and (D xor E))": "if (C && (D ? !E : E)) {", "A when (C or (D and E))": "if (C || (D && E)) {",
}


# What C11, stdint.h and the text of a step have as names.
RESERVED = set(
    "auto break case char const continue default do double else enum extern float for goto if inline int long register restrict return short signed "
    "sizeof static struct switch typedef union unsigned void volatile while int64_t uint32_t INT64_C INT64_MIN INT64_MAX "
    "state context result add subtract multiply divide modulo asm fortran typeof linux unix i386 "
    "P_step P_init P_ends P_end P_state P_context P_DONE P_EXHAUSTED P_OVERFLOW P_DIVISION_BY_ZERO".split()
)
# What stdint.h has or may have, and how the names of the program begin.
KEPT = re.compile(r".*_t|[A-Z0-9_]*_(MIN|MAX|WIDTH|C)|([rw]_)?P_.*")
NAMED_SO = "process P = (? integer result, P_x, SIZE_MAX, y_t, linux ! integer r_P_y, asm) (| r_P_y := result + P_x | asm := SIZE_MAX + y_t + linux | result ^= y_t |);"


def step_of(text):
    """The literal file of a program, as `sigc build` makes its image."""
    return compiled.unit_of(built(text), text, "P", is_literal=True).unit()


def body_of(text):
    """The lines of the operations, without their comments."""
    lines = step_of(text).partition("\nint P_step")[2].partition("\n\n")[2].splitlines()
    return [it.strip() for it in lines if it and not it.strip().startswith("/*")]


@needs_sigc
class Texts(unittest.TestCase):
    def holds(self, lines, right, kind):
        text = f"process P = (? integer A, B; boolean C, D, E ! {kind} Y) (| Y := {right} | A ^= B ^= C ^= D ^= E |);"
        found = body_of(text)
        if "when" not in right:
            # the inputs that the program reads at each instant are all before
            found = [re.sub(r"return (\d+)", lambda it: f"return {int(it[1]) - 3}", line) for line in found]
        self.assertIn("\n".join(lines), "\n".join(found))

    def test_functions(self):
        for right, lines in LINES.items():
            with self.subTest(right):
                self.holds(lines, right, "integer")
        for right, line in TRUTHS.items():
            with self.subTest(right):
                self.holds([line, "Y_comes = 1;"], right, "boolean")

    def test_guards(self):
        for right, line in GUARDS.items():
            with self.subTest(right):
                self.holds([line, "Y = A;", "Y_comes = 1;", "}"], right, "integer")

    def test_blocks(self):
        """Neighbours with one guard share a block, what is always done stands in none, and memories are kept last."""
        text = "process P = (? integer A; boolean C ! integer Y) (| Y := (A when C) + 1 | M := (M $ init 2) + 1 | C ^= A ^= M |) where integer M; end;"
        self.assertEqual(body_of(text), [
            "if (!r_P_A(context, &A)) { return 1; }", "if (!r_P_C(context, &C)) { return 2; }", "if (C) {", "at_1_61 = A;", "if (add(at_1_61, 1, &Y)) { return 3; }", "Y_comes = 1;", "}",
            "M_before = next_M;", "if (add(M_before, 1, &M)) { return 4; }", "next_M = M;", "state->M = next_M;", "if (Y_comes) { w_P_Y(context, Y); }", "return 0;", "}",
        ])

    def test_numbers(self):
        rows = {0: "0", -5: "-5", 2**31 - 1: "2147483647", -(2**31): "-INT64_C(2147483648)", 2**63 - 1: "INT64_MAX", 1 - 2**63: "-INT64_C(9223372036854775807)", -(2**63): "INT64_MIN"}
        self.assertEqual({it: literal_text.number(it) for it in rows}, rows)
        self.assertEqual(literal_text.quoted('#3:5"\\??/'), '"#3:5\\"\\\\\\?\\?/"')

    def test_limits(self):
        """What a step has more of than C11 promises is said, and no more."""
        most = 'int P_step(P_state *state, P_context *context)\n{\n' + "".join(f"    int v{at} = 0;\n" for at in range(509)) + f"    if ({'(' * 62}A{')' * 62}) {{\n" + "x" * 4095 + "\n}\n"
        self.assertEqual(c_limits.beyond(most, ["r_P_" + "A" * 27 + it for it in ("", "B")]), ["a linker may look at 31 characters of a function's name, in which these agree: r_P_" + "A" * 27 + " r_P_" + "A" * 27 + "B"])
        self.assertEqual(c_limits.beyond(most, ["r_P_A", "r_P_B"]), [])
        said = "the step has {} {}: a compiler of C11 may refuse more than {}"
        self.assertEqual(c_limits.beyond(most.replace("int v0", "int w = 0;\n    int v0"), []), [said.format(512, "names in a block", 511)])
        self.assertEqual(c_limits.beyond(most.replace("(A)", "((A))"), []), [said.format(64, "nested parentheses", 63)])
        self.assertEqual(c_limits.beyond(most.replace("xx\n", "xxx\n"), []), [said.format(4096, "characters in a line", 4095)])

    def test_comments(self):
        rows = {"a */ b": "a * / b", "/*/": "/ * /", "*/*": "* / *", "what???": "what? ? ?", "a\\": "a_", "\xe9\n": "__"}
        self.assertEqual({it: comments.commented(it) for it in rows}, rows)


@needs_sigc
class Made(unittest.TestCase):
    """A literal step is made of an image and of a file of names."""

    def chosen(self, name):
        with open(f"{EXAMPLES}/{name}.sig", encoding="latin-1") as it:
            text = it.read()
        image = images.image_of(built(text))
        return image, literal_names.Chosen(image, sources.Source(text, image), "P").given(["a step", "of two lines"])

    def test_names_are_read_back(self):
        for name in ("down", "watch", "light", "bucket"):
            _, given = self.chosen(name)
            text = names_file.text_of(given)
            self.assertEqual(names_file.read(text), given)
            lines = text.splitlines()
            for wrong in (lines[1:], [lines[0], *lines], [*lines, lines[0]], [*lines, "signals A"], lines[::-1]):
                with self.assertRaises(names_file.Unreadable):
                    names_file.read("\n".join(wrong))

    def test_names_that_a_writer_may_take(self):
        """Identifiers of at most 63 letters, none twice and none that C11 or the text has; comments that end where they end."""
        for text, image, _ in [*special(), *drawn(10), (NAMED_SO, built(NAMED_SO), [])]:
            read = images.image_of(image)
            given = literal_names.Chosen(read, sources.Source(text, read), "P").given(["head"])
            self.assertEqual([it for it in [*given.signal, *given.comes, *given.next, *given.field] if KEPT.fullmatch(it)], [])
            self.assertTrue(all(it.startswith("r_P_") for it in given.input) and all(it.startswith("w_P_") for it in given.output))
            step = [*given.signal, *given.comes, *given.next, *given.input, *given.output]
            for names in (step, given.field):
                self.assertEqual(len(set(names)), len(names))
                self.assertEqual([it for it in names if not re.fullmatch(r"[A-Za-z][A-Za-z0-9_]{0,62}", it) or it in RESERVED], [])
            self.assertEqual([it for it in given.comment if re.search(r"[^ -~]|\*/|/\*|\\|\?\?", it)], [])
            self.assertEqual(len(given.comment), sum(it.guard != 0 for it in read.operations))
            self.assertEqual(len(set(given.unread)), len(given.unread))
            self.assertLessEqual(set(given.unread), {*given.signal, "state", "context"})

    def test_other_names(self):
        """Names stand where those of the program stood, and nothing else changes."""
        image, given = self.chosen("watch")
        other = given._replace(signal=[f"v{at}" for at in range(len(given.signal))])
        texts = [literal_text.literal_text(image, it) for it in (given, other)]
        for mine, its in zip(given.signal, other.signal):
            texts[0] = re.sub(rf"(?<![>\w\"]){mine}(?=[ ;,)])(?![^/]*\*/)", its, texts[0])
        unread = [given.signal.index(it) for it in given.unread]
        for at in unread:
            texts[1] = texts[1].replace(f"(void){given.signal[at]};", f"(void)v{at};")
        self.assertEqual(*texts)

    def test_places_of_a_paced_program(self):
        """The places are those of the program that the user has, also where the image is one of a text with paces."""
        rows = []
        with tempfile.TemporaryDirectory() as room:
            program = written(room, "p.sig", "process P = (? integer A; integer B ! integer Y; integer Z)\n(| Y := A + 1 | Z := B / A2 | A2 := B - 1 |) where integer A2; end;\n")
            for words in ([], ["--literal"]):
                self.assertEqual(ran("sigc-c", program, "-o", f"{room}/c", "--pace", *words).returncode, 0)
                with open(f"{room}/c/P.c", encoding="ascii") as it:
                    rows.append(re.findall(r"\{P_([A-Z_]+), (\d+), (\d+), \"(\w*)\"\}", it.read()))
        self.assertEqual(*rows)
        self.assertIn(("DIVISION_BY_ZERO", "2", "24", "Z"), rows[0])
        self.assertIn(("EXHAUSTED", "1", "35", "B"), rows[0])

    def test_too_long(self):
        """A guard of 40 conditions that doubles at each is refused before it is written."""
        kinds = [images.Signal("boolean", f"C{at}") for at in range(41)]
        nodes = [images.Node(40, 0, 1), images.Node(40, 1, 0)]
        for condition in range(39, -1, -1):
            at = len(nodes)
            nodes += [images.Node(condition, at, at + 1), images.Node(condition, at + 1, at)]
        reads = [images.Operation("Read", 1, 1, 1, (at,)) for at in range(40)]
        image = images.Image(40, 1, kinds, list(range(41)), [], nodes, [*reads, images.Operation("Const", len(nodes) + 1, 1, 1, (40, 1))])
        names = [f"C{at}" for at in range(41)]
        given = names_file.Given("P", "P.h", names[:40], names[40:], names, ["comes"], [], [], [], ["head"], ["comment"] * 41)
        with self.assertRaises(literal_guards.TooLong):
            literal_text.literal_text(image, given)


@needs_sigc
class Read(unittest.TestCase):
    """Literal steps, read by the grammar of small C and run without a compiler, do what sigc does."""

    def test_runs(self):
        for text, image, all_flows in [*special(), *drawn(8), *drawn(12, 5000, Edge)]:
            unit = compiled.unit_of(image, text, "P", is_literal=True)
            step = small_c.Step(unit.unit(), "P")
            for flows in all_flows:
                with self.subTest(text, flows=flows):
                    self.assertEqual(ran_by(step, unit, flows), wanted(text, flows, 40))

    def test_what_it_refuses(self):
        step = "int P_init(P_state *state)\n{\n    (void)state;\n}\n\nint P_step(P_state *state, P_context *context)\n{\n    int A = 0;\n    int64_t B = 1;\n    %s\n    return 0;\n}\n"
        for line in ("A = A && A || A;", "A = B < B < B;", "A = B;", "A = C;", "B = 2147483648;", "int A = 0;", "B = state->B;", "if (divide(B, 0, &B)) { return 1; }", "A = (A;", "A = A ^ A;"):
            with self.subTest(line), self.assertRaises((small_c.Undefined, KeyError)):
                found = small_c.Step(step % line.replace("A = B;", "B = 2; A = B;"), "P")
                found.begin()
                found.instant({})
        found = small_c.Step(step % "A = (A && A) || (B < B);", "P")
        found.begin()
        self.assertEqual(found.instant({}), 0)


def ran_by(step, unit, text):
    """What a run of a step writes and says, as sigc writes it."""
    flows = flow_values.read_flows(text, [it.name for it in unit.inputs()])
    numbers = {"true": 1, "false": 0}
    flows = {name: [numbers[it] if it in numbers else int(it) for it in values] for name, values in flows.items()}
    kinds, lines = {it.name: it.kind for it in unit.outputs()}, []
    step.begin()
    for instant in range(40):
        before, answer = dict(step.state), step.instant(flows)
        if answer:
            assert before == step.state and not step.given
            return "".join(lines) + end_of(unit.step.ends[answer - 1], instant)
        for name, *value in step.given:
            lines.append(f"{name} {value[0] if kinds[name] == 'integer' else ('false', 'true')[value[0] if value else 1]}\n")
    return "".join(lines) + "end: limit after 40 instants\n"


def end_of(end, instants):
    """The line that says how a run ended."""
    what, line, column, name = end
    if what == "EXHAUSTED":
        return f"end: input {name} exhausted after {instants} instants\n"
    return f"end: {what.lower().replace('_', ' ')} at {line}:{column} after {instants} instants\n"


def changed(found, old, new):
    """A table of texts in which one is another."""
    return {name: tuple(it.replace(old, new) for it in row) for name, row in found.items()}


def turned(joined):
    """Guards whose branches are exchanged."""
    return lambda self, guard, inner: re.sub(r"\A(\S+) \? (.*) : ([^:]*)\Z", r"\1 ? \3 : \2", joined(self, guard, inner)) if " ? " in joined(self, guard, inner) else joined(self, guard, inner).replace("!", "", 1)


def at_once(does):
    """Memories that are set as soon as a value for them is there."""
    def found(self, it):
        stores = [one for one in self.operations if one.kind == "Store" and it.kind != "Store" and one.fields[1] == it.fields[0]]
        return [*does(self, it), *(f"state->{self.given.field[one.fields[0]]} = {self.given.signal[one.fields[1]]};" for one in stores)]
    return found


def early(does):
    """Outputs that are given before the step is sure."""
    def found(self, it):
        lines = does(self, it)
        if it.kind != "Store" and it.fields[0] in self.comes:
            signal = it.fields[0]
            value = "" if self.image.signals[signal].kind == "event" else f", {self.given.signal[signal]}"
            return [*lines[:-1], f"{self.given.output[signal - self.image.inputs]}(context{value});"]
        return lines
    return found


# Faults planted in the literal writer: what stands there, and what stands there then.
FAULTS = {
    "a test of an overflow is turned around": (literal_helpers, "OVERFLOW", lambda found: changed(found, "(a > (INT64_MAX - b))", "(a < (INT64_MAX - b))")),
    "a test of a difference is one off": (literal_helpers, "OVERFLOW", lambda found: changed(found, "(INT64_MIN + b)", "((INT64_MIN + 1) + b)")),
    "a test of a product is left out": (literal_helpers, "OVERFLOW", lambda found: changed(found, "(b < (INT64_MAX / a))", "(0 > 1)")),
    "a quotient without its test for -1": (literal_helpers, "OVERFLOW", lambda found: changed(found, "(b == -1)", "(b == -2)")),
    "a remainder without its test for -1": (literal_helpers, "MODULO", lambda found: found.replace("b == -1", "b == -2")),
    "a memory is set at once": (literal_text.Literal, "does", at_once),
    "an output is given before the step is sure": (literal_text.Literal, "does", early),
    "the branches of a guard are exchanged": (literal_guards.Guards, "joined", turned),
    "a parenthesis is left out": (literal_guards.Guards, "inner", lambda found: lambda self, guard: found(self, guard).strip("()")),
    "an end has the number of another": (literal_text.Literal, "end", lambda found: lambda self, what, it: max(1, found(self, what, it) - 1)),
    "an end has another place": (literal_text.Literal, "end", lambda found: lambda self, what, it: found(self, what, it._replace(line=it.line + 1))),
    "a name is used twice": (literal_names.Names, "fresh", lambda found: lambda self, wanted: re.sub(r"_*\Z", "", found(self, wanted))),
    "a memory begins with another value": (literal_text.Literal, "init", lambda found: lambda self: re.sub("= .*;", "= 1;", found(self))),
    "a negation is lost": (literal_text.Literal, "function", lambda found: lambda self, it, name, function, operands: found(self, it, name, "Id" if function == "Not" else function, operands)),
    "a comparison takes equals": (literal_text, "MARKS", lambda found: {**found, "Lt": "<="}),
    "a comparison with itself is another": (literal_text, "OF_ITSELF", lambda found: {**found, "Le": 0}),
    "outputs come in another order": (literal_text.Literal, "ending", lambda found: lambda self: "".join(sorted(found(self).splitlines(True), reverse=True))),
}


@needs_sigc
@needs_gcc
class Faults(unittest.TestCase):
    """Compiled by tcc where it is there, which is ten times as fast."""

    how = {"is_literal": True, "compiler": ("tcc",) if shutil.which("tcc") else ("gcc", "-O0"), "flags": ["-w"]}

    def test_each_is_found(self):
        rows = Compared([*special(), *drawn(3)])
        with tempfile.TemporaryDirectory() as room:
            self.assertEqual(rows.differences(room, **self.how), [])
        for name, (where, what, planted) in FAULTS.items():
            with self.subTest(name), tempfile.TemporaryDirectory() as room:
                with mock.patch.object(where, what, planted(getattr(where, what))):
                    self.assertNotEqual(rows.differences(room, **self.how), [])

    def test_what_is_not_read(self):
        """Compilers warn of what is not read and not said to be so."""
        text = "process P = (? integer A ! integer Y) (| Y := A | X := A < 3 |) where boolean X; end;"
        rows = Compared([(text, built(text), ["A 1"])])
        for names, is_clean in ((literal_names.Chosen.unread, True), (lambda self: [], False)):
            with tempfile.TemporaryDirectory() as room, mock.patch.object(literal_names.Chosen, "unread", names):
                self.assertEqual(rows.differences(room, is_literal=True) == [], is_clean)


if __name__ == "__main__":
    unittest.main()
