"""The scripts of tools/, without the program: a stand-in for sigc prints what a test wants."""
import os
import re
import subprocess
import sys
import tempfile
import unittest
from importlib import import_module

sys.dont_write_bytecode = True
HERE = os.path.dirname(os.path.realpath(__file__))
TOOLS = os.path.dirname(HERE)
TOP = os.path.dirname(TOOLS)
EXAMPLES = f"{TOP}/examples"
SCRIPTS = ("sigc-caret", "sigc-equations", "sigc-header")
sys.path.insert(0, f"{TOOLS}/lib")
from sigc.read import files_read, flat_bodies, lexer


def module_of(script):
    """The module that has what a script does."""
    return import_module(f"sigc.commands.{script.removeprefix('sigc-')}")


def ran(script, *words, given="", env=None):
    how = {"input": given, "capture_output": True, "text": True, "env": {**os.environ, **(env or {})}}
    return subprocess.run([sys.executable, f"{TOOLS}/{script}", *words], **how)


class EveryScript(unittest.TestCase):
    def test_help(self):
        for script in SCRIPTS:
            with self.subTest(script):
                done = ran(script, "--help")
                self.assertEqual(done.returncode, 0)
                self.assertIn("sigc", done.stdout)

    def test_a_line_in_the_readme(self):
        with open(f"{TOOLS}/README.md", encoding="utf-8") as it:
            text = it.read()
        for script in SCRIPTS:
            self.assertIn(f"`{script}`", text)


class Programs(unittest.TestCase):
    def test_places_count_bytes(self):
        tokens = lexer.tokens_of("% a\nb % X :=\n Y$")
        self.assertEqual([(it.text, it.line, it.col) for it in tokens], [("X", 2, 5), (":=", 2, 7), ("Y", 3, 2), ("$", 3, 3), ("", 3, 4)])

    def test_the_longest_mark(self):
        self.assertEqual([it.text for it in lexer.tokens_of("(||)^^=/=")][:-1], ["(|", "|)", "^", "^=", "/="])

    def test_what_is_no_token(self):
        for text in ("#", "% open", ": A", '"a\n"'):
            with self.assertRaises(lexer.Unreadable):
                list(lexer.tokens_of(text))

    def test_every_example_is_read(self):
        for name in sorted(os.listdir(EXAMPLES)):
            if name.endswith(".sig"):
                with self.subTest(name):
                    self.assertTrue(flat_bodies.FlatBody(files_read.read_text(f"{EXAMPLES}/{name}")).equations)

    def test_the_headers_of_the_traces(self):
        for name in sorted(os.listdir(EXAMPLES)):
            program = f"{EXAMPLES}/{name.removesuffix('.trace')}.sig"
            if name.endswith(".trace") and os.path.isfile(program):
                with self.subTest(name):
                    header = files_read.read_text(f"{EXAMPLES}/{name}").split("\n")[0].split()
                    signals = flat_bodies.FlatBody(files_read.read_text(program)).signals
                    self.assertEqual(sorted(header), sorted(it.name for it in signals))

    def test_a_call_inside_a_called_process(self):
        flat = flat_bodies.FlatBody(
            "process P = (? integer A ! integer Y, Z) (| A ^= A ^= A | (Y, Z) := Q{3}(A + 1, A) |);"
            "process Q = {integer K} (? integer U, V ! integer S, T) (| S := W(U) | T := U + K |);"
            "process W = (? integer X ! integer M) M := X * 2;"
        )
        self.assertEqual([it.name for it in flat.signals], "A Y Z Q#1.U Q#1.V Q#1.S Q#1.T W#2.X W#2.M".split())
        self.assertEqual(
            [it.text for it in flat.equations],
            ["A ^= A ^= A", "Q#1.U := A + 1", "Q#1.V := A", "W#2.X := Q#1.U", "W#2.M := W#2.X * 2", "Q#1.S := W#2.M", "Q#1.T := Q#1.U + 3", "Y := Q#1.S", "Z := Q#1.T"],
        )

    def test_what_is_no_program(self):
        for text in ("", "process", "process P = (? ! ) Y := A", "process P = (? ! integer Y) Y := Q(1);", "process P = (? ! integer Y) Y := P();"):
            with self.assertRaises(lexer.Unreadable):
                flat_bodies.FlatBody(text)


class Equations(unittest.TestCase):
    def test_the_equation_of_a_number(self):
        done = ran("sigc-equations", f"{EXAMPLES}/down.sig", "3")
        self.assertEqual((done.stdout, done.returncode), ("3 5:4 A ^= when (ZY <= 0)\n", 0))

    def test_a_file_that_is_not_there(self):
        self.assertEqual(ran("sigc-equations", "nothing").returncode, 5)


class Header(unittest.TestCase):
    def test_header_and_silent_instants(self):
        done = ran("sigc-header", f"{EXAMPLES}/down.sig", "--silent", "1")
        self.assertEqual(done.stdout, "A Y ZY\n. . .\n")

    def test_kinds(self):
        self.assertIn("RISE event\n", ran("sigc-header", "--kinds", f"{EXAMPLES}/edge.sig").stdout)


class Caret(unittest.TestCase):
    caret = module_of("sigc-caret")

    def shown(self, program, err, status, *words):
        """What sigc-caret shows where sigc says this line of a program."""
        with tempfile.TemporaryDirectory() as room:
            with open(f"{room}/p.sig", "w", encoding="latin-1") as it:
                it.write(program)
            with open(f"{room}/sigc", "w", encoding="utf-8") as it:
                it.write(f"#!{sys.executable}\nimport sys\nprint('out')\nsys.stderr.write({err.replace('P:', f'{room}/p.sig:')!r})\nsys.exit({status})\n")
            os.chmod(f"{room}/sigc", 0o755)
            done = ran("sigc-caret", *(words or ("check",)), f"{room}/p.sig", env={"SIGC": f"{room}/sigc"})
            self.assertEqual((done.stdout, done.returncode), ("out\n", status))
            return done.stderr.replace(room + "/", "")

    def test_a_place(self):
        shown = self.shown("process P =\n\tY := Q;\n", "error 2:7: unknown name Q\n", 1)
        self.assertEqual(shown, "p.sig:2:7: error: unknown name Q\n    2 | \tY := Q;\n      | \t     ^\n      nothing defines Q: write its value where it stands, or let the process take it as an input or a parameter\n      see docs/errors.md#unknown-name-x\n")

    def test_a_program_without_a_place(self):
        self.assertIn("p.sig:1:1: error: no reaction is possible\n", self.shown("A", "error: no reaction is possible\n", 1))

    def test_a_place_in_a_file(self):
        shown = self.shown("A 1x\n", "error: P:1:3: bad value\n", 4, "run", "other")
        self.assertIn("p.sig:1:3: error: bad value\n    1 | A 1x\n      |   ^\n", shown)

    def test_the_end_of_a_run(self):
        self.assertIn("p.sig:1:2: note: overflow after 3 instants\n", self.shown("ABC", "end: overflow at 1:2 after 3 instants\n", 3, "run"))
        self.assertEqual("end: limit after 3 instants\n", self.shown("ABC", "end: limit after 3 instants\n", 0, "run"))

    def test_a_broken_equation(self):
        shown = self.caret.Shown("", [f"{EXAMPLES}/down.sig", f"{EXAMPLES}/early.trace"], "judge", []).broken("instant 2 breaks equation 3")
        self.assertIn("equation 3 is A ^= when (ZY <= 0)\n", shown)
        self.assertIn("early.trace:3:1: note: instant 2 is 5 5 1\n", shown)

    def test_words_that_are_no_command(self):
        shown = self.shown("A", "error: these words are not a command\n", 2, "help")
        self.assertIn("error: these words are not a command\n      there is no command help\n", shown)
        self.assertIn("      see docs/errors.md#these-words-are-not-a-command\n", shown)

    def test_plain_words(self):
        self.assertEqual(self.caret.plain_words("run P --instants 3 --workers=2 F -- --pace".split()), ["P", "F", "--pace"])
        self.assertEqual(self.caret.plain_words("check --pace P".split()), ["P"])

    def test_every_entry_is_a_heading(self):
        with open(f"{TOP}/docs/errors.md", encoding="utf-8") as it:
            headings = {anchor(line.lstrip("#").strip()) for line in it if line.startswith("#")}
        texts = """program longer than 1048576 bytes;unexpected byte;comment not closed;number too large;syntax;nesting deeper than 64;
        more than 512 operators;unknown name Q;Q is declared twice;input Q is defined;Q is defined twice;Q is not defined;types clash;
        bare constant;bad call of Q;recursive call of Q;bad pragma;delay without init;more than 512 signals;more than 4096 links;
        no reaction is possible;no root: A and B are independent;clock of A is not determined;condition #2:3 is forced;cycle through X;
        8000000 diagram nodes;these words are not a command;links times capacity above 16777216;not found;read failed;
        longer than 67108864 bytes;bad line;not an input;bad value;out of range;more than 4000000 values;bad event;
        more than 1000000 events;write failed;out of memory;bad header;bad width;more than 4000000 cells;
        instant 2 breaks equation 3;name pace_1 is taken by a pace;bad image at byte 3;operation 0 is not sound;
        image longer than 67108864 bytes;overflow after 2 instants;division by zero after 2 instants"""
        for text in texts.split(";"):
            with self.subTest(text.strip()):
                self.assertIn(self.caret.entry_of(text.strip()), headings)
        for name in ("syntax_hints", "name_hints", "clock_hints"):
            with open(f"{TOOLS}/lib/sigc/hints/{name}.py", encoding="utf-8") as it:
                entries = re.findall(r'\], "([a-z0-9-]+)"', it.read())
            self.assertTrue(entries)
            self.assertEqual([it for it in entries if it not in headings], [])


def anchor(heading):
    """The name under which a heading of a Markdown page is found."""
    return re.sub(r"[^\w\- ]", "", heading.lower()).replace(" ", "-")


if __name__ == "__main__":
    unittest.main()
