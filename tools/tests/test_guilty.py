"""The lines that are guilty of a refusal of clocks: the language server and sigc-caret mark them, also of a long program at once."""
import os
import tempfile
import unittest

from helping import NEEDS_SIGC, program, ran

from sigc.call import compiler
from sigc.editor import documents
from sigc.read import syntax
from sigc.why import reaction_clauses

LINES, PARTS = 400, 140
# Processor seconds for a program of 400 lines, sigc's and the script's; about half of each is taken.
SECONDS, SECONDS_OF_CARET = 2.0, 3.0
ERROR, INFORMATION = 1, 3
LIMIT = """  process LIMIT = {integer MAX} (? integer X; boolean GO ! integer Z)
  (| HIGH := X > MAX
   | CUT := MAX when HIGH
   | M := X when GO
   | Z := (CUT default X) + M
   |)
  where boolean HIGH; integer CUT, M; end;
"""


def long_program(equations, declared, inputs="", inner=""):
    """A controller of many parts, one behind the other, with further equations."""
    lines, names = [f"process LONG = (? boolean SENSE; integer A{inputs} ! integer Y)", "(| A ^= SENSE"], list(declared)
    for at in range(PARTS):
        before = f"X{at - 1}" if at else "A"
        lines += [f" | {it.format(at, before)}" for it in KINDS[at % len(KINDS)]]
        names += [f"integer X{at};"] + ([f"boolean C{at};"] if len(KINDS[at % len(KINDS)]) > 1 else [])
    lines += [f" | {it}" for it in equations]
    return "\n".join([*lines, f" | Y := X{PARTS - 1}", " |)", "where", *(f"  {it}" for it in names)]) + f"\n{inner}end;\n"


KINDS = [
    ["X{0} := {1} + {0}"],
    ["X{0} := (X{0} $ init 0) + {1}"],
    ["C{0} := {1} > {0}", "X{0} := ({1} when C{0}) default (0 when ^{1})"],
    ["X{0} := {1} - 1"],
    ["C{0} := {1} < {0} and SENSE", "X{0} := (0 when C{0}) default {1}"],
]
# A refusal, and equations of which some have to be among those that are marked.
LONG = {
    "condition SENSE is forced": (long_program(["Z := X70 when SENSE", "W := Z + X69"], ["integer Z, W;"]), ["Z := X70 when SENSE", "W := Z + X69"]),
    "condition SENSE is forced ": (long_program(["Z := LIMIT{10}(X70, SENSE)"], ["integer Z;"], "", LIMIT), ["| M := X when GO", "Z := (CUT default X) + M"]),
    "clock of SENSE is not determined": (long_program(["Z := (0 when R) default X70"], ["integer Z;"], "; event R"), ["Z := (0 when R) default X70"]),
    "cycle through Z": (long_program(["Z := X70 + V", "V := Z - 1"], ["integer Z, V;"]), ["Z := X70 + V", "V := Z - 1"]),
    "no reaction is possible": (long_program(["Z := (X70 when SENSE) + (A when not SENSE)"], ["integer Z;"]), ["(A when not SENSE)"]),
}


def spent():
    return sum(os.times()[:4])


@NEEDS_SIGC
class LongPrograms(unittest.TestCase):
    def test_the_language_server_marks_them_at_once(self):
        sigc = compiler.Sigc(program())
        for said, (text, guilty) in LONG.items():
            with self.subTest(said):
                self.assertGreaterEqual(text.count("\n"), LINES - 5)
                begun, calls = spent(), sigc.calls
                found = documents.Document("file:///long.sig", text, sigc).diagnostics()
                self.assertLess(spent() - begun, SECONDS)
                self.assertLess(sigc.calls - calls, 120)
                self.assertEqual(found[0]["message"].split("\n")[0], said.strip())
                marked = [text.split("\n")[it["range"]["start"]["line"]] for it in found if it["severity"] == INFORMATION]
                for it in guilty:
                    self.assertTrue(any(it in line for line in marked), (it, marked))

    def test_caret_shows_them_with_a_mend(self):
        text, guilty = LONG["condition SENSE is forced"]
        with tempfile.TemporaryDirectory() as room:
            with open(f"{room}/long.sig", "w", encoding="utf-8") as it:
                it.write(text)
            begun = spent()
            shown = ran("sigc-caret", "check", "long.sig", cwd=room).stderr.decode()
            self.assertLess(spent() - begun, SECONDS_OF_CARET)
        for it in guilty:
            self.assertRegex(shown, rf"note: {it.replace('+', '.')}")
        self.assertIn("mend, accepted by check: Z default 0 where it does not come", shown)


class WhatCannotBe(unittest.TestCase):
    def reactions(self, text):
        (process,) = syntax.read(text).processes
        return reaction_clauses.Reactions(process)

    def test_clauses_and_their_equations(self):
        it = self.reactions("process P = (? integer A; boolean B ! integer Y, Z)\n(| Y := A when B | A ^= B | Z := A + Y |);")
        come, true = it.comes, it.truth
        self.assertEqual(it.refuted(come["Y"], -true["B"]), {0})
        self.assertEqual(it.refuted(come["Z"], -true["B"]), {0, 2})
        self.assertEqual(it.refuted(come["B"], -come["A"]), {1})
        self.assertIsNone(it.refuted(come["B"], true["B"]))

    def test_operators(self):
        head = "process P = (? boolean A, B; event E ! boolean Y; event Z)\n"
        for equation, cannot in [
            ("Y := A and B", [("Y", 1, "A", -1), ("Y", -1, "Y", 1)]),
            ("Y := A or B", [("Y", -1, "A", 1)]),
            ("Y := A xor B | A ^= when B", [("Y", 1, "A", 1)]),
            ("Y := A = B | B ^= when B", [("Y", 1, "A", -1)]),
            ("Y := not A", [("Y", 1, "A", 1)]),
            ("Y := A default B", [("Y", -1, "A", 1)]),
            ("Y := true when A", [("Y", -1, "A", 1), ("Y", 1, "A", -1)]),
            ("Y := A when E", [("Y", 1, "A", -1)]),
        ]:
            it = self.reactions(f"{head}(| {equation} | Z := E |);")
            for one, truth, other, value in cannot:
                assumed = [it.comes[one], it.comes[other], truth * it.truth[one], value * it.truth[other]]
                self.assertIsNotNone(it.refuted(*assumed), (equation, one, other))
                self.assertIsNotNone(it.merge().refuted(*(it.comes[one], it.comes[other], truth * it.truth[one], value * it.truth[other])))
            self.assertIsNone(self.reactions(f"{head}(| {equation} | Z := E |);").refuted(it.comes["E"]))

    def test_an_event_of_booleans_is_true(self):
        for mark in ("^+", "^*", "^-"):
            it = self.reactions(f"process P = (? boolean A, B ! event Y) Y := A {mark} B;")
            self.assertIsNone(it.refuted(it.comes["Y"], it.comes["A"], -it.truth["A"]), mark)
            self.assertIsNotNone(it.refuted(it.comes["Y"], -it.truth["Y"]), mark)

    def test_a_clock_less_another_one(self):
        it = self.reactions("process P = (? event A, B ! event Y) Y := A ^- B;")
        self.assertIsNotNone(it.refuted(it.comes["Y"], it.comes["B"]))
        self.assertIsNone(it.refuted(it.comes["Y"]))


if __name__ == "__main__":
    unittest.main()
