"""First mends of programs with one thing removed run as the programs that these were, or say what they chose."""
import unittest

import broken_programs
from calling import SIGC, needs_sigc

from sigc.call import compiler
from sigc.hints import gathered
from sigc.read import editing, syntax


@needs_sigc
class Mended(unittest.TestCase):
    @classmethod
    def setUpClass(cls):
        cls.sigc = compiler.Sigc(SIGC)

    def outcomes(self, count, sorts):
        found = []
        for it in broken_programs.broken_programs(self.sigc, count, sorts):
            result = broken_programs.result_of(self.sigc, it)
            self.assertNotEqual(result.outcome, "silent", f"{it.text}\n{result.words}\n{result.text}")
            found.append(result.outcome)
        self.assertEqual(len(found), count)
        return found

    def test_a_word_a_first_value_or_a_declaration(self):
        """Of 60 such programs all have first mends that run as the program did: tools/tests/broken_programs.py."""
        self.assertGreaterEqual(self.outcomes(16, broken_programs.SORTS).count("equal"), 13)

    def test_a_word_with_what_stands_behind_it(self):
        """What is gone no mend can know, but none hides what it put there."""
        self.outcomes(10, broken_programs.WHOLE)


class MissingOperators(unittest.TestCase):
    def mends(self, right, line=2):
        """What the hints of a missing operator make of a right side."""
        text = f"process P = (? integer A; boolean B, C; event E ! integer Y)\n(| Y := {right}\n |);\n"
        reader = syntax.read(text)
        fault = reader.faults[0].found
        found = [it for it in gathered.hints_of(text, reader, (fault.line, fault.col, "syntax")) if it.edits]
        return [editing.applied(text, it.edits).split("\n")[1].removeprefix("(| Y := ") for it in found if "is missing before" in " ".join(it.lines)]

    def test_by_what_stands_beside_it(self):
        for right, wanted in (
            ("(0 when B) (A + 1)", "(0 when B) default (A + 1)"), ("(0 when B) A", "(0 when B) default A"), ("(0 B) default A", "(0 when B) default A"), ("0 ^E", "0 when ^E"),
            ("(A + 1) B", "(A + 1) when B"), ("(A (A > 3)) default 1", "(A when (A > 3)) default 1"), ("3 A = 2 and B", "3 when A = 2 and B"), ("(A when B) (A when C)", "(A when B) default (A when C)"),
        ):
            self.assertEqual(self.mends(right), [wanted], right)

    def test_where_nothing_tells_it(self):
        self.assertEqual(self.mends("(B (C and B)) default B"), [])


if __name__ == "__main__":
    unittest.main()
