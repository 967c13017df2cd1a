"""Programs whose guards are too large: the booleans that are told, and the folds that sigc accepts and that run the same."""
import os
import random
import subprocess
import sys
import tempfile
import unittest
from unittest import mock

from calling import SIGC, TOOLS, needs_sigc, sigc, written

from sigc.call import compiler
from sigc.read import syntax
from sigc.why import folding, large_guards

# sigc with a bound of 500 nodes of an image: so that no test needs the 14 seconds that 8,000,000 take.
BOUNDED = """#!/bin/sh
image=$(mktemp)
{sigc} build "$2" > "$image" 2> /dev/null
set -- $(od -An -tu1 -j30 -N2 "$image" 2> /dev/null) "$@"
rm -f "$image"
if [ "$#" -eq 4 ] && [ $(($1 * 256 + $2)) -gt 500 ]; then
    echo 'error: 8000000 diagram nodes' >&2
    exit 8
fi
[ "$#" -eq 4 ] && shift 2
exec {sigc} "$@"
"""
CALLS = [f"CALL{it}" for it in range(9)]
PAIRS = [f"(CALL{it} and FLOOR = {it})" for it in range(9)]


def program(equations, locals_, outputs="event OPENS"):
    lines = "\n | ".join([f"{' ^= '.join(CALLS)} ^= FLOOR", *equations])
    return f"process DOOR = (? boolean {', '.join(CALLS)}; integer FLOOR ! {outputs})\n(| {lines}\n |)\nwhere {locals_}; end;\n"


DOOR = program([f"WANTED := {' or '.join(PAIRS)}", "OPENS := when WANTED"], "boolean WANTED")
CONDITION = program([f"OPENS := when ({' or '.join(PAIRS)})", "SMALL := CALL0 and CALL1"], "boolean SMALL")
CHAIN = program([f"WANTED := {' default '.join(f'(true when {it})' for it in PAIRS)} default (false when ^FLOOR)", "OPENS := when WANTED"], "boolean WANTED")
BOTH = program([f"FEW := not ({' or '.join(PAIRS)})", "ODD := CALL0 xor (not FEW)", "OPENS := when ODD"], "boolean FEW, ODD")
CALLED = DOOR.replace("process DOOR", "process TOP").replace("WANTED :=", "WANTED := WANTS(CALL0, CALL1, CALL2, CALL3, CALL4, CALL5, CALL6, CALL7, CALL8, FLOOR)\n | UNUSED :=").replace(
    "boolean WANTED; end", f"boolean WANTED, UNUSED;\n  process WANTS = (? boolean {', '.join(CALLS)}; integer FLOOR ! boolean ANY)\n  (| ANY := {' or '.join(PAIRS)} |);\nend")
SMALL = program(["WANTED := CALL0 or CALL1", "OPENS := when WANTED"], "boolean WANTED")


WIDE = """constant integer N = 9;
process DOOR = (? [N] boolean CALL; integer FLOOR ! event OPENS)
(| CALL ^= FLOOR
 | array I to N - 1 of
     ANY[I] := ANY[?] or (CALL[I] and FLOOR = I)
   with ANY := false when ^FLOOR end
 | OPENS := when ANY[N - 1]
 |)
where [N] boolean ANY; end;
"""


def flows(draws, instants):
    lines = [f"{it} {' '.join(draws.choice(('true', 'false', 'false')) for _ in range(instants))}" for it in CALLS]
    return "\n".join([*lines, f"FLOOR {' '.join(str(draws.randrange(10)) for _ in range(instants))}", ""])


@needs_sigc
class LargeGuards(unittest.TestCase):
    def setUp(self):
        room = tempfile.TemporaryDirectory()
        self.addCleanup(room.cleanup)
        self.room = room.name
        self.path = written(self.room, "sigc", BOUNDED.format(sigc=SIGC))
        os.chmod(self.path, 0o755)
        self.sigc = compiler.Sigc(self.path)

    def found(self, text):
        return large_guards.large_in(self.sigc, syntax.read(text))

    def test_the_bound_of_these_tests(self):
        self.assertEqual(self.sigc.check(DOOR).text, "8000000 diagram nodes")
        self.assertIsNone(self.sigc.check(SMALL))
        self.assertEqual(self.sigc.check("process P = (? bool B ! ) (| |);\n").text, "syntax")

    def test_what_is_told(self):
        for text, name, place, conditions in [(DOOR, "WANTED", (3, 4), 18), (CONDITION, "", (3, 19), 18), (CALLED, "ANY", (9, 6), 18)]:
            with self.subTest(text):
                (it,) = self.found(text)
                self.assertEqual((it.site.name, (it.site.line, it.site.col), it.conditions), (name, place, conditions))
                self.assertLess(it.nodes, 500)
                self.assertIn(name or "the condition (CALL0 and FLOOR = 0)"[:20], large_guards.told_of_large(it, text))
        self.assertEqual(self.found(SMALL), [])
        self.assertLessEqual({it.site.line for it in self.found(CHAIN)}, {3})

    def test_folds(self):
        """Each fold is accepted under the bound, and writes what the program does without one."""
        for number, text in enumerate((DOOR, CONDITION, CHAIN, BOTH, CALLED)):
            with self.subTest(text):
                (mend,) = folding.folds_of(self.sigc, syntax.read(text), self.found(text))
                self.assertIsNone(self.sigc.check(mend.text))
                given = written(self.room, "p.flows", flows(random.Random(number), 200))
                said = [sigc("run", written(self.room, "p.sig", it), given) for it in (text, mend.text)]
                self.assertIn("OPENS true\n", said[0].stdout)
                self.assertEqual(said[0].stdout, said[1].stdout)

    def test_a_truth_that_cannot_be_folded(self):
        """The product of so many sums might leave 64 bits."""
        sums = " and ".join(f"({' or '.join(CALLS)})" for _ in range(21))
        text = program([f"WANTED := {sums}", "OPENS := when WANTED"], "boolean WANTED")
        sites = large_guards.defined(syntax.read(text)).values()
        self.assertEqual(folding.folded(text, sites), text)

    def said(self, script, *words):
        with mock.patch.dict(os.environ, {"SIGC": self.path}):
            return subprocess.run([sys.executable, f"{TOOLS}/{script}", *words], capture_output=True, text=True)

    def test_sigc_why(self):
        path = written(self.room, "door.sig", DOOR)
        done = self.said("sigc-why", path)
        lines = done.stdout.splitlines()
        self.assertEqual((done.returncode, lines[0]), (1, f"{path}:1:1: error: 8000000 diagram nodes"))
        self.assertIn("door.sig:3:4: note: WANTED depends on 18 conditions; without it the guards have ", done.stdout)
        self.assertIn("mend, accepted by check: WANTED as one condition: a comparison of an integer\n", done.stdout)
        self.assertEqual(lines[-1], "      see docs/idioms.md#12-many-booleans-that-decide-one-thing")

    def test_a_program_that_is_no_kernel(self):
        """What is told is led home; the loop over floors has one place for all of them."""
        path = written(self.room, "wide.sig", WIDE)
        done = self.said("sigc-why", path)
        self.assertTrue(done.stdout.startswith(f"{path}:1:1: error: 8000000 diagram nodes\n"), done.stdout)
        self.assertIn(f"{path}:5:6: note: ANY[8] depends on 18 conditions", done.stdout)
        self.assertIn(f"{path}:5:6: note: ANY[8] depends on 18 conditions", self.said("sigc-caret", "check", path).stderr)
        self.assertIn("see docs/idioms.md#12-many-booleans-that-decide-one-thing", done.stdout)

    def test_sigc_caret(self):
        path = written(self.room, "door.sig", DOOR)
        done = self.said("sigc-caret", "check", path)
        self.assertEqual(done.returncode, 8)
        self.assertIn("door.sig:1:1: error: 8000000 diagram nodes\n", done.stderr)
        self.assertIn("mend, accepted by check: WANTED as one condition", done.stderr)
        self.assertIn("door.sig:3:4: note: WANTED depends on 18 conditions", done.stderr)


if __name__ == "__main__":
    unittest.main()
