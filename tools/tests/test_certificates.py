"""sigc-prove --certify: invariants that z3 found, checked by a second solver, and wrong ones refuted."""
import os
import subprocess
import sys
import tempfile
import time
import unittest

from calling import TOOLS, needs_sigc, ran, written
from claims import image_of

from sigc.prove import certificates, horn_clauses, property_language, smt_formulas, systems, z3_solver
from sigc.prove.deciding import Proof

needs_z3 = unittest.skipUnless(z3_solver.path(), "z3 is not installed")
COUNTER = "process P = (? boolean B ! integer N) (| ZN := N $ init 0 | N := (0 when B) default (ZN + 1 when ZN < 10) default ZN | N ^= B |) where integer ZN; end;\n"
CERTIFIED = "{by}: the invariant holds at first; each instant keeps it; "


@needs_sigc
@needs_z3
class Certificates(unittest.TestCase):
    def setUp(self):
        room = tempfile.TemporaryDirectory()
        self.addCleanup(room.cleanup)
        self.path = written(room.name, "p.sig", COUNTER)
        step = smt_formulas.Step(image_of(self.path), [property_language.property_of("N > 10", {"N": "integer"})])
        self.system = systems.System(step, [], {})
        self.formula = self.system.broken(systems.Claim("", step.watched[0].broken(False), "true", False))

    def checked(self, proof):
        return certificates.certified(self.system, self.formula, proof, 100)

    def test_an_invariant_of_horn_clauses(self):
        word, model = horn_clauses.by_horn(self.system, self.formula, time.monotonic() + 100)
        self.assertEqual(word, "proved")
        checked = self.checked(Proof("Horn clauses", model=model))
        self.assertTrue(checked.is_confirmed, checked.said)
        self.assertIn("no instant within it breaks the claim", checked.said)
        for body, what in (("(<= x 3)", "each instant keeps it"), ("(= x 1)", "the invariant holds at first"), ("(<= x 99)", "no instant within it breaks the claim"), ("true", "no instant within it breaks the claim")):
            checked = self.checked(Proof("Horn clauses", model=f"(\n(define-fun Reached ((x Int)) Bool {body})\n)"))
            self.assertEqual((checked.is_refuted, checked.said.endswith(f"refutes this: {what}")), (True, True), checked.said)

    def test_invariants_of_an_induction(self):
        self.assertTrue(self.checked(Proof("bounds", invariants=("(<= 0 m0 10)",), length=1)).is_confirmed)
        for invariants, what in ((("(<= 1 m0 10)",), "at first"), (("(<= 0 m0 9)",), "each instant keeps it")):
            checked = self.checked(Proof("bounds", invariants=invariants, length=1))
            self.assertTrue(checked.is_refuted)
            self.assertTrue(checked.said.endswith(what), checked.said)

    def test_what_is_said(self):
        said = ran("sigc-prove", self.path, "--never", "N > 10", "--certify")
        by = certificates.checker().name
        self.assertIn(f"proved: never N > 10\n  certified by {CERTIFIED.format(by=by)}", said.stdout)
        self.assertEqual(said.returncode, 0)
        with tempfile.TemporaryDirectory() as folder:
            for answer, told in (("sat", "unknown: never N > 10: not certified: silent refutes this: the invariant holds at first"), ("", "proved: never N > 10\n  not certified: silent has no answer in 20 s")):
                path = written(folder, "silent", f"#!/bin/sh\necho {answer}\n")
                os.chmod(path, 0o755)
                said = subprocess.run([sys.executable, f"{TOOLS}/sigc-prove", self.path, "--never", "N > 10", "--certify", "--seconds", "20"], capture_output=True, text=True, env={**os.environ, "CERTIFIER": path})
                self.assertEqual((said.returncode, told in said.stdout), (2, True), said.stdout + said.stderr)


if __name__ == "__main__":
    unittest.main()
