"""sigc-prove under attack: claims on drawn programs, and runs that try to break those that it calls proved."""
import os
import tempfile
import unittest

from calling import needs_sigc, written
from claims import Case, attacked, drawn_case, image_of, survey

from sigc.prove import z3_solver

needs_z3 = unittest.skipUnless(z3_solver.path(), "z3 is not installed")
CLAIMS = int(os.environ.get("PROVE_CLAIMS", 24))
ADDS = "process P = (? integer A ! integer N) (| N := (N $ init 0) + A |);\n"


@needs_sigc
class Attacks(unittest.TestCase):
    @needs_z3
    def test_what_is_proved_is_not_broken(self):
        counts, broken = survey(CLAIMS, 100, 4, tell=lambda *_: None)
        self.assertEqual(broken, [])
        self.assertGreater(counts["proved"], 0)

    def test_an_attack_breaks_what_is_false(self):
        """Among them what an assumption on a result that overflowed would hide."""
        with tempfile.TemporaryDirectory() as folder:
            image = image_of(written(folder, "p.sig", ADDS))
            for claim, assumed, ranges, is_false in ((("--never-ends",), ("N < 1000", "N > -1000"), {}, True), (("--never-ends",), ("N < 1000", "N > -1000"), {"A": (-9, 9)}, False),
                                                     (("--always", "N < 30"), (), {"A": (0, 9)}, True), (("--always", "N < 4"), ("A = 1",), {"A": (0, 9)}, True), (("--never", "N < 0"), ("A >= 0",), {}, False)):
                flows = attacked(Case(ADDS, image, (claim,), assumed, ranges), claim, 200, 1)
                self.assertEqual(flows is not None, is_false, (claim, assumed, ranges))
            self.assertTrue(any(drawn_case(seed, folder) for seed in range(3)))


if __name__ == "__main__":
    unittest.main()
