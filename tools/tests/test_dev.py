"""sigc-dev, and the table of costs that it reads."""
import contextlib
import io
import os
import unittest

from calling import TOP, module_of, ran

dev = module_of("sigc-dev")
BELOW = {"a": [], "b": ["a"], "c": ["a"], "d": ["b", "c"]}
FIGURES = {"a": [1, 0, 2], "b": [10, 0, 0], "c": [20, 5, 0], "d": [100, 0, 0]}


class Dev(unittest.TestCase):
    def test_what_stands_above(self):
        found = dev.above("sig_print", dev.listed())
        self.assertLess(found.index("sig_compile_command"), found.index("sig_tool"))
        self.assertIn("sig_passes", found)
        self.assertNotIn("sig_parse", found)
        self.assertEqual(dev.above("sigc", dev.listed()), [])

    def test_what_it_costs(self):
        self.assertEqual(dev.costs(list("abcd"), BELOW, FIGURES), (138, 126, ["a", "c", "d"]))
        self.assertEqual(dev.costs(list("bd"), BELOW, FIGURES), (110, 110, ["b", "d"]))

    def test_a_page_has_the_figures_of_a_run(self):
        of = {"proof": 1200.4, "tests": 0.2, "seed": 3.0, "edits": 4.0, "peak": 2_600_000}
        page = dev.gate_costs.BEGIN + dev.gate_costs.table({"sig_a": of, "sig_b": {**of, "proof": 0.0}}) + dev.gate_costs.END
        self.assertEqual(dev.gate_costs.figures_of(page), {"sig_a": [1200, 0, 7], "sig_b": [0, 0, 7]})
        bare = dev.gate_costs.BEGIN + "|Crate|proof|tests|edits|GB|\n|---|---|---|---|---|\n|sig_c|298||||\n" + dev.gate_costs.END
        self.assertEqual(dev.gate_costs.figures_of(bare), {"sig_c": [298, 0, 0]})

    def test_where_rows_stand(self):
        self.assertEqual(list(dev.rows("sig_print")), [("print.txt", 22)])
        self.assertEqual([name for name, _ in dev.rows("sig_judge")], ["flow.txt", "judge.txt"])
        self.assertIn("sig_tests_tool", dev.callers_of("sig_tool", dev.listed()))

    def test_every_crate_is_told(self):
        for crate in dev.listed():
            with self.subTest(crate):
                with contextlib.redirect_stdout(io.StringIO()) as said:
                    dev.tell(crate)
                for word in ("above it", "costs", "a change", "edits", "next, from the top of the repository:", "rt ci ", ".ci/run"):
                    self.assertIn(word, said.getvalue())
                for name in os.listdir(f"{TOP}/wrong-bodies/{crate}") if os.path.isdir(f"{TOP}/wrong-bodies/{crate}") else []:
                    self.assertIn(name.removesuffix(".edit"), said.getvalue())

    def test_who_reads_a_text_is_asked_over_a_program(self):
        self.assertIn("tests/docs.py crates/sigc/out/unproved", ran("sigc-dev", "sig_hier").stdout)
        self.assertNotIn("unproved", ran("sigc-dev", "sig_rows_text").stdout)

    def test_a_crate_that_is_none(self):
        done = ran("sigc-dev", "sig_prin")
        self.assertEqual((done.returncode, done.stderr), (2, "sigc-dev: there is no crate sig_prin: did you mean sig_print?\n"))
        self.assertEqual(ran("sigc-dev", "print").stdout, ran("sigc-dev", "sig_print").stdout)


if __name__ == "__main__":
    unittest.main()
