"""The programs of the tutorial: each that the page shows is a file of examples/tutorial, the wrong ones as NAME-1.sig, .."""
import os
import re
import unittest

from calling import TOP, TUTORIAL, needs_sigc, ran, sigc

from sigc.read import files_read

FENCE = re.compile(r"^```(?:signal|text) (\S+)\n(.*?)^```$", flags=re.M | re.S)
NAMES = sorted(it for it in os.listdir(TUTORIAL) if it.endswith(".sig"))
# What the page makes of others, by its commands.
MADE = ["boiler.sig", "clusters.sig"]
# Of these it shows the lines by which they differ from the one before.
IN_PART = ["alarm.sig", "count-2.sig", "heat-1.sig", "heater-2.sig", "power.sig"]
WRONG = [it for it in NAMES if re.search(r"-\d+\.sig$", it)]


def fences():
    """The fences of the tutorial that have a name, in order."""
    return FENCE.findall(files_read.read_text(f"{TOP}/docs/tutorial.md"))


class Tutorial(unittest.TestCase):
    def test_every_fence_is_a_file(self):
        for name, text in fences():
            with self.subTest(name):
                self.assertEqual(files_read.read_text(f"{TUTORIAL}/{name}"), text)

    def test_every_program_is_shown_once(self):
        shown = [name for name, _ in fences() if name.endswith(".sig")]
        self.assertEqual(sorted([*shown, *MADE, *IN_PART]), NAMES)
        for name in IN_PART:
            self.assertIn(f" {name}", files_read.read_text(f"{TOP}/docs/tutorial.md"))

    def test_the_boiler_is_its_controller_and_its_table(self):
        behind = ran("sigc-automaton", f"{TUTORIAL}/modes.table").stdout
        self.assertEqual(files_read.read_text(f"{TUTORIAL}/boiler.sig"), files_read.read_text(f"{TUTORIAL}/boiler-1.sig") + behind)

    @needs_sigc
    def test_wrong_programs_are_refused_and_the_others_have_flows(self):
        for name in NAMES:
            with self.subTest(name):
                self.assertEqual(sigc("check", f"{TUTORIAL}/{name}").returncode, 1 if name in WRONG else 0)
                self.assertEqual(os.path.isfile(f"{TUTORIAL}/{name.removesuffix('.sig')}.flows"), name not in WRONG)

    @needs_sigc
    def test_every_trace_is_accepted(self):
        for name in sorted(it for it in os.listdir(TUTORIAL) if it.endswith(".trace") and it != "wrong.trace"):
            with self.subTest(name):
                program = f"{TUTORIAL}/{name.removesuffix('.trace')}.sig"
                self.assertEqual(sigc("judge", program, f"{TUTORIAL}/{name}").stdout, "accepted\n")


if __name__ == "__main__":
    unittest.main()
