"""What frama-c and cppcheck say of literal steps is what docs/shipping.md says that they say."""
import os
import re
import shutil
import subprocess
import tempfile
import unittest

from calling import EXAMPLES, HERE, needs_sigc, pairs, ran, written
from helping import only_with

PAGE = f"{os.path.dirname(os.path.dirname(HERE))}/docs/shipping.md"
EVA = "-eva-domains equality,octagon,symbolic-locations -eva-slevel 10 -eva-slevel-function main:0,NAME_step:0"
needs_frama_c = only_with(shutil.which("frama-c"), "frama-c is not installed: the test of literal steps with it is left out")
needs_cppcheck = only_with(shutil.which("cppcheck"), "cppcheck is not installed: the test of literal steps by the rules of MISRA is left out")
EVERY = "process P = (? integer A, B; boolean C ! integer Q, R, S, T) (| Q := A / B | R := A modulo B | S := A * B | T := (A - 7) when (C and not D) | D := C $ | A ^= B ^= C |) where boolean D init true; end;"


class Judged(unittest.TestCase):
    def setUp(self):
        room = tempfile.TemporaryDirectory()
        self.addCleanup(room.cleanup)
        self.room = room.name

    def made(self, program):
        """The folder of a program's literal step, and the prefix of its names."""
        folder = tempfile.mkdtemp(dir=self.room)
        done = ran("sigc-c", program, "-o", folder, "--literal")
        self.assertEqual((done.stdout, done.stderr, done.returncode), ("", "", 0))
        return folder, next(it[:-2] for it in os.listdir(folder) if it.endswith(".h"))

    def alarms(self, program):
        """The alarms of frama-c over all calls of a step: the function in which each is, and what it doubts."""
        folder, prefix = self.made(program)
        with open(f"{HERE}/eva.c", encoding="ascii") as it:
            main = written(folder, "eva.c", it.read().replace("NAME", prefix))
        words = ["frama-c", "-eva", *EVA.replace("NAME", prefix).split(), f"-cpp-extra-args=-I{folder}", f"{folder}/{prefix}.c", main]
        done = subprocess.run(words, cwd=folder, capture_output=True, text=True)
        self.assertEqual(done.returncode, 0, done.stdout + done.stderr)
        self.assertIn("ANALYSIS SUMMARY", done.stdout)
        with open(f"{folder}/{prefix}.c", encoding="ascii") as it:
            lines = it.read().splitlines()
        found = re.findall(r"\[eva:alarm\] \S+?:(\d+): Warning:\s+(?:signed overflow\.\s+|division by zero\.\s+)?assert ([^;]*);", done.stdout)
        self.assertEqual(len(found), done.stdout.count("[eva:alarm]"), done.stdout)
        return {(function_at(lines, int(line)), what) for line, what in found}

    @needs_sigc
    @needs_frama_c
    def test_no_alarm_in_examples(self):
        for program, _ in pairs(EXAMPLES):
            if program not in (f"{EXAMPLES}/buttons.sig", f"{EXAMPLES}/operators.sig"):
                with self.subTest(program):
                    self.assertEqual(self.alarms(program), set())
        self.assertEqual(self.alarms(f"{EXAMPLES}/../bench/controller.sig"), set())

    def test_the_page_names_the_words(self):
        self.assertIn(f"`frama-c -eva {EVA}`", part_of_page("What frama-c says"))

    @needs_sigc
    @needs_frama_c
    def test_alarms_of_helpers(self):
        """Those of a product and a quotient of any two values are on the page, and no other one comes."""
        page = alarms_of_page()
        self.assertEqual(self.alarms(written(self.room, "p.sig", EVERY)), page)

    @needs_sigc
    @needs_cppcheck
    def test_rules(self):
        """Each rule of MISRA that cppcheck names is on the page."""
        recorded = rules_of_page()
        for program in (f"{EXAMPLES}/watch.sig", written(self.room, "p.sig", EVERY)):
            folder, prefix = self.made(program)
            words = ["cppcheck", "-q", "--addon=misra", "--enable=style", "--std=c11", "--suppress=missingIncludeSystem", f"-I{folder}", f"{folder}/{prefix}.c"]
            done = subprocess.run(words, cwd=folder, capture_output=True, text=True)
            found = set(re.findall(r"\[misra-c2012-([0-9.]+)\]", done.stderr))
            self.assertEqual(found - recorded, set())
            self.assertIn("15.5", found)


def function_at(lines, number):
    """The function of a file in which a line is."""
    heads = [re.match(r"(?:static )?\w+ (\w+)\(", it) for it in lines[:number]]
    return [it[1] for it in heads if it][-1]


def part_of_page(heading):
    with open(PAGE, encoding="utf-8") as it:
        return it.read().partition(f"### {heading}\n")[2].partition("\n#")[0]


def alarms_of_page():
    """The alarms that the page lists, by function."""
    return set(re.findall(r"^\| `(\w+)` \| `assert ([^`]*)` \|", part_of_page("What frama-c says"), re.M))


def rules_of_page():
    """The rules that the page records."""
    rows = re.findall(r"^\| ([0-9., ]+) \|", part_of_page("MISRA C:2012"), re.M)
    return {it for row in rows for it in row.split(", ")}


if __name__ == "__main__":
    unittest.main()
