"""Names of 300 and of 20,000 letters, of processes, signals and files: every script takes them."""
import os
import subprocess
import tempfile
import unittest

from calling import SIGC, needs_sigc, ran, sigc, written

LENGTHS = (300, 20_000)
# The name that is long here is NAME; {} stands for it.
PROGRAMS = {
    "of the process": "process {} = (? integer A ! integer Y)\n(| Y := A + (Y $ init 0) |);\n",
    "of a called process": "process P = (? integer A ! integer Y)\n(| Y := {}(A) |)\nwhere process {} = (? integer A ! integer Y)\n  (| Y := A + (Y $ init 0) |);\nend;\n",
    "of an input": "process P = (? integer {} ! integer Y)\n(| Y := {} + (Y $ init 0) |);\n",
}
# How each script is called on a program, and on its flows.
WAYS = [
    ("clocks2dot", "--tree", "PROGRAM"), ("sigc", "check", "PROGRAM"), ("sigc-c", "PROGRAM", "-o", "OUT"), ("sigc-caret", "run", "--lint", "PROGRAM", "FLOWS"),
    ("sigc-clocks", "PROGRAM"), ("sigc-equations", "PROGRAM"), ("sigc-format", "PROGRAM"), ("sigc-header", "PROGRAM"), ("sigc-image", "IMAGE"),
    ("sigc-run", "PROGRAM", "FLOWS"), ("sigc-table", "rows", "PROGRAM", "FLOWS"), ("sigc-trace", "PROGRAM", "FLOWS"), ("sigc-view", "PROGRAM", "FLOWS"),
    ("sigc-why", "PROGRAM"), ("trace2vcd", "PROGRAM", "FLOWS"),
]


@needs_sigc
class LongNames(unittest.TestCase):
    def setUp(self):
        room = tempfile.TemporaryDirectory()
        self.addCleanup(room.cleanup)
        self.room = room.name

    def files(self, text, stem="p"):
        """A program with flows and its image, by the words of WAYS."""
        found = {"PROGRAM": written(self.room, f"{stem}.sig", text), "OUT": f"{self.room}/c"}
        name = text.partition("integer ")[2].split()[0]
        found["FLOWS"] = written(self.room, f"{stem}.flows", f"{name} 1 2 3\n")
        found["IMAGE"] = f"{self.room}/image"
        with open(found["IMAGE"], "wb") as it:
            subprocess.run([SIGC, "build", found["PROGRAM"]], stdout=it, check=True)
        return found

    def called(self, files, message):
        for script, *words in WAYS:
            with self.subTest(message, script=script):
                done = ran(script, *(files.get(it, it) for it in words))
                self.assertEqual((done.returncode, "Traceback" in done.stderr), (0, False), done.stderr[-300:])

    def test_names_of_programs(self):
        for sort, text in PROGRAMS.items():
            for length in LENGTHS:
                self.called(self.files(text.replace("{}", "N" + "x" * (length - 1))), f"{length} letters {sort}")

    def test_a_refused_program(self):
        for length in LENGTHS:
            name = "N" + "x" * (length - 1)
            path = written(self.room, "p.sig", PROGRAMS["of a called process"].replace("{}", name).replace("Y := A +", "Y := A + (A when (A > 0)) +"))
            for script, *words in (("sigc-caret", "check", path), ("sigc-why", path)):
                done = ran(script, *words)
                self.assertEqual((done.returncode, "Traceback" in done.stderr), (1, False), done.stderr[-300:])

    def test_the_files_of_c(self):
        """They have names that a file system takes, and two long names do not share one; the program runs as sigc runs it."""
        for sort, text in PROGRAMS.items():
            files = self.files(text.replace("{}", "N" + "x" * 299))
            self.assertEqual(ran("sigc-c", files["PROGRAM"], "-o", f"{self.room}/c").returncode, 0)
            sources = [f"{self.room}/c/{it}" for it in sorted(os.listdir(f"{self.room}/c")) if it.endswith(".c")]
            done = subprocess.run(["gcc", "-std=c11", "-Wall", "-Werror", "-o", f"{self.room}/run", *sources], capture_output=True, text=True)
            self.assertEqual(done.stderr, "", sort)
            said = subprocess.run([f"{self.room}/run", files["FLOWS"]], capture_output=True, text=True)
            wanted = sigc("run", files["PROGRAM"], files["FLOWS"], "--workers", "0")
            self.assertEqual((said.stdout, said.stderr), (wanted.stdout, wanted.stderr))
            for it in os.listdir(f"{self.room}/c"):
                os.unlink(f"{self.room}/c/{it}")
        for letter in "xy":
            ran("sigc-c", self.files(PROGRAMS["of the process"].replace("{}", "N" * 400 + letter))["PROGRAM"], "-o", f"{self.room}/two")
        self.assertEqual(len(os.listdir(f"{self.room}/two")), 5)

    def test_a_file_of_a_long_name(self):
        self.called(self.files(PROGRAMS["of an input"].replace("{}", "A"), "f" * 245), "a file of 251 letters")


if __name__ == "__main__":
    unittest.main()
