"""What holds of every script: help, an entry in the README, and an end without a traceback, whatever it gets and whenever it is
interrupted."""
import os
import random
import shutil
import signal
import stat
import subprocess
import sys
import tempfile
import time
import unittest
from unittest import mock

from calling import EXAMPLES, SIGC, TOOLS, TOP, module_of, needs_sigc, ran, written

from sigc.call import compiler
from sigc.editor import documents
from sigc.prove import z3_solver
from sigc.read import files_read, flat_bodies, lexer

# The words of each script, one way for each file that it reads: FILE is that one, the others are right.
WAYS = {
    "clocks2dot": [("--tree", "FILE"), ("--code", "FILE"), ("FILE",)],
    "sigc": [("check", "FILE")],
    "sigc-automaton": [("FILE",)],
    "sigc-build": [],
    "sigc-c": [("FILE", "-o", "OUT")],
    "sigc-caret": [("check", "--lint", "--explain", "FILE"), ("run", "PROGRAM", "FILE"), ("run", "--lint", "FILE", "FLOWS"), ("judge", "PROGRAM", "FILE"), ("play", "PROGRAM", "FLOWS", "FILE")],
    "sigc-clocks": [("FILE",)],
    "sigc-dev": [],
    "sigc-equations": [("FILE",)],
    "sigc-expand": [("FILE",)],
    "sigc-format": [("FILE",), ("--check", "FILE")],
    "sigc-header": [("FILE",)],
    "sigc-image": [("FILE",)],
    "sigc-install": [],
    "sigc-lsp": [],
    "sigc-prove": [("FILE", "--never-ends")],
    "sigc-run": [("FILE", "FLOWS"), ("PROGRAM", "FILE"), ("PROGRAM", "FLOWS", "--want", "FILE")],
    "sigc-step": [("FILE",), ("PROGRAM", "--flows", "FILE")],
    "sigc-system": [("FILE",), ("SYSTEM", "FILE")],
    "sigc-table": [("check", "FILE", "TABLE"), ("check", "PROGRAM", "FILE"), ("flows", "FILE"), ("flows", "TABLE", "--program", "FILE"), ("rows", "FILE"), ("rows", "FILE", "FLOWS"), ("rows", "PROGRAM", "FILE")],
    "sigc-trace": [("FILE", "FLOWS"), ("PROGRAM", "FILE")],
    "sigc-view": [("FILE", "FLOWS"), ("PROGRAM", "FILE")],
    "sigc-why": [("FILE",)],
    "trace2vcd": [("FILE", "FLOWS"), ("PROGRAM", "FILE"), ("FILE",), ("TRACE", "--program", "FILE")],
}
# Where an empty file is one of those that are right.
EMPTY = {("PROGRAM", "FILE"), ("SYSTEM", "FILE"), ("PROGRAM", "--flows", "FILE"), ("run", "PROGRAM", "FILE"), ("rows", "PROGRAM", "FILE"), ("play", "PROGRAM", "FLOWS", "FILE")}
# Scripts that ask sigc of a program, with the words that they begin with.
ASKING = ("clocks2dot", "sigc", "sigc-c", "sigc-caret", "sigc-run", "sigc-step", "sigc-table", "sigc-trace", "sigc-view", "sigc-why", "trace2vcd")
# Scripts that run a program, with the words behind the files or before them.
RUNNING = {"sigc-trace": (), "trace2vcd": (), "sigc-run": ("--workers", "0"), "sigc-table": ("rows",)}
LONG = "process LONG = (? event T ! integer N)\n(| N := (N $ init 0) + 1 | N ^= T |);\n"
SLEEPING = "#!/bin/sh\ntouch {0}/begun\nexec sleep 20\n"
PROGRAMS = [files_read.read_text(f"{EXAMPLES}/{it}") for it in sorted(os.listdir(EXAMPLES)) if it.endswith(".sig")]
PROGRAMS += [
    'process P = (? ! integer A; event B) pragmas RunOn {A} "1" end pragmas (A, B) := Q{1, -2}(A + 1, (B))'
    "where process Q = {integer U, V} (? integer X, Y ! integer Z init 2; event W) (| Z := X $ | W := when (X < U) | (| |) |); end;"
]



def setUpModule():
    """No script comes to z3 here; where it is missing, another program stands for it."""
    if not z3_solver.path():
        os.environ["Z3"] = "/bin/true"


def waited_for(path):
    """Waits until a script has made a file, at most a while."""
    for _ in range(200):
        if os.path.exists(path):
            return True
        time.sleep(0.05)
    return False


def heard():
    signal.signal(signal.SIGINT, signal.SIG_DFL)


class Table(unittest.TestCase):
    def setUp(self):
        self.room = tempfile.mkdtemp(prefix="sigc-test-")
        self.addCleanup(shutil.rmtree, self.room)
        self.words = {"PROGRAM": f"{EXAMPLES}/sum.sig", "FLOWS": f"{EXAMPLES}/sum.flows", "TRACE": f"{EXAMPLES}/down.trace"}
        self.words["OUT"] = f"{self.room}/out"
        self.words["SYSTEM"] = f"{EXAMPLES}/system/plant.sys"
        self.words["TABLE"] = written(self.room, "right.csv", "A,B,Y\n1,2,3\n")

    def filled(self, words, file):
        return [{**self.words, "FILE": file}.get(it, it) for it in words]

    def begun(self, script, words, **how):
        """A script that was begun, in a group of its own, and with Ctrl-C as usual where the tests run in the background."""
        how = {"stderr": subprocess.PIPE, "start_new_session": True, "preexec_fn": heard, **how}
        return subprocess.Popen([sys.executable, f"{TOOLS}/{script}", *words], **how)

    def interrupted(self, script):
        """How a script ends at Ctrl-C, which its group gets as from a terminal: what it says."""
        os.killpg(script.pid, signal.SIGINT)
        try:
            _, said = script.communicate(timeout=30)
        except subprocess.TimeoutExpired:
            os.killpg(script.pid, signal.SIGKILL)
            _, said = script.communicate()
        self.assertIn(script.returncode, (130, -signal.SIGINT))
        return said

    def test_every_script_stands_here_and_in_the_readme(self):
        scripts = [it for it in sorted(os.listdir(TOOLS)) if os.path.isfile(f"{TOOLS}/{it}") and os.stat(f"{TOOLS}/{it}").st_mode & stat.S_IXUSR]
        self.assertEqual(scripts, sorted(WAYS))
        with open(f"{TOOLS}/README.md", encoding="utf-8") as it:
            readme = it.read()
        for script in scripts:
            with self.subTest(script):
                done = subprocess.run([f"{TOOLS}/{script}", "--help"], capture_output=True, text=True)
                self.assertEqual((done.returncode, done.stderr), (0, ""))
                self.assertIn("sigc", done.stdout)
                self.assertIn(f"| `{script}` |", readme)

    # What is no program, no flows, no table.

    def files(self):
        """Files that are none of what a script reads, by their names."""
        with open(f"{TOP}/docs/pictures/boiler-view.png", "rb") as it:
            picture = it.read(20000)
        found = {"/dev/null": "/dev/null", "folder": self.room, "missing": f"{self.room}/missing"}
        for name, text in (("picture", picture), ("empty", b""), ("zeros", bytes(4000)), ("brackets", b"(" * 1_000_000)):
            found[name] = f"{self.room}/{name}"
            with open(found[name], "wb") as it:
                it.write(text)
        return found

    def fault_of(self, case):
        """What is wrong with how a script ends that is given such a file, or nothing."""
        script, words, name, file = case
        done = ran(script, *self.filled(words, file))
        is_right = name in ("empty", "/dev/null") and words in EMPTY
        is_well_ended = "Traceback" not in done.stderr and (done.stderr or done.stdout) and (done.returncode == 0) == is_right and done.returncode < 126
        return "" if is_well_ended else f"{script} {words} {name}: status {done.returncode}, {done.stderr[-500:]}"

    @needs_sigc
    def test_files_that_are_none(self):
        files = self.files()
        cases = [(script, ways[0], *it) for script, ways in WAYS.items() if ways for it in files.items()]
        cases += [(script, words, it, files[it]) for script, ways in WAYS.items() for words in ways[1:] for it in ("picture", "/dev/null")]
        self.assertEqual(list(filter(None, map(self.fault_of, cases))), [])

    @needs_sigc
    def test_an_endless_file_has_an_end(self):
        begun = time.monotonic()
        cases = [(script, words, "endless", "/dev/zero") for script, ways in WAYS.items() for words in ways]
        self.assertEqual(list(filter(None, map(self.fault_of, cases))), [])
        for script in ("sigc-why", "sigc-trace", "sigc-caret"):
            self.assertIn("program longer than 1048576 bytes", ran(script, *self.filled(WAYS[script][0], "/dev/zero")).stderr)
        self.assertIn("longer than 67108864 bytes", ran("sigc-trace", self.words["PROGRAM"], "/dev/zero").stderr)
        self.assertLess(time.monotonic() - begun, 300)

    @needs_sigc
    def test_a_name_does_not_steer_a_terminal(self):
        path = written(self.room, "p\x1b[31m.sig", "process P = (? integer A ! ) B := A;\n")
        self.assertNotIn("\x1b", ran("sigc-caret", "check", path).stderr)

    def test_a_folder_that_is_none(self):
        for path in ("/dev/null/inside", f"{TOP}/README.md"):
            with mock.patch.dict(os.environ, {"SIGC": sys.executable}):
                done = ran("sigc-install", path)
            self.assertNotIn("Traceback", done.stderr)
            self.assertNotEqual(done.returncode, 0)

    @needs_sigc
    def test_a_dash_is_told_what_to_name(self):
        for script in (it for it, ways in WAYS.items() if ways and it != "sigc-format"):
            with self.subTest(script):
                self.assertIn("/dev/stdin", ran(script, *self.filled(WAYS[script][0], "-")).stderr)

    @needs_sigc
    def test_standard_input(self):
        with open(f"{EXAMPLES}/sum.flows", encoding="utf-8") as it:
            done = ran("sigc-trace", f"{EXAMPLES}/sum.sig", "/dev/stdin", given=it.read())
        self.assertEqual(done.stdout, "A B  Y\n1 10 11\n2 20 22\n")
        done = ran("sigc-caret", "check", "/dev/stdin", given="process P = (? bool B ! ) (| |);\n")
        self.assertIn("/dev/stdin:1:16: error: syntax\n    1 | process P = (? bool B ! ) (| |);\n", done.stderr)
        self.assertIn("did you mean `boolean`?", done.stderr)
        self.assertIn("/dev/stdin:1:24: error: clock of A is not determined\n", ran("sigc-why", "/dev/stdin", given="process P = (? integer A; boolean B ! integer Y) (| Y := A + (A when B) |);\n").stdout)

    def test_a_program_sigc_that_is_not_there(self):
        with mock.patch.dict(os.environ, {"SIGC": "/nothing/at/all"}):
            for script in ASKING:
                with self.subTest(script):
                    done = ran(script, *self.filled(WAYS[script][0], self.words["PROGRAM"]))
                    self.assertEqual((done.returncode, len(done.stderr.splitlines())), (70, 1))

    # A pipe that was closed.

    @needs_sigc
    def test_a_reader_that_is_gone(self):
        for script, ways in WAYS.items():
            for words in [["--help"], *([self.filled(ways[0], f"{EXAMPLES}/sum.sig" if script != "sigc-automaton" else f"{EXAMPLES}/tutorial/modes.table")] if ways else [])]:
                with self.subTest(f"{script} {words}"):
                    read, write = os.pipe()
                    os.close(read)
                    script_ran = self.begun(script, words, stdout=write, stdin=subprocess.DEVNULL)
                    os.close(write)
                    _, said = script_ran.communicate(timeout=60)
                    self.assertNotIn(b"Traceback", said)
                    self.assertNotIn(b"Exception", said)

    def test_a_reader_that_goes_after_one_line(self):
        path = written(self.room, "p.sig", "process P = (? integer A ! integer Y)\n(| Y := A" + " | A ^= A" * 40000 + " |);\n")
        done = subprocess.run(["bash", "-c", f"{sys.executable} {TOOLS}/sigc-equations {path} | head -n 1"], capture_output=True)
        self.assertEqual((done.stdout, done.stderr), (b"1 2:4 Y := A\n", b""))

    @needs_sigc
    def test_a_reader_that_goes_in_the_midst_of_a_run(self):
        for script in RUNNING:
            with self.subTest(script):
                running = self.in_a_run(script)
                running.stdout.close()
                said = running.stderr.read()
                running.stderr.close()
                self.assertEqual((running.wait(), said), (-signal.SIGPIPE, b""))

    # Ctrl-C.

    def in_a_run(self, script):
        """A script in the midst of a long run, with its output open."""
        words = [written(self.room, "long.sig", LONG), written(self.room, "long.flows", "flows 2\nT true*4000000\n")]
        before = RUNNING[script]
        words = [*before, *words] if script == "sigc-table" else [*words, *before]
        running = self.begun(script, [*words, "--instants", "4000000"], stdout=subprocess.PIPE)
        running.stdout.read(1)
        return running

    @needs_sigc
    def test_ctrl_c_in_the_midst_of_a_run(self):
        for script in RUNNING:
            with self.subTest(script):
                self.assertEqual(self.interrupted(self.in_a_run(script)), b"")

    def test_ctrl_c_where_sigc_is_at_work(self):
        path = written(self.room, "sigc", SLEEPING.format(self.room))
        os.chmod(path, 0o755)
        for script in ASKING:
            with self.subTest(script), mock.patch.dict(os.environ, {"SIGC": path}):
                running = self.begun(script, self.filled(WAYS[script][0], self.words["PROGRAM"]), stdout=subprocess.DEVNULL)
                self.assertTrue(waited_for(f"{self.room}/begun"))
                os.remove(f"{self.room}/begun")
                time.sleep(0.3)
                self.assertEqual(self.interrupted(running), b"")

    def test_ctrl_c_where_a_file_is_read(self):
        """From a pipe that nobody writes to; what has no file reads standard input."""
        for script, ways in WAYS.items():
            if script in ("sigc", "sigc-build", "sigc-caret", "sigc-dev", "sigc-install"):
                continue
            with self.subTest(script):
                pipe = f"{self.room}/{script}.pipe"
                os.mkfifo(pipe)
                running = self.begun(script, self.filled(ways[0], pipe) if ways else [], stdin=subprocess.PIPE, stdout=subprocess.DEVNULL)
                writer = self.opened(pipe) if ways else None
                time.sleep(0.2 if writer else 1)
                self.assertEqual(self.interrupted(running), b"")
                if writer:
                    os.close(writer)

    def opened(self, pipe):
        """A pipe, opened for writing as soon as a script has opened it for reading."""
        for _ in range(400):
            try:
                return os.open(pipe, os.O_WRONLY | os.O_NONBLOCK)
            except OSError:
                time.sleep(0.05)
        self.fail(f"{pipe} is not read")


class Beginnings(unittest.TestCase):
    """Each beginning of a program: the plain reader, and what is shown and told of some of them."""

    def test_the_plain_reader(self):
        for text in PROGRAMS:
            for end in range(len(text) + 1):
                try:
                    flat_bodies.FlatBody(text[:end])
                except lexer.Unreadable:
                    continue

    @needs_sigc
    def test_what_is_shown_and_told(self):
        sigc, draws, caret = compiler.Sigc(SIGC), random.Random(5), module_of("sigc-caret")
        with tempfile.TemporaryDirectory() as room:
            for text in PROGRAMS:
                for end in draws.sample(range(len(text) + 1), 4):
                    with self.subTest(text[:end]):
                        path = written(room, "p.sig", text[:end])
                        shown = caret.Shown(SIGC, [path], "check", [])
                        shown.sigc = sigc
                        said = sigc.call("check", path).err
                        self.assertIn("error: ", shown.line(said.rstrip("\n"), ["check", path]) if said else "error: ")
                        self.assertEqual(bool(said), bool(documents.Document("file:///p.sig", text[:end], sigc).refusals()))
                        shown.warned()


if __name__ == "__main__":
    unittest.main()
