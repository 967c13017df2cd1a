"""sigc-step: instants one at a time are those of the whole run, and what is typed at a terminal and written in scripts."""
import os
import pty
import re
import select
import subprocess
import sys
import tempfile
import time
import unittest
from concurrent.futures import ThreadPoolExecutor

from calling import EXAMPLES, SIGC, TOOLS, TUTORIAL, needs_sigc, pairs, ran, sigc, written
from programs import Program
import wider

from sigc.call import running
from sigc.step import dialogues, sessions
from sigc.step.observed_runs import ObservedRuns
from sigc.trace import traces

DRAWN = 16
SUM = """process SUM = (? integer A ! integer Y)
(| Y := TOTAL(A) |)
where
  process TOTAL = (? integer X ! integer S)
  (| S := X + (S $ init 0)
   |);
end;
"""
OVERFLOW = """end: overflow at 5:13 after 1 instants
    5 |   (| S := X + (S $ init 0)
      |             ^
  in the copy TOTAL#1
  `back`, or other values, continue the run
"""
PUMP = f"{EXAMPLES}/pump.sig"


class Missing(Exception):
    """An input is asked for that has no more values."""


def session_of(files, program, words=()):
    return sessions.Session(ObservedRuns(files, program, "--pace" in words))


def unasked(name):
    raise Missing(name)


def walked(session, asked):
    """The instants of a session, one step after another, up to its end."""
    found = []
    try:
        while len(found) < 200:
            session.step({}, asked)
            found.append(session.instant)
    except (Missing, sessions.Ended):
        return found
    raise AssertionError("this has no end")


def fault_of(program, flows):
    """What is wrong with the steps over flows, or nothing; Refused where sigc refuses the program."""
    words = ["--pace"] if "pace_1 " in running.text_of(flows) else []
    with running.Files() as files:
        whole = list(traces.Run(files, program, flows, words))
        session = session_of(files, program, words)
        session.load(session.runs.flows_of(flows))
        for what, asked in (("waiting", unasked), ("answered", answers_of(session))):
            if what == "answered":
                session = session_of(files, program, words)
                session.always.clear()
            if walked(session, asked) != whole:
                return f"{what}: {len(whole)} instants in the whole run"
        session.back(len(whole) // 2)
        if session.instant != (whole[session.count - 1] if session.count else {}):
            return f"back at instant {session.count} is another instant"
        again = list(session.going(len(whole) - session.count, session.proposed))
        if again != whole[len(whole) - len(again) :]:
            return "going on from there is another run"
        saved = traces.Run(files, program, files.written("saved.flows", session.flows()), [*words, "--instants", str(max(1, len(whole)))])
        return "" if list(saved) == whole else "what is saved has another run"


def answers_of(session):
    """An answerer that gives the values that wait in a session, as a user does who has them on paper."""
    left = {it: [*session.given[it], *session.waiting[it]] for it in session.kinds}

    def asked(name):
        if not left[name]:
            raise Missing(name)
        return left[name].pop(0)

    return asked


@needs_sigc
class StepsOfRuns(unittest.TestCase):
    def test_every_example(self):
        for program, flows in pairs(EXAMPLES) + pairs(TUTORIAL):
            with self.subTest(program):
                self.assertEqual(fault_of(program, flows), "")

    def test_programs_that_are_drawn(self):
        with tempfile.TemporaryDirectory() as room, ThreadPoolExecutor(2) as pool:
            self.assertEqual(list(filter(None, pool.map(lambda seed: self.drawn(room, seed), range(DRAWN)))), [])

    def drawn(self, room, seed):
        """What is wrong with the steps of the program of a seed, or of the next one that is accepted."""
        while True:
            made = Program(seed)
            program, flows = written(room, f"{seed}.sig", made.text()), written(room, f"{seed}.flows", made.flows())
            try:
                fault = fault_of(program, flows)
                return f"{seed}: {fault}" if fault else ""
            except running.Refused as refusal:
                self.assertIn(refusal.status, (1, 2))
                seed += DRAWN

    def test_inputs_that_are_due(self):
        """Of pump.sig A is due where FRONT is true, and B elsewhere; FRONT always, and known before."""
        with running.Files() as files:
            session = session_of(files, PUMP)
            self.assertEqual(session.runs.clocks(), {"FRONT": "at every instant", "A": "when FRONT", "B": "when not FRONT"})
            self.assertEqual(session.due(), ["FRONT"])
            session.put("FRONT", ["false"])
            self.assertEqual(session.due(), ["FRONT", "B"])
            session.put("B", ["7"])
            self.assertEqual(session.due(), ["FRONT", "B"])
            asked = []
            session.step({"FRONT": ["true"]}, lambda name: asked.append(name) or "5")
            self.assertEqual((asked, session.instant["A"], session.flows()), (["A"], "5", "FRONT true\nA 5\nB\n"))

    def test_a_memory_that_tells_what_is_due(self):
        """down.sig takes A only where it has counted down."""
        with running.Files() as files:
            session = session_of(files, f"{EXAMPLES}/down.sig")
            session.step({}, lambda name: "2")
            self.assertEqual((session.instant, session.due()), ({"A": "2", "Y": "2", "ZY": "0"}, []))
            for _ in range(2):
                session.step({}, unasked)
            self.assertEqual((session.instant, session.due()), ({"Y": "0", "ZY": "1"}, ["A"]))

    def test_many_instants_at_once(self):
        with running.Files() as files:
            session = session_of(files, f"{EXAMPLES}/tutorial/count.sig")
            self.assertEqual([it["N"] for it in session.going(30_000, unasked)], [str(it) for it in range(1, 30_001)])
            session.back(29_000)
            self.assertEqual((session.count, session.instant["N"]), (1000, "1000"))
            session.step({}, unasked)
            self.assertEqual(session.instant["N"], "1001")


class Scripts(unittest.TestCase):
    def setUp(self):
        room = tempfile.TemporaryDirectory()
        self.addCleanup(room.cleanup)
        self.room = room.name

    def said(self, lines, *words):
        """What a script of these lines writes on both streams, and its status."""
        done = ran("sigc-step", *words, given="".join(f"{it}\n" for it in lines))
        self.assertNotIn("Traceback", done.stderr)
        return done.stdout, done.stderr, done.returncode


@needs_sigc
class Lines(Scripts):
    def setUp(self):
        super().setUp()
        self.sum = written(self.room, "sum.sig", SUM)

    def test_a_script(self):
        lines = ["% one instant with answers, one in a line", "", "true", "40", "FRONT=false B=85", "watch LEVEL", "step FRONT=false B=9", "show", "show A B", "back 2", "q"]
        wanted = """instant 1
  FRONT true   A 40   PUMPING false   LEVEL 40   WAS false
  absent: B
instant 2
  FRONT false   B 85   PUMPING true   LEVEL 85   WAS false
  absent: A
instant 2
  LEVEL 85
instant 3
  LEVEL 9
instant 3
  FRONT false   B 9   PUMPING false   LEVEL 9   WAS true
  absent: A
instant 3
  B 9
  absent: A
instant 1
  LEVEL 40
ended after 1 instants
"""
        self.assertEqual(self.said(lines, PUMP), (wanted, "", 0))

    def test_going_on_to_an_expression(self):
        for expression, number, value in [("LEVEL > 80", 2, "85"), ("LEVEL > 85", 4, "90"), ("WAS and (LEVEL $ init 0) = 90", 5, "15"), ("^A ^* (when (A < 20))", 5, "15")]:
            with self.subTest(expression):
                out, _, status = self.said([f"until {expression}", "show LEVEL"], PUMP, "--flows", f"{EXAMPLES}/pump.flows")
                self.assertEqual((out.split("instant ")[-1].split("\nended")[0], status), (f"{number}\n  LEVEL {value}", 0))

    def test_an_expression_with_the_past(self):
        """A delay in it counts from the first instant, also where the run has gone on already."""
        out, _, _ = self.said(["3", "4", "5", "until (A $ init 0) = 5", "6", "7"], self.sum)
        lines = ["", "3", "", "4", "", "5", "until (A $ init 0) = 5", "6", "table"]
        out, err, status = self.said(lines, self.sum)
        self.assertIn("instant 4\n  A 6 ", out)
        self.assertEqual((err, status, out.count("instant 4\n")), ("", 0, 1))

    def test_an_expression_that_does_not_come(self):
        out, err, status = self.said(["until LEVEL > 1000"], PUMP, "--flows", f"{EXAMPLES}/pump.flows")
        self.assertIn("instant 6\n", out)
        self.assertEqual((err, status), ("sigc-step: line 1: FRONT is due at instant 7, and there is no value for it\n", 1))

    def test_values_that_are_refused(self):
        for word, why in [("tru", "FRONT is a boolean: true or false is wanted, and not tru"), ("1", "true or false is wanted, and not 1")]:
            out, err, status = self.said(["", word, "true", "40"], PUMP)
            self.assertIn(why, err)
            self.assertIn("line 2:", err)
            self.assertEqual((status, out.splitlines()[1]), (1, "  FRONT true   A 40   PUMPING false   LEVEL 40   WAS false"))
        self.assertIn("A is an integer: a number from -9223372036854775808 to 9223372036854775807 is wanted, and not 9223372036854775808", self.said(["A=9223372036854775808"], self.sum)[1])

    def test_lines_that_do_nothing(self):
        cases = [("stop", "there is no command stop: did you mean `step`?"), ("frob", "`help` lists them"), ("back", "no instant so far"), ("back x", "a number is wanted, and not x"),
                 ("show LEVLE", "did you mean LEVEL?"), ("until", "as `until N >= 3`"), ("until LEVEL", "`LEVEL` is an integer"), ("until X > 3", "X is no signal"), ("set X 3", "X is no input; the inputs are FRONT, A, B"),
                 ("set A x", "A is an integer"), ("save", "a file is wanted"), (f"save {self.room}/no/x", "No such file"), ("load /nothing", "error: /nothing: not found"), ("step x", "`step 5`"), ("FRONT=true B=3", "A is due at instant 1, and there is no value for it"),
                 ("help frob", "there is no command frob"), ("always A 3 4", "`always A 3` is wanted")]
        for line, why in cases:
            with self.subTest(line):
                out, err, status = self.said([line], PUMP)
                self.assertIn(why, err)
                self.assertTrue(status)
                self.assertEqual(out, "ended after 0 instants\n")

    def test_a_value_that_is_not_due(self):
        out, err, status = self.said(["FRONT=true A=1 B=2", "FRONT=true A=1"], PUMP)
        self.assertEqual((err, status), ("sigc-step: line 1: not due at instant 1, which was not run: B comes when not FRONT\n", 1))
        self.assertIn("ended after 1 instants", out)

    def test_the_end_of_a_run(self):
        most = 2**63 - 1
        out, err, status = self.said([f"A={most}", "A=1", "A=-1"], self.sum)
        self.assertIn(OVERFLOW, out)
        self.assertIn(f"instant 2\n  A -1   Y {most - 1} ", out)
        self.assertEqual((err, status), ("", 3))
        out, _, _ = self.said([f"A={most}", "A=1", "back", "A=2", "A=1"], self.sum)
        self.assertIn("instant 2\n  A 1   Y 3 ", out)

    def test_values_that_are_proposed_again(self):
        """What was typed is proposed behind `back`, until another value is given; what waited waits again."""
        out, err, status = self.said(["A=1", "A=2", "A=3", "back 3", "", "", "", "", "", "", "back 2", "", "7", "", "", "table"], self.sum)
        self.assertEqual((err, status), ("", 0))
        self.assertEqual([line.split()[1] for line in out.splitlines()[-4:-1]], ["1", "7", "7"])
        out, _, _ = self.said(["set A 5 6", "step 2", "back 2", "inputs", "A=9", "step", "table"], self.sum)
        self.assertIn("A, integer, at every instant (due now; 2 queued: 5 6)", out)
        self.assertEqual([line.split()[1] for line in out.splitlines()[-3:-1]], ["9", "5"])

    def test_a_value_for_always(self):
        out, _, status = self.said(["always A 5", "until Y >= 20", "always A", "inputs", "", ""], self.sum)
        self.assertIn("instant 4\n  A 5   Y 20 ", out)
        self.assertIn("  A, integer, at every instant (due now)\n", out)
        self.assertEqual(status, 0)

    def test_what_is_saved_is_run(self):
        path = f"{self.room}/saved.flows"
        self.said(["step 3", f"save {path}"], PUMP, "--flows", f"{EXAMPLES}/pump.flows")
        with open(path, encoding="utf-8") as it:
            self.assertEqual(it.read(), "FRONT true false false\nA 40\nB 85 60\n")
        self.assertEqual(sigc("run", PUMP, path).stdout, sigc("run", PUMP, f"{EXAMPLES}/pump.flows", "--instants", "3").stdout)
        self.assertIn("instant 3\n", self.said([f"load {path}", "step 3"], PUMP)[0])

    def test_flows_that_are_refused(self):
        path = written(self.room, "wrong.flows", "FRONT true\nA x\n")
        self.assertEqual(self.said([], PUMP, "--flows", path), ("", f"error: {path}:2:3: bad value\n", 4))

    def test_paces(self):
        out, _, status = self.said(["pace_1=true pace_2=false", "table"], f"{EXAMPLES}/buttons.sig", "--pace")
        self.assertIn("instant 1\n  RED true   pace_1 true   pace_2 false   REDS 1\n  absent: GREEN GREENS\n", out)
        self.assertEqual(status, 0)

    def test_states_have_their_names(self):
        out, _, _ = self.said(["until ALARM"], f"{TUTORIAL}/boiler.sig", "--flows", f"{TUTORIAL}/boiler.flows")
        self.assertIn("instant 9\n", out)
        self.assertIn("STATE HEAT", out)

    def test_every_command_is_told(self):
        out = self.said(["help"], PUMP)[0]
        said = ran("sigc-step", "--help").stdout
        for name, (words, does) in dialogues.COMMANDS.items():
            self.assertIn(f"  {name} {words}".rstrip(), out)
            self.assertIn(does, said)
            self.assertTrue(hasattr(dialogues.Dialogue, name))


@needs_sigc
class WiderPrograms(Scripts):
    """Arrays, enumerations and modules: what is shown and typed is the user's."""

    def setUp(self):
        super().setUp()
        self.row = wider.written_in(self.room)

    def test_arrays_and_enumerations(self):
        lines = ["PRESS=true A=[1, 2, 3]", "show L[1]", "PRESS=false A[0]=4", "5", "6", "set A [7,8,9]", "watch L TOTAL", "always PRESS false", "until L[2] = #lit", f"save {self.room}/s.flows"]
        wanted = f"""instant 1
  PRESS true   A [1,2,3]   L [#lit,#off,#off]   TOTAL 3   GO [false,false,false]
  SUMS#1.ZS 0
instant 1
  L[1] #off
instant 2
  PRESS false   A [4,5,6]   L [#off,#lit,#off]   TOTAL 9   GO [true,false,false]
  SUMS#1.ZS 3
instant 2
  L [#off,#lit,#off]   TOTAL 9
instant 3
  L [#off,#off,#lit]   TOTAL 18
  3 instants in {self.room}/s.flows
ended after 3 instants
"""
        out, err, status = self.said(lines, self.row)
        self.assertEqual((out.split(), err, status), (wanted.split(), "", 0))
        with open(f"{self.room}/s.flows", encoding="utf-8") as it:
            self.assertEqual(it.read(), "PRESS true false false\nA[0] 1 4 7\nA[1] 2 5 8\nA[2] 3 6 9\n")
        out, err, status = self.said(["step 3", "table 1"], self.row, "--flows", f"{self.room}/s.flows")
        self.assertIn("  PRESS A[0] A[1] A[2] L[0] L[1] L[2] TOTAL GO[0] GO[1] GO[2] SUMS#1.ZS\n3 false 7    8    9    #off #off #lit 18    false true  false 9\n", out)
        self.assertEqual((err, status), ("", 0))

    def test_an_element_beside_a_queue(self):
        """A queue of arrays has whole arrays: where an element is given by itself, the one that waits for it is passed over."""
        lines = ["always PRESS false", "watch A", "set A [3,4,5] [6,7,8]", "A[0]=9", "step", "back 2", "step", "step", "back 2", "A=[1,1,1]", "step 2"]
        out, err, status = self.said(lines, self.row)
        self.assertEqual(re.findall(r"A (\[.*\])", out), ["[9,4,5]", "[6,7,8]", "[3,4,5]", "[6,7,8]", "[1,1,1]", "[3,4,5]", "[6,7,8]"])
        self.assertEqual((err, status), ("", 0))

    def test_what_is_refused(self):
        for line, why in [("A=[1,2]", "A has 3 elements, and here are 2 values"), ("A[3]=1", "A[3] is no input"), ("A[1]=x", "A[1] is an integer"), ("until L[0] = #dim", "#dim is no value of an enumeration"), ("show B", "B is no signal")]:
            with self.subTest(line):
                self.assertIn(why, self.said([line], self.row)[1])

    def test_the_place_of_an_overflow(self):
        out, _, status = self.said(["step 2"], self.row, "--flows", f"{self.room}/over.flows")
        self.assertIn(f"end: overflow at {self.room}/ADDS.sig:3:15 in SUMS#1 (called at {self.row}:11:13) after 1 instants\n    3 |     (| S := X + ZS\n      |               ^\n", out)
        self.assertEqual(status, 3)

    def test_flows_that_are_refused(self):
        path = written(self.room, "wrong.flows", "PRESS true\nA [1,2]\n")
        _, err, status = self.said([], self.row, "--flows", path)
        self.assertIn(f"{path}:2:3: error: bad value\n", err)
        self.assertEqual(status, 4)


class Typist:
    """sigc-step in a pseudo-terminal, and what is typed there."""

    def __init__(self, *words):
        self.ran, self.end = pty.fork()
        if not self.ran:
            os.execve(sys.executable, [sys.executable, f"{TOOLS}/sigc-step", *words], {**os.environ, "SIGC": SIGC, "TERM": "dumb", "COLUMNS": "80", "INPUTRC": "/dev/null"})

    def until(self, wanted):
        """What is shown up to a text, at most a while; the rest is left for the next call."""
        said, begun = "", time.monotonic()
        while not said.endswith(wanted):
            if time.monotonic() - begun > 30:
                raise AssertionError(f"{wanted!r} does not come: {said!r}")
            if select.select([self.end], [], [], 0.1)[0]:
                try:
                    said += os.read(self.end, 1).decode("latin-1")
                except OSError:
                    return said
        return said.replace("\r\n", "\n")

    def type(self, text):
        os.write(self.end, text.encode())

    def ended(self):
        """The status, once it has ended."""
        said = self.until("\0")
        os.close(self.end)
        return os.waitstatus_to_exitcode(os.waitpid(self.ran, 0)[1]), said


@needs_sigc
class AtATerminal(unittest.TestCase):
    def test_a_dialogue(self):
        typist = Typist(PUMP)
        self.assertIn("PUMP: 3 inputs, 6 signals.", typist.until("instant 1> "))
        for typed, prompt in [("", "FRONT, boolean, at every instant: "), ("yes", "true or false is wanted, and not yes\n"), ("", ""), ("true", "A, integer, when FRONT: "), ("40", "absent: B\n"), ("", "instant 2> ")]:
            if typed or prompt.startswith("FRONT"):
                typist.type(f"{typed}\n")
            self.assertIn(prompt, typist.until(prompt.replace("\n", "\r\n")))
        typist.type("\n")
        typist.until("FRONT, boolean, at every instant [true]: ")
        typist.type("\n")
        typist.until("A, integer, when FRONT [40]: ")
        typist.type("back\n")
        self.assertIn("no instant so far", typist.until("instant 1> "))
        typist.type("q\n")
        self.assertEqual(typist.ended()[0], 0)

    def test_ctrl_c_leaves_a_command(self):
        typist = Typist(PUMP)
        typist.until("instant 1> ")
        typist.type("\n")
        typist.until("at every instant: ")
        time.sleep(1)  # until the prompt reads: a signal before that is seen at the next key only
        typist.type("\x03")
        typist.until("instant 1> ")
        typist.type("\x04")
        status, said = typist.ended()
        self.assertEqual(status, 0)
        self.assertIn("ended after 0 instants", said)

    def test_ctrl_c_in_the_midst_of_a_run(self):
        typist = Typist(f"{TUTORIAL}/count.sig")
        typist.until("instant 1> ")
        typist.type("until N < 0\n")
        time.sleep(1)
        typist.type("\x03")
        said = typist.until("> ")
        typist.type("show\nq\n")
        status, said = typist.ended()
        self.assertEqual(status, 0)
        self.assertNotIn("Traceback", said)

    def test_history(self):
        try:
            import readline
        except ImportError:
            self.skipTest("there is no readline")
        typist = Typist(PUMP)
        typist.until("instant 1> ")
        typist.type("FRONT=true A=41\n")
        typist.until("instant 2> ")
        typist.type("\x10\n")  # Ctrl-P, the line before.
        typist.until("instant 3> ")
        typist.type("sho\t\n")
        self.assertIn("A 41", typist.until("instant 3> "))
        typist.type("quit\n")
        self.assertEqual(typist.ended()[0], 0)


if __name__ == "__main__":
    unittest.main()
