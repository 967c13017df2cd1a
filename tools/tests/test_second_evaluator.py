"""The expansion of docs/signal.md against a second evaluator, which runs the constructs of that page themselves, instant by instant."""
import glob
import os
import re
import tempfile
import unittest

from calling import EXAMPLES, HERE, forked, needs_sigc, written
from second.drawn_programs import drawn
from second.evaluator import run
from second.flow_files import flows_of, text_of

HAND_WRITTEN = sorted(glob.glob(f"{HERE}/second/programs/*.sig"))
WANTED = [it for it in sorted(glob.glob(f"{HERE}/expand/programs/*.sig")) if os.path.exists(f"{it[:-4]}.flows")]
FROM_FILES = ("shifts.sig",)
COUNT = int(os.environ.get("SIGC_DRAWN", "40"))
FIRST = int(os.environ.get("SIGC_SEED", "1"))
END = re.compile(r"^end: (input .* exhausted|index out of range|division by zero|overflow)\b.* after (\d+) instants$", re.M)


def read(path):
    """The text of a file."""
    with open(path, encoding="ascii") as file:
        return file.read()


def evaluated(path):
    """What the second evaluator has for a program and the flows beside it: lines, causes of the end, instants."""
    return run(read(path), flows_of(read(f"{path[:-4]}.flows")))


def ran(path):
    """What sigc writes for a program and the flows beside it: lines, the cause of the end, instants; None where the program is too large."""
    done = forked("sigc", "run", path, f"{path[:-4]}.flows")
    if "more than 512 signals" in done.stderr:
        return None
    ended = END.search(done.stderr)
    if not ended:
        raise AssertionError(done.stderr)
    return done.stdout.splitlines(), "exhausted" if ended[1].startswith("input") else ended[1], int(ended[2])


class Second(unittest.TestCase):
    def test_it_has_the_wanted_outputs(self):
        for path in WANTED + [f"{EXAMPLES}/signal/zones.sig"]:
            if os.path.basename(path) not in FROM_FILES:
                with self.subTest(program=os.path.basename(path)):
                    wanted = [it for it in read(f"{path[:-4]}.want").splitlines() if not it.startswith("end: ")]
                    self.assertEqual(evaluated(path)[0], wanted)

    def agrees(self, path):
        """Compares both runs; False where sigc does not take the size of the program."""
        had = ran(path)
        if had is None:
            return False
        (lines, causes, instants), (found, cause, count) = evaluated(path), had
        self.assertEqual((found, count), (lines, instants))
        self.assertIn(cause, causes)
        return True

    @needs_sigc
    def test_sigc_has_its_outputs(self):
        for path in HAND_WRITTEN:
            with self.subTest(program=os.path.basename(path)):
                self.assertTrue(self.agrees(path))

    @needs_sigc
    def test_drawn_programs(self):
        compared = 0
        with tempfile.TemporaryDirectory() as room:
            for seed in range(FIRST, FIRST + COUNT):
                text, flows = drawn(seed)
                with self.subTest(seed=seed, text=text):
                    written(room, "p.flows", text_of(flows))
                    compared += self.agrees(written(room, "p.sig", text))
        self.assertGreater(compared, COUNT * 3 // 4)


if __name__ == "__main__":
    unittest.main()
