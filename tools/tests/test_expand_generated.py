"""Programs drawn over all constructs of docs/signal.md: sigc takes their kernels, and runs give what plain Python computes."""
import os
import tempfile
import unittest

from calling import needs_sigc, sigc, written
from signal_programs import Program, flow_file

from sigc.expand import expanded

COUNT = int(os.environ.get("SIGC_DRAWN", "40"))
FIRST = int(os.environ.get("SIGC_SEED", "1"))
INSTANTS = 12


def run_of(program, flows, room):
    """What sigc says of a program's kernel, or its run as the user reads it."""
    path = written(room, "p.sig", program.text())
    found = expanded(path)
    kernel = written(room, "k.sig", found.kernel)
    said = sigc("run", kernel, written(room, "k.flows", found.flows_to_kernel(flow_file(flows))))
    return found, said.stderr.splitlines()[-1], found.outputs_to_user(said.stdout).splitlines()


@needs_sigc
class Generated(unittest.TestCase):
    def test_runs_are_what_the_constructs_mean(self):
        with tempfile.TemporaryDirectory() as room:
            for seed in range(FIRST, FIRST + COUNT):
                program = Program(seed, 2)
                flows = program.flows(INSTANTS)
                with self.subTest(seed=seed, text=program.text()):
                    found, end, lines = run_of(program, flows, room)
                    if found.count > 512:
                        self.assertIn("more than 512 signals", end)
                        continue
                    self.assertRegex(end, "^end: input . exhausted after 12 instants$")
                    self.assertEqual(lines, program.wanted(flows))


if __name__ == "__main__":
    unittest.main()
