"""sigc-system over drawn systems: by sigc, in drawn orders of instants, in C with short links, and as one program that calls all."""
import os
import random
import shutil
import subprocess
import tempfile
import unittest
from unittest import mock

from calling import needs_sigc, sigc, written
from drawn_systems import Order, System

from sigc.call import running
from sigc.commands import system
from sigc.system import system_ends, system_flows, system_runs, written_in_c

SEEDS = [int(it) for it in os.environ.get("SEEDS", "0-14").split("-")]
IN_C = 5
LIMIT = 200


class Drawn(unittest.TestCase):
    def setUp(self):
        room = tempfile.TemporaryDirectory()
        self.addCleanup(room.cleanup)
        self.room = room.name

    def opened(self, files, drawn):
        """The system, None where its programs wait for each other from the beginning."""
        for it in drawn.programs:
            written(self.room, f"{it.name}.sig", it.text())
        try:
            return system.Opened(files, written(self.room, "s.sys", drawn.text()))
        except running.Refused as refusal:
            self.assertRegex(refusal.line, "none can begin|refuses", drawn.text())
            return None

    def check(self, seed):
        """Whether a drawn system was accepted; it then does the same in every way."""
        drawn = System(seed)
        with running.Files() as files:
            opened = self.opened(files, drawn)
            if opened is None:
                return False
            flows = system_flows.read_flows(opened.network, written(self.room, "s.flows", drawn.flow_text()))
            run = system_runs.Run(files, opened.network, flows, LIMIT)
            lines = list(system_flows.output_lines(opened.network, run.flow))
            ends = [it.end for it in run.given]
            self.check_order(opened.network, flows, run, random.Random(seed))
            if not drawn.has_circle:
                self.check_composed(drawn, lines, ends)
            if seed % IN_C == 0 and shutil.which("gcc"):
                self.check_c(opened, files, flows, lines, ends)
        return True

    def check_order(self, network, flows, run, draws):
        order = Order(network, flows, draws, LIMIT)
        self.assertEqual(order.instants, [it.end.instants for it in run.given])
        for given, of_node, node in zip(run.given, order.given, network.nodes):
            for signal, values in of_node.items():
                is_truth = node.program.image.signals[signal].kind != "integer"
                self.assertEqual([it.decode() for it in given.flows[signal]], [("false", "true")[it] if is_truth else str(it) for it in values])

    def check_composed(self, drawn, lines, ends):
        """Each flow of one program that calls them all begins that of the system; without a fault and with all flows in step they are the same."""
        done = sigc("run", written(self.room, "all.sig", drawn.composed()), written(self.room, "all.flows", drawn.flow_text()), "--workers", "0")
        if done.returncode not in (0, 3):
            return
        flows = {name: [] for _, name, _ in drawn.outputs}
        for line in done.stdout.splitlines():
            flows[line.split()[0]].append(line.split()[1])
        for line in lines:
            name, *values = line.split()
            self.assertEqual(values[: len(flows[name])], flows[name])

    def check_c(self, opened, files, flows, lines, ends):
        wanted = [*system_ends.end_lines(opened.network, ends), *system_ends.waiting_lines(opened.network, ends)]
        with mock.patch.dict(os.environ, {"CFLAGS": "-O0"}):
            run = written_in_c.Run(opened.network, opened.path, files.folder, flows, LIMIT)
        self.assertEqual((list(system_flows.output_lines(opened.network, run.flow)), run.said.splitlines(), run.status), (lines, wanted, system_ends.status_of(opened.network, ends)))
        for capacity in ("1", "3"):
            done = subprocess.run([f"{files.folder}/c/run", f"{files.folder}/c/flows", "--instants", str(LIMIT), "--capacity", capacity, "--threads", "2"], capture_output=True, text=True, timeout=60)
            found = {line.split()[0]: [] for line in lines}
            for line in done.stdout.splitlines():
                found[line.split()[0]].append(line.split()[1])
            for line in lines:
                name, *values = line.split()
                self.assertEqual(values[: len(found[name])], found[name])
                self.assertTrue("no room" in done.stderr or values == found[name], done.stderr)

    @needs_sigc
    def test_drawn_systems(self):
        accepted = 0
        for seed in range(SEEDS[0], SEEDS[-1] + 1):
            with self.subTest(seed=seed):
                accepted += self.check(seed)
        self.assertGreater(accepted, (SEEDS[-1] - SEEDS[0]) // 2)


if __name__ == "__main__":
    unittest.main()
