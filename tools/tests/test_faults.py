"""tests/faults.py itself: what it takes for the answer that is due, and what not."""
import errno
import os
import subprocess
import sys
import unittest
from importlib.machinery import SourceFileLoader
from importlib.util import module_from_spec, spec_from_loader

sys.dont_write_bytecode = True
TOP = os.path.dirname(os.path.dirname(os.path.dirname(os.path.realpath(__file__))))


def faults():
    """The script as a module."""
    sys.path.insert(0, f"{TOP}/tests")
    spec = spec_from_loader("faults", SourceFileLoader("faults", f"{TOP}/tests/faults.py"))
    module = module_from_spec(spec)
    spec.loader.exec_module(module)
    return module


class Faults(unittest.TestCase):
    script = faults()

    def fits(self, out, err, status, dues):
        ran = self.script.Ran(out, err, status, [])
        return any(self.script.fits(ran, *due) for due in dues)

    def test_a_failed_read_is_said_of_the_file(self):
        dues = self.script.due_after(self.script.ROWS["run"], errno.EIO, "read /tmp/F")
        self.assertTrue(self.fits("", "error: F: read failed\n", 5, dues))
        self.assertFalse(self.fits("", "error: P: read failed\n", 5, dues))
        self.assertFalse(self.fits("Y 11\n", "error: F: read failed\n", 5, dues))

    def test_a_missing_file_is_said_to_be(self):
        dues = self.script.due_after(self.script.ROWS["run"], errno.ENOENT, "open P")
        self.assertTrue(self.fits("", "error: P: not found\n", 5, dues))
        self.assertFalse(self.fits("", "error: P: read failed\n", 5, dues))

    def test_an_interrupted_call_is_made_again(self):
        row = self.script.ROWS["run"]
        for call in ("read /tmp/F", "write 1", "close /tmp/F"):
            dues = self.script.due_after(row, errno.EINTR, call)
            self.assertTrue(self.fits(row.out, row.err, 0, dues))
            self.assertFalse(self.fits(row.out[:5], row.err, 0, dues))

    def test_a_failed_write_leaves_a_beginning(self):
        dues = self.script.due_after(self.script.ROWS["run"], errno.ENOSPC, "write 1")
        self.assertTrue(self.fits("Y 11\nY", "error: write failed\n", 6, dues))
        self.assertFalse(self.fits("Y 22\n", "error: write failed\n", 6, dues))
        self.assertFalse(self.fits("Y 11\nY", "error: write failed\n", 0, dues))

    def test_standard_error_changes_no_status(self):
        row = self.script.ROWS["overflow"]
        dues = self.script.due_after(row, errno.EIO, "write 2")
        self.assertTrue(self.fits(row.out, "", 3, dues))
        self.assertFalse(self.fits(row.out, "", 6, dues))
        self.assertFalse(self.fits("", "", 3, dues))

    def test_no_program_is_a_failure(self):
        done = subprocess.run([sys.executable, f"{TOP}/tests/faults.py", "/nothing"], capture_output=True, text=True)
        self.assertEqual((done.returncode, done.stdout.splitlines()[-1]), (1, "0 passed, 1 failed"))


if __name__ == "__main__":
    unittest.main()
