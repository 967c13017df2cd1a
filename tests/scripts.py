#!/usr/bin/env python3
"""The tests of the scripts: each module of tools/tests in a process of its own, as many at once as there are processors.

    tests/scripts.py               all of them
    tests/scripts.py why view      test_why.py and test_view.py

A line is printed as each module ends. What a module that fails wrote is printed too. Then come the tests that were skipped,
with the Debian package that each needs. The last line is `N passed, M failed`; the status is 1 if a test failed.
"""
import concurrent.futures
import glob
import os
import re
import subprocess
import sys
import tempfile
import time
from typing import NamedTuple

TOP = os.path.dirname(os.path.dirname(os.path.realpath(__file__)))
TESTS = f"{TOP}/tools/tests"
# The slowest modules, which begin first.
LONGEST = ("test_clusters.py", "test_c.py", "test_every.py", "test_view.py", "test_prove.py", "test_starting.py", "test_why.py")
# Programs that tests need, with their Debian packages if these have other names.
PACKAGES = {"mpicc": "libopenmpi-dev", "node": "nodejs", "dot": "graphviz", "readline": "libreadline8"}


class Ran(NamedTuple):
    """What a part of the tests did: its counts, its text, why tests were skipped, and its seconds, of a processor too."""

    name: str
    passed: int
    failed: int
    skipped: int
    text: str
    reasons: list[str]
    seconds: float
    used: float


def modules(names: list[str]) -> list[str]:
    """The files of the tests, the slowest first."""
    found = sorted(os.path.basename(path) for path in glob.glob(f"{TESTS}/test_*.py"))
    wanted = [f"test_{name}.py" for name in names] or found
    return sorted(wanted, key=lambda name: LONGEST.index(name) if name in LONGEST else len(LONGEST))


def timed(words: list[str], env: dict[str, str] | None = None) -> tuple[int, str, float, float]:
    """The status of a command, what it wrote, its seconds, and those of a processor."""
    begun = time.monotonic()
    with tempfile.TemporaryFile() as written:
        process = subprocess.Popen(words, cwd=TOP, stdin=subprocess.DEVNULL, stdout=written, stderr=subprocess.STDOUT, env=env)
        _, status, usage = os.wait4(process.pid, 0)
        process.returncode = os.waitstatus_to_exitcode(status)
        written.seek(0)
        text = written.read().decode("utf-8", "replace")
    return process.returncode, text, time.monotonic() - begun, usage.ru_utime + usage.ru_stime


def ran(module: str) -> Ran:
    """What a module did."""
    status, text, seconds, used = timed([sys.executable, "-m", "unittest", "discover", "-v", "-s", TESTS, "-p", module])
    count = int((re.findall(r"^Ran (\d+) tests?", text, re.M) or ["0"])[-1])
    last = text.rpartition("Ran ")[2]
    failed = sum(map(int, re.findall(r"(?:failures|errors)=(\d+)", last)))
    skipped = sum(map(int, re.findall(r"skipped=(\d+)", last)))
    if status and not failed:
        failed = 1
    reasons = re.findall(r"skipped ['\"](.*)['\"]$", text, re.M)
    return Ran(module.removesuffix(".py"), max(count, failed) - failed - skipped, failed, skipped, text, reasons, seconds, used)


def line_of(part: Ran) -> str:
    """The line of progress for a part that ended."""
    more = "".join(f", {count} {what}" for count, what in ((part.failed, "FAILED"), (part.skipped, "skipped")) if count)
    return f"{part.name:26} {part.seconds:6.0f} s, {part.used:5.0f} s of a processor: {part.passed} passed{more}"


def advice(reason: str) -> str:
    """Why a test was skipped, with the Debian package that it needs."""
    name = reason.partition(" ")[0].removesuffix(":")
    if "is not installed" not in reason:
        return reason
    return f"{reason} (apt-get install {PACKAGES.get(name, name)})"


def print_skipped(parts: list[Ran]) -> None:
    """A line for each reason for which tests were skipped."""
    for reason in sorted({advice(reason) for part in parts for reason in part.reasons}):
        print(f"skipped: {reason}")


def progress(calls: list, workers: int) -> list[Ran]:
    """Calls each of a list of functions, some at a time, and prints a line as each ends, with its text if it failed."""
    found = []
    with concurrent.futures.ThreadPoolExecutor(workers) as pool:
        for ended in concurrent.futures.as_completed([pool.submit(call) for call in calls]):
            part = ended.result()
            found.append(part)
            print(f"[{len(found):2} of {len(calls)}] {line_of(part)}", flush=True)
            if part.failed:
                print(part.text, flush=True)
    return found


def summary(parts: list[Ran]) -> int:
    """Prints what was skipped and the sums; returns the status."""
    print_skipped(parts)
    passed, failed, skipped = (sum(getattr(part, name) for part in parts) for name in ("passed", "failed", "skipped"))
    print(f"{passed} passed, {failed} failed" + (f", {skipped} skipped" if skipped else ""))
    return 1 if failed else 0


def calls_of(names: list[str]) -> list:
    """A call for each module of these names, or of all."""
    return [lambda module=module: ran(module) for module in modules(names)]


if __name__ == "__main__":
    sys.exit(summary(progress(calls_of(sys.argv[1:]), os.cpu_count() or 1)))
