#!/usr/bin/env python3
"""Tests the program that is there: rows, scripts, edits, documents and faults, as many at once as there are processors.

    tests/check.py           the program that SIGC names, or else the one that ./sigc runs
    tests/check.py --gate    the programs that the gate has just built, in crates/*/out

A line is printed as each part ends, each module of tools/tests among them. The rows of passes need the program sig_passes:
it is the one that SIG_PASSES names, or else one that is built here without proofs. The last line is `N passed, M failed`.
"""
import argparse
import os
import re
import subprocess
import sys
import time
from typing import Callable

import scripts
from docs import default_program

TOP = os.path.dirname(os.path.dirname(os.path.realpath(__file__)))
PASSES = f"{TOP}/crates/sig_passes/out"
SUMS = re.compile(r"(\d+) passed, (\d+) failed")
MISSING = re.compile(r"^.*?: (?:skipped: )?((?:\S+) is not installed.*)$", re.M)


def program(is_gate: bool) -> str:
    """The program to test; empty if there is none."""
    if is_gate or os.environ.get("SIGC"):
        return os.path.abspath(default_program())
    return subprocess.run([f"{TOP}/sigc", "--which"], capture_output=True, text=True, stdin=subprocess.DEVNULL).stdout.strip()


def part(name: str, words: list[str], env: dict[str, str]) -> scripts.Ran:
    """What a part other than the scripts did, whose last line has its sums."""
    status, text, seconds, used = scripts.timed([sys.executable, *words], env)
    sums = SUMS.findall(text)
    passed, failed = map(int, sums[-1]) if sums else (0, 1)
    if status and not failed:
        failed = 1
    reasons = MISSING.findall(text)
    return scripts.Ran(name, passed, failed, len(reasons), text, reasons, seconds, used)


def rows(env: dict[str, str]) -> scripts.Ran:
    """The rows of commands and of passes; those of passes are skipped if their program cannot be built."""
    words, reasons = ["tests/rows.py"], []
    if "SIG_PASSES" not in env:
        build = subprocess.run([f"{TOP}/tools/sigc-build", "--rows"], stdin=subprocess.DEVNULL, capture_output=True, text=True)
        if build.returncode:
            words, reasons = [*words, "commands"], ["the rows of passes: sig_passes was not built: " + build.stderr.splitlines()[-1]]
        env = {**env, "SIG_PASSES": f"{PASSES}/unproved"}
    done = part("rows", words, env)
    return done._replace(skipped=done.skipped + len(reasons), reasons=done.reasons + reasons)


def parts(env: dict[str, str]) -> list[Callable[[], scripts.Ran]]:
    """A call for each part, the slowest first."""
    plain = [lambda name=name: part(name, [f"tests/{name}.py"], env) for name in ("docs", "faults", "edits")]
    return [lambda: rows(env), *plain, *scripts.calls_of([])]


def main() -> int:
    words = argparse.ArgumentParser(description=__doc__, formatter_class=argparse.RawDescriptionHelpFormatter)
    words.add_argument("--gate", action="store_true", help="the programs that the gate has just built")
    is_gate, begun = words.parse_args().gate, time.monotonic()
    if is_gate:
        os.environ.pop("SIGC", None)
        os.environ.pop("SIG_PASSES", None)
    tested = program(is_gate)
    if not os.path.isfile(tested):
        print("check.py: no program is built: `make` builds one without proofs\n0 passed, 1 failed")
        return 1
    os.environ["SIGC"] = tested
    built = next((path for path in (f"{PASSES}/sig_passes", f"{PASSES}/sig_passes.by-rattle") if os.path.isfile(path)), "")
    env = {**os.environ, **({"SIG_PASSES": built} if is_gate and built else {})}
    print(f"testing {tested}", flush=True)
    found = scripts.progress(parts(env), os.cpu_count() or 1)
    print(f"{time.monotonic() - begun:.0f} seconds")
    return scripts.summary(found)


if __name__ == "__main__":
    sys.exit(main())
