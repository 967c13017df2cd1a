#!/usr/bin/env python3
"""Checks the annotations of the scripts' modules (tools/lib/sigc) with mypy, where it is installed (apt-get install mypy).

tools/lib/mypy.ini lists the modules that do not pass yet; a module that passes leaves the list, which this checks too. The last
line is `N passed, M failed`, where N counts modules.
"""
import configparser
import os
import re
import shutil
import subprocess
import sys

TOP = os.path.dirname(os.path.dirname(os.path.realpath(__file__)))
LIBRARY = f"{TOP}/tools/lib"
CHECK = ["mypy", "--config-file", os.devnull, "--ignore-missing-imports", "--no-incremental", "--cache-dir", os.devnull, "sigc"]


def modules_with_faults(text: str) -> set[str]:
    """The modules of which mypy reports an error."""
    return {path.replace("/", ".") for path in re.findall(r"^(\S+)\.py:\d+: error: ", text, re.M)}


def excused() -> set[str]:
    """The modules that mypy.ini lists as not passing yet."""
    config = configparser.ConfigParser()
    config.read(f"{LIBRARY}/mypy.ini", encoding="utf-8")
    return {name.removeprefix("mypy-") for name in config.sections() if name.startswith("mypy-")}


def main() -> int:
    if not shutil.which("mypy"):
        print("skipped: mypy is not installed (apt-get install mypy)\n0 passed, 0 failed")
        return 0
    checked = subprocess.run(CHECK, cwd=LIBRARY, capture_output=True, text=True, stdin=subprocess.DEVNULL)
    count = re.search(r"(?:checked|in) (\d+) source files", checked.stdout)
    if count is None:
        print(f"{checked.stdout}{checked.stderr}0 passed, 1 failed")
        return 1
    found, known = modules_with_faults(checked.stdout), excused()
    wrong = [line for line in checked.stdout.splitlines() if modules_with_faults(line) - known]
    wrong += [f"{name} passes: take it from tools/lib/mypy.ini" for name in sorted(known - found)]
    print("".join(f"{line}\n" for line in wrong) + f"{int(count[1]) - len(found)} passed, {len(wrong)} failed")
    return 1 if wrong else 0


if __name__ == "__main__":
    sys.exit(main())
