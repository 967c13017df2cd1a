#!/usr/bin/env python3
"""edits.py: whether each wrong body still applies.

An edit of `wrong-bodies/CRATE/` or of `crates/CRATE/must-fail/` names files of the crate, and after each the texts to be
exchanged: a line `old: TEXT` and a line `new: TEXT` each, where that file has the old text exactly once. One that does not apply any
more shows nothing; this prints each such one, in a second, and proves nothing. The last line is `N passed, M failed`.
"""
import glob
import os
import sys

TOP = os.path.dirname(os.path.dirname(os.path.realpath(__file__)))


def fault_of(path, crate):
    """Why an edit does not apply, or nothing."""
    source, text, olds, news = "", "", 0, 0
    with open(path, encoding="utf-8") as edit:
        for line in edit:
            word, _, rest = line.partition(":")
            if word == "file":
                source = rest.strip()
                if not os.path.isfile(f"{TOP}/crates/{crate}/{source}"):
                    return f"there is no {source}"
                with open(f"{TOP}/crates/{crate}/{source}", encoding="utf-8") as it:
                    text = it.read()
            elif word == "old":
                olds += 1
                old = rest.removeprefix(" ").rstrip("\n")
                if text.count(old) != 1:
                    return f"`{old}` stands {text.count(old)} times in {source or 'no file'}"
            elif word == "new":
                news += 1
    return "" if olds and olds == news else "an `old:` with a `new:` for each exchange is wanted"


def main():
    passed = failed = 0
    for path in sorted(glob.glob(f"{TOP}/wrong-bodies/*/*.edit") + glob.glob(f"{TOP}/crates/*/must-fail/*.edit")):
        parts = os.path.relpath(path, TOP).split(os.sep)
        fault = fault_of(path, parts[1])
        passed, failed = passed + (not fault), failed + bool(fault)
        if fault:
            print(f"{'/'.join(parts)}: {fault}")
    print(f"{passed} passed, {failed} failed")
    return 1 if failed or not passed else 0


if __name__ == "__main__":
    sys.exit(main())
