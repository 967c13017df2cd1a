"""What the tests of several scripts share: the scripts, called or loaded, and the program sigc where there is one."""
import os
import subprocess
import sys
import unittest
from importlib import import_module

sys.dont_write_bytecode = True
TOOLS = os.path.dirname(os.path.dirname(os.path.realpath(__file__)))
TOP = os.path.dirname(TOOLS)
EXAMPLES = f"{TOP}/examples"
sys.path.insert(0, f"{TOOLS}/lib")


def program():
    """The program: what $SIGC names, or what the gate leaves; empty where there is none."""
    made = [os.environ.get("SIGC", ""), *(f"{TOP}/crates/sigc/out/{name}" for name in ("sigc", "sigc.by-rattle", "unproved"))]
    return next((it for it in made if it and os.path.isfile(it)), "")


def only_with(is_there, line):
    """For tests that need what may not be there: without it they are left out, and a line says so."""
    if not is_there:
        print(line, file=sys.stderr)
    return unittest.skipUnless(is_there, line)


NEEDS_SIGC = only_with(program(), "no program sigc is built: the tests that ask it are left out")


def module_of(script):
    """The module that has what a script does."""
    return import_module(f"sigc.commands.{script.removeprefix('sigc-')}")


def ran(script, *words, given=b"", env=None, cwd=None):
    """A script that was run: its status, and what it wrote as bytes."""
    how = {"input": given, "capture_output": True, "cwd": cwd, "env": {**os.environ, "SIGC": program(), **(env or {})}}
    return subprocess.run([sys.executable, f"{TOOLS}/{script}", *words], **how)
