"""What the tests of the scripts share: where things stand, the program sigc, and how a script is run."""
import os
import runpy
import subprocess
import sys
import tempfile
import threading
import traceback
import unittest
from importlib import import_module

sys.dont_write_bytecode = True
HERE = os.path.dirname(os.path.realpath(__file__))
TOOLS = os.path.dirname(HERE)
TOP = os.path.dirname(TOOLS)
EXAMPLES = f"{TOP}/examples"
TUTORIAL = f"{EXAMPLES}/tutorial"
if f"{TOOLS}/lib" not in sys.path:
    sys.path.insert(0, f"{TOOLS}/lib")


def built():
    """The program that the environment names, or else the one that the gate leaves; None where there is none."""
    made = [os.environ.get("SIGC"), *(f"{TOP}/crates/sigc/out/{name}" for name in ("sigc", "sigc.by-rattle"))]
    return next((os.path.abspath(it) for it in made if it and os.path.isfile(it)), None)


SIGC = built()
needs_sigc = unittest.skipUnless(SIGC, "sigc is not built: name it by the variable SIGC")
if SIGC:
    os.environ["SIGC"] = SIGC


def module_of(script):
    """The module that has what a script does."""
    return import_module(f"sigc.commands.{script.removeprefix('sigc-')}")


def forked(script, *words):
    """A script run to its end with an empty standard input, in a fork of this process: without starting Python anew."""
    with tempfile.TemporaryFile() as out, tempfile.TemporaryFile() as err, open(os.devnull, "rb") as nothing:
        child = os.fork()
        if not child:
            for number, it in enumerate((nothing, out, err)):
                os.dup2(it.fileno(), number)
            as_process([f"{TOOLS}/{script}", *words])
        ended = os.waitstatus_to_exitcode(os.waitpid(child, 0)[1])
        out.seek(0), err.seek(0)
        return subprocess.CompletedProcess([script, *words], ended, out.read().decode("latin-1"), err.read().decode("latin-1"))


def as_process(words):
    """Runs a script as this process would, had it been started with these words, and ends this process."""
    status, sys.argv = 1, words
    sys.stdout, sys.stderr = (open(number, "w", encoding="latin-1", closefd=False) for number in (1, 2))
    try:
        runpy.run_path(words[0], run_name="__main__")
        status = 0
    except SystemExit as it:
        status = it.code if isinstance(it.code, int) else int(it.code is not None)
    except BaseException:
        traceback.print_exc()
    finally:
        sys.stdout.flush()
        sys.stderr.flush()
        os._exit(status)


def ran(script, *words, given=""):
    """A script run to its end."""
    if not given and threading.current_thread() is threading.main_thread():
        return forked(script, *words)
    how = {"input": given, "capture_output": True, "text": True, "encoding": "latin-1"}
    return subprocess.run([sys.executable, f"{TOOLS}/{script}", *words], **how)


def sigc(*words):
    """sigc run to its end."""
    return subprocess.run([SIGC, *words], capture_output=True, text=True, encoding="latin-1", stdin=subprocess.DEVNULL)


def written(folder, name, text):
    """The path of a new file."""
    path = f"{folder}/{name}"
    with open(path, "w", encoding="latin-1") as it:
        it.write(text)
    return path


def pairs(folder):
    """The programs of a folder that have flows: pairs of paths."""
    found = sorted(it.removesuffix(".sig") for it in os.listdir(folder) if it.endswith(".sig"))
    return [(f"{folder}/{it}.sig", f"{folder}/{it}.flows") for it in found if os.path.isfile(f"{folder}/{it}.flows")]
