#!/usr/bin/env python3
"""faults.py [SIGC] [PART..]: what sigc answers where the outside fails.

Runs SIGC on rows of every command, each with its output, its line and its status written out here, over and over:

  calls     each call of open, read, write and close and each start of a thread fails in turn, by several errors, once and
            from there on (tests/faults.c, compiled by gcc, stands in front of the C library);
  pieces    reads and writes take at most one byte, or a few, and each of them fails in turn;
  cuts      each file is cut between two reads, and the answer must be that to the files as they are left;
  streams   standard output and standard error are a full device, a closed pipe, closed, or a file at its greatest size;
  files     each file is a directory, an endless device, a pipe, a path through a file, or a name that is too long;
  lengths   an image that would be too long, over streams that take nothing too;
  stacks    the deepest programs that the limits allow, with stacks of 64 KB and more;
  nodes     an image whose verifying takes more nodes than there are, where this part is named: it takes many seconds.

Each answer must be the row's, or, where a fault befell the command, the status and the line that docs/formats.md gives for it,
with a beginning of the row's output. With less stack than docs/limits.md gives, a command may also end by a signal.
`--stacks` prints the least stack of each deep program and command instead. Without gcc the first three parts are left out, which a line
says. SIGC is the first word, or the environment's, or the program in crates/sigc/out. The last line is `N passed, M failed`.
"""
import argparse
import errno
import itertools
import os
import resource
import shutil
import signal
import subprocess
import sys
import tempfile
from collections import namedtuple

from docs import TOP, default_program

SECONDS = 60
# what a command is to write and answer
Row = namedtuple("Row", "words files out err status")
# what it wrote and answered, and what a fault befell
Ran = namedtuple("Ran", "out err status told")

SUM = "process SUM = (? integer A, B ! integer Y) Y := A + B;"
DOWN = (
    "process DOWN = (? integer A ! integer Y) (| Y := A default (ZY - 1) | ZY := Y $ init 0 | A ^= when (ZY <= 0) |) "
    "where integer ZY; end;"
)
TWO = (
    'process TWO = (? integer A, B ! integer Y, Z) pragmas RunOn {B, Z} "1" end pragmas '
    "(| Y := A + 1 | Z := B + 1 | A ^= B |);"
)
ROOTS = "process TWO = (? integer U, V ! integer Y, Z)\n(| Y := U + 1 | Z := V + 1 |);"
SQUARE = "process SQ = (? integer A ! integer Y)\nY := A * A;"
# two parts, each with a clock of its own
PARTS_OF_TWO = (
    "process TWO = (? event TICK; boolean UP ! boolean GO; integer N)\n"
    "(| N ^= TICK | GO := not UP | N := (N $ init 3) + 3 |);"
)
COUNTER = "process N = (? ! integer N) N := (N $ init 0) + 1;"
# three clusters, each of which hands the next one what it counts
THREE = (
    'process THREE = (? ! integer N, M, K) pragmas RunOn {M} "1" RunOn {K} "2" end pragmas '
    "(| N := (N $ init 0) + 1 | M := N * 2 | K := M + N |);"
)
# the stack that docs/limits.md asks for, in KB, and that of a build for trials, which cannot print brackets with the third
NEEDED, NEEDED_FOR_TRIALS, BRACKETS = 1280, 1792, 640
COUNTED = 16_000
EVENTS = "act 1\n" + 8 * "act 0\n" + "act 1\nact 1\nact 7\n"
PLAYED = (
    "events done\nactor 0 2 1 ended\nactor 1 1 2 running\nlink 0 0\nlink 1 0\nword 2 2\nfinish\nY 11\n"
)
EXHAUSTED = "end: input {} exhausted after {} instants\n"


def number(value):
    return value.to_bytes(4, "big").decode("latin-1")


def image(signals, outputs, ops):
    """The image of an operation on inputs without clocks: integer signals, each with the line and the column of its read."""
    inputs = [it for it in signals if len(it) == 3]
    counts = (len(signals), len(inputs), outputs, 0, 0, 0, len(inputs) + len(ops))
    text = "SIGIMG01" + "".join(number(it) for it in counts)
    text += "".join("\0" + number(len(name)) + name for name, *_ in signals)
    text += "".join("\0" + number(1) + number(line) + number(col) + number(i) for i, (_, line, col) in enumerate(inputs))
    for line, col, target, function, operands in ops:
        text += "\1" + number(1) + number(line) + number(col) + number(target) + chr(function) + chr(len(operands))
        text += "".join("\0" + number(it) for it in operands)
    return text


ADD, MULTIPLY = 12, 14
SUM_IMAGE = image([("A", 1, 26), ("B", 1, 29), ("Y",)], 1, [(1, 51, 2, ADD, [0, 1])])
SQUARE_IMAGE = image([("A", 1, 26), ("Y",)], 1, [(2, 8, 1, MULTIPLY, [0, 0])])
AT_PACES = "pace_1 true false true\npace_2 true true false\nU 1 2\nV 10 20\n"
counted = "".join(f"N {i}\nM {2 * i}\nK {3 * i}\n" for i in range(1, COUNTED + 1))

ROWS = {
    "check": Row(["check", "P"], {"P": DOWN}, "accepted\n", "", 0),
    "refused": Row(["check", "P"], {"P": ROOTS}, "", "error 1:26: no root: U and V are independent\n", 1),
    "tree": Row(["tree", "P"], {"P": DOWN}, "Y ZY\n  A\n", "", 0),
    "code": Row(
        ["code", "P"], {"P": SUM},
        "actor 0\n0 0 read A\n1 2 read B\n2 4 compute Y\n3 5 send 0\n4 6 report 1\nactor 1\n0 5 receive 0\n1 6 collect 1\n2 7 commit\n",
        "", 0,
    ),
    "print": Row(["print", "P"], {"P": SUM}, "process SUM = ( ? integer A , B ! integer Y ) Y := A + B ;\n", "", 0),
    "judge": Row(["judge", "P", "T"], {"P": DOWN, "T": "A Y ZY\n3 3 0\n. 2 3\n"}, "accepted\n", "", 0),
    "broken": Row(
        ["judge", "P", "T"], {"P": DOWN, "T": "A Y ZY\n1 1 0\n5 5 1\n"}, "", "error: instant 2 breaks equation 3\n", 9
    ),
    "run": Row(
        ["run", "P", "F", "--workers", "0"], {"P": SUM, "F": "A 1 2 3\nB 10 20\n"}, "Y 11\nY 22\n", EXHAUSTED.format("B", 2), 0
    ),
    "run-2": Row(
        ["run", "P", "F", "--capacity", "1", "--workers", "2"], {"P": TWO, "F": "A 1 2 3 4 5 6\nB 10 20 30\n"},
        "Y 2\nZ 11\nY 3\nZ 21\nY 4\nZ 31\n", EXHAUSTED.format("B", 3), 0,
    ),
    "overflow": Row(
        ["run", "P", "F"], {"P": SQUARE, "F": "A 3 4000000000 5\n"}, "Y 9\n", "end: overflow at 2:8 after 1 instants\n", 3
    ),
    "range": Row(
        ["run", "P", "F"], {"P": SQUARE, "F": "A 9223372036854775808\n"}, "", "error: F:1:3: out of range\n", 4
    ),
    "missing": Row(["run", "P", "F"], {"P": SUM}, "", "error: F: not found\n", 5),
    "words": Row(["run", "P"], {"P": SUM}, "", "error: these words are not a command\n", 2),
    "play": Row(
        ["play", "P", "F", "V", "--capacity", "1"], {"P": SUM, "F": "A 1 2\nB 10\n", "V": EVENTS},
        PLAYED, EXHAUSTED.format("B", 1), 0,
    ),
    "paced": Row(
        ["run", "P", "F", "--pace", "--workers", "0"], {"P": ROOTS, "F": AT_PACES}, "Y 2\nZ 11\nZ 21\nY 3\n",
        EXHAUSTED.format("pace_1", 3), 0,
    ),
    "paced-check": Row(["check", "--pace", "P"], {"P": ROOTS}, "accepted\n", "", 0),
    "paced-code": Row(
        ["code", "P", "--pace"], {"P": PARTS_OF_TWO},
        "actor 0\n0 0 read pace_1\n1 1 send 0\n2 2 read TICK\n3 4 read pace_2\n4 5 send 1\n5 6 read UP\n6 8 compute GO\n"
        "7 9 send 2\n8 10 delay #2:39\n9 12 compute N\n10 13 send 3\n11 14 compute #pace_1\n12 16 compute #pace_2\n"
        "13 18 store #2:39\n14 20 report 4\nactor 1\n0 1 receive 0\n1 5 receive 1\n2 9 receive 2\n3 13 receive 3\n"
        "4 20 collect 4\n5 21 commit\n",
        "", 0,
    ),
    "paced-play": Row(
        ["play", "--capacity=1", "P", "F", "--pace", "V", "--instants=3"],
        {"P": ROOTS, "V": "act 0\nlook 1\nact 1\n",
         "F": "U -3 -2 6 -999 0 -2\nV -2 5 6\npace_1" + 7 * " true" + "\npace_2" + 9 * " true"},
        "events done\nactor 0 1 1 running\nactor 1 1 0 running\nlink 0 0\nlink 1 0\nlink 2 0\nlink 3 0\nlink 4 0\nword none\n"
        "finish\nY -2\nZ -1\nY -1\nZ 6\nY 7\nZ 7\n",
        "end: limit after 3 instants\n", 0,
    ),
    "build": Row(["build", "P"], {"P": SUM}, SUM_IMAGE, "", 0),
    "build-refused": Row(["build", "P"], {"P": ROOTS}, "", "error 1:26: no root: U and V are independent\n", 1),
    "exec": Row(
        ["exec", "I", "F"], {"I": SUM_IMAGE, "F": "A 1 2 3\nB 10 20\n"}, "Y 11\nY 22\n", EXHAUSTED.format("B", 2), 0
    ),
    "exec-overflow": Row(
        ["exec", "I", "F"], {"I": SQUARE_IMAGE, "F": "A 3 4000000000 5\n"}, "Y 9\n", "end: overflow at 2:8 after 1 instants\n", 3
    ),
    "exec-broken": Row(
        ["exec", "I", "F"], {"I": SUM_IMAGE[:116], "F": "A 1\nB 1\n"}, "", "error: I: bad image at byte 113\n", 4
    ),
    "load": Row(
        ["load", "1", "3", "--workers", "2", "--capacity", "7"], {},
        "stages 3\ninstants 20000\nbytes 137834\nsum 6685077\n", EXHAUSTED.format("A", 20000), 0,
    ),
    # outputs of several writes
    "long": Row(
        ["run", "P", "F", "--workers", "0", "--instants", str(COUNTED)], {"P": THREE, "F": ""},
        counted, f"end: limit after {COUNTED} instants\n", 0,
    ),
    "long-3": Row(
        ["run", "P", "F", "--workers", "3", "--capacity", "7", "--instants", str(COUNTED)], {"P": THREE, "F": ""},
        counted, f"end: limit after {COUNTED} instants\n", 0,
    ),
}
# rows whose every call is tried with one error alone
SLOW = ("load", "long", "long-3")
WRITE_FAILED = ("error: write failed\n", 6)
ERRORS = {
    "open": [errno.ENOENT, errno.EACCES, errno.EMFILE, errno.EIO],
    "read": [errno.EIO, errno.EISDIR, errno.EAGAIN, errno.EINTR],
    "write": [errno.ENOSPC, errno.EPIPE, errno.EIO, errno.EAGAIN, errno.EINTR],
    "close": [errno.EIO, errno.EINTR],
    "thread": [errno.EAGAIN, errno.EPERM, errno.ENOMEM],
}


class Faults:
    """The count of what passed and failed, over one program, with a folder for the files of the rows."""

    def __init__(self, program, room):
        self.program, self.room, self.library = program, room, None
        self.passed = self.failed = 0

    def compile(self):
        """The library that fails, where there is a compiler for it."""
        if not shutil.which("gcc"):
            return False
        self.library = f"{self.room}/faults.so"
        words = ["gcc", "-O2", "-shared", "-fPIC", "-o", self.library, f"{TOP}/tests/faults.c", "-ldl"]
        subprocess.run(words, check=True)
        return True

    def put(self, row):
        """Writes the files of a row into its folder, as the only ones there."""
        folder = f"{self.room}/files"
        shutil.rmtree(folder, ignore_errors=True)
        os.makedirs(folder)
        for name, text in row.files.items():
            with open(f"{folder}/{name}", "w", encoding="latin-1", newline="") as out:
                out.write(text)
        return folder

    def run(self, row, fault=None, **how):
        """Runs the words of a row, with a fault of the library where one is given."""
        folder, told = how.pop("cwd", f"{self.room}/files"), b""
        how = {"stdin": subprocess.DEVNULL, "stdout": subprocess.PIPE, "stderr": subprocess.PIPE, "cwd": folder, "timeout": SECONDS, **how}
        words = [self.program, *row.words]
        try:
            if fault is None:
                ran = subprocess.run(words, **how)
            else:
                mark, end = os.pipe()
                with os.fdopen(mark, "rb") as heard:
                    set_ = {f"FAULT_{name.upper()}": str(value) for name, value in fault.items()}
                    env = {**os.environ, "LD_PRELOAD": self.library, "FAULT_FD": str(end), **set_}
                    try:
                        ran = subprocess.run(words, env=env, pass_fds=[end], **how)
                    finally:
                        os.close(end)
                    told = heard.read()
        except subprocess.TimeoutExpired:
            return Ran("", "", f"no end after {SECONDS} s", [])
        text = lambda it: None if it is None else it.decode("latin-1")
        return Ran(text(ran.stdout), text(ran.stderr), ran.returncode, told.decode("latin-1").splitlines())

    def compare(self, where, ran, dues):
        """Counts whether an answer is one of those that are due."""
        if any(fits(ran, *due) for due in dues):
            self.passed += 1
            return
        self.failed += 1
        shown = [it if it is None else it[-200:] for it in (ran.out, ran.err)]
        wanted = [(is_whole, out[-60:], err, status) for is_whole, out, err, status in dues]
        print(f"{where}: {shown[0]!r}, {shown[1]!r}, {ran.status}, {ran.told}, and not {wanted}")


def fits(ran, is_whole, out, err, status):
    """Whether an answer has this status, this line, and this output or a beginning of it. A stream that was not heard fits."""
    said = ran.out is None or (ran.out == out if is_whole else out.startswith(ran.out))
    return ran.status == status and said and (ran.err is None or ran.err == err)


def whole(row):
    return True, row.out, row.err, row.status


def due_after(row, fault, told):
    """What is due of a row where this call failed by this error: what the program was told of it has the file or the stream."""
    call, _, name = told.partition(" ")
    name = os.path.basename(name) if call == "read" else name
    if call in ("close", "thread") or fault == errno.EINTR and call in ("read", "write"):
        return [whole(row)]
    if call == "open":
        return [(True, "", f"error: {name}: {'not found' if fault == errno.ENOENT else 'read failed'}\n", 5)]
    if call == "read":
        return [(True, "", f"error: {name}: read failed\n", 5)]
    if name == "1":
        return [(False, row.out, *WRITE_FAILED)]
    return [(True, row.out, row.err[:length], row.status) for length in range(len(row.err) + 1)]


def each_failing(faults, name, fault):
    """Lets each call of a kind fail in turn, until a run makes no such one."""
    row = ROWS[name]
    for number in itertools.count(1):
        ran = faults.run(row, {**fault, "at": number})
        if not ran.told:
            break
        where = f"{name}: {fault['call']} {number} of error {errno.errorcode[fault['error']]}{' and all behind it' if 'ever' in fault else ''}"
        dues = due_after(row, fault["error"], ran.told[0])
        if "ever" in fault and fault["call"] == "write" and ran.told[0] == "write 1":
            # the line of standard error fails too
            dues = [(is_whole, out, err, status) for is_whole, out, _, status in dues for err in ("", WRITE_FAILED[0])]
        faults.compare(where, ran, dues)
    faults.compare(f"{name}: no {fault['call']} {number}", ran, [whole(row)])


def calls(faults):
    """Each call fails in turn."""
    for name, row in ROWS.items():
        faults.put(row)
        for call, errors in ERRORS.items():
            for error in errors if name not in SLOW else errors[:1]:
                each_failing(faults, name, {"call": call, "error": error})
            if call != "close":
                each_failing(faults, name, {"call": call, "error": errors[0], "ever": 1})


def pieces(faults):
    """Short reads and writes, and each of them fails in turn."""
    for name, row in ROWS.items():
        faults.put(row)
        for piece in (1, 7):
            faults.compare(f"{name}: pieces of {piece}", faults.run(row, {"piece": piece}), [whole(row)])
        if name in SLOW:
            continue
        for call, piece in (("read", 11), ("write", 7)):
            each_failing(faults, name, {"call": call, "error": errno.EIO, "piece": piece})
            each_failing(faults, name, {"call": call, "error": errno.EINTR, "piece": 23})


def cuts(faults):
    """Each file is cut between two reads: the answer is that to what is left."""
    for name, row in ROWS.items():
        if not row.files or name in SLOW:
            continue
        for number in itertools.count(1):
            faults.put(row)
            ran = faults.run(row, {"cut": number, "piece": 9})
            if not ran.told:
                break
            left = faults.run(row)
            faults.compare(f"{name}: cut at read {number}", ran, [(True, left.out, left.err, left.status)])


def closed_pipe():
    """The end of a pipe that nobody reads."""
    heard, end = os.pipe()
    os.close(heard)
    return os.fdopen(end, "wb")


def limited(size):
    """Sets the greatest size of a file, past which a write fails and no signal comes."""
    def set_():
        signal.signal(signal.SIGXFSZ, signal.SIG_IGN)
        resource.setrlimit(resource.RLIMIT_FSIZE, (size, size))
    return set_


def streams(faults):
    """Standard output and standard error take nothing, or not all."""
    for name, row in ROWS.items():
        faults.put(row)
        cannot = [(False, row.out, *WRITE_FAILED)] if row.out else [whole(row)]
        for kind, opening in (("full", lambda: open("/dev/full", "wb")), ("closed pipe", closed_pipe)):
            for streams_ in (["stdout"], ["stderr"], ["stdout", "stderr"]):
                with opening() as stream:
                    ran = faults.run(row, **{it: stream for it in streams_})
                faults.compare(f"{name}: {kind} {streams_}", ran, cannot if "stdout" in streams_ else [whole(row)])
        for closed in ((1,), (2,), (1, 2), (0, 1, 2)):
            ran = faults.run(row, stdout=None if 1 in closed else subprocess.PIPE, stderr=None if 2 in closed else subprocess.PIPE,
                             preexec_fn=lambda: [os.close(it) for it in closed])
            faults.compare(f"{name}: closed {closed}", ran, cannot if 1 in closed else [whole(row)])
        for size in (0, 3, 70_000):
            with open(f"{faults.room}/out", "w+b") as out:
                ran = faults.run(row, stdout=out, preexec_fn=limited(size))
                out.seek(0)
                ran = ran._replace(out=out.read().decode("latin-1"))
            faults.compare(f"{name}: file of {size}", ran, cannot if len(row.out) > size else [whole(row)])


def too_long(name, words):
    """What is said of an endless file, which the command reads by its place among the words."""
    if name == words[1] and words[0] != "exec":
        return [(True, "", "error: program longer than 1048576 bytes\n", 1)]
    return [(True, "", f"error: {name}: longer than 67108864 bytes\n", 4)]


def files(faults):
    """Each file is something else."""
    for name, row in ROWS.items():
        for file in row.files:
            if name in ("words", "missing") or name == "exec-broken" and file == "F":
                continue
            failed, missing = [(True, "", f"error: {{}}: {it}\n", 5) for it in ("read failed", "not found")]
            folder = faults.put(row)
            os.remove(f"{folder}/{file}")
            os.mkdir(f"{folder}/{file}")
            faults.compare(f"{name}: {file} is a directory", faults.run(row), named([failed], file))
            os.rmdir(f"{folder}/{file}")
            faults.compare(f"{name}: {file} is not there", faults.run(row), named([missing], file))
            os.symlink("/dev/zero", f"{folder}/{file}")
            if name in ("check", "judge", "run", "play", "build", "exec"):
                faults.compare(f"{name}: {file} is endless", faults.run(row), too_long(file, row.words))
            for other, dues in (("P/X", [failed, missing]), (300 * "N", [failed]), ("", [missing])):
                words = [other if it == file else it for it in row.words]
                ran = faults.run(row._replace(words=words), cwd=faults.put(row))
                faults.compare(f"{name}: {file} is named {other!r}", ran, named(dues, other))
            piped(faults, name, row, file)


def named(dues, name):
    return [(is_whole, out, err.format(name), status) for is_whole, out, err, status in dues]


def piped(faults, name, row, file):
    """A file comes through a pipe, and one that is read from it is named so."""
    words = ["/dev/stdin" if it == file else it for it in row.words]
    heard, end = os.pipe()
    with os.fdopen(end, "wb") as out:
        out.write(row.files[file].encode("latin-1"))
    with os.fdopen(heard, "rb") as stream:
        ran = faults.run(row._replace(words=words), stdin=stream)
    faults.compare(f"{name}: {file} is a pipe", ran, [(True, row.out, row.err.replace(f" {file}:", " /dev/stdin:"), row.status)])


def deep(body, kind="integer", value="0", where="", names=()):
    """A deep program, its flows and a trace of it, in which every signal has this value."""
    header, values = "A Y " + " ".join(names), value + f" {value}" * (1 + len(names))
    text = f"process DEEP = (? {kind} A ! {kind} Y)\n{body}{where};\n"
    return {"P": text, "F": f"A {value}\n", "T": f"{header}\n{values}\n"}


def chained(count, last="A + 0"):
    """A process that calls one that calls one, and so on until one with this right side; with the names that the calls make."""
    models = [f"process Q{i} = (? integer A ! integer Y) Y := Q{i + 1}(A);" for i in range(1, count)]
    models.append(f"process Q{count} = (? integer A ! integer Y) Y := {last};")
    names = [f"Q{i}#{i}.{it}" for i in range(1, count + 1) for it in "AY"]
    return deep("Y := Q1(A)", where=" where\n" + "\n".join(models) + "\nend", names=names)


def chained_outputs(count, last="Y $ init 0"):
    """The same of processes without inputs, of which each call makes one signal."""
    models = [f"process Q{i} = (? ! integer Y) Y := Q{i + 1}();" for i in range(1, count)]
    models.append(f"process Q{count} = (? ! integer Y) Y := {last};")
    text = "process DEEP = (? ! integer Y)\nY := Q1() where\n" + "\n".join(models) + "\nend;\n"
    names = " ".join(f"Q{i}#{i}.Y" for i in range(1, count + 1))
    return {"P": text, "F": "", "T": f"Y {names}\n0{count * ' 0'}\n"}


def deep_image(is_last_read):
    """An image of 512 conditions, and a guard that asks for all of them; the last one is an input like the others, or is written
    where all others are true."""
    count = 512
    nodes, whole_guard = [(count - 1 - k, 0, k + 1) for k in range(count)], count + 1
    if not is_last_read:
        nodes += [(count - 2 - k, 0, count + 1 + k if k else 1) for k in range(count - 1)]
    inputs = count if is_last_read else count - 1
    text = "SIGIMG01" + "".join(number(it) for it in (count, inputs, 0, count, 1, len(nodes), count + 1))
    text += "".join("\1" + number(4) + f"B{v:03}" for v in range(count)) + "".join(number(v) for v in range(count))
    text += "\1" + number(0) + number(0) + "".join(number(it) for node in nodes for it in node)
    text += "".join("\0" + number(1) + number(1) + number(1) + number(v) for v in range(inputs))
    if not is_last_read:
        text += "\2" + number(len(nodes) + 1) + number(1) + number(1) + number(count - 1) + number(0)
    return {"I": text + "\5" + number(whole_guard) + number(1) + number(1) + number(0) + number(0), "F": ""}


def enclosed(count):
    """The same with each model inside the one that calls it."""
    inner = ""
    for i in range(count, 0, -1):
        body = f"Y := Q{i + 1}(A) where {inner} end" if inner else "Y := A + 0"
        inner = f"process Q{i} = (? integer A ! integer Y) {body};"
    return deep("Y := Q1(A)", where=f" where {inner} end", names=[f"Q{i}#{i}.{it}" for i in range(1, count + 1) for it in "AY"])


def conditions(count):
    """A guard of so many conditions, so that its diagram is as deep."""
    names = [f"B{i}" for i in range(count)]
    text = (
        f"process DEEP = (? integer A; boolean {', '.join(names)} ! integer Y)\n"
        f"(| Y := A when ({' and '.join(names)}) | A ^= {' ^= '.join(names)} |);\n"
    )
    flows = "A 0\n" + "".join(f"{it} true\n" for it in names)
    return {"P": text, "F": flows, "T": f"A Y {' '.join(names)}\n0 0{count * ' true'}\n"}


# the deepest programs that are accepted: 64 things inside one another, 511 operators with 512 signals, 254 calls, or 511 of
# processes without inputs; and images of 512 conditions
DEEP = {
    "brackets": deep(f"Y := {64 * '('}A{64 * ')'}"),
    "sums": deep(f"Y := {64 * '(A + '}A{64 * ')'}"),
    "products": deep(f"Y := {64 * '('}A{64 * ' * A)'}"),
    "minus": deep(f"Y := {64 * '- '}A"),
    "not": deep(f"Y := {64 * 'not '}A", "boolean", "true"),
    "clocks": deep(f"Y := {64 * '^'}A", "event", "true"),
    "compositions": deep(f"{64 * '(|'}Y := A{64 * '|)'}"),
    "operators": deep(f"Y := A{511 * ' + A'}"),
    "operators-in-brackets": deep(f"Y := {64 * '('}A{64 * (7 * ' + A' + ')')}"),
    "relations": deep(f"Y := A{64 * ' default (A'}{64 * ')'}"),
    "samplings": deep(f"Y := A{255 * ' when A'}", "boolean", "true"),
    "defaults": deep(f"Y := A{511 * ' default A'}"),
    "delays": deep(f"Y := A{511 * ' $ init 0'}"),
    "cells": deep(f"Y := {63 * '('}A{63 * ' cell A init true)'}", "boolean", "true"),
    "equal": deep(f"(| Y := A | A{512 * ' ^= A'} |)"),
    "conditions": conditions(254),
    "calls": chained(254),
    "calls-and-operators": chained(254, "A" + 512 * " + A"),
    "calls-without-inputs": chained_outputs(511),
    "calls-without-inputs-and-operators": chained_outputs(511, f"Y $ init 0{511 * ' + 0'}"),
    "enclosed": enclosed(64),
    "image": deep_image(True),
    "image-of-one-written-last": deep_image(False),
}
COMMANDS = {
    "print": ["print", "P"], "check": ["check", "P"], "judge": ["judge", "P", "T"], "build": ["build", "P"],
    "run": ["run", "P", "F", "--workers", "0", "--instants", "1"],
    "run-2": ["run", "P", "F", "--workers", "2", "--capacity", "7", "--instants", "1"],
    "exec": ["exec", "I", "F", "--instants", "1"],
}
# deep programs that have a kernel of too many signals
TOO_MANY = ("calls-and-operators", "calls-without-inputs-and-operators")


def with_stack(kilobytes):
    return lambda: resource.setrlimit(resource.RLIMIT_STACK, (1024 * kilobytes, 1024 * kilobytes))


def due_of_deep(name, command, its_files):
    """What a command is to say of a deep program; of the text that `print` writes and of images, nothing is said here."""
    if command == "judge":
        return "accepted\n", "", 0
    if name in TOO_MANY:
        return "", "error: more than 512 signals\n", 1
    if "P" not in its_files:
        return "", EXHAUSTED.format("B000", 0), 0
    header, values = (line.split() for line in its_files["T"].splitlines())
    line = f"Y {values[header.index('Y')]}\n"
    return ("accepted\n", "", 0) if command == "check" else (line, "end: limit after 1 instants\n", 0)


def rows_of_deep(faults):
    """The deep programs and images with each command that takes them, and with what that says where there is ample stack."""
    for name, its_files in DEEP.items():
        built = Row(COMMANDS["build"], its_files, "", "", 0)
        if "P" in its_files:
            faults.put(built)
            image_ = faults.run(built)
            its_files = {**its_files, "I": image_.out} if not image_.status else its_files
        for command, words in COMMANDS.items():
            if words[1] in its_files:
                row = Row(words, its_files, "", "", 0)
                faults.put(row)
                yield name, command, row, faults.run(row)


def stack_asked(faults):
    """The least stack that is enough, in KB, as docs/limits.md says; a build for trials needs more, for brackets too."""
    row = Row(COMMANDS["print"], DEEP["brackets"], "", "", 0)
    faults.put(row)
    return NEEDED if faults.run(row, preexec_fn=with_stack(BRACKETS)).status == 0 else NEEDED_FOR_TRIALS


def stacks(faults):
    """The deepest programs, with little stack: the answer, or, below what is asked for, the end by a signal."""
    asked = stack_asked(faults)
    for name, command, row, ample in rows_of_deep(faults):
        out, err, status = ample[:3] if command in ("print", "build") else due_of_deep(name, command, row.files)
        for kilobytes in (64, 256, asked, 8192):
            dues = [(True, out, err, status)] + ([(False, out, "", -signal.SIGSEGV)] if kilobytes < asked else [])
            ran = faults.run(row, preexec_fn=with_stack(kilobytes))
            faults.compare(f"{name}: {command} with {kilobytes} KB of stack", ran, dues)


def least_stacks(faults):
    """Prints the least stack with which each deep program has its answer, by command, in KB."""
    found = {}
    for name, command, row, ample in rows_of_deep(faults):
        low, high = 16, 8192
        while high - low > max(4, low // 32):
            middle = (low + high) // 2
            is_enough = faults.run(row, preexec_fn=with_stack(middle))[:3] == ample[:3]
            low, high = (low, middle) if is_enough else (middle, high)
        found.setdefault(name, []).append(f"{command} {high}" + (f" ({ample.err.strip()})" if ample.status else ""))
    for name, them in found.items():
        print(f"{name}: " + ", ".join(them), flush=True)


def long_image():
    """A program whose image has more than 67,108,864 bytes: 84 copies of a process with a long name, with which their signals' names begin."""
    name = "N" * 399_371
    outputs = ", ".join(f"Y{i}" for i in range(84))
    calls_ = " | ".join(f"Y{i} := M(A)" for i in range(84))
    inner = f"process {name} = (? integer X ! integer Z) Z := X + 1;"
    return (
        f"process LONG = (? integer A ! integer {outputs})\n(| {calls_} |)\n"
        f"where process M = (? integer X ! integer Z) Z := {name}(X) where {inner} end; end;\n"
    )


def lengths(faults):
    """The command whose image would be too long."""
    row = Row(["build", "P"], {"P": long_image()}, "", "error: image longer than 67108864 bytes\n", 10)
    faults.put(row)
    faults.compare("a long image", faults.run(row), [whole(row)])
    for kind, opening in (("full", lambda: open("/dev/full", "wb")), ("closed pipe", closed_pipe)):
        for streams_ in (["stdout"], ["stderr"], ["stdout", "stderr"]):
            with opening() as stream:
                ran = faults.run(row, **{it: stream for it in streams_})
            faults.compare(f"a long image: {kind} {streams_}", ran, [whole(row)])


def multiplexer(data=24, choosers=5):
    """An image whose verifying takes more than 8,000,000 nodes: operation k writes Y where condition k holds and the last
    conditions are the digits of k. So where Y was written is a multiplexer, whose data come first."""
    count = data + choosers
    numbers = {}

    def node(place, low, high):
        return numbers.setdefault((place, low, high), len(numbers) + 2)

    def guard(k):
        at = 1
        for digit in reversed(range(choosers)):
            at = node(data + digit, 0, at) if k >> digit & 1 else node(data + digit, at, 0)
        return node(k, 0, at)

    guards = [guard(k) for k in range(data)]
    text = "SIGIMG01" + "".join(number(it) for it in (count + 1, count, 1, count, 0, len(numbers), count + data))
    text += "".join("\1" + number(3) + f"B{k:02}" for k in range(count)) + "\0" + number(1) + "Y"
    text += "".join(number(k) for k in range(count)) + "".join(number(it) for fields in numbers for it in fields)
    text += "".join("\0" + number(1) + number(1) + number(k + 1) + number(k) for k in range(count))
    return text + "".join("\3" + number(at) + number(2) + number(k + 1) + number(count) + number(0) + number(k) for k, at in enumerate(guards))


def nodes(faults):
    """Images that are verified with a few nodes, and with more than there are."""
    few = Row(["exec", "I", "F"], {"I": multiplexer(8), "F": ""}, "", EXHAUSTED.format("B00", 0), 0)
    many = Row(["exec", "I", "F"], {"I": multiplexer(), "F": ""}, "", "error: 8000000 diagram nodes\n", 8)
    for name, row in (("few nodes", few), ("many nodes", many)):
        faults.put(row)
        faults.compare(name, faults.run(row), [whole(row)])


PARTS = {
    "calls": calls, "pieces": pieces, "cuts": cuts, "streams": streams, "files": files, "lengths": lengths, "stacks": stacks, "nodes": nodes,
}
ON_CALL = ("nodes",)
NEED_LIBRARY = ("calls", "pieces", "cuts")


def main():
    words = argparse.ArgumentParser(description=__doc__, formatter_class=argparse.RawDescriptionHelpFormatter)
    words.add_argument("words", nargs="*", metavar="SIGC or PART", help="the program sigc, and the parts: " + ", ".join(PARTS))
    words.add_argument("--stacks", action="store_true", help="print the least stacks alone")
    words = words.parse_args()
    are_stacks_asked, words = words.stacks, words.words
    program = os.path.abspath(words.pop(0) if words and words[0] not in PARTS else default_program())
    if not os.path.isfile(program):
        print(f"faults.py: there is no program {program}: build it first\n0 passed, 1 failed")
        return 1
    # a build for trials, which has an address sanitizer, ends by the same signal as another one
    os.environ.setdefault("ASAN_OPTIONS", "handle_segv=0")
    with tempfile.TemporaryDirectory(prefix="sigc-faults-") as room:
        faults = Faults(program, room)
        if are_stacks_asked:
            least_stacks(faults)
            return 0
        is_compiled = faults.compile()
        for part in words or [it for it in PARTS if it not in ON_CALL]:
            if part in NEED_LIBRARY and not is_compiled:
                print(f"faults.py: gcc is not installed: part {part} is skipped")
            else:
                PARTS[part](faults)
    print(f"{faults.passed} passed, {faults.failed} failed")
    return 1 if faults.failed or not faults.passed else 0


if __name__ == "__main__":
    sys.exit(main())
