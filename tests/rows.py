#!/usr/bin/env python3
"""rows.py [SIGC] [NAME..]: whether each row of tests/rows has the answer that it states (tests/rows/README.md).

The rows of tests/rows/*.txt are read by the program sig_passes, which compares them with what each pass answers; those of
tests/rows/commands/*.txt are calls of the program sigc. Both are the programs that the gate built, in crates/*/out, or those
that the variables SIG_PASSES and SIGC name. A NAME is a file of rows, as clocks or commands/run, or the folder commands;
without one all are read, and WATCH is called with each beginning of its texts. The last line is `N passed, M failed`.
"""
import concurrent.futures
import glob
import os
import re
import resource
import signal
import subprocess
import sys
import tempfile

from docs import TOP, default_program

ROWS = f"{TOP}/tests/rows"
COMMANDS = f"{ROWS}/commands"
SECONDS = 300
ESCAPED = {"n": "\n", "r": "\r", "t": "\t", "s": " "}
PART = re.compile(r"\\(.)|([#@])")


def read(path):
    with open(path, encoding="utf-8") as it:
        return it.read()


def meant(text, number=0):
    """The bytes of a text, with a number for `#` and the next one for `@`."""
    def one(found):
        escaped, mark = found.groups()
        return ESCAPED.get(escaped, escaped) if escaped else str(number + (mark == "@"))
    return PART.sub(one, text).encode("latin-1")


def add(texts, line, program):
    """Adds the text that a line tells, or adds to the text of the line before."""
    head, _, text = line.partition(":")
    text = text.removeprefix(" ")
    name, _, form = head.partition(" ")
    kind, _, what = form.partition(" ")
    if name == "+":
        name = list(texts)[-1]
        before = texts[name]
    else:
        texts.pop(name, None)
        before = b""
    if kind == "each":
        first, last = map(int, what.split())
        added = b"".join(meant(text, it) for it in range(first, last + 1))
    elif kind == "is":
        added = texts[what]
    elif kind == "bytes":
        added = bytes(map(int, what.split()))
    elif kind == "upto":
        before, added = before[:int(what)].ljust(int(what)), b""
    elif kind == "image":
        ran = call(program, ["build", "P"], {"P": texts[what]}, {})
        if ran[1:] != (b"", 0):
            raise ValueError(f"{line}: {ran}")
        added = ran[0]
    else:
        added = meant(text)
    texts[name] = before + added


def limits(room):
    """What a call without room for its output sets for itself."""
    signal.signal(signal.SIGXFSZ, signal.SIG_IGN)
    resource.setrlimit(resource.RLIMIT_FSIZE, (room, room))


def call(program, words, files, texts):
    """What a call writes and answers over these files. With `deaf` standard error takes nothing, `room` is that of the output."""
    with tempfile.TemporaryDirectory() as folder, tempfile.TemporaryFile() as out:
        for name, text in files.items():
            with open(f"{folder}/{name}", "wb") as it:
                it.write(text)
        before = (lambda: limits(int(texts["room"]))) if "room" in texts else None
        with open("/dev/full" if "deaf" in texts else os.devnull, "wb") as full:
            ran = subprocess.run(
                [program, *words], cwd=folder, stdin=subprocess.DEVNULL, stdout=out, timeout=SECONDS, check=False,
                stderr=full if "deaf" in texts else subprocess.PIPE, preexec_fn=before,
            )
        out.seek(0)
        return out.read(), ran.stderr or b"", ran.returncode


def rows_of(name, shared):
    """The rows of a file of commands: (place, words, lines)."""
    text = read(f"{COMMANDS}/{name}.txt")
    for number, group in enumerate(text.split("\n---\n")[1:]):
        head, *rows = f"\n{group}".split("\n$")
        for row, part in enumerate(rows):
            words, _, lines = part.partition("\n")
            every = (shared + head + "\n" + lines).split("\n")
            yield f"commands/{name}, {number}.{row}: {words.strip()}", words.split(), [it for it in every if it and it[0] != "%"]


def fault_of(program, row):
    """What a row of commands answers in place of what is wanted; nothing where it is that."""
    place, words, lines = row
    texts = {}
    for line in lines:
        add(texts, line, program)
    files = {it: texts[it] for it in words if it in texts}
    found = call(program, words, files, texts)
    wanted = texts.get("out", b""), texts.get("err", b""), int(texts.get("status", b"0"))
    return "" if found == wanted else f"{place}\n  wanted {wanted}\n  found  {found}"


def beginnings(program, shared):
    """What a beginning of WATCH or of its flows answers that is none of a text that breaks off: a program is refused before its
    last semicolon; so are flows within a word, and elsewhere they are shorter."""
    texts = {}
    for line in shared.splitlines():
        if line and line[0] != "%":
            add(texts, line, program)
    watch, flows, held = texts["WATCH"], texts["WATCHED"], texts["HELD"]
    for count in range(len(watch) - 1):
        yield ["check", "P"], {"P": watch[:count]}, b"", b"error", 1
    for count in range(len(flows) + 1):
        in_word = 0 < count < len(flows) and not re.search(rb"\s", flows[count - 1:count + 1])
        yield ["run", "P", "F"], {"P": watch, "F": flows[:count]}, held, b"error: F:" if in_word else b"end: input ", 4 if in_word else 0


def fault_of_beginning(program, case):
    words, files, text, told, status = case
    out, err, found = call(program, words, files, {})
    if found == status and text.startswith(out) and err.startswith(told):
        return ""
    return f"{' '.join(words)} with {[len(it) for it in files.values()]} bytes: {out} {err} {found}"


def passes(names):
    """How many rows of these files sig_passes answers as they want, and how many not; what it prints of these is printed."""
    made = [f"{TOP}/crates/sig_passes/out/{it}" for it in ("sig_passes", "sig_passes.by-rattle")]
    program = os.environ.get("SIG_PASSES") or next(filter(os.path.isfile, made), made[0])
    if not os.path.isfile(program):
        print(f"rows.py: there is no program {program}: the gate builds it")
        return 0, 1
    ran = subprocess.run([program, "--rows", *(f"{ROWS}/{it}.txt" for it in names)], stdout=subprocess.PIPE, text=True, check=False)
    *lines, last = ran.stdout.splitlines() or ["0 passed, 1 failed"]
    print("".join(f"{it}\n" for it in lines), end="")
    counts = list(map(int, re.findall(r"\d+", last)))
    return counts[0], counts[1]


def main():
    words = sys.argv[1:]
    given = words.pop(0) if words and os.path.isfile(words[0]) else None
    program = os.path.realpath(given or default_program())
    named = [os.path.relpath(it, ROWS).removesuffix(".txt") for it in sorted(glob.glob(f"{ROWS}/**/*.txt", recursive=True))]
    words = [it for word in words for it in ([one for one in named if one.startswith(f"{word}/")] or [word])]
    unknown = [it for it in words if it not in named]
    if unknown:
        print(f"rows.py: there is no {unknown[0]}\n0 passed, 1 failed")
        return 1
    named = [it for it in words or named if it != "commands/texts"]
    passed, failed = passes([it for it in named if "/" not in it]) if any("/" not in it for it in named) else (0, 0)
    shared = read(f"{COMMANDS}/texts.txt")
    with concurrent.futures.ThreadPoolExecutor(os.cpu_count()) as pool:
        rows = [row for it in named if "/" in it for row in rows_of(os.path.basename(it), shared)]
        faults = list(pool.map(lambda row: fault_of(program, row), rows))
        cases = [] if words else list(beginnings(program, shared))
        cut = [it for it in pool.map(lambda case: fault_of_beginning(program, case), cases) if it]
    print("".join(f"{it}\n" for it in [*faults, *cut[:3]] if it), end="")
    wrong = sum(map(bool, faults)) + bool(cut)
    print(f"{passed + len(rows) + bool(cases) - wrong} passed, {failed + wrong} failed")
    return int(failed + wrong > 0)


if __name__ == "__main__":
    sys.exit(main())
