"""Many programs in C that sigc-c writes, compiled into one: for tests that compare their runs with those of sigc."""
import os
import shutil
import subprocess

from calling import HERE

from sigc.c import c_files, literal_unit, step_text
from sigc.image import images, intervals, sources, step_statements
from sigc.read import syntax
from sigc.trace import flow_values

STRICT = ["-std=c11", "-Wall", "-Wextra", "-Wpedantic", "-Wconversion", "-Werror"]
SANITIZED = ["-fsanitize=address,undefined", "-fno-sanitize-recover=all"]
ADAPTER = """#include <string.h>
#include "{p}.h"
#include "many.h"
{calls}
void run_{p}(void)
{{
    {p}_state state, before;
    int number = 0;
    memset(&state, 0, sizeof state);
    {p}_init(&state);
    before = state;
    while (goes_on() && (number = {p}_step(&state, (void *)0)) == 0) {{
        memcpy(&before, &state, sizeof state);
    }}
    ended({p}_ends[number].what, {p}_ends[number].line, {p}_ends[number].column, {p}_ends[number].signal, number == 0 || memcmp(&before, &state, sizeof state) == 0);
}}
"""


def unit_of(image, text, prefix, bounds=None, is_literal=False):
    """The unit of an image, as sigc-c makes it; with narrow types where bounds of the integer inputs are given."""
    read, title = images.image_of(image), syntax.read(text).processes[0].name.text
    if is_literal:
        return literal_unit.LiteralUnit(read, sources.Source(text, read), prefix, "p.sig", title)
    steps, ranges = step_statements.Steps(read), None
    if bounds is not None:
        given = {at: bounds for at, it in enumerate(read.signals[: read.inputs]) if it.kind == "integer"} if bounds else {}
        ranges = intervals.Ranges(steps, given)
        steps = step_statements.Steps(read, ranges.safe)
    step = step_text.written(steps, sources.Source(text, read), prefix, ranges)
    return c_files.Unit(step, "p.sig", title)


def adapter(unit):
    """What connects a unit to many.c."""
    calls = []
    for number, it in enumerate(unit.inputs()):
        head = f"int r_{unit.prefix}_{it.name}({unit.prefix}_context *context"
        if it.kind == "event":
            calls.append(f"{head})\n{{\n    int64_t value;\n    (void)context;\n    return take({number}, &value);\n}}\n")
        else:
            kind = unit.kind_of(it)
            calls.append(f"{head}, {kind} *value)\n{{\n    int64_t it = 0;\n    int is_there = take({number}, &it);\n    (void)context;\n    *value = ({kind})it;\n    return is_there;\n}}\n")
    for it in unit.outputs():
        value = "" if it.kind == "event" else f", {unit.kind_of(it)} value"
        put = f'put_integer("{it.name}", value)' if it.kind == "integer" else f'put_truth("{it.name}", {"1" if it.kind == "event" else "value"})'
        calls.append(f"void w_{unit.prefix}_{it.name}({unit.prefix}_context *context{value})\n{{\n    (void)context;\n    {put};\n}}\n")
    return ADAPTER.format(p=unit.prefix, calls="".join(calls))


def values_of(text, unit):
    """The values of a flow file as numbers, for many.c."""
    flows = flow_values.read_flows(text, [it.name for it in unit.inputs()])
    number = {"true": "1", "false": "0"}
    rows = [[number.get(value, value) for value in flows[it.name]] for it in unit.inputs()]
    return " ".join([str(len(rows)), *(f"{len(row)} {' '.join(row)}" for row in rows)])


class Many:
    """Programs in one executable."""

    def __init__(self, folder, units, compiler=("gcc", "-O1"), flags=(*STRICT, *SANITIZED)):
        self.folder, self.units = folder, units
        os.makedirs(folder, exist_ok=True)
        for name in ("many.h", "many.c"):
            shutil.copy(f"{HERE}/{name}", folder)
        names = ["many.c"]
        for it in units:
            for name, text in ((f"{it.prefix}.h", it.header()), (f"{it.prefix}.c", it.unit()), (f"{it.prefix}_adapter.c", adapter(it))):
                self.put(name, text)
            names += [f"{it.prefix}.c", f"{it.prefix}_adapter.c"]
        declared = "".join(f"void run_{it.prefix}(void);\n" for it in units)
        self.put("runs.c", f'#include "many.h"\n{declared}const Run runs[] = {{{", ".join(f"run_{it.prefix}" for it in units)}}};\n')
        self.failed = subprocess.run([*compiler, *flags, "-o", "many", "runs.c", *names], cwd=folder, capture_output=True, text=True)

    def put(self, name, text):
        with open(f"{self.folder}/{name}", "w", encoding="ascii") as it:
            it.write(text)

    def run(self, runs):
        """What the runs write, each given as the number of a program, the limit, and the text of its flows."""
        given = "\n".join(f"{number} {limit} {values_of(text, self.units[number])}" for number, limit, text in runs)
        done = subprocess.run([f"{self.folder}/many"], input=given, capture_output=True, text=True)
        return done.stdout.split("=\n")[:-1], done.stderr
