"""What the definitions of small C say, by a port of them, compared with compilers: a compiled text does what it is said to do, and traps where that is undefined."""
import json
import os
import random
import re
import shutil
import subprocess
import tempfile
import unittest
from unittest import mock

from calling import EXAMPLES, HERE, TOP, needs_sigc
from edges import Edge
from test_c import built, drawn, needs_gcc, special

import drawing_of_c
import meaning_of_c
import reader_of_c
import scanner_of_c
from drawing_of_c import HEADER, NUMBERS, Drawing, expression_text, unit_text
from reader_of_c import Header, Prototype, Scope
from sigc.c import literal_helpers, literal_names, literal_text
from sigc.image import images, sources

# gcc folds some sums away before it looks for an overflow, clang does not: what clang compiles traps wherever it is undefined.
COMPILERS = {
    name: words
    for name, words in {
        "gcc": ["gcc", "-std=c11", "-O0", "-fsanitize=undefined", "-fsanitize-undefined-trap-on-error"],
        "clang": ["clang", "-std=c11", "-O0", "-fsanitize=undefined", "-fsanitize-trap=all"],
    }.items()
    if shutil.which(name)
}
STRICT = ("-Werror=incompatible-pointer-types", "-Werror=implicit-function-declaration")
SCOPE = Scope(["a", "b", "c", "p", "q"], [], [], [])
WIDTHS = ["int64_t", "int64_t", "int64_t", "int", "int"]
PLACES = [("variable", at) for at in range(5)]
A, NEXT = ("variable", 0), ("variable", 2)
INT_BITS = 32
LIMIT = 6
ALL_HELPERS = {*literal_helpers.OVERFLOW, "modulo"}
FAULTS = {
    "a quotient is rounded down": ("quotient", lambda first, second: first // second),
    "operands are ints": ("wider", lambda first, second: "int"),
    "a comparison takes equals": ("RELATIONS", {**meaning_of_c.RELATIONS, "<": lambda a, b: a <= b}),
    "a difference is turned around": ("ARITHMETIC", {**meaning_of_c.ARITHMETIC, "-": lambda a, b: b - a}),
}
# Statements that no compiler takes under the header; the definitions refuse them too.
REFUSED = (
    "if (!r_P_A(context, &t0)) { return 1; }", "if (!r_P_B(context, &x0)) { return 1; }", "if (!r_P_A(context)) { return 1; }", "if (!r_P_E(context, &x0)) { return 1; }",
    "w_P_Y(context);", "w_P_W(context, x0);", "if (add(x0, 1, &t0)) { return 1; }", "x9 = 1;", "x0 = x1 +;", "if (x0) { return 1;", "state->other = 1;", "w_P_Q(context, 1);", "x0 = (x1;",
)


def helpers() -> dict:
    """The statements of the helpers, as the literal writer has them."""
    text = f'#include "P.h"\n{literal_helpers.texts(ALL_HELPERS)}'
    found = reader_of_c.File(text, "P.h", HEADER)
    found.next("directive")
    return found.helpers()


def compiled(compiler: str, room: str, *files: str, flags: tuple = ()) -> str:
    """The program of these files, or what the compiler says."""
    done = subprocess.run([*COMPILERS[compiler], *flags, "-I", room, *files, "-o", f"{room}/program"], capture_output=True, text=True)
    if done.returncode:
        raise AssertionError(done.stderr)
    return f"{room}/program"


def written(room: str, name: str, text: str) -> str:
    with open(f"{room}/{name}", "w", encoding="ascii") as it:
        it.write(text)
    return f"{room}/{name}"


def header_rows(header: Header) -> str:
    """The rows of unit.list."""
    rows = [f"FIELD({width}, {name})" for name, width in header.fields]
    rows += [f"INPUT({it.takes}, {it.name})" if it.takes else f"EVENT({it.name})" for it in header.inputs]
    rows += [f"OUTPUT({it.takes}, {it.name})" if it.takes else f"SIGN({it.name})" for it in header.outputs]
    return "".join(f"{it}\n" for it in rows)


def program_of(compiler: str, room: str, text: str, header: Header, flags: tuple = ()) -> str:
    """A unit compiled with what calls its step."""
    shutil.copy(f"{HERE}/drawn_step.h", f"{room}/P.h")
    written(room, "unit.list", header_rows(header))
    return compiled(compiler, room, f"{HERE}/drawn_step.c", written(room, "P.c", text), flags=flags)


def said_by_program(program: str, flows: list) -> list:
    """What a compiled unit does over flows, in lines."""
    words = [LIMIT, *(word for flow in flows for word in (len(flow), *flow))]
    return subprocess.run([program], input=" ".join(map(str, words)), capture_output=True, text=True, timeout=20).stdout.splitlines()


def said_by_port(header: Header, unit: reader_of_c.Unit, flows: list) -> list:
    """What the definitions say that it does; the last line is the kind of what is undefined."""
    lines = []
    try:
        step = meaning_of_c.Step(header, unit, [list(it) for it in flows], INT_BITS)
        for _ in range(LIMIT):
            answer = step.call()
            lines += [f"give {number} {value}" for number, value in step.given]
            lines += [f"answer {answer}", *(f"field {step.values['field', at]}" for at in range(len(header.fields)))]
            step.given = []
            if answer:
                break
    except meaning_of_c.Undefined as it:
        lines.append(type(it).__name__)
    return lines


def agree(port: list, found: list, is_exact: bool) -> bool:
    """Whether both say the same: where C11 leaves open what happens, what is compiled exactly traps; where the definitions are stricter anything may be done."""
    if port[-1:] == ["Stricter"] or port[-1:] == ["Undefined"] and not is_exact:
        return True
    return found[-1:] == ["trap"] if port[-1:] == ["Undefined"] else port == found


def header_of(image: images.Image, given: literal_names.Given) -> Header:
    """The header of an image's step."""
    signals = image.signals[: image.inputs + image.outputs]
    functions = [Prototype(name, None if it.kind == "event" else literal_text.type_of(it.kind)) for name, it in zip([*given.input, *given.output], signals)]
    fields = [(name, literal_text.type_of(it.kind)) for name, it in zip(given.field, image.memories)]
    return Header("P", functions[: image.inputs], functions[image.inputs :], fields)


@needs_gcc
class Expressions(unittest.TestCase):
    def rows(self, count: int) -> list:
        drawing = Drawing(7, PLACES)
        return [drawing.expression(4) for _ in range(count)]

    def test_values_and_types(self):
        """The type of each expression, its value, and whether it has one."""
        expressions, chance = self.rows(600), random.Random(8)
        inputs = [[*(chance.choice(NUMBERS) for _ in range(3)), chance.randrange(2), chance.randrange(2)] for _ in range(40)]
        wanted = [(expression_text(it, SCOPE), values, self.said(it, values)) for values in inputs for it in expressions]
        self.assertGreater(sum(it.endswith("trap") for _, _, it in wanted), 500)
        for compiler in COMPILERS:
            found = self.found(compiler, expressions, inputs)
            self.assertEqual(len(found), len(wanted))
            differ = [(*it, other) for it, other in zip(wanted, found) if it[2] != other]
            if compiler == "gcc":
                self.assertLess(len(differ), len(wanted) // 50)
                differ = [it for it in differ if not it[2].endswith("trap") or it[2][0] != it[3][0]]
            self.assertEqual(differ[:5], [], compiler)

    def found(self, compiler: str, expressions: list, inputs: list) -> list:
        """What compiled expressions give."""
        with tempfile.TemporaryDirectory() as room:
            written(room, "expressions.list", "".join(f"EXPRESSION({at}, {expression_text(it, SCOPE)})\n" for at, it in enumerate(expressions)))
            program = compiled(compiler, room, f"{HERE}/drawn_expressions.c")
            text = "".join(" ".join(map(str, it)) + "\n" for it in inputs)
            return subprocess.run([program], input=text, capture_output=True, text=True, timeout=60).stdout.splitlines()

    def test_faults(self):
        """Faults planted in the port are found."""
        expressions, chance = self.rows(200), random.Random(9)
        inputs = [[*(chance.choice(NUMBERS) for _ in range(3)), chance.randrange(2), chance.randrange(2)] for _ in range(10)]
        found = self.found("gcc", expressions, inputs)
        for name, (what, planted) in FAULTS.items():
            with self.subTest(name), mock.patch.object(meaning_of_c, what, planted):
                said = [self.said(it, values) for values in inputs for it in expressions]
                self.assertTrue(any(one != other and not one.endswith("trap") for one, other in zip(said, found)))

    def said(self, expression: tuple, values: list) -> str:
        types = meaning_of_c.Types(WIDTHS, [], INT_BITS)
        function = meaning_of_c.Function(types, dict(zip(PLACES, values)))
        try:
            found = str(function.value(expression))
        except meaning_of_c.Undefined:
            found = "trap"
        return f"{int(types.of(expression) == 'int64_t')} {found}"

    def test_they_are_read_back(self):
        for it in self.rows(2000):
            reader = reader_of_c.Reader(scanner_of_c.tokens_of(f"{expression_text(it, SCOPE)};\n"), SCOPE)
            self.assertEqual((reader.expression(), reader.peek()), (it, ("sign", ";")))

    def test_ints_of_16_bits(self):
        """Where an int of 16 bits has the result, that is the result."""
        for expression in self.rows(300):
            for values in ([3, -4, 7, 1, 0], [40000, 2, -32768, 0, 1]):
                results = []
                for bits in (16, INT_BITS):
                    try:
                        results.append(meaning_of_c.Function(meaning_of_c.Types(WIDTHS, [], bits), dict(zip(PLACES, values))).value(expression))
                    except meaning_of_c.Undefined:
                        results.append(None)
                self.assertIn(results[0], (None, results[1]))


@needs_gcc
class Units(unittest.TestCase):
    def test_drawn(self):
        """Units of drawn statements are read as they were drawn, and their steps do what they are said to do."""
        bodies, endings = helpers(), []
        for seed in range(40):
            drawing = Drawing(seed, [*(("variable", at) for at in range(5)), ("field", 0), ("field", 1)])
            unit = drawing.unit(bodies)
            text = unit_text(unit, HEADER)
            self.assertEqual(reader_of_c.unit_of(text, "P.h", HEADER), unit)
            compiler = list(COMPILERS)[seed % len(COMPILERS)]
            with tempfile.TemporaryDirectory() as room:
                program = program_of(compiler, room, text, HEADER)
                for flows in [drawing.flows() for _ in range(8)]:
                    port, found = said_by_port(HEADER, unit, flows), said_by_program(program, flows)
                    endings.append(port[-1])
                    self.assertTrue(agree(port, found, compiler == "clang"), (compiler, text, flows, port, found))
        self.assertGreater(endings.count("Undefined"), 25)
        self.assertLess(endings.count("Stricter"), len(endings) // 3)

    def test_example_of_the_definitions(self):
        """The text that is proved to be a unit is read as that unit, and does what that unit is said to do."""
        with open(f"{TOP}/crates/sig_c/specs/Example.antt", encoding="utf-8") as it:
            lines = re.findall(r'^ +(?:\+\+ )?\(?codes "(.*?[^\\])"', it.read(), re.M)
        text = "".join(json.loads(f'"{line}"') for line in lines if line.endswith("\\n"))
        header = Header("P", [Prototype("r_P_A", "int64_t")], [Prototype("w_P_Y", "int")], [("S", "int64_t"), ("T", "int")])
        unit = reader_of_c.unit_of(text, "P.h", header)
        self.assertEqual((unit.ends[2], unit.firsts, unit.variables[2]), (("OVERFLOW", 3, 4, "#3:4"), [5, 1], reader_of_c.Declared("next_S", "int64_t", 0)))
        self.assertEqual(unit.step[2:4], [("check", "add", ("get", A), ("number", -1), 2, 2), ("when", ("binary", "<", ("get", NEXT), ("number", 3 * 10**9)), [("set", ("variable", 1), ("number", 1))])])
        with tempfile.TemporaryDirectory() as room:
            program = program_of("gcc", room, text, header)
            for flows in ([[]], [[7, 3 * 10**9 + 1, 3 * 10**9 + 2, reader_of_c.LEAST]], [[reader_of_c.MOST, -5]]):
                port = said_by_port(header, unit, flows)
                self.assertEqual(port, said_by_program(program, flows))
        self.assertIn("answer 1", port)

    def test_what_both_refuse(self):
        """gcc takes no call that the header does not declare so, and the definitions leave it open or do not read it."""
        plain = unit_text(drawing_of_c.Unit(helpers(), drawing_of_c.ENDS, [0, 0], drawing_of_c.VARIABLES, [("answer", 0)]), HEADER)
        with tempfile.TemporaryDirectory() as room:
            self.assertEqual(said_by_program(program_of("gcc", room, plain, HEADER, STRICT), [[], [], []])[0], "answer 0")
        for line in REFUSED:
            text = plain[: plain.rindex("    return 0;")] + f"    {line}\n    return 0;\n}}\n"
            with self.subTest(line), tempfile.TemporaryDirectory() as room:
                with self.assertRaises((scanner_of_c.NotRead, meaning_of_c.Undefined)):
                    unit = reader_of_c.unit_of(text, "P.h", HEADER)
                    meaning_of_c.Step(HEADER, unit, [[1], [1], [1]], INT_BITS).call()
                with self.assertRaises(AssertionError):
                    program_of("gcc", room, text, HEADER, STRICT)

    def test_bytes(self):
        """Bytes that an earlier phase of translation would change are refused, and no two tokens run into one."""
        for text in ("a\\\nb\n", "/* ?? */\n", "/* /* */\n", "#include \"a??b\"\n", "#include \"a/*b\"\n", "'a'\n", "a\tb\n", "\"a?b\"\n", "\"a\\nb\"\n", "a", "/* a\n"):
            with self.subTest(text), self.assertRaises(scanner_of_c.NotRead):
                scanner_of_c.tokens_of(text)
        self.assertEqual([it for _, it in scanner_of_c.tokens_of('x=-1;/* y */a&&!b "c\\"d\\?"\n')], ["x", "=-", "1", ";", "a", "&&!", "b", 'c"d?'])


@needs_gcc
@needs_sigc
class Literal(unittest.TestCase):
    """The text that the literal writer makes of programs."""

    def programs(self) -> list:
        found = []
        for name in sorted(it for it in os.listdir(EXAMPLES) if it.endswith(".sig")):
            with open(f"{EXAMPLES}/{name}", encoding="latin-1") as it:
                text = it.read()
            found.append((name, text, built(text)))
        return [it for it in found if it[2]] + [("drawn", text, image) for text, image, _ in [*special(), *drawn(4), *drawn(4, 5000, Edge)]]

    def test_programs(self):
        chance = random.Random(3)
        for name, text, made in self.programs():
            image = images.image_of(made)
            given = literal_names.Chosen(image, sources.Source(text, image), "P").given(["head"])._replace(include="P.h")
            header, step = header_of(image, given), literal_text.literal_text(image, given)
            unit = reader_of_c.unit_of(step, "P.h", header)
            with self.subTest(name), tempfile.TemporaryDirectory() as room:
                program = program_of("gcc", room, step, header)
                for _ in range(4):
                    kinds = [{"int64_t": NUMBERS, "int": (0, 1), None: (1,)}[it.takes] for it in header.inputs]
                    flows = [[chance.choice(it) for _ in range(chance.randrange(1, 12))] for it in kinds]
                    port = said_by_port(header, unit, flows)
                    self.assertNotIn(port[-1], ("Undefined", "Stricter"))
                    self.assertEqual(port, said_by_program(program, flows))


if __name__ == "__main__":
    unittest.main()
