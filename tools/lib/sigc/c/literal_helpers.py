"""The functions of a literal step: each gives a result within 64 bits and answers 0, or answers 1 where there is none."""

OVERFLOW = {
    "add": ("+", "(b > 0) ? (a > (INT64_MAX - b)) : (a < (INT64_MIN - b))"),
    "subtract": ("-", "(b > 0) ? (a < (INT64_MIN + b)) : (a > (INT64_MAX + b))"),
    "multiply": (
        "*",
        "(a > 0) ? ((b > 0) ? (a > (INT64_MAX / b)) : (b < (INT64_MIN / a)))"
        " : ((b > 0) ? (a < (INT64_MIN / b)) : ((a != 0) && (b < (INT64_MAX / a))))",
    ),
    "divide": ("/", "(a == INT64_MIN) && (b == -1)"),
}
CHECKED = """
static int {name}(int64_t a, int64_t b, int64_t *result)
{{
    if ({test}) {{ return 1; }}
    *result = a {mark} b;
    return 0;
}}
"""
MODULO = """
static int modulo(int64_t a, int64_t b, int64_t *result)
{
    if (b == -1) { *result = 0; return 0; }
    *result = a % b;
    return 0;
}
"""


def texts(used: set) -> str:
    """The functions of a set, in one order."""
    found = [CHECKED.format(name=name, test=test, mark=mark) for name, (mark, test) in OVERFLOW.items() if name in used]
    return "".join([*found, MODULO if "modulo" in used else ""])
