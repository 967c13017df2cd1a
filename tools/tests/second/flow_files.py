"""Flow files with the values of docs/signal.md, for the second evaluator."""
import re

WORD = re.compile(r"(\[(?:[^\[\]]|\[[^\]]*\])*\]|\S+?)(?:\*(\d+))?(?=\s|$)")


def value_of(text: str):
    """A value as a flow writes it: a number, a truth, `#name` or an array."""
    if text[0] == "[":
        return [value_of(it) for it in re.findall(r"\[[^\]]*\]|[^\s,\[\]]+", text[1:-1])]
    if text in ("true", "false"):
        return text == "true"
    return text if text[0] == "#" else int(text)


def shown(value) -> str:
    """A value as a flow and a run write it."""
    if isinstance(value, list):
        return "[" + ",".join(map(shown, value)) + "]"
    return str(value).lower() if isinstance(value, bool) else str(value)


def flows_of(text: str) -> dict[str, list]:
    """The values of each input, in their order."""
    found: dict[str, list] = {}
    lines = [it.split(maxsplit=1) for it in text.splitlines() if it.split() and it.split()[:2] != ["flows", "2"]]
    for name, values in [it for it in lines if len(it) == 2]:
        for value, times in WORD.findall(values):
            found.setdefault(name, []).extend([value_of(value)] * int(times or 1))
    return found


def text_of(flows: dict[str, list]) -> str:
    """Flows as a file has them."""
    return "".join(f"{name} {' '.join(map(shown, values))}\n" for name, values in flows.items())
