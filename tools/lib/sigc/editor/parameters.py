"""The parameters that each method of an editor needs: they are checked before the method runs.

So an error within a method is one of the server, and is never reported to the editor as a wrong parameter.
"""
from typing import Any

POSITION: dict[str, Any] = {"line": int, "character": int}
RANGE: dict[str, Any] = {"start": POSITION, "end": POSITION}
TEXT_DOCUMENT: dict[str, Any] = {"textDocument": {"uri": str}}
AT_POSITION: dict[str, Any] = {**TEXT_DOCUMENT, "position": POSITION}
IN_RANGE: dict[str, Any] = {**TEXT_DOCUMENT, "range": RANGE}
PARAMETERS: dict[str, dict[str, Any]] = {
    "textDocument/hover": AT_POSITION,
    "textDocument/definition": AT_POSITION,
    "textDocument/references": AT_POSITION,
    "textDocument/prepareRename": AT_POSITION,
    "textDocument/rename": {**AT_POSITION, "newName": str},
    "textDocument/completion": AT_POSITION,
    "textDocument/codeAction": IN_RANGE,
    "textDocument/documentSymbol": TEXT_DOCUMENT,
    "textDocument/formatting": TEXT_DOCUMENT,
    "textDocument/documentLink": TEXT_DOCUMENT,
    "textDocument/inlayHint": IN_RANGE,
    "workspace/symbol": {"query": str},
    "textDocument/didOpen": {"textDocument": {"uri": str, "text": str}},
    "textDocument/didChange": {**TEXT_DOCUMENT, "contentChanges": list},
    "textDocument/didClose": TEXT_DOCUMENT,
}
NAMES = {dict: "an object", list: "a list", str: "a string", int: "a number that is not negative"}


class WrongParameters(Exception):
    """The parameters of a request are not those that its method needs."""


def check(method: str, given: object) -> None:
    """Raises WrongParameters with the first one that is missing or of another kind."""
    compare("params", PARAMETERS.get(method, {}), given)
    if method == "textDocument/didChange" and isinstance(given, dict):
        for number, change in enumerate(given["contentChanges"]):
            compare(f"params.contentChanges[{number}]", {"text": str}, change)
            if change.get("range") is not None:
                compare(f"params.contentChanges[{number}].range", RANGE, change["range"])


def compare(path: str, wanted: Any, given: Any) -> None:
    """Raises WrongParameters if a value is not of the wanted kind; of an object each wanted member is compared too."""
    kind = dict if isinstance(wanted, dict) else wanted
    is_number = isinstance(given, int) and not isinstance(given, bool) and given >= 0
    if not (is_number if kind is int else isinstance(given, kind)):
        raise WrongParameters(f"{path}: {NAMES[kind]} is wanted")
    if isinstance(wanted, dict):
        for name, member in wanted.items():
            if name not in given:
                raise WrongParameters(f"{path}: {name} is missing")
            compare(f"{path}.{name}", member, given[name])
