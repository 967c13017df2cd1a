"""Where the repository, or an installed copy of it, has what the scripts read."""
import os

TOP = os.path.normpath(f"{os.path.dirname(os.path.realpath(__file__))}/../../..")
TOOLS = f"{TOP}/tools"


def version() -> str:
    """The version of sigc, which the file VERSION at the top has."""
    with open(f"{TOP}/VERSION", encoding="ascii") as opened:
        return opened.read().strip()
