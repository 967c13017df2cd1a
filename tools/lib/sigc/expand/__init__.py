"""Programs in SIGNAL V4 rewritten into kernels of sigc: constants, sizes, arrays, enumerations, cases, automata, several files.

`expanded(path)` gives an Expansion. docs/signal.md has the rules. Nothing of this is proved.
"""
from sigc.expand.expansion import Expansion, expanded
from sigc.expand.messages import Note, Refused

__all__ = ["Expansion", "Note", "Refused", "expanded"]
