"""The name that was most likely meant."""
from sigc.hints.near_words import near


def meant(name: str, known, mark: str = "") -> list[str]:
    """A line with the nearest of these names; none where none is near."""
    found = near(name, sorted(known))
    return [f"did you mean `{mark}{found}`?"] if found else []
