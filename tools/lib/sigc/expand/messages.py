"""What the front end says: refusals with their places, and notes about what it chose or dropped."""
from typing import NamedTuple


class Place(NamedTuple):
    """A place in the text of a user's file."""

    file: str
    line: int
    col: int

    def __str__(self) -> str:
        return f"{self.file}:{self.line}:{self.col}"


class At(NamedTuple):
    """A place with what tells its copies apart: the indices of iterations and the calls around it."""

    place: Place
    trail: str = ""

    def __str__(self) -> str:
        return f"{self.place}{self.trail}"


class Refused(Exception):
    """A program that the front end does not take: where, why, and what to write instead."""

    def __init__(self, at: At | Place | None, text: str, *advice: str):
        super().__init__(text)
        self.at = At(at) if isinstance(at, Place) else at
        self.text, self.advice = text, list(advice)

    def __str__(self) -> str:
        head = f"{self.at.place}: error: {self.text}" if self.at else f"error: {self.text}"
        trail = [f"here:{self.at.trail}"] if self.at and self.at.trail else []
        return "\n".join([head, *(f"      {it}" for it in trail + self.advice)])


class Note(NamedTuple):
    """What the front end chose or dropped, with its place."""

    at: At
    text: str

    def __str__(self) -> str:
        return f"{self.at}: note: {self.text}"
