"""Queues of bytes: what they mean is a list and a limit."""

from __future__ import annotations

from dataclasses import dataclass
from typing import Optional

#: The most elements that a queue can have, however much memory there is.
MOST_ELEMENTS = 1_048_576

#: The kinds of queues, each with its letter.
LETTERS: dict[str, str] = {"ring": "R", "straight": "S"}

QUEUE_FULL = 8
DROP_BEYOND = 9


@dataclass(frozen=True)
class Refusal:
    """Why a call was refused; a full queue tells its letter too."""

    number: int
    letter: str = ""

    def __str__(self) -> str:
        if self.number == QUEUE_FULL:
            return f"queue full (number {self.number}, letter {self.letter})"
        return f"drop beyond the count (number {self.number})"


class Queue:
    """An empty queue over memory of some length, and what is put into it."""

    def __init__(self, kind: str, length: int) -> None:
        self.letter = LETTERS[kind]
        self.limit = min(length, MOST_ELEMENTS)
        self.elements: list[int] = []

    @property
    def count(self) -> int:
        return len(self.elements)

    def element(self, place: int) -> Optional[int]:
        """The element at a place from the front, or None where there is none."""
        return self.elements[place] if place < self.count else None

    def put(self, byte: int) -> Optional[Refusal]:
        """Adds a byte at the back, or changes nothing and tells the refusal."""
        if self.count >= self.limit:
            return Refusal(QUEUE_FULL, self.letter)
        self.elements.append(byte)
        return None

    def drop(self, count: int) -> Optional[Refusal]:
        """Takes so many elements from the front, or changes nothing and tells the refusal."""
        if count > self.count:
            return Refusal(DROP_BEYOND)
        del self.elements[:count]
        return None
