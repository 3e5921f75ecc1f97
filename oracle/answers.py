"""What a line of the output must be: one text, or any that passes a test."""

from __future__ import annotations

from abc import ABC, abstractmethod
from typing import Iterable, Union


class Tested(ABC):
    """A line of which the model does not say every byte, since several are right."""

    @abstractmethod
    def example(self) -> bytes:
        """A line that is right, with its LF."""

    @abstractmethod
    def fault(self, line: bytes) -> str:
        """What is wrong with a line, or nothing where it is right."""

    @abstractmethod
    def __str__(self) -> str:
        """Which lines are right, in words."""


#: What a line must be; a text has its LF.
Line = Union[bytes, Tested]


def is_right(line: Line, actual: bytes) -> bool:
    """Whether a line that was printed is as it must be."""
    return line == actual if isinstance(line, bytes) else not line.fault(actual)


def examples(lines: Iterable[Line]) -> bytes:
    """An output in which every line is right."""
    return b"".join(line if isinstance(line, bytes) else line.example() for line in lines)
