"""Cases to compare a program on, and suites of them."""

from __future__ import annotations

from dataclasses import dataclass
from random import Random
from typing import Callable, Iterable


@dataclass(frozen=True)
class Case:
    """A piece of script in whole lines.

    Cases run one after the other in one process, so that a case brings the world to
    where it wants it by its own first commands. One that is `alone` has a process of
    its own: it asks of the world as it is at first, or does not end with LF. One that
    is `big` has its own too, and is not reduced where it differs.
    `things` is the number of things of the suite's kind that the case tries.
    """

    script: bytes
    things: int = 1
    alone: bool = False
    big: bool = False


@dataclass(frozen=True)
class Suite:
    """The cases of one topic; `noun` says what is counted."""

    topic: str
    noun: str
    make: Callable[[Random], Iterable[Case]]

    def cases(self, seed: int) -> list[Case]:
        """The cases of a seed, the same ones each time."""
        return list(self.make(Random(f"{self.topic} {seed}")))


def script_of(lines: Iterable[bytes]) -> bytes:
    """The lines, each with its LF."""
    return b"".join(line + b"\n" for line in lines)
