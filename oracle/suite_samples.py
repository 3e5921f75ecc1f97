"""The scripts that ship in samples/."""

from __future__ import annotations

from pathlib import Path
from random import Random
from typing import Iterator

from oracle.cases import Case, Suite

SAMPLES = Path(__file__).resolve().parent.parent / "samples"


def cases(_: Random) -> Iterator[Case]:
    """Each sample, in a process of its own."""
    for path in sorted(SAMPLES.glob("*.script")):
        yield Case(path.read_bytes(), alone=True)


SUITE = Suite("samples", "scripts", cases)
