"""The share table: every label and every step."""

from __future__ import annotations

from random import Random
from typing import Iterator

from oracle.cases import Case, Suite, script_of
from oracle.generate import FAR_STATES, ask_labels, ask_size, ask_steps
from oracle.tables import BYTES


def cases(random: Random) -> Iterator[Case]:
    """All questions, state by state, and those past the end in random order."""
    past = (11, 12, *FAR_STATES)
    for state in (*range(11), *past):
        lines = [b"share"] + ask_size() + ask_labels((state,))
        yield Case(script_of(lines + ask_steps((state, byte) for byte in range(BYTES))), BYTES)
    pairs = [(s, b) for s in (*range(11), *past) for b in range(BYTES)]
    chosen = random.sample(pairs, 500)
    yield Case(script_of([b"share"] + ask_steps(chosen)), len(chosen))


SUITE = Suite("share", "steps", cases)
