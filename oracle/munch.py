"""Maximal munch: how a table cuts bytes into tokens."""

from __future__ import annotations

from typing import NamedTuple, Optional

from oracle.tables import RuleTable


class Token(NamedTuple):
    """The rule that accepts it, the place of its first byte, and how many bytes it has."""

    rule: int
    place: int
    length: int

    @property
    def end(self) -> int:
        """The place right behind its last byte."""
        return self.place + self.length


class Munch(NamedTuple):
    """The tokens, and the place where no token begins, or None where they are all of the bytes."""

    tokens: tuple[Token, ...]
    stuck: Optional[int]


def first_token(table: RuleTable, word: bytes, place: int) -> Optional[Token]:
    """The longest beginning of the bytes from a place on, of at least one byte, that leads
    from the start to an accepting state; None where there is none."""
    found = None
    state = 0
    for end in range(place, len(word)):
        state = table.steps[state][table.classes[word[end]]]
        if table.labels[state]:
            found = Token(table.labels[state], place, end + 1 - place)
    return found


def munch(table: RuleTable, word: bytes) -> Munch:
    """The first token, and then the tokens of the rest."""
    tokens: list[Token] = []
    place = 0
    while place < len(word):
        token = first_token(table, word, place)
        if token is None:
            return Munch(tuple(tokens), place)
        tokens.append(token)
        place = token.end
    return Munch(tuple(tokens), None)


def munch_answer(table: RuleTable, word: bytes) -> str:
    """What `munch` prints."""
    tokens, stuck = munch(table, word)
    parts = [f"{token.rule} {token.place} {token.length}" for token in tokens]
    parts.append("done" if stuck is None else f"stuck at {stuck}")
    return f"munch {len(word)} bytes -> {', '.join(parts)}"
