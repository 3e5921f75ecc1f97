"""Rule tables and their images, as docs/IMAGES.md defines them."""

from __future__ import annotations

from dataclasses import dataclass
from typing import Callable, Optional, Union

BYTES = 256
MOST_STATES = 128
MOST_CLASSES = 64

ENDS_EARLY = 1
BAD_CLASSES = 2
BAD_STATE_COUNT = 3
BAD_STEP_COUNT = 4
BAD_NEXT_STATE = 5
LEFT_OVER = 6

#: The layer that finds each fault.
FAULT_LAYERS: dict[int, str] = {
    ENDS_EARLY: "B",
    BAD_CLASSES: "L",
    BAD_STATE_COUNT: "L",
    BAD_STEP_COUNT: "L",
    BAD_NEXT_STATE: "L",
    LEFT_OVER: "L",
}

#: Each fault in words, as a refused load prints it.
FAULT_WORDS: dict[int, str] = {
    ENDS_EARLY: "image ends early",
    BAD_CLASSES: "first count not 256, or class above 63",
    BAD_STATE_COUNT: "number of states 0 or above 128",
    BAD_STEP_COUNT: "third count not states times classes",
    BAD_NEXT_STATE: "next state not below the number of states",
    LEFT_OVER: "bytes left over",
}


@dataclass(frozen=True)
class Fault:
    """What is wrong with an image, and the place that is told."""

    number: int
    place: int

    @property
    def layer(self) -> str:
        return FAULT_LAYERS[self.number]

    @property
    def words(self) -> str:
        return FAULT_WORDS[self.number]

    def __str__(self) -> str:
        return f"{self.words} (layer {self.layer}, number {self.number}, place {self.place})"


@dataclass(frozen=True)
class RuleTable:
    """A rule table: a class for each byte, a label for each state, and for each
    state its next states, one for each class."""

    classes: tuple[int, ...]
    labels: tuple[int, ...]
    steps: tuple[tuple[int, ...], ...]

    @property
    def states(self) -> int:
        return len(self.labels)

    def label(self, state: int) -> Optional[int]:
        """The label of a state, or None where there is no such state."""
        return self.labels[state] if state < self.states else None

    def next(self, state: int, byte: int) -> Optional[int]:
        """The next state of a state on a byte, or None where there is no such state."""
        return self.steps[state][self.classes[byte]] if state < self.states else None


def empty_table() -> RuleTable:
    """One state that does not accept, and that every byte leads back to."""
    return RuleTable((0,) * BYTES, (0,), ((0,),))


# The share table. Its classes are the kinds of bytes.
DIGIT, LETTER, BLANK, CR, LF, PERCENT, POINT, OTHER = range(8)

_SHARE_DEAD = 10

_SHARE_STEPS: dict[tuple[int, int], int] = {
    (0, DIGIT): 1,
    (0, LETTER): 4,
    (0, BLANK): 5,
    (0, CR): 6,
    (0, LF): 7,
    (0, PERCENT): 8,
    (0, POINT): 9,
    (1, DIGIT): 1,
    (1, POINT): 2,
    (2, DIGIT): 3,
    (3, DIGIT): 3,
    (4, LETTER): 4,
    (4, DIGIT): 4,
    (5, BLANK): 5,
    (6, LF): 7,
}

_SHARE_LABELS: dict[int, int] = {1: 1, 3: 1, 4: 2, 5: 3, 7: 4, 8: 5, 9: 6}


def kind(byte: int) -> int:
    """The kind of a byte in the share table."""
    if ord("0") <= byte <= ord("9"):
        return DIGIT
    if ord("A") <= byte <= ord("Z") or ord("a") <= byte <= ord("z"):
        return LETTER
    if byte in (ord(" "), ord("\t")):
        return BLANK
    return {13: CR, 10: LF, ord("%"): PERCENT, ord("."): POINT}.get(byte, OTHER)


def share_table() -> RuleTable:
    """The share table: numbers, names, blanks, line ends, percent and point."""
    states, kinds = range(11), range(8)
    return RuleTable(
        tuple(kind(b) for b in range(BYTES)),
        tuple(_SHARE_LABELS.get(s, 0) for s in states),
        tuple(tuple(_SHARE_STEPS.get((s, k), _SHARE_DEAD) for k in kinds) for s in states),
    )


class _Refused(Exception):
    """Ends the judging of an image at its first fault."""

    def __init__(self, number: int, place: int) -> None:
        self.fault = Fault(number, place)


class _Entries:
    """The entries of an image, taken from front to back."""

    def __init__(self, image: bytes) -> None:
        self.image = image
        self.place = 0

    def take(self, width: int, fault: int, in_order: Callable[[int], bool]) -> int:
        """The next entry. It must be there whole, and then in order."""
        start, end = self.place, self.place + width
        if end > len(self.image):
            raise _Refused(ENDS_EARLY, len(self.image))
        value = int.from_bytes(self.image[start:end], "big")
        if not in_order(value):
            raise _Refused(fault, start)
        self.place = end
        return value

    def count(self, fault: int, in_order: Callable[[int], bool]) -> int:
        return self.take(2, fault, in_order)

    def bytes(self, how_many: int, fault: int, in_order: Callable[[int], bool]) -> tuple[int, ...]:
        return tuple(self.take(1, fault, in_order) for _ in range(how_many))

    def end(self) -> None:
        if self.place < len(self.image):
            raise _Refused(LEFT_OVER, self.place)


def parse_image(image: bytes) -> Union[RuleTable, Fault]:
    """The table that an image writes down, or the fault that it has."""
    entries = _Entries(image)
    try:
        entries.count(BAD_CLASSES, lambda c: c == BYTES)
        classes = entries.bytes(BYTES, BAD_CLASSES, lambda c: c < MOST_CLASSES)
        k = max(classes) + 1
        n = entries.count(BAD_STATE_COUNT, lambda c: 1 <= c <= MOST_STATES)
        labels = entries.bytes(n, BAD_STATE_COUNT, lambda label: True)
        entries.count(BAD_STEP_COUNT, lambda c: c == n * k)
        steps = tuple(entries.bytes(k, BAD_NEXT_STATE, lambda s: s < n) for _ in range(n))
        entries.end()
    except _Refused as refused:
        return refused.fault
    return RuleTable(classes, labels, steps)


def _count(value: int) -> bytes:
    return value.to_bytes(2, "big")


def write_image(table: RuleTable) -> bytes:
    """The image of a table."""
    steps = b"".join(bytes(row) for row in table.steps)
    return b"".join(
        (
            _count(len(table.classes)),
            bytes(table.classes),
            _count(table.states),
            bytes(table.labels),
            _count(len(steps)),
            steps,
        )
    )


class TablesInHand:
    """The place for a loaded table, and which of the two tables is in hand."""

    def __init__(self) -> None:
        self.loaded = empty_table()
        self.share = share_table()
        self.is_share = False

    @property
    def table(self) -> RuleTable:
        return self.share if self.is_share else self.loaded

    @property
    def name(self) -> str:
        return "share table" if self.is_share else "loaded table"

    def take_share(self) -> None:
        self.is_share = True

    def load(self, image: bytes) -> Optional[Fault]:
        """Loads an image and takes the table in hand, or changes nothing and tells the fault."""
        judged = parse_image(image)
        if isinstance(judged, Fault):
            return judged
        self.loaded = judged
        self.is_share = False
        return None
