"""Random tables, damaged images, and lines of script that ask about them."""

from __future__ import annotations

from random import Random
from typing import Iterable, Iterator, Optional

from oracle.tables import BYTES, RuleTable

#: Where the count of the second section stands, and where its labels begin.
STATE_COUNT_PLACE = 2 + BYTES
LABELS_PLACE = STATE_COUNT_PLACE + 2

#: States that no table has, besides the first two after its last one.
FAR_STATES = (127, 128, 255, 256, 2**63, 2**64 - 1)


# Tables.


def random_table(
    random: Random, states: int, classes: int, unused: Iterable[int] = ()
) -> RuleTable:
    """A table with so many states and classes; no byte has a class that is `unused`.

    The largest class is always used, as it must be.
    """
    unused = set(unused) - {classes - 1}
    used = [c for c in range(classes) if c not in unused]
    of_byte = [random.choice(used) for _ in range(BYTES)]
    for byte, one in zip(random.sample(range(BYTES), len(used)), used):
        of_byte[byte] = one
    return RuleTable(
        tuple(of_byte),
        tuple(random.choice((0, 1, 2, 127, 128, 255, random.randrange(256))) for _ in range(states)),
        tuple(
            tuple(random.choice((0, states - 1, random.randrange(states))) for _ in range(classes))
            for _ in range(states)
        ),
    )


def any_table(random: Random, most_states: int = 128, most_classes: int = 64) -> RuleTable:
    """A table of any size, with some classes that no byte has."""
    classes = random.randint(1, most_classes)
    unused = random.sample(range(classes), random.choice((0, 0, classes // 2, classes - 1)))
    return random_table(random, random.randint(1, most_states), classes, unused)


# Places and damage.


def step_count_place(table: RuleTable) -> int:
    """Where the count of the third section stands."""
    return LABELS_PLACE + table.states


def steps_place(table: RuleTable) -> int:
    """Where the next states begin."""
    return step_count_place(table) + 2


def borders(table: RuleTable) -> list[int]:
    """Where each section, each count and the image end."""
    classes = len(table.steps[0])
    return [
        0,
        2,
        STATE_COUNT_PLACE,
        LABELS_PLACE,
        step_count_place(table),
        steps_place(table),
        steps_place(table) + table.states * classes,
    ]


def with_byte(image: bytes, place: int, value: int) -> bytes:
    return image[:place] + bytes((value,)) + image[place + 1 :]


def with_count(image: bytes, place: int, value: int) -> bytes:
    return image[:place] + value.to_bytes(2, "big") + image[place + 2 :]


def damaged_counts(table: RuleTable, image: bytes) -> Iterator[bytes]:
    """The image with each count set to other values, and with its bytes changed one by one."""
    n, product = table.states, table.states * len(table.steps[0])
    tried = {
        0: (0, 1, 254, 255, 257, 512, 0x00FF, 0x0200, 0xFF00, 0xFFFF),
        STATE_COUNT_PLACE: (0, 1, 2, n - 1, n + 1, 127, 128, 129, 255, 256, 256 + n, 257, 0x8000, 0xFFFF),
        step_count_place(table): (
            0,
            1,
            n,
            len(table.steps[0]),
            product - 1,
            product,
            product + 1,
            product ^ 0x0100,
            product ^ 0x8000,
            (product & 0xFF) << 8 | product >> 8,
            product + 256,
            256,
            0xFFFF,
        ),
    }
    for place, values in tried.items():
        for value in sorted({v & 0xFFFF for v in values}):
            yield with_count(image, place, value)
        for each in (place, place + 1):
            for value in (0, 1, 255):
                yield with_byte(image, each, value)


def damaged_classes(image: bytes, places: Iterable[int]) -> Iterator[bytes]:
    """The image with each of the classes at these places too large, or the largest."""
    for place in places:
        for value in (63, 64, 255):
            yield with_byte(image, place, value)


def damaged_steps(table: RuleTable, image: bytes, places: Iterable[int]) -> Iterator[bytes]:
    """The image with each of the next states at these places the last one, and too large."""
    for place in places:
        for value in sorted({table.states - 1, table.states, 255}):
            yield with_byte(image, place, value)


def randomly_damaged(random: Random, table: RuleTable, image: bytes, times: int) -> bytes:
    """The image with so many entries changed, wherever they stand, most of them to be at fault."""
    for _ in range(times):
        what = random.randrange(6)
        if what == 0:
            image = with_count(image, 0, random.choice((0, 255, 257, random.randrange(65536))))
        elif what == 1:
            image = with_byte(image, 2 + random.randrange(BYTES), random.choice((63, 64, 255)))
        elif what == 2:
            image = with_count(image, STATE_COUNT_PLACE, random.choice((0, 129, table.states + 1, 1)))
        elif what == 3:
            image = with_count(image, step_count_place(table), random.randrange(65536))
        elif what == 4:
            at = random.randrange(steps_place(table), len(image))
            image = with_byte(image, at, random.choice((table.states, 255)))
        else:
            image = with_byte(image, random.randrange(len(image)), random.randrange(256))
    return image


def cut_lengths(random: Random, table: RuleTable, image: bytes, sample: int) -> list[int]:
    """Lengths to cut a large image at: all near the borders of sections, and a sample."""
    near = {b + d for b in borders(table) for d in range(-2, 3)}
    near.update(random.sample(range(len(image)), sample))
    return sorted(length for length in near if 0 <= length < len(image))


# Lines of script.


def hex_line(command: str, word: bytes, random: Optional[Random] = None) -> bytes:
    """A command with bytes. Where it is given a random source, the digits are in either
    case, and blanks stand between them at odd places too."""
    digits = word.hex()
    if random is None:
        return f"{command} {digits}".encode("ascii") if digits else command.encode("ascii")
    how = random.randrange(4)
    if how == 0:
        digits = digits.upper()
    elif how == 1:
        digits = "".join(random.choice((d, d.upper())) for d in digits)
    width = random.choice((1, 2, 3, 7, 32, 501, len(digits) + 1))
    parts = [digits[i : i + width] for i in range(0, len(digits), width)]
    blank = random.choice((" ", "\t", "\r", "  ", " \t\r"))
    return (command + "".join(blank + part for part in parts)).encode("ascii")


def load_line(image: bytes, random: Optional[Random] = None) -> bytes:
    """The command that loads the image."""
    return hex_line("load", image, random)


def munch_line(word: bytes, random: Optional[Random] = None) -> bytes:
    """The command that cuts the bytes."""
    return hex_line("munch", word, random)


def ask_labels(states: Iterable[int]) -> list[bytes]:
    return [b"label %d" % state for state in states]


def ask_steps(pairs: Iterable[tuple[int, int]]) -> list[bytes]:
    return [b"next %d %d" % pair for pair in pairs]


def ask_size() -> list[bytes]:
    return [b"table", b"states"]


def ask_all(random: Random, table: RuleTable, whole_states: int = 0) -> list[bytes]:
    """Every kind of question about the table in hand: all labels, some steps, and those
    past its end; of `whole_states` states the steps on all bytes."""
    n = table.states
    past = (n, n + 1, *FAR_STATES)
    pairs = [(random.randrange(n), random.randrange(BYTES)) for _ in range(6)]
    pairs += [(0, 0), (n - 1, 255)]
    pairs += [(state, random.randrange(BYTES)) for state in past]
    for state in random.sample(range(n), min(whole_states, n)):
        pairs += [(state, byte) for byte in range(BYTES)]
    return ask_size() + ask_labels((*range(n), *past)) + ask_steps(pairs)


def ask_some(random: Random, table: RuleTable) -> list[bytes]:
    """A few questions, enough to tell the table from another one."""
    n = table.states
    labels = random.sample(range(n), min(n, 4))
    pairs = [(random.randrange(n), random.randrange(BYTES)) for _ in range(4)]
    return ask_size() + ask_labels((*labels, n)) + ask_steps((*pairs, (n, 0)))
