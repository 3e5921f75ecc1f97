"""Table images: good ones, cut ones and damaged ones."""

from __future__ import annotations

from random import Random
from typing import Iterator

from oracle.cases import Case, Suite, script_of
from oracle.generate import (
    ask_all,
    ask_labels,
    ask_size,
    ask_some,
    ask_steps,
    any_table,
    cut_lengths,
    damaged_classes,
    damaged_counts,
    damaged_steps,
    load_line,
    random_table,
    randomly_damaged,
    steps_place,
    with_byte,
)
from oracle.tables import Fault, RuleTable, empty_table, parse_image, share_table, write_image

#: Sizes of good images: states and classes.
SIZES = [(n, k) for n in (1, 2, 3, 16, 64, 127, 128) for k in (1, 2, 3, 16, 63, 64)]


def good_tables(random: Random) -> Iterator[RuleTable]:
    """Tables of all sizes."""
    yield empty_table()
    yield share_table()
    for states, classes in SIZES:
        yield random_table(random, states, classes)
    for states in range(1, 129):
        yield random_table(random, states, random.choice((1, 2, 5, random.randint(1, 64))))
    for classes in range(1, 65):
        yield random_table(random, random.randint(1, 9), classes)
        yield random_table(random, random.randint(1, 9), classes, unused=range(classes))
    for _ in range(40):
        yield any_table(random)


def small_tables(random: Random) -> list[RuleTable]:
    """Tables whose images are tried at every place."""
    return [empty_table(), random_table(random, 2, 2), random_table(random, 3, 4, unused=(1,))]


def large_tables(random: Random) -> list[RuleTable]:
    """Tables whose images are tried at a sample of places."""
    return [
        random_table(random, 128, 64),
        random_table(random, 128, 1),
        random_table(random, 1, 64),
        random_table(random, 127, 63, unused=range(40)),
        any_table(random),
    ]


def cut_images(random: Random) -> Iterator[bytes]:
    """Images that end early."""
    for table in small_tables(random):
        image = write_image(table)
        for length in range(len(image)):
            yield image[:length]
    for table in large_tables(random):
        image = write_image(table)
        for length in cut_lengths(random, table, image, 12):
            yield image[:length]


def damaged_images(random: Random) -> Iterator[bytes]:
    """Images with one entry changed."""
    for number, table in enumerate(small_tables(random)):
        image = write_image(table)
        yield from damaged_counts(table, image)
        places = range(2, 258) if number == 1 else random.sample(range(2, 258), 30)
        yield from damaged_classes(image, places)
        yield from damaged_steps(table, image, range(steps_place(table), len(image)))
    for table in large_tables(random):
        image = write_image(table)
        yield from damaged_counts(table, image)
        yield from damaged_classes(image, (2, 257, *random.sample(range(3, 257), 4)))
        first, end = steps_place(table), len(image)
        places = {first, end - 1, *random.sample(range(first, end), min(10, end - first))}
        yield from damaged_steps(table, image, sorted(places))
    table = random_table(random, 11, 8)
    image = write_image(table)
    yield from damaged_steps(table, image, range(steps_place(table), len(image)))


def long_images(random: Random) -> Iterator[bytes]:
    """Images with bytes left over."""
    for table in small_tables(random) + large_tables(random):
        image = write_image(table)
        for more in (1, 2, 18):
            yield image + bytes(more)
            yield image + random.randbytes(more)
    for table in small_tables(random):
        image = write_image(table)
        yield image + image
        yield image + bytes(8_000)
        yield image + random.randbytes(random.randint(100, 8_000))
    yield write_image(random_table(random, 128, 64)) + bytes(11_418)


def images_of_many_faults(random: Random) -> Iterator[bytes]:
    """Images with several entries changed, some of them also cut or too long."""
    for number in range(640):
        table = any_table(random, 128 if number % 8 == 0 else 6, 64 if number % 8 == 0 else 6)
        image = randomly_damaged(random, table, write_image(table), random.randint(1, 4))
        end = random.randrange(4)
        if end == 0:
            image = image[: random.randrange(len(image))]
        elif end == 1:
            image = image + random.randbytes(random.randint(1, 9))
        yield image


def images_of_no_shape(random: Random) -> Iterator[bytes]:
    """The empty image, every image of one byte, and random bytes."""
    yield b""
    for byte in range(256):
        yield bytes((byte,))
    for _ in range(40):
        yield random.randbytes(random.randint(2, 600))
    for _ in range(40):
        yield b"\1\0" + random.randbytes(random.randint(0, 600))
    for _ in range(40):
        classes = bytes(random.randrange(4) for _ in range(256))
        yield b"\1\0" + classes + b"\0" + random.randbytes(random.randint(0, 300))
    image = write_image(empty_table())
    for value in range(1, 256):
        yield with_byte(image, 263, value)


def _hand(random: Random) -> tuple[RuleTable, list[bytes], int]:
    """A table to have in hand, the lines that take it, and the number of images in them."""
    if random.randrange(2):
        return share_table(), [b"share"], 0
    table = any_table(random, 5, 4)
    return table, [load_line(write_image(table))], 1


def _load(random: Random, image: bytes) -> bytes:
    return load_line(image, random if random.randrange(10) == 0 else None)


def _case(random: Random, image: bytes) -> Case:
    """Loads an image over a table in hand, and asks about the one that is then in hand."""
    before, take, things = _hand(random)
    judged = parse_image(image)
    lines = take + [_load(random, image)]
    if isinstance(judged, Fault):
        lines += ask_some(random, before)
    else:
        lines += ask_some(random, judged) + [b"share", b"table"]
    return Case(script_of(lines), things + 1)


def cases(random: Random) -> Iterator[Case]:
    """All cases of the topic."""
    yield Case(script_of(ask_all(random, empty_table(), whole_states=1)), 0, alone=True)
    refused = [b"load", b"load 01", load_line(with_byte(write_image(empty_table()), 263, 1))]
    yield Case(script_of(refused + ask_all(random, empty_table())), 3, alone=True)
    for table in good_tables(random):
        lines = [_load(random, write_image(table))]
        lines += ask_all(random, table, whole_states=random.choice((0, 0, 0, 0, 1)))
        yield Case(script_of(lines))
    for table in (random_table(random, 128, 64), random_table(random, 7, 5)):
        pairs = [(s, b) for s in range(min(table.states, 12)) for b in range(256)]
        yield Case(script_of([load_line(write_image(table))] + ask_steps(pairs)))
    for _ in range(30):
        tables = [any_table(random, 9, 9) for _ in range(3)]
        lines = []
        for table in tables:
            lines += [load_line(write_image(table))] + ask_some(random, table)
            lines += [b"share"] + ask_size() + ask_labels(range(12))
            lines += [b"load 00"] + ask_size()
        lines += [load_line(write_image(tables[0]))] + ask_all(random, tables[0])
        yield Case(script_of(lines), 7)
    for make in (cut_images, damaged_images, long_images, images_of_many_faults, images_of_no_shape):
        for image in make(random):
            yield _case(random, image)


SUITE = Suite("images", "images", cases)
