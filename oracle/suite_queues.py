"""Queues of bytes: rings and straight ones, small ones and ones at the limit."""

from __future__ import annotations

from random import Random
from typing import Iterable, Iterator

from oracle.cases import Case, Suite, script_of
from oracle.queues import LETTERS, MOST_ELEMENTS, Queue
from oracle.script import MOST_MEMORY
from oracle.suite_script import NO_NUMBERS, NUMBERS

KINDS = tuple(kind.encode("ascii") for kind in LETTERS)

#: Numbers that are above every count. Some come back to 0 or to a small number in
#: fewer bits, or where a place of the memory is added to them.
FAR = (2**20, 2**31, 2**32, 2**32 + 1, 2**63, 2**64 - 9, 2**64 - 2, 2**64 - 1, 2**64 - 1, 2**64 - 1)

#: How often each command comes, while a queue is filled, or emptied. One that is moved
#: along is filled until it is full, and emptied as long as it is.
COMMANDS = ("put", "drop", "element", "count", "limit", "other")
FILLED = (40, 4, 8, 3, 1, 1)
EMPTIED = (4, 40, 8, 3, 1, 1)

NO_KINDS = [
    b"square", b"Ring", b"RING", b"rings", b"rin", b"r", b"R", b"S", b"Straight", b"STRAIGHT", b"straights",
    b"straigh", b"strait", b"ring,", b"ring#", b"#ring", b"#", b"0", b"4", b"ringstraight", b"ring\0", b"\0",
    b"ring\x0b", b"\xff", b"r\xc3\xaeng", b"'ring'", b"ring=4", b"queue", b"none", b"x" * 5000,
]  # fmt: skip

#: Lengths of memory near those that matter, and ones that are small in fewer bits.
LENGTHS = [
    b"0", b"1", b"4", b"0004", b"1048575", b"1048576", b"1048577", b"2097151", b"2097152", b"0002097152",
    b"2097153", b"0002097153", b"2097154", b"4194304", b"4294967296", b"4294967300", b"9223372036854775808",
    b"18446744073709551615", b"18446744073709551616", b"18446744073709551620", b"x", b"-1", b"4x", b"#",
]  # fmt: skip

#: Lines that are no call of a queue, and leave it as it is.
OTHER_LINES = [
    b"queue", b"queue ring", b"queue square 4", b"queue ring x", b"queue straight 2097153", b"queue ring 1 2",
    b"put", b"put 256", b"put 1 2", b"drop", b"drop -1", b"drop 1 1", b"element", b"element x", b"count 1",
    b"limit 1", b"puts 1", b"# put 1", b"", b"share", b"load", b"load 01",
]  # fmt: skip


def queue_line(kind: bytes, length: int) -> bytes:
    return b"queue %b %d" % (kind, length)


def put_lines(values: Iterable[int]) -> list[bytes]:
    return [b"put %d" % value for value in values]


def element_lines(places: Iterable[int]) -> list[bytes]:
    return [b"element %d" % place for place in places]


def read_out(count: int) -> list[bytes]:
    """Asks for the count, all elements, and the first place past them."""
    return [b"count"] + element_lines(range(count + 1))


# Sequences.


def _some_count(random: Random, count: int) -> int:
    """How many elements to drop: often one or two, and often all or one too many."""
    counts = (0, 1, 1, 1, 1, 1, 2, 2, 2, 3, count, count, count + 1, count + 1)
    return random.choice((*counts, random.randint(0, count), random.choice(FAR)))


def _some_place(random: Random, count: int, length: int) -> int:
    """A place to ask for, often one at either end or past it."""
    places = (0, 0, max(count, 1) - 1, max(count, 1) - 1, count, count, count + 1, length, random.choice(FAR))
    return random.choice((*places, random.randint(0, length), random.randint(0, length)))


def sequence(random: Random, length: int, commands: int, read_outs: int = 8) -> list[bytes]:
    """So many commands to an empty queue over memory of some length, of either kind. All
    elements are read out at the end, and after about one in `read_outs` commands."""
    queue = Queue("ring", length)
    lines: list[bytes] = []
    value, mood = random.randrange(256), "moved"
    for number in range(commands):
        if number % 8 == 7:
            mood = random.choice(("filled", "emptied", "moved", "moved", "moved"))
        emptied = mood == "emptied" or (mood == "moved" and queue.count == queue.limit)
        command = random.choices(COMMANDS, EMPTIED if emptied else FILLED)[0]
        if command == "put":
            value = (value + random.choice((1, 1, 1, 85, 255))) % 256
            queue.put(value)
            lines.append(b"put %d" % value)
        elif command == "drop":
            count = _some_count(random, queue.count)
            queue.drop(count)
            lines.append(b"drop %d" % count)
        elif command == "element":
            lines.append(b"element %d" % _some_place(random, queue.count, length))
        elif command == "other":
            lines.append(random.choice(OTHER_LINES))
        else:
            lines.append(command.encode("ascii"))
        if random.randrange(read_outs) == 0:
            lines += read_out(queue.count)
    return lines + read_out(queue.count)


def _on_both(random: Random, length: int, commands: list[bytes]) -> list[bytes]:
    """The same commands to a queue of each kind, in either order."""
    lines: list[bytes] = []
    for kind in random.sample(KINDS, len(KINDS)):
        lines += [queue_line(kind, length), b"limit"] + commands
    return lines


def sequences(random: Random) -> Iterator[Case]:
    """Random sequences on small memory, each on both kinds."""
    for number in range(2_000):
        length = number % 10
        commands = sequence(random, length, random.randint(20, 60))
        yield Case(script_of(_on_both(random, length, commands)))


def long_sequences(random: Random) -> Iterator[Case]:
    """Longer sequences, and ones on more memory."""
    for length in (*range(1, 10), 15, 16, 17, 31, 32, 33):
        for _ in range(2):
            commands = sequence(random, length, 500, read_outs=40)
            yield Case(script_of(_on_both(random, length, commands)))
    for length in (127, 128, 255, 256, 257, 1000):
        lines: list[bytes] = []
        count = 0
        for _ in range(5):
            lines += put_lines(random.choices(range(256), k=length - count + 2)) + read_out(length)
            count = random.randint(0, length // 2)
            lines += [b"drop %d" % (length - count), b"drop %d" % (count + 1), b"count", b"element 0"]
            lines += element_lines((max(count, 1) - 1, count, *FAR))
        yield Case(script_of(_on_both(random, length, lines)))


def replaced_queues(random: Random) -> Iterator[Case]:
    """Queues that are replaced in the middle of a script; nothing is left of the old ones."""
    for _ in range(300):
        lines: list[bytes] = []
        for _ in range(random.randint(2, 4)):
            length = random.randrange(10)
            lines += [queue_line(random.choice(KINDS), length), b"limit"] + read_out(0) + [b"drop 1"]
            commands = sequence(random, length, random.randint(20, 60))
            lines += commands[: random.randint(5, len(commands))]
        yield Case(script_of(lines))
    for kind in KINDS:
        for other in KINDS:
            for length in (0, 1, 3):
                lines = [queue_line(kind, 3)] + put_lines((7, 8, 9, 10)) + [b"drop 1"] + put_lines((11, 12))
                lines += [queue_line(other, length), b"limit"] + read_out(0) + put_lines((1, 2, 3, 4))
                yield Case(script_of(lines + read_out(length)))


# Scripts.


def first_queues() -> Iterator[Case]:
    """The queue that is there at first, and scripts whose last line ends with the input."""
    asks = read_out(0) + [b"limit", b"drop 0", b"drop 1", b"put 0", b"put 255", b"element 18446744073709551615"]
    yield Case(script_of(asks + read_out(0)), alone=True)
    yield Case(script_of([b"queue square 4", b"queue ring 2097153", b"queue straight"] + asks), alone=True)
    tables = [b"share", b"load 01", b"table", b"next 0 97"]
    yield Case(script_of(tables + asks + [b"queue ring 2", b"put 7"] + tables + read_out(1)), alone=True)
    for line in (b"count", b"limit", b"element 0", b"put 7", b"drop 0", b"drop 1", b"queue straight 1"):
        for end in (b"", b"\r", b" \t", b" x"):
            yield Case(line + end, alone=True)
            yield Case(b"queue straight 1\n" + line + end, alone=True)


def mistaken_lines() -> Iterator[bytes]:
    """Each command with good and bad words, in each place."""
    for word in NUMBERS + NO_NUMBERS:
        for command in (b"element ", b"put ", b"drop ", b"queue ring ", b"queue straight "):
            yield command + word
        yield b"queue " + word + b" 4"
    for command in (b"queue", b"count", b"limit", b"element", b"put", b"drop"):
        yield command
        for more in range(1, 5):
            for word in (b"1", b"x", b"#", b"300", b"ring", b"straight", b"square"):
                yield command + (b" " + word) * more
        for other in (command.upper(), command.capitalize(), command + b"s", command[:-1], command + b"\0"):
            yield other + b" ring 1"
            yield other + b" 1"
            yield other
    for kind in NO_KINDS:
        for length in (b"4", b"x", b"2097153", b"18446744073709551616"):
            yield b"queue " + kind + b" " + length
        yield b"queue " + kind
        yield b"queue " + kind + b" 4 4"
    for kind in KINDS:
        for length in LENGTHS:
            yield b"queue " + kind + b" " + length
            yield b"queue " + length + b" " + kind
        yield b"queue " + kind + b" 4 # a comment"
        yield b"\t queue \r" + kind + b"\t\t4\r"
    yield from (b" put\t7 \r", b"\rdrop \t 1", b"element" + b" " * 17_000 + b"1", b"drop " + b"1 " * 8_000)


def mistakes() -> Iterator[Case]:
    """Each line on a queue of each kind, and what is then in hand."""
    for line in mistaken_lines():
        lines: list[bytes] = []
        for kind in KINDS:
            lines += [queue_line(kind, 4)] + put_lines((7, 8)) + [line, b"limit"] + read_out(3)
            lines += put_lines((10, 11, 12)) + read_out(5) + [b"drop 1", b"count"]
        yield Case(script_of(lines))


# At the limit.


def near_the_limit() -> Iterator[Case]:
    """What is told of queues over as much memory as there can be elements, and more."""
    for kind in KINDS:
        for length in (2**16, 2**20 - 1, 2**20, 2**20 + 1, MOST_MEMORY - 1, MOST_MEMORY):
            lines = [queue_line(kind, length), b"limit"] + read_out(0) + put_lines((7, 8, 9))
            lines += [b"drop 1", b"drop 3", b"limit"] + read_out(2)
            yield Case(script_of(lines + element_lines((length - 1, length, MOST_ELEMENTS))))


def _ask_ends(random: Random, count: int, near: Iterable[int] = ()) -> list[bytes]:
    """The limit, the count, and elements at both ends, past them, near some places and anywhere."""
    places = {0, 1, 2, count - 2, count - 1, count, count + 1, 2**20, 1_050_000, *FAR}
    places.update(place + more for place in near for more in range(-2, 3))
    places.update(random.choices(range(count), k=2_000))
    return [b"limit", b"count"] + element_lines(sorted(places))


def at_the_limit(random: Random) -> Iterator[Case]:
    """Queues that have as many elements as there can be, over a little more memory."""
    length, limit = 1_050_000, MOST_ELEMENTS
    puts = [b"put %d\n" % value for value in range(256)]

    def filled(kind: bytes) -> bytes:
        values = b"".join([puts[value] for value in random.randbytes(limit)])
        return queue_line(kind, length) + b"\n" + values + script_of([b"put 7"] + _ask_ends(random, limit))

    # The ring comes to the end of its memory, or to the limit, some 50,000 elements later.
    dropped, added = 1_000_000, 100_000
    left = limit - dropped
    full = [b"drop %d" % (limit + 1), b"count", b"drop %d" % dropped]
    full += _ask_ends(random, left)
    full += [b"put %d" % value for value in random.randbytes(added)]
    full += _ask_ends(random, left + added, near=(left, length - dropped))
    full += [b"drop %d" % (length - dropped - 1)]
    count = left + added - (length - dropped - 1)
    full += _ask_ends(random, count) + [b"drop %d" % (count + 1), b"drop %d" % count] + read_out(0)
    full += put_lines((1, 2, 3)) + read_out(3)
    yield Case(filled(b"ring") + script_of(full), big=True)

    # A drop moves all elements of a straight queue, so that there are few of them.
    full = [b"drop %d" % (limit + 1), b"drop 0", b"count", b"drop 3"] + put_lines((1, 2, 3, 4))
    full += _ask_ends(random, limit) + [b"drop 700000"] + _ask_ends(random, limit - 700_000)
    full += put_lines((5, 6)) + _ask_ends(random, limit - 700_000 + 2)
    full += [b"drop %d" % (limit - 700_000 + 3), b"drop %d" % (limit - 700_000 + 2)] + read_out(0)
    full += put_lines((1, 2, 3)) + read_out(3)
    yield Case(filled(b"straight") + script_of(full), big=True)


def cases(random: Random) -> Iterator[Case]:
    """All cases of the topic."""
    yield from first_queues()
    yield from mistakes()
    yield from sequences(random)
    yield from long_sequences(random)
    yield from replaced_queues(random)
    yield from near_the_limit()
    yield from at_the_limit(random)


SUITE = Suite("queues", "scripts", cases)
