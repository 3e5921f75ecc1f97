"""Maximal munch, on tables of many shapes and on share lists."""

from __future__ import annotations

from random import Random
from typing import Iterator

from oracle.cases import Case, Suite, script_of
from oracle.generate import load_line, munch_line, random_table
from oracle.graphs import Chart
from oracle.suite_graphs import SHAPES, mixed, some_labels, some_rows, table_of
from oracle.tables import BYTES, RuleTable, empty_table, share_table, write_image

#: Words for the share table whose tokens are settled in different ways.
SHARE_WORDS = (b"", b"12", b"12.", b"12.%", b"\r", b"\rA")

#: What share lists are made of, and what damages them.
NAMES = (b"A", b"m1", b"motor", b"Left2", b"x9y", b"Z" * 30)
NUMBERS = (b"0", b"7", b"12", b"100", b"12.5", b"0.25", b"3.", b"99.99", b"5.5.5", b"1" * 40)
BLANKS = (b" ", b"  ", b"\t", b" \t ", b"")
LINE_ENDS = (b"\n", b"\r\n", b"\n\r\n")
DAMAGE = (b"\r", b".", b"..", b"%%", b"_", b"-", b"\xff", b"\0", b"\r\r\n", b"12.", b"1.x")

#: How long the words are.
LENGTHS = (0, 1, 1, 2, 2, 3, 4, 5, 6, 8, 11, 16, 23, 40, 64)


# Tables.


def no_reach_table() -> RuleTable:
    """Rule 1 is `a`, and rule 2 is `a`, any number of `b`, and `c`. The token `a` may be
    settled any number of bytes past its end."""
    classes = {ord("a"): 1, ord("b"): 2, ord("c"): 3}
    return RuleTable(
        tuple(classes.get(byte, 0) for byte in range(BYTES)),
        (0, 1, 0, 2, 0),
        ((4, 1, 4, 4), (4, 4, 2, 3), (4, 4, 2, 3), (4, 4, 4, 4), (4, 4, 4, 4)),
    )


def with_sink(random: Random, states: int) -> RuleTable:
    """Any next states and labels, and a last state that does not accept and leads back to
    itself; many bytes lead there."""
    sink = states - 1
    classes = random.randint(2, 4)
    rows = some_rows(random, 1, classes, range(states))
    rows += some_rows(random, sink - 1, classes, (*range(1, states), *[sink] * (states // 2)))
    accepting = [state for state in range(sink) if random.randrange(2)]
    return table_of(random, some_labels(random, states, accepting), [*rows, [sink] * classes])


def layered(random: Random, states: int) -> RuleTable:
    """States in a row: each leads on, or to a last state that leads nowhere else. Some accept."""
    last = states - 1
    rows = [[min(state + 1, last), random.choice((last, min(state + 2, last))), last] for state in range(states)]
    accepting = random.sample(range(last), random.randint(1, min(3, last)))
    return mixed(random, table_of(random, some_labels(random, states, accepting), rows))


def tables(random: Random) -> Iterator[RuleTable]:
    """Tables of all shapes; most of them are small."""
    for shape in (with_sink, layered):
        for number in range(150):
            yield shape(random, 2 + number % 9)
        for states in (31, 64, 128):
            yield shape(random, states)
    for shape in SHAPES:
        for number in range(12):
            yield shape(random, 1 + number % 12)
        yield shape(random, 128)
    for number in range(60):
        yield random_table(random, 1 + number % 20, random.randint(1, 6))


# Words.


class Words:
    """A source of words for a table."""

    def __init__(self, random: Random, table: RuleTable) -> None:
        self.random = random
        self.chart = Chart(table)
        of_class: dict[int, list[int]] = {}
        for byte, one in enumerate(table.classes):
            of_class.setdefault(one, []).append(byte)
        self._classes = list(of_class.values())

    def byte(self) -> int:
        """Any byte, of each class as often as of another."""
        return self.random.choice(self.random.choice(self._classes))

    def any(self, length: int) -> bytes:
        """Any bytes."""
        return bytes(self.byte() for _ in range(length))

    def good(self, length: int) -> bytes:
        """Bytes that mostly lead on to states that accept or are open, and then from the start
        again."""
        table = self.chart.table
        word = bytearray()
        state = 0
        while len(word) < length:
            for _ in range(6):
                byte = self.byte()
                after = table.steps[state][table.classes[byte]]
                if table.labels[after] or after in self.chart.open:
                    break
            word.append(byte)
            ends = after not in self.chart.open or (table.labels[after] and self.random.randrange(3) == 0)
            state = 0 if ends else after
        return bytes(word)

    def some(self) -> Iterator[bytes]:
        """Words of many lengths."""
        yield b""
        for length in self.random.sample(LENGTHS, 5):
            yield self.any(length)
        for length in self.random.sample(LENGTHS, 7):
            yield self.good(length)


def share_list(random: Random, lines: int, damage: int) -> bytes:
    """So many lines of a share list, with a piece of damage in one of so many places; with
    0 there is none."""
    pieces: list[bytes] = []
    for _ in range(lines):
        pieces += [random.choice(NAMES), random.choice(BLANKS), random.choice(NUMBERS), random.choice(BLANKS)]
        pieces += [random.choice((b"%", b"%", b"")), random.choice(LINE_ENDS)]
    if damage:
        pieces = [random.choice(DAMAGE) if random.randrange(damage) == 0 else piece for piece in pieces]
    return b"".join(pieces)


def share_words(random: Random) -> Iterator[bytes]:
    """Share lists, whole and damaged ones, cut off anywhere, and any bytes."""
    yield from SHARE_WORDS
    for number in range(200):
        word = share_list(random, random.randrange(8), (0, 40, 10)[number % 3])
        yield word if random.randrange(2) else word[: random.randint(0, len(word))]
    words = Words(random, share_table())
    for _ in range(100):
        yield words.any(random.choice(LENGTHS))
    for byte in range(BYTES):
        yield bytes((byte,))
    for lines, damage in ((100, 0), (100, 0), (100, 500)):
        yield share_list(random, lines, damage)


# Cases.


def cases(random: Random) -> Iterator[Case]:
    """All cases of the topic."""
    for word in (b"", b"\0", b"a", b"12.%"):
        yield Case(munch_line(word), alone=True)
    yield Case(script_of([b"share"] + [munch_line(word) for word in SHARE_WORDS]), len(SHARE_WORDS), alone=True)
    for word in share_words(random):
        yield Case(script_of([b"share", munch_line(word, random)]))
    words = [b"abd", b"abc", b"a", b"", b"b", b"ab", b"abbbbbb", b"aabcabbc", b"a" + b"b" * 400 + b"c", b"ac" * 200]
    words += map(Words(random, no_reach_table()).good, LENGTHS)
    lines = [munch_line(word) for word in words]
    yield Case(script_of([load_line(write_image(no_reach_table()))] + lines), len(lines))
    for table in (empty_table(), share_table(), *tables(random)):
        lines = [munch_line(word, random) for word in Words(random, table).some()]
        yield Case(script_of([load_line(write_image(table))] + lines), len(lines))
    for _ in range(20):
        table = with_sink(random, random.randint(2, 9))
        lines = [munch_line(word) for word in (*Words(random, table).some(), b"12.%")]
        changed = [load_line(write_image(table)), *lines, b"load 01", *lines, b"share", *lines]
        yield Case(script_of(changed), 3 * len(lines))


SUITE = Suite("munch", "words", cases)
