"""Open states, paths and cycles, on tables of many shapes."""

from __future__ import annotations

from random import Random
from typing import Callable, Iterable, Iterator, Sequence

from oracle.cases import Case, Suite, script_of
from oracle.generate import FAR_STATES, load_line, random_table
from oracle.tables import BYTES, RuleTable, empty_table, share_table, write_image

#: The next states of each state, one for each class.
Rows = Sequence[Sequence[int]]

#: Where the bytes lead that do not lead along a chain.
ASIDE: dict[str, Callable[[int, int], int]] = {
    "stay": lambda state, states: state,
    "first": lambda state, states: 0,
    "last": lambda state, states: states - 1,
    "back": lambda state, states: max(state, 1) - 1,
    "along": lambda state, states: (state + 1) % states,
}


# Tables.


def table_of(random: Random, labels: Sequence[int], rows: Rows) -> RuleTable:
    """A table with these labels and next states. Each class has a byte at least: either
    the first has all the others, or they are shared out."""
    classes = len(rows[0])
    few = random.randrange(2)
    of_byte = [0 if few else random.randrange(classes) for _ in range(BYTES)]
    for one, byte in enumerate(random.sample(range(BYTES), classes)):
        of_byte[byte] = one
    return RuleTable(tuple(of_byte), tuple(labels), tuple(tuple(row) for row in rows))


def renumbered(table: RuleTable, number: Sequence[int]) -> RuleTable:
    """The table with another number for each state."""
    old = sorted(range(table.states), key=lambda state: number[state])
    return RuleTable(
        table.classes,
        tuple(table.labels[state] for state in old),
        tuple(tuple(number[after] for after in table.steps[state]) for state in old),
    )


def mixed(random: Random, table: RuleTable) -> RuleTable:
    """The table with its states in another order, but for the start."""
    others = range(1, table.states)
    return renumbered(table, [0, *random.sample(others, len(others))])


def some_rows(random: Random, states: int, classes: int, among: Sequence[int]) -> list[list[int]]:
    """So many rows with any of these next states."""
    return [[random.choice(among) for _ in range(classes)] for _ in range(states)]


def some_labels(random: Random, states: int, accepting: Iterable[int]) -> list[int]:
    """A rule for each of these states, and 0 for the others."""
    chosen = set(accepting)
    return [random.choice((1, 2, 128, 255)) if state in chosen else 0 for state in range(states)]


def few_accepting(random: Random, states: int) -> RuleTable:
    """Any next states, and few accepting states."""
    accepting = random.sample(range(states), min(states, random.choice((0, 1, 1, 2, 1 + states // 8))))
    rows = some_rows(random, states, random.randint(1, 3), range(states))
    return table_of(random, some_labels(random, states, accepting), rows)


def chain(random: Random, states: int) -> RuleTable:
    """A chain with one accepting state, wherever it stands."""
    return chain_of(random, states, random.choice(list(ASIDE)), [random.randrange(states)])


def chain_of(random: Random, states: int, aside: str, accepting: Iterable[int]) -> RuleTable:
    """One state after another, each of which leads aside too; the last one only leads aside."""
    lead = ASIDE[aside]
    rows = [[lead(state, states), state + 1] for state in range(states - 1)] + [[lead(states - 1, states)] * 2]
    return table_of(random, some_labels(random, states, accepting), rows)


def falling(random: Random, states: int) -> RuleTable:
    """No byte leads to a state before, and most lead near by."""
    far = (0, 1, 1, 1, 2, 3)
    rows = [[min(states - 1, state + random.choice(far)) for _ in range(3)] for state in range(states)]
    accepting = random.sample(range(states), min(states, 2))
    return mixed(random, table_of(random, some_labels(random, states, accepting), rows))


def self_loops(random: Random, states: int) -> RuleTable:
    """Every byte leads back to where it was read, but for a few."""
    rows = [[state, state, state] for state in range(states)]
    for _ in range(random.choice((0, 0, 1, 2))):
        random.choice(rows)[random.randrange(3)] = random.randrange(states)
    accepting = random.sample(range(states), random.randint(0, states))
    return table_of(random, some_labels(random, states, accepting), rows)


def apart(random: Random, states: int) -> RuleTable:
    """Accepting states that are reached only from themselves, or not at all."""
    border = random.randint(1, states)
    rows = some_rows(random, states, 3, range(border))
    for state in range(border, states):
        if random.randrange(2):
            rows[state][random.randrange(3)] = state
    return mixed(random, table_of(random, some_labels(random, states, range(border, states)), rows))


def closed_start(random: Random, states: int) -> RuleTable:
    """The start leads into a part with no accepting state; it may accept, where nothing leads to it."""
    border = random.randint(1, states)
    inside = range(1, border) if border > 1 else [0]
    rows = some_rows(random, border, 3, inside) + some_rows(random, states - border, 3, range(states))
    accepting = {state for state in range(border, states) if random.randrange(3) == 0}
    if border > 1 and random.randrange(2):
        accepting.add(0)
        rows = [[1 if after == 0 else after for after in row] for row in rows]
    return mixed(random, table_of(random, some_labels(random, states, accepting), rows))


def tokenless(random: Random, states: int) -> RuleTable:
    """No accepting state at all."""
    return table_of(random, [0] * states, some_rows(random, states, random.randint(1, 4), range(states)))


def rings(random: Random, states: int) -> RuleTable:
    """States that lead round in rings, and one accepting state."""
    rows: list[list[int]] = []
    while len(rows) < states:
        first = len(rows)
        size = random.randint(1, states - first)
        rows += [[first + (place + 1) % size] for place in range(size)]
    return mixed(random, table_of(random, some_labels(random, states, [random.randrange(states)]), rows))


def class_of_no_byte(random: Random, states: int) -> RuleTable:
    """Accepting states to which only a class leads that no byte has."""
    border = random.randint(1, states)
    rows = [[random.randrange(border), random.randrange(states), random.randrange(border)] for _ in range(states)]
    of_byte = [random.choice((0, 2)) for _ in range(BYTES)]
    of_byte[random.randrange(BYTES)] = 2
    labels = some_labels(random, states, range(border, states))
    return RuleTable(tuple(of_byte), tuple(labels), tuple(tuple(row) for row in rows))


SHAPES: tuple[Callable[[Random, int], RuleTable], ...] = (
    few_accepting,
    chain,
    falling,
    self_loops,
    apart,
    closed_start,
    tokenless,
    rings,
    class_of_no_byte,
)


def long_chains(random: Random) -> Iterator[RuleTable]:
    """Chains of as many states as there can be, from front to back, the other way and mixed."""
    states = 128
    for aside in ASIDE:
        for accepting in ([states - 1], [states // 2], []):
            table = chain_of(random, states, aside, accepting)
            yield table
            yield renumbered(table, range(states - 1, -1, -1))
            yield mixed(random, table)


def tables(random: Random) -> Iterator[RuleTable]:
    """Tables of all sizes and shapes; most of them are small."""
    yield empty_table()
    yield share_table()
    yield from long_chains(random)
    for states in range(1, 129):
        yield random_table(random, states, random.randint(1, 6))
    for shape in SHAPES:
        for number in range(96):
            yield shape(random, 1 + number % 12)
        for states in (31, 64, 127, 128):
            yield shape(random, states)


# Lines of script.


def open_lines(states: Iterable[int]) -> list[bytes]:
    return [b"open %d" % state for state in states]


def search_lines(pairs: Iterable[tuple[int, int]]) -> list[bytes]:
    return [b"search %d %d" % pair for pair in pairs]


def ask_graph(random: Random, table: RuleTable, all_pairs: int = 3) -> list[bytes]:
    """Asks of every state whether it is open, for some paths and for a cycle, and past the
    end of the table. Where there are no more states than `all_pairs`, for all paths."""
    n = table.states
    far = random.choice(FAR_STATES)
    if n <= all_pairs:
        pairs = [(start, end) for start in range(n) for end in range(n)]
    else:
        pairs = [(random.randrange(n), random.randrange(n)) for _ in range(4)]
        pairs += [(0, n - 1), (n - 1, 0), (0, 0), (random.randrange(n),) * 2]
    pairs += [(n, 0), (0, n), (n, n), (far, random.randrange(n)), (random.randrange(n), far)]
    return open_lines((*range(n), n, n + 1, far)) + search_lines(pairs) + [b"find"]


def changed_tables(random: Random) -> Iterator[Case]:
    """Tables that are replaced, and ones that stay in hand since a load is refused."""
    for _ in range(20):
        lines: list[bytes] = []
        for _ in range(3):
            table = random.choice(SHAPES)(random, random.randint(1, 9))
            lines += [load_line(write_image(table))] + ask_graph(random, table)
            lines += [b"load 01"] + ask_graph(random, table)
            lines += [b"share"] + open_lines(range(12)) + [b"load", b"find"] + open_lines((0, 8))
        yield Case(script_of(lines), 3)


def cases(random: Random) -> Iterator[Case]:
    """All cases of the topic."""
    yield Case(script_of(ask_graph(random, empty_table())), alone=True)
    yield Case(script_of([b"load 01"] + ask_graph(random, empty_table())), alone=True)
    yield Case(script_of([b"share"] + ask_graph(random, share_table(), all_pairs=11)))
    for table in tables(random):
        lines = ask_graph(random, table)
        if random.randrange(4) == 0:
            random.shuffle(lines)
        yield Case(script_of([load_line(write_image(table))] + lines))
    yield from changed_tables(random)


SUITE = Suite("graphs", "tables", cases)
