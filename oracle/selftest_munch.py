"""Tests of the model of munch, settling and reach: examples made by hand, and small tables on
which what is quick is compared with the definitions."""

from __future__ import annotations

import sys
import unittest
from pathlib import Path
from random import Random
from typing import Iterator, Optional

sys.path.insert(0, str(Path(__file__).resolve().parent.parent))

from oracle import suite_graphs, suite_munch  # noqa: E402
from oracle.graphs import Chart  # noqa: E402
from oracle.munch import Munch, Token, munch, munch_answer  # noqa: E402
from oracle.reach import (  # noqa: E402
    chain_graph,
    has_chain,
    has_no_token,
    is_tokenless,
    reach,
    reach_by_chains,
)
from oracle.settling import Cutting, Endings, Settled, endings, lateness, one_byte_of_each_class  # noqa: E402
from oracle.tables import RuleTable, empty_table, parse_image, share_table, write_image  # noqa: E402

NUMBER, NAME, BLANKS, LINE_END, PERCENT, POINT = range(1, 7)

SHARE = Chart(share_table())
NO_REACH = Chart(suite_munch.no_reach_table())

#: The start accepts rule 9, and every byte leads to a state that leads nowhere else.
CLOSED_START = Chart(RuleTable((0,) * 256, (9, 0), ((1,), (1,))))


def small_table(random: Random) -> RuleTable:
    """A table of 2 to 5 states with 2 or 3 classes. In most of them some bytes lead to a state
    that leads nowhere else, so that some states are closed."""
    states, classes = random.randint(2, 5), random.randint(2, 3)
    how = random.randrange(4)
    if how == 0:
        rows = suite_graphs.some_rows(random, states, classes, range(states))
    elif how == 1:
        far = (0, 1, 1, 1, 4)
        rows = [[min(state + random.choice(far), states - 1) for _ in range(classes)] for state in range(states)]
    else:
        last = states - 1
        rows = suite_graphs.some_rows(random, last, classes, (*range(states), last)) + [[last] * classes]
    accepting = [state for state in range(states) if random.randrange(5) < 2]
    return suite_graphs.table_of(random, suite_graphs.some_labels(random, states, accepting), rows)


def small_tables(seed: int, count: int) -> Iterator[tuple[Random, RuleTable]]:
    random = Random(seed)
    for _ in range(count):
        yield random, small_table(random)


class Tokens(unittest.TestCase):
    def cut(self, chart: Chart, word: bytes, *tokens: tuple[int, int, int], stuck: Optional[int] = None) -> None:
        """Munch of a word, plain and by walks."""
        self.assertEqual(munch(chart.table, word), (tokens, stuck))
        self.assertEqual(Cutting(chart, word).finished, Munch(tuple(Token(*token) for token in tokens), stuck))

    def test_share_lists(self) -> None:
        self.cut(SHARE, b"")
        self.cut(SHARE, b"12", (NUMBER, 0, 2))
        self.cut(SHARE, b"12.", (NUMBER, 0, 2), (POINT, 2, 1))
        self.cut(SHARE, b"12.%", (NUMBER, 0, 2), (POINT, 2, 1), (PERCENT, 3, 1))
        self.cut(SHARE, b"12.5.%", (NUMBER, 0, 4), (POINT, 4, 1), (PERCENT, 5, 1))
        self.cut(SHARE, b"a1 \t7", (NAME, 0, 2), (BLANKS, 2, 2), (NUMBER, 4, 1))
        self.cut(SHARE, b"%\r\n\n", (PERCENT, 0, 1), (LINE_END, 1, 2), (LINE_END, 3, 1))
        self.cut(SHARE, b"\r", stuck=0)
        self.cut(SHARE, b"\rA", stuck=0)
        self.cut(SHARE, b"7_7", (NUMBER, 0, 1), stuck=1)

    def test_other_tables(self) -> None:
        self.cut(NO_REACH, b"abd", (1, 0, 1), stuck=1)
        self.cut(NO_REACH, b"aabbca", (1, 0, 1), (2, 1, 4), (1, 5, 1))
        for chart in (Chart(empty_table()), CLOSED_START):
            self.cut(chart, b"")
            self.cut(chart, b"x", stuck=0)

    def test_a_token_has_at_least_one_byte(self) -> None:
        self.assertEqual(CLOSED_START.table.label(0), 9)
        self.cut(CLOSED_START, b"ab", stuck=0)

    def test_lines(self) -> None:
        table = share_table()
        self.assertEqual(munch_answer(table, b""), "munch 0 bytes -> done")
        self.assertEqual(munch_answer(table, b"\r"), "munch 1 bytes -> stuck at 0")
        self.assertEqual(munch_answer(table, b"12.%"), "munch 4 bytes -> 1 0 2, 6 2 1, 5 3 1, done")
        self.assertEqual(munch_answer(table, b"12_"), "munch 3 bytes -> 1 0 2, stuck at 2")


class Settling(unittest.TestCase):
    def settles(self, chart: Chart, word: bytes, *late: int, stuck: Optional[int] = None) -> None:
        """Before the finish the first tokens of munch are settled, each so late, and the cutting
        waits, or it is stuck at a place."""
        tokens = munch(chart.table, word).tokens[: len(late)]
        cutting = Cutting(chart, word)
        self.assertEqual(cutting.settled, Settled(tokens, stuck))
        self.assertEqual(lateness(tokens, cutting.points), list(late))

    def finishes(self, chart: Chart, word: bytes, *late: int) -> None:
        """Once the input is finished, the tokens are each so late."""
        self.assertEqual(lateness(munch(chart.table, word).tokens, Cutting(chart, word).final_points), list(late))

    def test_share_lists(self) -> None:
        self.settles(SHARE, b"")
        self.finishes(SHARE, b"")
        self.settles(SHARE, b"12")
        self.finishes(SHARE, b"12", 0)
        self.settles(SHARE, b"12.")
        self.finishes(SHARE, b"12.", 1, 0)
        self.settles(SHARE, b"12.%", 2, 1, 0)
        self.finishes(SHARE, b"12.%", 2, 1, 0)
        self.settles(SHARE, b"\r")
        self.finishes(SHARE, b"\r")
        self.settles(SHARE, b"\rA", stuck=0)
        self.finishes(SHARE, b"\rA")
        self.settles(SHARE, b"7%_", 1, 0, stuck=2)

    def test_a_table_with_no_reach(self) -> None:
        self.settles(NO_REACH, b"ab")
        self.settles(NO_REACH, b"abd", 2, stuck=1)
        self.finishes(NO_REACH, b"abd", 2)
        self.settles(NO_REACH, b"a" + b"b" * 50 + b"d", 51, stuck=1)
        self.settles(NO_REACH, b"a" + b"b" * 50 + b"c", 0)

    def test_with_no_byte_left_nothing_is_settled(self) -> None:
        for chart in (Chart(empty_table()), CLOSED_START):
            self.assertNotIn(0, chart.open)
            self.settles(chart, b"")
            self.settles(chart, b"x", stuck=0)
            self.assertEqual(Endings(chart.table).settled(b""), ((), None))
            self.assertEqual(Endings(chart.table).settled(b"x"), ((), 0))
        self.settles(SHARE, b"%", 0)

    def test_the_examples_by_the_definition(self) -> None:
        """From every open state of these tables one byte leads to an accepting state, so that
        endings of two bytes are more than enough."""
        examples = [(SHARE, word) for word in suite_munch.SHARE_WORDS] + [(NO_REACH, b"abd")]
        for chart, word in examples:
            self.compare(chart, Endings(chart.table, 2), word)

    def compare(self, chart: Chart, brute: Endings, word: bytes) -> list[int]:
        """Compares the walks with the definitions, and gives how late the tokens are."""
        cutting = Cutting(chart, word)
        told = f"{chart.table.labels} {chart.table.steps} {[chart.table.classes[byte] for byte in word]}"
        self.assertEqual(cutting.settled, brute.settled(word), told)
        self.assertEqual(cutting.finished, munch(chart.table, word), told)
        self.assertEqual(cutting.points, brute.points(word), told)
        self.assertEqual(cutting.final_points, brute.final_points(word), told)
        late = lateness(cutting.settled.tokens, cutting.points)
        late += lateness(cutting.finished.tokens, cutting.final_points)
        self.assertGreaterEqual(min(late, default=0), 0, told)
        return late

    def test_small_tables_by_the_definition(self) -> None:
        """The settled tokens and their settling points. No token is later than the reach, either."""
        seen: set[int] = set()
        for random, table in small_tables(21, 2_500):
            chart = Chart(table)
            most = reach(chart)
            brute = Endings(table)
            word = bytes(random.choices(one_byte_of_each_class(table), k=random.choice((1, 2, 3, 4, 5, 5))))
            late = self.compare(chart, brute, word)
            if most is not None:
                self.assertLessEqual(max(late, default=0), most)
            seen.update(late)
        self.assertLessEqual({0, 1, 2, 3}, seen)

    def test_all_words_on_a_few_tables(self) -> None:
        for _, table in small_tables(22, 40):
            chart, brute = Chart(table), Endings(table)
            for word in endings(one_byte_of_each_class(table), 3):
                self.compare(chart, brute, word)

    def test_longer_endings_alter_nothing(self) -> None:
        for random, table in small_tables(23, 100):
            word = bytes(random.choices(one_byte_of_each_class(table), k=random.randint(0, 4)))
            longer = Endings(table, table.states + 1)
            self.assertEqual(Endings(table).settled(word), longer.settled(word))


class Reaches(unittest.TestCase):
    def test_tables_made_by_hand(self) -> None:
        for chart, greatest in ((SHARE, 2), (NO_REACH, None), (Chart(empty_table()), 0), (CLOSED_START, 0)):
            self.assertEqual(reach(chart), greatest)
            self.assertEqual(reach_by_chains(chart.table), greatest)

    def test_chains(self) -> None:
        self.assertEqual([has_chain(share_table(), length) for length in (1, 2, 3)], [True, True, False])
        self.assertTrue(all(has_chain(NO_REACH.table, length) for length in range(1, 20)))
        self.assertEqual(str(chain_graph(SHARE).path(1, 10)), "1 1 10")
        self.assertIsNone(chain_graph(SHARE).path(0, 1))

    def test_a_cycle_that_no_chain_comes_to(self) -> None:
        """Open states that do not accept and lead round, but only before the first token."""
        steps = ((0, 1, 2), (2, 2, 2), (2, 2, 2))
        table = RuleTable((0,) * 97 + (1, 2) + (0,) * 157, (0, 1, 0), steps)
        self.assertEqual((reach(Chart(table)), reach_by_chains(table)), (0, 0))

    def test_tokenless(self) -> None:
        for chart, none in ((SHARE, False), (NO_REACH, False), (Chart(empty_table()), True), (CLOSED_START, True)):
            self.assertEqual((is_tokenless(chart), has_no_token(chart.table)), (none, none))

    def test_small_tables_by_the_definition(self) -> None:
        seen: dict[Optional[int], int] = {}
        for _, table in small_tables(24, 3_000):
            chart = Chart(table)
            greatest = reach(chart)
            self.assertEqual(greatest, reach_by_chains(table), f"{table.labels} {table.steps}")
            self.assertEqual(is_tokenless(chart), has_no_token(table))
            seen[greatest] = seen.get(greatest, 0) + 1
        for greatest, fewest in ((None, 100), (0, 100), (1, 100), (2, 100), (3, 10)):
            self.assertGreaterEqual(seen[greatest], fewest, greatest)


class Suites(unittest.TestCase):
    def test_the_tables(self) -> None:
        tables = list(suite_munch.tables(Random(25)))
        self.assertGreaterEqual(len(tables), 300)
        self.assertTrue(all(parse_image(write_image(table)) == table for table in tables))


if __name__ == "__main__":
    unittest.main()
