"""Tests of the model itself, on tables, images, graphs, queues and scripts made by hand."""

from __future__ import annotations

import contextlib
import io
import sys
import tempfile
import unittest
from pathlib import Path
from random import Random

sys.path.insert(0, str(Path(__file__).resolve().parent.parent))

from oracle import compare_replay, suite_graphs  # noqa: E402
from oracle.answers import Tested, examples, is_right  # noqa: E402
from oracle.cases import Case, Suite  # noqa: E402
from oracle.generate import any_table, cut_lengths, load_line, random_table, with_byte, with_count  # noqa: E402
from oracle.graphs import (  # noqa: E402
    Graph,
    Walk,
    find_answer,
    forward_graph,
    open_states,
    read_walk,
    search_answer,
)
from oracle.queues import LETTERS, Queue, Refusal  # noqa: E402
from oracle.script import COMMANDS, Replay, expected  # noqa: E402
from oracle.tables import (  # noqa: E402
    FAULT_LAYERS,
    FAULT_WORDS,
    Fault,
    RuleTable,
    empty_table,
    parse_image,
    share_table,
    write_image,
)

EMPTY = bytes.fromhex("0100" + "00" * 256 + "0001" + "00" + "0001" + "00")

#: Two states, two classes: byte 97 has class 1, all others class 0. State 1 accepts
#: rule 7. In state 0 the byte 97 leads to 1; everything else leads to 0.
TWO = bytes.fromhex("0100" + "00" * 97 + "01" + "00" * 158 + "0002" + "0007" + "0004" + "00010000")


class Images(unittest.TestCase):
    def fault(self, image: bytes, number: int, place: int) -> None:
        self.assertEqual(parse_image(image), Fault(number, place))

    def test_the_empty_table(self) -> None:
        self.assertEqual(len(EMPTY), 264)
        self.assertEqual(write_image(empty_table()), EMPTY)
        self.assertEqual(parse_image(EMPTY), empty_table())
        table = empty_table()
        self.assertEqual((table.states, table.label(0), table.label(1)), (1, 0, None))
        self.assertEqual({table.next(0, byte) for byte in range(256)}, {0})
        self.assertIsNone(table.next(1, 0))

    def test_a_table_of_two_states(self) -> None:
        table = parse_image(TWO)
        assert isinstance(table, RuleTable)
        self.assertEqual(table.states, 2)
        self.assertEqual([table.label(s) for s in range(3)], [0, 7, None])
        self.assertEqual([table.next(0, b) for b in (0, 96, 97, 98, 255)], [0, 0, 1, 0, 0])
        self.assertEqual([table.next(1, b) for b in (96, 97, 98)], [0, 0, 0])
        self.assertIsNone(table.next(2, 97))
        self.assertEqual(write_image(table), TWO)

    def test_ends_early(self) -> None:
        for image in (EMPTY, TWO):
            for length in range(len(image)):
                self.fault(image[:length], 1, length)

    def test_the_first_count(self) -> None:
        for value in (0, 1, 255, 257, 512, 0xFFFF):
            self.fault(with_count(EMPTY, 0, value), 2, 0)
        self.fault(b"\0\0", 2, 0)
        self.fault(b"\0", 1, 1)

    def test_a_class(self) -> None:
        for place in (2, 100, 257):
            self.fault(with_byte(EMPTY, place, 64), 2, place)
            self.fault(with_byte(EMPTY, place, 255)[: place + 1], 2, place)
            self.fault(with_byte(EMPTY, place, 63), 4, 261)

    def test_the_number_of_states(self) -> None:
        for value in (0, 129, 256, 257, 0xFFFF):
            self.fault(with_count(EMPTY, 258, value), 3, 258)
            self.fault(with_count(EMPTY, 258, value)[:260], 3, 258)
            self.fault(with_count(EMPTY, 258, value)[:259], 1, 259)
        self.fault(with_count(EMPTY, 258, 128), 1, 264)

    def test_the_third_count(self) -> None:
        for value in (0, 2, 3, 5, 0x0400, 0xFFFF):
            self.fault(with_count(TWO, 262, value), 4, 262)
        self.fault(with_count(TWO, 262, 5)[:264], 4, 262)
        self.fault(with_count(TWO, 262, 5)[:263], 1, 263)

    def test_a_next_state(self) -> None:
        self.fault(EMPTY[:-1] + b"\1", 5, 263)
        for place in range(264, 268):
            self.fault(with_byte(TWO, place, 2), 5, place)
            self.fault(with_byte(TWO, place, 255)[: place + 1], 5, place)
            self.assertIsInstance(parse_image(with_byte(TWO, place, 1)), RuleTable)

    def test_left_over(self) -> None:
        for more in (b"\0", b"\1\0", EMPTY):
            self.fault(EMPTY + more, 6, 264)
            self.fault(TWO + more, 6, 268)

    def test_the_first_fault_decides(self) -> None:
        image = with_byte(with_count(with_byte(TWO, 264, 9), 262, 9), 50, 64)
        self.fault(image, 2, 50)
        self.fault(with_byte(image, 50, 0), 4, 262)
        self.fault(with_byte(with_count(image, 262, 4), 50, 0) + b"\0", 5, 264)

    def test_a_class_that_no_byte_has(self) -> None:
        table = RuleTable((2,) * 256, (1,), ((0, 0, 0),))
        self.assertEqual(parse_image(write_image(table)), table)
        self.assertEqual(len(write_image(table)), 262 + 1 + 3)

    def test_write_then_parse(self) -> None:
        random = Random(5)
        tables = [any_table(random) for _ in range(60)]
        tables += [random_table(random, n, k) for n in (1, 128) for k in (1, 64)]
        for table in tables:
            image = write_image(table)
            self.assertEqual(len(image), 262 + table.states * (1 + len(table.steps[0])))
            self.assertEqual(parse_image(image), table)
            self.fault(image + b"\0", 6, len(image))
            for length in cut_lengths(random, table, image, 2):
                self.fault(image[:length], 1, length)

    def test_sizes(self) -> None:
        random = Random(6)
        self.assertEqual(len(write_image(random_table(random, 1, 1))), 264)
        self.assertEqual(len(write_image(random_table(random, 128, 64))), 8582)

    def test_each_fault_has_its_words(self) -> None:
        self.assertEqual(set(FAULT_WORDS), set(range(1, 7)))
        self.assertEqual(set(FAULT_LAYERS), set(range(1, 7)))
        self.assertEqual([n for n in FAULT_LAYERS if FAULT_LAYERS[n] == "B"], [1])


class Share(unittest.TestCase):
    def run_on(self, text: bytes) -> int:
        """The state after a text."""
        table, state = share_table(), 0
        for byte in text:
            after = table.next(state, byte)
            assert after is not None
            state = after
        return state

    def test_steps(self) -> None:
        ends = {
            b"": 0, b"7": 1, b"70": 1, b"7.": 2, b"7.5": 3, b"7.55": 3, b"7.5.": 10, b"7..": 10, b"a": 4,
            b"Zz9": 4, b"a.": 10, b" ": 5, b"\t ": 5, b" a": 10, b"\r": 6, b"\r\n": 7, b"\r\r": 10, b"\n": 7,
            b"\n\n": 10, b"%": 8, b"%%": 10, b".": 9, b".5": 10, b"_": 10, b"\xff": 10, b"_a": 10, b"7a": 10,
        }  # fmt: skip
        for text, state in ends.items():
            self.assertEqual(self.run_on(text), state, text)

    def test_labels_and_size(self) -> None:
        table = share_table()
        self.assertEqual(table.states, 11)
        self.assertEqual([table.label(s) for s in range(12)], [0, 1, 0, 1, 2, 3, 0, 4, 5, 6, 0, None])

    def test_it_can_be_loaded(self) -> None:
        self.assertEqual(parse_image(write_image(share_table())), share_table())


class OpenStates(unittest.TestCase):
    def test_tables_made_by_hand(self) -> None:
        self.assertEqual(open_states(empty_table()), set())
        self.assertEqual(open_states(share_table()), {0, 1, 2, 3, 4, 5, 6})
        table = parse_image(TWO)
        assert isinstance(table, RuleTable)
        self.assertEqual(open_states(table), {0, 1})

    def test_by_words(self) -> None:
        """The states after words of one byte, of two, and so on."""
        random = Random(8)
        for _ in range(100):
            table = random.choice(suite_graphs.SHAPES)(random, random.randint(1, 6))
            for state in range(table.states):
                reached: set[int] = set()
                front = {state}
                while front:
                    front = {after for s in front for b in range(256) if (after := table.next(s, b)) not in reached}
                    reached |= front
                self.assertEqual(state in open_states(table), any(table.label(s) for s in reached))

    def test_shapes(self) -> None:
        random = Random(9)
        for states in (*range(1, 10), 128):
            for aside in suite_graphs.ASIDE:
                self.assertEqual(open_states(suite_graphs.chain_of(random, states, aside, [])), set())
                for one in {0, states // 2, states - 1}:
                    count = {"stay": one + 1, "last": states if one == states - 1 else one}.get(aside, states)
                    table = suite_graphs.chain_of(random, states, aside, [one])
                    self.assertEqual(open_states(table), set(range(count)))
            for _ in range(5):
                self.assertEqual(open_states(suite_graphs.tokenless(random, states)), set())
                self.assertEqual(open_states(suite_graphs.class_of_no_byte(random, states)), set())
                self.assertNotIn(0, open_states(suite_graphs.closed_start(random, states)))
                table = suite_graphs.apart(random, states)
                after = forward_graph(table).after
                self.assertEqual(open_states(table), {s for s in range(states) if table.labels[s] and s in after[s]})

    def test_renumbered(self) -> None:
        table = RuleTable((0,) * 256, (0, 5, 9), ((1,), (2,), (2,)))
        self.assertEqual(
            suite_graphs.renumbered(table, [2, 0, 1]), RuleTable((0,) * 256, (5, 9, 0), ((1,), (1,), (0,)))
        )


#: Three nodes in a row, and one that leads to the last of them; some slots lead nowhere.
ROW = Graph(((1, None), (None, 2), (None, None), (2, 2)))

#: A ring of three nodes with a way across, and one that leads into it and to itself.
RING = Graph(((1, 2), (2, None), (0, None), (0, 3)))


class Graphs(unittest.TestCase):
    def test_a_walk(self) -> None:
        walk = Walk(7, ((0, 2), (255, 7)))
        self.assertEqual((str(walk), walk.last, walk.length), ("7 0 2 255 7", 7, 2))
        self.assertEqual(list(walk.steps()), [(7, 0, 2), (2, 255, 7)])
        self.assertEqual(read_walk("7 0 2 255 7"), walk)
        self.assertEqual(read_walk("12"), Walk(12))
        bad = ("", " ", "7 0", "7  0 2", "7 0 2 ", " 7", "07", "7 00 2", "-7", "+7", "7 0 x", "7,0,2", "7\t0 2", "7\n")
        for text in (*bad, "\u0661", "9" * 5000):
            self.assertIsNone(read_walk(text), text)

    def test_edges(self) -> None:
        self.assertEqual([ROW.leads(0, slot) for slot in (0, 1, 2, 2**64)], [1, None, None, None])
        self.assertEqual([ROW.leads(node, 0) for node in range(6)], [1, None, None, 2, None, None])
        graph = forward_graph(share_table())
        for state in range(12):
            for byte in range(256):
                self.assertEqual(graph.leads(state, byte), share_table().next(state, byte))

    def test_paths(self) -> None:
        self.assertEqual(ROW.path(0, 2), Walk(0, ((0, 1), (1, 2))))
        for start, end in ((0, 0), (2, 2), (1, 0), (2, 0), (0, 3), (4, 0), (0, 4), (9, 9)):
            self.assertIsNone(ROW.path(start, end))
        self.assertEqual(RING.path(0, 2), Walk(0, ((1, 2),)))
        self.assertEqual(RING.path(1, 1), Walk(1, ((0, 2), (0, 0), (0, 1))))
        self.assertEqual(RING.path(3, 3), Walk(3, ((1, 3),)))
        self.assertIsNone(RING.path(0, 3))

    def test_cycles_and_longest_paths(self) -> None:
        self.assertIsNone(ROW.cycle())
        self.assertEqual(ROW.longest(), Walk(0, ((0, 1), (1, 2))))
        self.assertEqual(Graph(((None,), ())).longest(), Walk(0))
        self.assertEqual(RING.cycle(), Walk(0, ((1, 2), (0, 0))))
        self.assertEqual(forward_graph(empty_table()).cycle(), Walk(0, ((255, 0),)))

    def test_every_table_has_a_cycle(self) -> None:
        random = Random(10)
        for _ in range(200):
            table = random.choice(suite_graphs.SHAPES)(random, random.randint(1, 20))
            self.assertIsNotNone(forward_graph(table).cycle())


class TestedLines(unittest.TestCase):
    def allows(self, line: object, *texts: str) -> None:
        assert isinstance(line, Tested)
        self.assertEqual(line.fault(line.example()), "")
        for text in texts:
            self.assertEqual(line.fault(text.encode() + b"\n"), "", text)
            self.assertTrue(is_right(line, text.encode() + b"\n"))

    def refuses(self, line: object, texts: dict[str, str]) -> None:
        assert isinstance(line, Tested)
        for text, why in texts.items():
            self.assertEqual(line.fault(text.encode() + b"\n"), why, text)
            self.assertFalse(is_right(line, text.encode() + b"\n"))

    def test_a_search(self) -> None:
        line = search_answer(RING, 0, 2)
        self.allows(line, "search 0 2 -> path 0 1 2", "search 0 2 -> path 0 0 1 0 2")
        self.allows(line, "search 0 2 -> path 0 1 2 0 0 1 2")
        form = "it is not of this form"
        self.refuses(
            line,
            {
                "search 0 2 -> none": form,
                "search 0 2 -> path": form,
                "search 0 2 -> path ": form,
                "search 0 2 -> path 0 1": form,
                "search 0 2 -> path 0 1 2 ": form,
                "search 0 2 -> path  0 1 2": form,
                "search 0 2 -> path 0 01 2": form,
                "search 0 2 -> 0 1 2": form,
                "search 0 2 -> path 0 1 2\n": form,
                "search 0 2 ->path 0 1 2": form,
                "search 2 0 -> path 0 1 2": form,
                "search 0 2 -> cycle 0 1 2": form,
                "Search 0 2 -> path 0 1 2": form,
                "": form,
                "search 0 2 -> path 4 1 2": "there is no node 4",
                "search 0 2 -> path 0 0 2": "slot 0 of node 0 does not lead to node 2",
                "search 0 2 -> path 0 2 2": "slot 2 of node 0 does not lead to node 2",
                "search 0 2 -> path 0 0 1 1 2": "slot 1 of node 1 does not lead to node 2",
                "search 0 2 -> path 0 1 2 0 4": "slot 0 of node 2 does not lead to node 4",
                "search 0 2 -> path 0": "it leads from node 0 to node 0",
                "search 0 2 -> path 0 0 1": "it leads from node 0 to node 1",
                "search 0 2 -> path 1 0 2": "it leads from node 1 to node 2",
                "search 0 2 -> path 0 1 2 0 0": "it leads from node 0 to node 0",
                "search 0 2 -> path 0 0 1 0 2 0 0 0 1 0 2": "it has 5 edges",
            },
        )
        assert isinstance(line, Tested)
        self.assertEqual(line.fault(line.example().rstrip()), form)

    def test_a_search_for_the_node_itself(self) -> None:
        line = search_answer(RING, 0, 0)
        self.allows(line, "search 0 0 -> path 0 1 2 0 0", "search 0 0 -> path 0 0 1 0 2 0 0")
        self.refuses(line, {"search 0 0 -> path 0": "it has 0 edges", "search 0 0 -> none": "it is not of this form"})

    def test_no_path(self) -> None:
        for start, end in ((0, 3), (4, 0), (0, 4), (2**64 - 1, 2**64 - 1)):
            self.assertEqual(search_answer(RING, start, end), f"search {start} {end} -> none")
        self.assertEqual(search_answer(ROW, 0, 0), "search 0 0 -> none")

    def test_a_cycle(self) -> None:
        line = find_answer(RING)
        self.allows(line, "find -> cycle 0 1 2 0 0", "find -> cycle 2 0 0 0 1 0 2", "find -> cycle 3 1 3")
        self.refuses(
            line,
            {
                "find -> cycle 0": "it has 0 edges",
                "find -> cycle 0 1 2": "it leads from node 0 to node 2",
                "find -> cycle 3 0 0": "it leads from node 3 to node 0",
                "find -> cycle 3 1 3 1 3 1 3 1 3 1 3": "it has 5 edges",
                "find -> cycle 0 0 2 0 0": "slot 0 of node 0 does not lead to node 2",
                "find -> cycle 4 0 4": "there is no node 4",
                "find -> longest path 0 1 2": "it is not of this form",
                "find -> none": "it is not of this form",
                "find -> 3 1 3": "it is not of this form",
            },
        )

    def test_a_longest_path(self) -> None:
        line = find_answer(ROW)
        self.allows(line, "find -> longest path 0 0 1 1 2")
        self.refuses(
            line,
            {
                "find -> longest path 1 1 2": "it has 1 edges",
                "find -> longest path 0": "it has 0 edges",
                "find -> longest path 0 0 1 0 2": "slot 0 of node 1 does not lead to node 2",
                "find -> cycle 0 0 1 1 2": "it is not of this form",
            },
        )
        self.allows(find_answer(Graph(((None,), ()))), "find -> longest path 0", "find -> longest path 1")
        self.refuses(find_answer(Graph(((None,), ()))), {"find -> longest path 2": "there is no node 2"})

    def test_a_text(self) -> None:
        self.assertTrue(is_right(b"open 0 -> no\n", b"open 0 -> no\n"))
        self.assertFalse(is_right(b"open 0 -> no\n", b"open 0 -> no"))
        self.assertFalse(is_right(b"open 0 -> no\n", b"open 0 -> yes\n"))


class Queues(unittest.TestCase):
    def has(self, queue: Queue, *elements: int) -> None:
        """The queue has these elements and no more."""
        count = len(elements)
        self.assertEqual(queue.count, count)
        self.assertEqual([queue.element(place) for place in range(count + 2)], [*elements, None, None])
        self.assertIsNone(queue.element(2**64 - 1))

    def test_a_ring_of_four(self) -> None:
        queue = Queue("ring", 4)
        self.assertEqual(queue.limit, 4)
        self.has(queue)
        for byte in (1, 2, 3, 4):
            self.assertIsNone(queue.put(byte))
        self.assertEqual(queue.put(5), Refusal(8, "R"))
        self.has(queue, 1, 2, 3, 4)
        self.assertIsNone(queue.drop(2))
        self.has(queue, 3, 4)
        for byte in (5, 6):
            self.assertIsNone(queue.put(byte))
        self.assertEqual(queue.put(7), Refusal(8, "R"))
        self.has(queue, 3, 4, 5, 6)
        for byte in range(7, 20):
            self.assertIsNone(queue.drop(1))
            self.assertIsNone(queue.put(byte))
            self.has(queue, byte - 3, byte - 2, byte - 1, byte)
        self.assertIsNone(queue.drop(4))
        self.has(queue)

    def test_letters(self) -> None:
        self.assertEqual(LETTERS, {"ring": "R", "straight": "S"})
        for kind, letter in LETTERS.items():
            queue = Queue(kind, 1)
            self.assertIsNone(queue.put(255))
            self.assertEqual(queue.put(0), Refusal(8, letter))
            self.assertEqual(str(queue.put(0)), f"queue full (number 8, letter {letter})")
            self.has(queue, 255)

    def test_drop_beyond(self) -> None:
        for kind in LETTERS:
            queue = Queue(kind, 4)
            self.assertIsNone(queue.drop(0))
            for byte in (7, 8, 9):
                queue.put(byte)
            for count in (4, 5, 2**32, 2**64 - 1):
                self.assertEqual(queue.drop(count), Refusal(9))
                self.assertEqual(str(queue.drop(count)), "drop beyond the count (number 9)")
                self.has(queue, 7, 8, 9)
            self.assertIsNone(queue.drop(0))
            self.has(queue, 7, 8, 9)
            self.assertIsNone(queue.drop(3))
            self.has(queue)
            self.assertEqual(queue.drop(1), Refusal(9))

    def test_no_memory(self) -> None:
        for kind, letter in LETTERS.items():
            queue = Queue(kind, 0)
            self.assertEqual(queue.limit, 0)
            self.assertEqual(queue.put(1), Refusal(8, letter))
            self.assertEqual(queue.drop(1), Refusal(9))
            self.assertIsNone(queue.drop(0))
            self.has(queue)

    def test_limits(self) -> None:
        for length, limit in ((1_048_575, 1_048_575), (1_048_576, 1_048_576), (1_048_577, 1_048_576)):
            self.assertEqual(Queue("ring", length).limit, limit)
        self.assertEqual(Queue("straight", 2_097_152).limit, 1_048_576)


class Scripts(unittest.TestCase):
    def prints(self, script: bytes, *lines: str) -> None:
        self.assertEqual(expected(script), [line.encode("ascii") + b"\n" for line in lines])

    def test_each_command(self) -> None:
        self.prints(b"table\nstates\n", "table -> loaded table, states 1", "states -> 1")
        self.prints(b"share\ntable\n", "share -> ok", "table -> share table, states 11")
        self.prints(b"share\nnext 0 97\nnext 11 97\n", "share -> ok", "next 0 97 -> 4", "next 11 97 -> none")
        self.prints(b"label 0\nlabel 1", "label 0 -> 0", "label 1 -> none")
        self.prints(load_line(TWO) + b"\nlabel 1\n", "load 268 bytes -> ok", "label 1 -> 7")

    def test_each_command_of_a_chart(self) -> None:
        self.prints(b"open 0\nopen 01\nsearch 00 1", "open 0 -> no", "open 1 -> none", "search 0 1 -> none")
        self.prints(
            b"share\nopen 6\nopen 7\nopen 11\nsearch 7 0\nload\nopen 6\n",
            "share -> ok",
            "open 6 -> yes",
            "open 7 -> no",
            "open 11 -> none",
            "search 7 0 -> none",
            f"load 0 bytes -> refused: {Fault(1, 0)}",
            "open 6 -> yes",
        )
        script = b"share\nopen 1\n" + load_line(TWO) + b"\nopen 1\nopen 2\nshare\nopen 2\n"
        opened = [line for line in expected(script) if isinstance(line, bytes) and line.startswith(b"open")]
        self.assertEqual(opened, [b"open 1 -> yes\n", b"open 1 -> yes\n", b"open 2 -> none\n", b"open 2 -> yes\n"])
        lines = expected(b"find\nsearch 0 0\nshare\nsearch 0 7\nfind\n")
        right = (
            b"find -> cycle 0 9 0\n", b"search 0 0 -> path 0 0 0\n", b"share -> ok\n",
            b"search 0 7 -> path 0 13 6 10 7\n", b"find -> cycle 10 0 10\n",
        )  # fmt: skip
        for line, actual in zip(lines, right, strict=True):
            self.assertTrue(is_right(line, actual), actual)

    def test_each_command_of_a_queue(self) -> None:
        self.prints(
            b"queue ring 02\nlimit\ncount\nput 007\nput 8\nput 9\nelement 01\nelement 2\n",
            "queue ring 2 -> ok",
            "limit -> 2",
            "count -> 0",
            "put 7 -> ok",
            "put 8 -> ok",
            "put 9 -> refused: queue full (number 8, letter R)",
            "element 1 -> 8",
            "element 2 -> none",
        )
        self.prints(
            b"queue straight 1\nput 7\nput 8\ndrop 2\ncount\ndrop 01\ncount\n",
            "queue straight 1 -> ok",
            "put 7 -> ok",
            "put 8 -> refused: queue full (number 8, letter S)",
            "drop 2 -> refused: drop beyond the count (number 9)",
            "count -> 1",
            "drop 1 -> ok",
            "count -> 0",
        )

    def test_the_queue_at_first(self) -> None:
        self.prints(
            b"limit\ncount\nelement 0\ndrop 0\ndrop 1\nput 0",
            "limit -> 0",
            "count -> 0",
            "element 0 -> none",
            "drop 0 -> ok",
            "drop 1 -> refused: drop beyond the count (number 9)",
            "put 0 -> refused: queue full (number 8, letter R)",
        )

    def test_a_new_queue_takes_the_place_of_the_old_one(self) -> None:
        script = b"queue ring 2\nput 7\nqueue ring 2\ncount\nelement 0\nqueue straight 0\nput 7\n"
        self.prints(
            script,
            "queue ring 2 -> ok",
            "put 7 -> ok",
            "queue ring 2 -> ok",
            "count -> 0",
            "element 0 -> none",
            "queue straight 0 -> ok",
            "put 7 -> refused: queue full (number 8, letter S)",
        )

    def test_a_mistake_leaves_the_queue_as_it_was(self) -> None:
        lines = {
            b"queue square 4": "no such kind", b"queue Ring 4": "no such kind", b"queue 4 ring": "no such kind",
            b"queue square x": "no such kind", b"queue square 2097153": "no such kind",
            b"queue r\xffng 4": "no such kind", b"queue ring x": "not a number", b"queue ring -1": "not a number",
            b"queue ring 18446744073709551616": "not a number", b"queue ring 2097153": "too much memory",
            b"queue straight 18446744073709551615": "too much memory", b"queue": "too few words",
            b"queue square": "too few words", b"queue square x 1": "too many words", b"put 256": "not a byte",
            b"put -1": "not a byte", b"put": "too few words", b"put 1 2": "too many words", b"drop -1": "not a number",
            b"drop 18446744073709551616": "not a number", b"element x": "not a number", b"element": "too few words",
            b"count 1": "too many words", b"limit #": "too many words", b"Put 1": "no such command",
        }  # fmt: skip
        for line, mistake in lines.items():
            script = b"queue straight 1\nput 7\n" + line + b"\nelement 0\nput 8\n"
            answers = ["queue straight 1 -> ok", "put 7 -> ok", f"line 3: {mistake}", "element 0 -> 7"]
            self.prints(script, *answers, "put 8 -> refused: queue full (number 8, letter S)")

    def test_the_most_memory(self) -> None:
        for kind in (b"ring", b"straight"):
            script = b"queue " + kind + b" 02097152\nlimit\n"
            self.prints(script, f"queue {kind.decode()} 2097152 -> ok", "limit -> 1048576")

    def test_a_refused_load_changes_nothing(self) -> None:
        refused = (
            "load 264 bytes -> refused: next state not below the number of states"
            " (layer L, number 5, place 263)"
        )
        bad = load_line(EMPTY[:-1] + b"\1")
        self.prints(b"share\n" + bad + b"\ntable\n", "share -> ok", refused, "table -> share table, states 11")
        self.prints(
            load_line(TWO) + b"\n" + bad + b"\ntable\n",
            "load 268 bytes -> ok",
            refused,
            "table -> loaded table, states 2",
        )

    def test_a_load_takes_the_loaded_table(self) -> None:
        script = b"share\n" + load_line(TWO) + b"\nstates\nshare\nstates\n"
        self.prints(script, "share -> ok", "load 268 bytes -> ok", "states -> 2", "share -> ok", "states -> 11")

    def test_hexadecimal(self) -> None:
        self.prints(b"load\n", f"load 0 bytes -> refused: {Fault(1, 0)}")
        self.prints(b"load 0 1\n", f"load 1 bytes -> refused: {Fault(1, 1)}")
        for digits in (b"0", b"01 0", b"0g", b"0x01", b"01 #", b"\xc3\xa9"):
            self.prints(b"load " + digits, "line 1: not hexadecimal")
        random = Random(7)
        for _ in range(20):
            line = load_line(with_byte(TWO, 260, 0xAB), random) + b"\nlabel 0\n"
            self.prints(line, "load 268 bytes -> ok", "label 0 -> 171")

    def test_numbers(self) -> None:
        self.prints(b"label 007\n", "label 7 -> none")
        self.prints(b"label " + b"0" * 5000 + b"\n", "label 0 -> 0")
        self.prints(b"label 18446744073709551615", "label 18446744073709551615 -> none")
        self.prints(b"next 00 0255", "next 0 255 -> 0")
        for word in (b"18446744073709551616", b"9" * 5000, b"x", b"-1", b"+1", b"1.", b"0x1", b"\xd9\xa1"):
            self.prints(b"label " + word, "line 1: not a number")
            self.prints(b"next " + word + b" 300", "line 1: not a number")
            self.prints(b"next 1 " + word, "line 1: not a byte")
            self.prints(b"open " + word, "line 1: not a number")
            self.prints(b"search " + word + b" 1", "line 1: not a number")
            self.prints(b"search 1 " + word, "line 1: not a number")
        self.prints(b"next 1 256", "line 1: not a byte")

    def test_the_number_of_words(self) -> None:
        tables = {b"share", b"load", b"table", b"states", b"next", b"label", b"open", b"search", b"find"}
        self.assertEqual(set(COMMANDS) - tables, {b"queue", b"count", b"limit", b"element", b"put", b"drop"})
        for line in (b"next", b"next 1", b"next x", b"label", b"open", b"search", b"search x"):
            self.prints(line, "line 1: too few words")
        for line in (b"share x", b"table 1", b"states #", b"next x y z", b"label x y"):
            self.prints(line, "line 1: too many words")
        for line in (b"open x y", b"search x y z", b"find x"):
            self.prints(line, "line 1: too many words")
        for line in (b"foo", b"Share", b"share\x0b", b"\0", b"\xff", b"foo 1 2"):
            self.prints(line, "line 1: no such command")

    def test_lines(self) -> None:
        self.prints(b"")
        self.prints(b"\n\r\n \t\r\n# share\n  #share\n#")
        self.prints(b"\n# c\r\n\tfoo\r\n\r\nstates\rx", "line 3: no such command", "line 5: too many words")
        self.prints(b"\rnext\r0\t 97 \r\n", "next 0 97 -> 0")

    def test_piece_by_piece(self) -> None:
        pieces = [b"share\nfoo\n", b"table\n\n", b"bar\n"]
        model = Replay()
        self.assertEqual([line for piece in pieces for line in model.feed(piece)], expected(b"".join(pieces)))


class Suites(unittest.TestCase):
    def test_cases_are_whole_lines(self) -> None:
        for suite in compare_replay.SUITES.values():
            for case in suite.cases(3):
                self.assertTrue(case.alone or case.script.endswith(b"\n"))

    def test_a_seed_gives_the_same_cases(self) -> None:
        for topic in ("script", "share", "graphs"):
            suite = compare_replay.SUITES[topic]
            self.assertEqual(suite.cases(4), suite.cases(4))

    def test_the_tables_of_graphs(self) -> None:
        tables = list(suite_graphs.tables(Random(11)))
        self.assertGreaterEqual(len(tables), 1_000)
        self.assertEqual({table.states for table in tables}, set(range(1, 129)))
        for table in tables:
            self.assertEqual(parse_image(write_image(table)), table)

    def test_every_example_is_right(self) -> None:
        scripts = (case.script for case in compare_replay.SUITES["graphs"].cases(5))
        tested = [line for script in scripts for line in expected(script) if isinstance(line, Tested)]
        self.assertGreater(len(tested), 5_000)
        for line in tested:
            self.assertEqual(line.fault(line.example()), "")


#: A program that answers by the model, but for what is changed in it first.
STAND_IN = """#!{python}
import sys
sys.dont_write_bytecode = True
sys.path.insert(0, {root!r})
from oracle import answers, graphs, queues, script, tables
{change}
sys.stdout.buffer.write(answers.examples(script.expected(sys.stdin.buffer.read())))
"""

REFUSED_LOAD_SWITCHES = """
load = tables.TablesInHand.load
def switching(self, image):
    fault = load(self, image)
    self.is_share = False
    return fault
tables.TablesInHand.load = switching
"""

PLACE_OFF_BY_ONE = """
parse = tables.parse_image
def moved(image):
    judged = parse(image)
    if isinstance(judged, tables.Fault) and judged.number == 5:
        return tables.Fault(5, judged.place + 1)
    return judged
tables.parse_image = moved
"""

WRONG_LETTER = """
queues.LETTERS["straight"] = "R"
"""

FULL_TOO_EARLY = """
put = queues.Queue.put
def early(self, byte):
    if self.count + 1 == self.limit > 1:
        return queues.Refusal(8, self.letter)
    return put(self, byte)
queues.Queue.put = early
"""

PATHS_OF_ONE_EDGE = """
search = graphs.search_answer
def one_edge(graph, start, end):
    line = search(graph, start, end)
    return line if isinstance(line, str) else f"search {start} {end} -> path {start} 48 {end}"
script.search_answer = one_edge
"""

SEVEN_OPEN = """
is_open = graphs.Chart.is_open
def opened(self, state):
    answer = is_open(self, state)
    return True if state == 7 and answer is not None else answer
graphs.Chart.is_open = opened
"""

ENDS_BADLY = """
if b"label 9" in sys.stdin.buffer.peek():
    sys.exit(3)
"""


BAD_LOAD = load_line(EMPTY[:-1] + b"\1")

#: What the stand-ins are compared on.
LOADS = [
    Case(b"table\n"),
    Case(b"share\nlabel 9\n"),
    Case(b"share\nstates\n" + BAD_LOAD + b"\nstates\nlabel 4\n"),
    Case(b"foo\n"),
]
QUEUES = [
    Case(b"queue ring 1\nput 7\nput 8\ncount\n"),
    Case(b"queue straight 1\nlimit\nput 7\nput 8\ndrop 2\ndrop 1\n"),
    Case(b"queue ring 3\nput 1\nput 2\nelement 0\nput 3\nelement 2\n"),
]
GRAPHS = [
    Case(b"share\nfind\nsearch 0 1\n"),
    Case(b"table\nopen 0\nshare\nsearch 0 1\nsearch 0 3\nopen 7\nfind\n"),
]


class Driver(unittest.TestCase):
    def compare(self, change: str, cases: list[Case] = LOADS) -> tuple[bool, str, bytes]:
        """Whether a changed stand-in passes, what is printed, and the reduced script."""
        suite = Suite("made", "scripts", lambda _: cases)
        printed = io.StringIO()
        with tempfile.TemporaryDirectory() as name, contextlib.redirect_stdout(printed):
            path = Path(name) / "replay"
            root = str(Path(__file__).resolve().parent.parent)
            path.write_text(STAND_IN.format(python=sys.executable, root=root, change=change))
            path.chmod(0o755)
            before, tempfile.tempdir = tempfile.tempdir, name
            try:
                passed = compare_replay.compare(compare_replay.Program(path), suite, 1)
            finally:
                tempfile.tempdir = before
            shown = [file.read_bytes() for file in Path(name).glob("*/*.script")]
        return passed, printed.getvalue(), b"".join(shown)

    def test_no_difference(self) -> None:
        passed, printed, _ = self.compare("")
        self.assertTrue(passed)
        self.assertEqual(printed, "made: 4 scripts, 9 answers, all as the oracle says\n")
        passed, printed, _ = self.compare("", QUEUES)
        self.assertTrue(passed)
        self.assertEqual(printed, "made: 3 scripts, 16 answers, all as the oracle says\n")
        passed, printed, _ = self.compare("", GRAPHS)
        self.assertTrue(passed)
        self.assertEqual(printed, "made: 2 scripts, 10 answers, all as the oracle says\n")

    def test_another_path_is_right_too(self) -> None:
        self.assertIn(b"search 0 1 -> path 0 57 1\n", examples(expected(GRAPHS[0].script)))
        passed, printed, _ = self.compare(PATHS_OF_ONE_EDGE, GRAPHS[:1])
        self.assertTrue(passed)
        self.assertEqual(printed, "made: 1 scripts, 3 answers, all as the oracle says\n")

    def test_an_edge_that_is_not_there(self) -> None:
        passed, printed, script = self.compare(PATHS_OF_ONE_EDGE, GRAPHS)
        self.assertFalse(passed)
        self.assertIn("made: not as the oracle says: seed 1, case 2 of 2\n", printed)
        self.assertIn(
            "Line 2 of the output:\n"
            "    expected: search 0 3 -> path (1 to 11 edges from node 0 to node 3, as 0 57 1 46 2 57 3)\n"
            "    actual:   search 0 3 -> path 0 48 3\n"
            "    wrong:    slot 48 of node 0 does not lead to node 3\n",
            printed,
        )
        self.assertEqual(script, b"share\nsearch 0 3\n")

    def test_a_closed_state_that_is_told_open(self) -> None:
        passed, printed, script = self.compare(SEVEN_OPEN, GRAPHS)
        self.assertFalse(passed)
        self.assertIn("    expected: open 7 -> no\n    actual:   open 7 -> yes\nRun", printed)
        self.assertEqual(script, b"share\nopen 7\n")

    def test_a_refused_load_that_switches_the_table(self) -> None:
        passed, printed, script = self.compare(REFUSED_LOAD_SWITCHES)
        self.assertFalse(passed)
        self.assertIn("made: not as the oracle says: seed 1, case 3 of 4\n", printed)
        self.assertIn("expected: states -> 11\n    actual:   states -> 1\n", printed)
        self.assertEqual([line[:8] for line in script.split(b"\n")], [b"share", b"load 010", b"states", b""])

    def test_a_place_off_by_one(self) -> None:
        passed, printed, script = self.compare(PLACE_OFF_BY_ONE)
        self.assertFalse(passed)
        self.assertIn("number 5, place 264)\n", printed)
        self.assertEqual(script, BAD_LOAD + b"\n")

    def test_a_wrong_letter(self) -> None:
        passed, printed, script = self.compare(WRONG_LETTER, QUEUES)
        self.assertFalse(passed)
        self.assertIn("made: not as the oracle says: seed 1, case 2 of 3\n", printed)
        self.assertIn("(number 8, letter S)\n", printed)
        self.assertIn("(number 8, letter R)\n", printed)
        self.assertEqual(script, b"queue straight 1\nput 7\nput 8\n")

    def test_full_too_early(self) -> None:
        passed, printed, script = self.compare(FULL_TOO_EARLY, QUEUES)
        self.assertFalse(passed)
        self.assertIn("made: not as the oracle says: seed 1, case 3 of 3\n", printed)
        self.assertIn("expected: put 3 -> ok\n    actual:   put 3 -> refused: queue full", printed)
        self.assertEqual(script, b"queue ring 3\nput 1\nput 2\nput 3\n")

    def test_a_big_case_is_not_reduced(self) -> None:
        big = [*QUEUES[:2], Case(QUEUES[2].script, big=True)]
        passed, printed, script = self.compare(FULL_TOO_EARLY, big)
        self.assertFalse(passed)
        self.assertEqual(
            printed,
            "made: not as the oracle says: seed 1, case 3 of 3\nLine 5 of the output:\n"
            "    expected: put 3 -> ok\n    actual:   put 3 -> refused: queue full (number 8, letter R)\n",
        )
        self.assertEqual(script, b"")

    def test_a_program_that_ends_badly(self) -> None:
        passed, printed, script = self.compare(ENDS_BADLY)
        self.assertFalse(passed)
        self.assertIn("seed 1, case 2 of 4\n", printed)
        self.assertIn("The program ended with status 3.\n", printed)
        self.assertEqual(script, b"label 9\n")


if __name__ == "__main__":
    unittest.main()
