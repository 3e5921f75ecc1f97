"""Which states of a table are open, and the paths and cycles of its forward graph."""

from __future__ import annotations

import re
from dataclasses import dataclass
from functools import cache, cached_property
from typing import Callable, Iterator, Optional, Union

from oracle.answers import Tested
from oracle.tables import RuleTable

_NUMBER = "(?:0|[1-9][0-9]{0,19})"
_WALK = re.compile(f"{_NUMBER}(?: {_NUMBER} {_NUMBER})*")


# Graphs.


@dataclass(frozen=True)
class Walk:
    """A first node, and for each edge its slot and the node that it leads to."""

    first: int
    edges: tuple[tuple[int, int], ...] = ()

    @property
    def last(self) -> int:
        return self.edges[-1][1] if self.edges else self.first

    @property
    def length(self) -> int:
        return len(self.edges)

    def steps(self) -> Iterator[tuple[int, int, int]]:
        """Each edge: the node that it leaves, its slot, and the node that it leads to."""
        node = self.first
        for slot, after in self.edges:
            yield node, slot, after
            node = after

    def __str__(self) -> str:
        return " ".join(str(number) for number in (self.first, *(n for edge in self.edges for n in edge)))


def read_walk(text: str) -> Optional[Walk]:
    """The walk that a text prints, or None where it prints none."""
    if not _WALK.fullmatch(text):
        return None
    first, *rest = (int(number) for number in text.split(" "))
    return Walk(first, tuple(zip(rest[::2], rest[1::2])))


@dataclass(frozen=True)
class Graph:
    """Nodes numbered from 0: for each slot of each node the node that it leads to, or None."""

    slots: tuple[tuple[Optional[int], ...], ...]

    @property
    def nodes(self) -> int:
        return len(self.slots)

    def leads(self, node: int, slot: int) -> Optional[int]:
        """Where a slot of a node leads, or None where there is no such edge."""
        if node >= self.nodes or slot >= len(self.slots[node]):
            return None
        return self.slots[node][slot]

    @cached_property
    def after(self) -> list[dict[int, int]]:
        """For each node the nodes right after it, each with a slot that leads there."""
        return [{node: slot for slot, node in enumerate(row) if node is not None} for row in self.slots]

    def path(self, start: int, end: int) -> Optional[Walk]:
        """A path of one or more edges, as short as there is one, or None where there is none."""
        came: dict[int, tuple[int, int]] = {}
        front = [start] if start < self.nodes else []
        while front and end not in came:
            reached = []
            for node in front:
                for other, slot in self.after[node].items():
                    if other not in came:
                        came[other] = node, slot
                        reached.append(other)
            front = reached
        if end not in came:
            return None
        node, edges = end, []
        while not edges or node != start:
            before, slot = came[node]
            edges.append((slot, node))
            node = before
        return Walk(start, tuple(reversed(edges)))

    def cycle(self) -> Optional[Walk]:
        """A path of one or more edges that ends where it begins, or None where there is none."""
        for node in range(self.nodes):
            walk = self.path(node, node)
            if walk is not None:
                return walk
        return None

    def longest(self) -> Walk:
        """A longest path of a graph that has nodes and no cycle."""

        @cache
        def longest_from(node: int) -> Walk:
            walks = [Walk(node)]
            for other, slot in self.after[node].items():
                walks.append(Walk(node, ((slot, other), *longest_from(other).edges)))
            return max(walks, key=lambda walk: walk.length)

        return max((longest_from(node) for node in range(self.nodes)), key=lambda walk: walk.length)


def forward_graph(table: RuleTable) -> Graph:
    """The states as nodes and the bytes as slots, each to the next state."""
    return Graph(tuple(tuple(row[c] for c in table.classes) for row in table.steps))


def open_states(table: RuleTable) -> set[int]:
    """The states from which some word of at least one byte leads to an accepting state:
    those from which a byte leads to an accepting state, or to one that is open already,
    round after round until there are no more."""
    classes = set(table.classes)
    after = [{row[c] for c in classes} for row in table.steps]
    goals = {state for state in range(table.states) if table.labels[state]}
    known: set[int] = set()
    while True:
        more = {state for state in range(table.states) if state not in known and after[state] & goals}
        if not more:
            return known
        known |= more
        goals |= more


class Chart:
    """What there is to know of a table beyond its steps and labels, worked out when asked for."""

    def __init__(self, table: RuleTable) -> None:
        self.table = table

    @cached_property
    def graph(self) -> Graph:
        return forward_graph(self.table)

    @cached_property
    def open(self) -> set[int]:
        return open_states(self.table)

    def is_open(self, state: int) -> Optional[bool]:
        """Whether a state is open, or None where there is no such state."""
        return state in self.open if state < self.table.states else None


# Answers.


class WalkLine(Tested):
    """A line that prints a walk of a graph behind a text. `wrong` says what is wrong with
    a walk besides its edges, and `one` is a walk that is right."""

    def __init__(self, before: str, what: str, graph: Graph, one: Walk, wrong: Callable[[Walk], str]) -> None:
        self.before = before
        self.what = what
        self.graph = graph
        self.one = one
        self.wrong = wrong

    def example(self) -> bytes:
        return f"{self.before} {self.one}\n".encode("ascii")

    def fault(self, line: bytes) -> str:
        text = line.decode("latin-1")
        before = f"{self.before} "
        walk = read_walk(text[len(before) : -1]) if text.startswith(before) and text.endswith("\n") else None
        if walk is None:
            return "it is not of this form"
        if walk.first >= self.graph.nodes:
            return f"there is no node {walk.first}"
        for node, slot, after in walk.steps():
            if self.graph.leads(node, slot) != after:
                return f"slot {slot} of node {node} does not lead to node {after}"
        return self.wrong(walk)

    def __str__(self) -> str:
        return f"{self.before} ({self.what}, as {self.one})"


def _wrong_length(walk: Walk, fewest: int, most: int) -> str:
    return "" if fewest <= walk.length <= most else f"it has {walk.length} edges"


def search_answer(graph: Graph, start: int, end: int) -> Union[str, WalkLine]:
    """What `search` prints: a path of one or more edges, no more than there are nodes."""
    call = f"search {start} {end} ->"
    one = graph.path(start, end)
    if one is None:
        return f"{call} none"

    def wrong(walk: Walk) -> str:
        if (walk.first, walk.last) != (start, end):
            return f"it leads from node {walk.first} to node {walk.last}"
        return _wrong_length(walk, 1, graph.nodes)

    return WalkLine(f"{call} path", f"1 to {graph.nodes} edges from node {start} to node {end}", graph, one, wrong)


def find_answer(graph: Graph) -> WalkLine:
    """What `find` prints: a cycle, with no more edges than there are nodes, or a longest path
    where there is no cycle."""
    one = graph.cycle()
    if one is None:
        longest = graph.longest()
        most = longest.length
        what = f"{most} edges"
        return WalkLine("find -> longest path", what, graph, longest, lambda walk: _wrong_length(walk, most, most))

    def wrong(walk: Walk) -> str:
        if walk.first != walk.last:
            return f"it leads from node {walk.first} to node {walk.last}"
        return _wrong_length(walk, 1, graph.nodes)

    return WalkLine("find -> cycle", f"1 to {graph.nodes} edges that lead back to the first node", graph, one, wrong)
