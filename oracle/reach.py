"""The reach of a table: how many bytes past its end a token may be settled.

A chain of length k, at least 1, begins at an open accepting state to which a word of at least
one byte leads, and goes on through k states, one byte each: none accepting, and all but the
last open. The reach is the greatest length of a chain, and 0 without chains. There is none
when chains of every length exist.
"""

from __future__ import annotations

from typing import Iterable, Iterator, Optional

from oracle.graphs import Chart, Graph
from oracle.tables import RuleTable

# By the definition.


def next_states(table: RuleTable, state: int) -> set[int]:
    """The states that the bytes lead to."""
    return {table.steps[state][one] for one in set(table.classes)}


def after_words(table: RuleTable, state: int) -> Iterator[set[int]]:
    """The states that words of one byte lead to, those of two bytes, and so on. A state that
    some word of at least one byte leads to is among the first n of these, with n the number of
    states: the shortest word that leads there comes to no state twice."""
    states = {state}
    for _ in range(table.states):
        states = {after for one in states for after in next_states(table, one)}
        yield states


def accepts_after(table: RuleTable, state: int) -> bool:
    """Whether some word of at least one byte leads from a state to an accepting state."""
    return any(table.labels[after] for states in after_words(table, state) for after in states)


def has_no_token(table: RuleTable) -> bool:
    """Whether a table is tokenless: no word of at least one byte leads from the start to an
    accepting state."""
    return not accepts_after(table, 0)


def goes_on(table: RuleTable, state: int, length: int) -> bool:
    """Whether so many bytes lead on from a state through states that do not accept, all of
    which but the last are open."""
    return length == 0 or any(
        not table.labels[after]
        and (length == 1 or accepts_after(table, after))
        and goes_on(table, after, length - 1)
        for after in next_states(table, state)
    )


def has_chain(table: RuleTable, length: int) -> bool:
    """Whether there is a chain of this length."""
    reached = {state for states in after_words(table, 0) for state in states}
    return any(
        table.labels[start] and accepts_after(table, start) and goes_on(table, start, length) for start in reached
    )


def reach_by_chains(table: RuleTable) -> Optional[int]:
    """The reach, or None where there is none.

    Where there is a chain, one of the n states accepts. A chain of length n + 2 comes to one of
    the others twice before its last state, and one that goes round there more often is a chain,
    too; so is every beginning of a chain. Hence there are chains of every length."""
    most = table.states + 2
    if has_chain(table, most):
        return None
    return max((length for length in range(1, most) if has_chain(table, length)), default=0)


# By a graph.


def is_tokenless(chart: Chart) -> bool:
    return 0 not in chart.open


def reached_from(table: RuleTable, states: Iterable[int], through: set[int]) -> set[int]:
    """The states to which one or more bytes lead from some states, with none but those of
    `through` between."""
    known: set[int] = set()
    front = set(states)
    while front:
        front = {after for state in front for after in next_states(table, state)} - known
        known |= front
        front &= through
    return known


def chain_graph(chart: Chart) -> Graph:
    """The states, each with the edges that a chain may have there."""
    table = chart.table
    everything = set(range(table.states))
    silent = {state for state in everything if not table.labels[state]}
    starts = reached_from(table, [0], everything) & (chart.open - silent)
    inner = silent & chart.open
    passed = starts | (reached_from(table, starts, inner) & inner)
    return Graph(
        tuple(
            tuple(after for after in sorted(next_states(table, state)) if state in passed and after in silent)
            for state in range(table.states)
        )
    )


def reach(chart: Chart) -> Optional[int]:
    """The reach, or None where there is none: the length of a longest path, unless the graph
    has a cycle."""
    graph = chain_graph(chart)
    return graph.longest().length if graph.cycle() is None else None
