"""The script language of `replay`, as docs/REPLAY.md defines it: from a script to
what `replay` must print."""

from __future__ import annotations

import re
from dataclasses import dataclass
from functools import lru_cache
from typing import Any, Callable, Optional, Union

from oracle.answers import Line, Tested
from oracle.graphs import Chart, find_answer, search_answer
from oracle.queues import LETTERS, Queue, Refusal
from oracle.tables import TablesInHand

_BLANKS = re.compile(rb"[ \t\r]+")
_DIGITS = re.compile(rb"[0-9]+")
_HEX = re.compile(rb"(?:[0-9a-fA-F]{2})*")

#: What a command answers: the line to print without its LF, or which lines are right.
Answer = Union[str, Tested]

#: The most memory that a script can give to a queue, in bytes.
MOST_MEMORY = 2_097_152


class Mistake(Exception):
    """A line that is no command; its text says what is wrong."""


class World:
    """All that the commands of a script work on: one model for each thing."""

    def __init__(self) -> None:
        self.tables = TablesInHand()
        self.queue = Queue("ring", 0)
        self._chart = Chart(self.tables.table)

    @property
    def chart(self) -> Chart:
        """The chart of the table in hand."""
        if self._chart.table is not self.tables.table:
            self._chart = Chart(self.tables.table)
        return self._chart


# Operands.


def _value(word: bytes) -> Optional[int]:
    """The value of a word of digits that is below 2^64, or None."""
    if not _DIGITS.fullmatch(word):
        return None
    digits = word.lstrip(b"0")
    if len(digits) > 20:
        return None
    value = int(digits or b"0")
    return value if value < 2**64 else None


def number(word: bytes) -> int:
    value = _value(word)
    if value is None:
        raise Mistake("not a number")
    return value


def byte(word: bytes) -> int:
    value = _value(word)
    if value is None or value > 255:
        raise Mistake("not a byte")
    return value


def kind(word: bytes) -> str:
    name = word.decode("latin-1")
    if name not in LETTERS:
        raise Mistake("no such kind")
    return name


def memory(word: bytes) -> int:
    value = number(word)
    if value > MOST_MEMORY:
        raise Mistake("too much memory")
    return value


def hexadecimal(words: list[bytes]) -> bytes:
    """The bytes that the words write when they stand together."""
    digits = b"".join(words)
    if not _HEX.fullmatch(digits):
        raise Mistake("not hexadecimal")
    return bytes.fromhex(digits.decode("ascii"))


# Commands. Each is given the world and its operands.


def _share(world: World) -> str:
    world.tables.take_share()
    return "share -> ok"


def _load(world: World, image: bytes) -> str:
    fault = world.tables.load(image)
    answer = "ok" if fault is None else f"refused: {fault}"
    return f"load {len(image)} bytes -> {answer}"


def _table(world: World) -> str:
    return f"table -> {world.tables.name}, states {world.tables.table.states}"


def _states(world: World) -> str:
    return f"states -> {world.tables.table.states}"


def _or_none(answer: Optional[int]) -> str:
    return "none" if answer is None else str(answer)


def _next(world: World, state: int, on: int) -> str:
    return f"next {state} {on} -> {_or_none(world.tables.table.next(state, on))}"


def _label(world: World, state: int) -> str:
    return f"label {state} -> {_or_none(world.tables.table.label(state))}"


def _open(world: World, state: int) -> str:
    answer = {True: "yes", False: "no", None: "none"}[world.chart.is_open(state)]
    return f"open {state} -> {answer}"


def _search(world: World, start: int, end: int) -> Answer:
    return search_answer(world.chart.graph, start, end)


def _find(world: World) -> Answer:
    return find_answer(world.chart.graph)


def _queue(world: World, name: str, length: int) -> str:
    world.queue = Queue(name, length)
    return f"queue {name} {length} -> ok"


def _count(world: World) -> str:
    return f"count -> {world.queue.count}"


def _limit(world: World) -> str:
    return f"limit -> {world.queue.limit}"


def _element(world: World, place: int) -> str:
    return f"element {place} -> {_or_none(world.queue.element(place))}"


def _ok_or_refused(refusal: Optional[Refusal]) -> str:
    return "ok" if refusal is None else f"refused: {refusal}"


def _put(world: World, value: int) -> str:
    return f"put {value} -> {_ok_or_refused(world.queue.put(value))}"


def _drop(world: World, count: int) -> str:
    return f"drop {count} -> {_ok_or_refused(world.queue.drop(count))}"


@dataclass(frozen=True)
class Command:
    """What a command's operands are, and the call that it makes.

    `operands` has one reader for each word. `rest`, where there is one, reads all
    the words after those, however many they are.
    """

    call: Callable[..., Answer]
    operands: tuple[Callable[[bytes], Any], ...] = ()
    rest: Optional[Callable[[list[bytes]], Any]] = None

    def values(self, words: list[bytes]) -> list[Any]:
        """What the call is given for these words."""
        fixed = len(self.operands)
        if len(words) < fixed:
            raise Mistake("too few words")
        if len(words) > fixed and self.rest is None:
            raise Mistake("too many words")
        values = [read(word) for read, word in zip(self.operands, words)]
        if self.rest is not None:
            values.append(self.rest(words[fixed:]))
        return values


COMMANDS: dict[bytes, Command] = {
    b"share": Command(_share),
    b"load": Command(_load, rest=hexadecimal),
    b"table": Command(_table),
    b"states": Command(_states),
    b"next": Command(_next, (number, byte)),
    b"label": Command(_label, (number,)),
    b"open": Command(_open, (number,)),
    b"search": Command(_search, (number, number)),
    b"find": Command(_find),
    b"queue": Command(_queue, (kind, memory)),
    b"count": Command(_count),
    b"limit": Command(_limit),
    b"element": Command(_element, (number,)),
    b"put": Command(_put, (byte,)),
    b"drop": Command(_drop, (number,)),
}


# Scripts.


@lru_cache(maxsize=512)
def _read(line: bytes) -> Optional[tuple[Callable[..., Answer], list[Any]]]:
    """The call that a line makes and what it is given, or None where it is passed over.
    Lines that come again and again are read once."""
    words = [word for word in _BLANKS.split(line) if word]
    if not words or words[0].startswith(b"#"):
        return None
    command = COMMANDS.get(words[0])
    if command is None:
        raise Mistake("no such command")
    return command.call, command.values(words[1:])


class Replay:
    """A run of `replay` that is given its script piece by piece, in whole lines."""

    def __init__(self) -> None:
        self.world = World()
        self.line = 0

    def feed(self, script: bytes) -> list[Line]:
        """The lines that are printed for the next lines of the script."""
        lines = script.split(b"\n")
        if not lines[-1]:
            lines.pop()
        answers = (self._answer(line) for line in lines)
        return [answer for answer in answers if answer is not None]

    def _answer(self, line: bytes) -> Optional[Line]:
        self.line += 1
        try:
            read = _read(line)
            if read is None:
                return None
            call, values = read
            answer = call(self.world, *values)
        except Mistake as mistake:
            answer = f"line {self.line}: {mistake}"
        return answer.encode("ascii") + b"\n" if isinstance(answer, str) else answer


def expected(script: bytes) -> list[Line]:
    """The lines that `replay` must print for a script."""
    return Replay().feed(script)
