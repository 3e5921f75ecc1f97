"""Which tokens are settled, so that no later byte can alter them, and how late each of them is.

Everything is here twice: by its definition, with all the bytes that may follow, and by walks
that end where their state is closed.
"""

from __future__ import annotations

from functools import cached_property
from itertools import product
from typing import Iterator, NamedTuple, Optional, Sequence

from oracle.graphs import Chart
from oracle.munch import Munch, Token, munch
from oracle.tables import RuleTable


def lateness(tokens: Sequence[Token], points: Sequence[int]) -> list[int]:
    """How many bytes past its end each token is settled."""
    return [point - token.end for token, point in zip(tokens, points, strict=True)]


# By the definition.


def one_byte_of_each_class(table: RuleTable) -> bytes:
    """Bytes of one class lead every state to the same next state, so that one of them is enough."""
    return bytes({one: byte for byte, one in enumerate(table.classes)}.values())


def endings(alphabet: bytes, most: int) -> Iterator[bytes]:
    """All words of no more than so many bytes, the shortest ones first."""
    for length in range(most + 1):
        for word in product(alphabet, repeat=length):
            yield bytes(word)


def common_beginning(one: Sequence[Token], other: Sequence[Token]) -> tuple[Token, ...]:
    """The longest list that begins both."""
    same = 0
    while same < min(len(one), len(other)) and one[same] == other[same]:
        same += 1
    return tuple(one[:same])


class Settled(NamedTuple):
    """The common list, and the place where munch fails behind it whatever follows, or None
    where that depends on what follows."""

    tokens: tuple[Token, ...]
    stuck: Optional[int]


class Endings:
    """What munch of some bytes has in common under all endings: words that may follow, the
    empty one too.

    Endings with no more bytes than the table has states are enough (`most` may allow others).
    Say that under all of these munch begins with the same token, or fails at once. One of them
    is the empty ending: so the token lies within the bytes x that are there, or no beginning of
    x is accepted. If it were otherwise under some longer ending, then the token there would be
    longer than x, and a word of at least one byte would lead from the state after x to an
    accepting state. The shortest such word comes to no state twice, apart from the one that it
    begins at, and so has no more bytes than there are states; but as an ending it gives a token
    longer than x, too. The same is true of the bytes behind the first token, and so on.
    """

    def __init__(self, table: RuleTable, most: Optional[int] = None) -> None:
        self.table = table
        self.all = list(endings(one_byte_of_each_class(table), table.states if most is None else most))
        self._known: dict[bytes, Settled] = {}

    def settled(self, word: bytes) -> Settled:
        """The longest token list that begins munch of the bytes under every ending."""
        if word not in self._known:
            self._known[word] = self._common(word)
        return self._known[word]

    def _common(self, word: bytes) -> Settled:
        munches = {munch(self.table, word + ending) for ending in self.all}
        common = next(iter(munches)).tokens
        for one in munches:
            common = common_beginning(common, one.tokens)
        return Settled(common, munches.pop().stuck if len(munches) == 1 else None)

    def points(self, word: bytes) -> list[int]:
        """The settling points of the tokens of the common list."""
        points = [self._point(word, number) for number, _ in enumerate(self.settled(word).tokens, 1)]
        return [point for point in points if point is not None]

    def final_points(self, word: bytes) -> list[int]:
        """The settling points of the tokens of munch, once the input is finished: where no
        beginning settles a token, the number of all bytes."""
        points = [self._point(word, number) for number, _ in enumerate(munch(self.table, word).tokens, 1)]
        return [len(word) if point is None else point for point in points]

    def _point(self, word: bytes, number: int) -> Optional[int]:
        """The length of the shortest beginning of the bytes whose common list has at least so
        many tokens, or None where none has."""
        lengths = range(len(word) + 1)
        return next((length for length in lengths if len(self.settled(word[:length]).tokens) >= number), None)


# By walks.


class Walked(NamedTuple):
    """A walk from the start along the bytes from a place on: the longest token that was
    accepted on the way, and the place behind the byte that closed it, if one did."""

    token: Optional[Token]
    closed: Optional[int]


class Cutting:
    """The cutting of some bytes by a table whose open states are known."""

    def __init__(self, chart: Chart, word: bytes) -> None:
        self.chart = chart
        self.word = word

    def walk(self, place: int) -> Walked:
        """The walk from a place on, up to a state that is closed, or to the end of the bytes."""
        table = self.chart.table
        state, token = 0, None
        for behind in range(place + 1, len(self.word) + 1):
            state = table.steps[state][table.classes[self.word[behind - 1]]]
            if table.labels[state]:
                token = Token(table.labels[state], place, behind - place)
            if state not in self.chart.open:
                return Walked(token, behind)
        return Walked(token, None)

    @cached_property
    def walks(self) -> list[Walked]:
        """The walks of all tokens, and the one that gives none, if there is one. A walk that
        never closed gives its token once the input is finished."""
        walks: list[Walked] = []
        place = 0
        while place < len(self.word):
            walk = self.walk(place)
            walks.append(walk)
            if walk.token is None:
                break
            place = walk.token.end
        return walks

    @cached_property
    def _settling(self) -> list[Walked]:
        """The walks before the first that never closed."""
        still_open = (number for number, walk in enumerate(self.walks) if walk.closed is None)
        return self.walks[: next(still_open, len(self.walks))]

    @property
    def settled(self) -> Settled:
        """What is settled before the finish. The cutting is stuck where a walk closed with
        nothing accepted; else it waits, with no byte left too."""
        tokens, stuck = self._ended(self._settling)
        return Settled(tokens, stuck)

    @property
    def finished(self) -> Munch:
        """All tokens once the input is finished."""
        tokens, stuck = self._ended(self.walks)
        return Munch(tokens, stuck)

    @property
    def points(self) -> list[int]:
        """The settling points before the finish."""
        return self._latest(self._settling)

    @property
    def final_points(self) -> list[int]:
        """The settling points once the input is finished."""
        return self._latest(self.walks)

    def _ended(self, walks: list[Walked]) -> tuple[tuple[Token, ...], Optional[int]]:
        """The tokens of walks, and the place of the one that gives none."""
        tokens = tuple(walk.token for walk in walks if walk.token is not None)
        if len(tokens) == len(walks):
            return tokens, None
        return tokens, tokens[-1].end if tokens else 0

    def _latest(self, walks: list[Walked]) -> list[int]:
        """For each token the latest place at which its own walk or one before it closed."""
        points: list[int] = []
        for walk in walks:
            if walk.token is not None:
                closed = len(self.word) if walk.closed is None else walk.closed
                points.append(max([closed, *points[-1:]]))
        return points
