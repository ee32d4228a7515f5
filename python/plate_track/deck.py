"""A network with all its memory and its present count."""

from array import array
from itertools import islice
from typing import NamedTuple

from . import calls
from .constants import (
    BACKWARD, CHANGE_WORDS, DELETE, FORWARD, INSERT, LONGEST_SCHEDULE, LONGEST_TEXT, MOST_CHANGES, MOST_EDGES, MOST_LANDMARKS, MOST_SOURCES,
    MOST_VERTICES, row_words
)  # fmt: skip
from .native import number_of


def words(count):
    """A list of so many words."""
    return array("I", bytes(4 * count))


def copied(name, values, most):
    """Values as a list of words, each held to 32 bits. One more than there may be is refused as any greater number is: what follows is left out."""
    if isinstance(values, (bytes, bytearray, str)):
        raise TypeError(f"{name}: whole numbers are needed, and this is {type(values).__name__}")
    return array("I", list(islice(values, most + 1)))


def five_words(change):
    """The words of a change. An insert or a delete of four numbers has 0 for the fifth, `old`; an update has to say it."""
    change = tuple(change)
    if len(change) == CHANGE_WORDS - 1 and change[0] in (INSERT, DELETE):
        return *change, 0
    if len(change) != CHANGE_WORDS:
        raise ValueError(f"changes: kind, tail, head, weight and old are needed (an insert or a delete may leave old out), and this is {change}")
    return change


def change_words(changes):
    """Changes as a list of words, five for each; a buffer as it is."""
    try:
        return memoryview(changes)
    except TypeError:
        flat = [word for change in islice(changes, MOST_CHANGES + 1) for word in five_words(change)]
        return copied("changes", flat, len(flat))


class Answer(NamedTuple):
    """A query's answer: n values, n start words, and what the run did."""

    settled: array
    starts: array
    tally: calls.Tally


class Spot(NamedTuple):
    """The first edge that could still better a word of a row."""

    side: int
    row: int
    record: int


class Route(NamedTuple):
    """The route behind a value: its vertices, source first and target last, its edges (tail, head, weight), of twins the one with the lowest weight with
    which the route keeps its value, and for each edge a mark, 1 where it set the value and 0 where it passed it on. For headroom and worst stretch
    the value is the weight of the last edge marked."""

    vertices: list
    edges: list
    marks: list


class Preview(NamedTuple):
    """What a batch would do to a property from a source: for each vertex its effect, which is SAME, GAINED (it has a route after the batch and none before),
    LOST or MOVED, and its move, the value after minus the value before, 0 where it has no route before or after. The digest sums them up."""

    effects: list
    moves: list
    digest: calls.Digest


class Deck:
    """Vertices 0 to n - 1 and directed edges (tail, head, weight), in any order. An edge is its three numbers: those of one tail and head with
    different weights are twins, and no edge stands twice. Open it with landmarks before it is queried or changed, and before a preview.

    Its lists (landmarks, tails, heads, weights, forward, backward), n and count may be read; only its methods write them. What is wrong with
    n, edges or landmarks is refused where the library first sees it, as by `open`. A refused call changes nothing."""

    def __init__(self, n, edges=()):
        self.n, self.landmarks = number_of("n", n), array("I")
        self.tails, self.heads, self.weights = array("I"), array("I"), array("I")
        for tail, head, weight in sorted(edges):
            self.tails.append(tail)
            self.heads.append(head)
            self.weights.append(weight)
        self.count = len(self.tails)
        for column in self._table():
            column.extend(words(max(0, MOST_EDGES - self.count)))
        self.forward, self.backward = array("I"), array("I")

    @classmethod
    def read(cls, text):
        """The deck of network text (bytes)."""
        deck = cls(0)
        deck.n, deck.count = calls.read(text, *deck._table())
        return deck

    def _table(self):
        return self.tails, self.heads, self.weights

    def _network(self):
        return self.n, self.landmarks, *self._table(), self.count, self.forward, self.backward

    def edges(self):
        """The edges as they are now, ascending."""
        return list(zip(self.tails[: self.count], self.heads[: self.count], self.weights[: self.count]))

    def choose(self, k=MOST_LANDMARKS):
        """k landmarks to open with: most edges in plus out first, each twin counted."""
        return calls.choose(self.n, *self._table(), self.count, k)

    def open(self, landmarks):
        """Opens the deck with these landmarks; again with others at any time."""
        landmarks = copied("landmarks", landmarks, MOST_LANDMARKS)
        room = row_words(len(landmarks), min(self.n, MOST_VERTICES))
        forward, backward = words(room), words(room)
        calls.open(self.n, landmarks, *self._table(), self.count, forward, backward)
        self.landmarks, self.forward, self.backward = landmarks, forward, backward

    def query(self, property, source, schedule=()):
        """A property from a source to every vertex: an Answer. The schedule may be a buffer of words."""
        try:
            schedule = memoryview(schedule)
        except TypeError:
            schedule = copied("schedule", schedule, LONGEST_SCHEDULE)
        room = min(self.n, MOST_VERTICES)
        starts, settled = words(room), words(room)
        tally = calls.query(*self._network(), property, source, schedule, starts, settled)
        return Answer(settled, starts, tally)

    def route(self, property, source, target):
        """The best route of a property from a source to a target: a Route. Of several it is one with the fewest edges, and of those the one with the
        lowest vertex at the first place where two differ. It needs no landmarks: the deck may be one that is not open."""
        room = min(self.n, MOST_VERTICES)
        vertices, marks, figures = words(room), words(room), words(room)
        count = calls.route(self.n, *self._table(), self.count, property, source, target, vertices, marks, figures)
        vertices, marks = vertices[:count].tolist(), marks[: count - 1].tolist()
        return Route(vertices, list(zip(vertices, vertices[1:], figures)), marks)

    def batch(self, changes):
        """Applies changes, all or none: a Report. Each names one edge and leaves its twins: (INSERT, tail, head, weight) puts it in, (DELETE, tail, head,
        weight) strikes it, and (UPDATE, tail, head, weight, old) gives the edge tail, head, old the weight `weight`. An insert or a delete may have a fifth
        number too, 0. The changes may be a buffer of words, five for each."""
        report = calls.batch(*self._network(), change_words(changes))
        self.count = report.count
        return report

    def preview(self, changes, property, source):
        """What a batch of these changes, given as `batch` takes them, would do to a property from a source: a Preview. The deck stays as it is. It is
        refused for numbers 1 to 4, then for a bad property or source, and then for the changes as `batch` is, by the same number and place."""
        room = min(self.n, MOST_VERTICES)
        effects, moves = words(room), array("q", bytes(8 * room))
        calls.preview(*self._network(), change_words(changes), property, source, effects, moves)
        return Preview(effects.tolist(), moves.tolist(), calls.digest(self.n, property, effects, moves))

    def row(self, side, landmark, property):
        """The n words of a landmark's row, as a part of the deck's own list that can't be written: a batch shows in it. Another `open` makes other
        lists, and the row is then as it was before."""
        start = calls.row(self.n, self.landmarks, self.forward, self.backward, side, landmark, property)
        rows = {FORWARD: self.forward, BACKWARD: self.backward}[side]
        return memoryview(rows).toreadonly()[start : start + self.n]

    def settled(self):
        """None where every row is settled, else the first Spot that is not."""
        check = calls.settled(*self._network())
        return None if check.all else Spot(check.side, check.row, check.record)

    def write(self):
        """The deck's text (bytes)."""
        text = bytearray(LONGEST_TEXT)
        return bytes(text[: calls.write(self.n, *self._table(), self.count, text)])

    def read_sources(self, text):
        """The vertices of a source file, in its order."""
        sources = words(MOST_SOURCES)
        return list(sources[: calls.read_sources(text, self.n, sources)])
