"""The calls of include/plate_track.h, which says what each does. Parameters have the header's order, without the reply list, which is returned.

A list is anything with the buffer protocol whose elements have the right width and no sign: array.array('I'), a numpy array of uint32, a
memoryview, bytes where a text is read; moves alone have a sign, and 64 bits: array.array('q'), a numpy array of int64. It is lent as it is, without
a copy; one that the call writes must not overlap another. A refused call raises Refused. `count` is the present count: one that is too small is not
found out. plate_track.Deck keeps it."""

from typing import NamedTuple

from .constants import CHANGE_WORDS
from .native import List, Number, call

U32 = Number()
WORDS = List(4)
WRITTEN_WORDS = List(4, writes=True)
CHANGES = List(4, group=CHANGE_WORDS)
MOVES = List(8, signed=True)
WRITTEN_MOVES = List(8, writes=True, signed=True)
BYTES = List(1)
WRITTEN_BYTES = List(1, writes=True)


class Tally(NamedTuple):
    """What a query did: entries of the schedule taken, rounds, stores."""

    taken: int
    rounds: int
    stores: int


class Report(NamedTuple):
    """What a batch did: the new count, affected vertices and stores over all rows."""

    count: int
    affected: int
    stores: int


class Check(NamedTuple):
    """`all` is 1 where every row is settled; else 0, and the first edge that could still better a word: side, row and record."""

    all: int
    side: int
    row: int
    record: int


class Size(NamedTuple):
    """A network that was read: its vertices and its count of edges."""

    vertices: int
    count: int


class Digest(NamedTuple):
    """A preview summed up: how many vertices gained a route, lost it, moved for the better and moved for the worse, and the one that loses most, n
    where none loses."""

    gained: int
    lost: int
    better: int
    worse: int
    most: int


class _Told:
    """The words of a reply as an answer of a type; without one, the first word."""

    def __init__(self, answer=None):
        self.answer = answer

    def __call__(self, reply):
        return self.answer(*reply[: len(self.answer._fields)]) if self.answer else reply[0]

    def __repr__(self):
        return self.answer.__name__ if self.answer else "int"


def _nothing(reply):
    return None


def _listed(reply):
    return list(reply[1 : 1 + reply[0]])


@call
def open(
    n: U32, landmarks: WORDS, tails: WORDS, heads: WORDS, weights: WORDS, count: U32, forward: WRITTEN_WORDS, backward: WRITTEN_WORDS
) -> _nothing:
    """Opens a network: both row lists get best values."""


@call
def query(
    n: U32, landmarks: WORDS, tails: WORDS, heads: WORDS, weights: WORDS, count: U32, forward: WORDS, backward: WORDS, property: U32, source: U32,
    schedule: WORDS, starts: WRITTEN_WORDS, settled: WRITTEN_WORDS
) -> _Told(Tally):  # fmt: skip
    """Asks for a property from a source: `starts` and `settled` get n words each."""


@call(version=2)
def batch(
    n: U32, landmarks: WORDS, tails: WRITTEN_WORDS, heads: WRITTEN_WORDS, weights: WRITTEN_WORDS, count: U32, forward: WRITTEN_WORDS,
    backward: WRITTEN_WORDS, changes: CHANGES
) -> _Told(Report):  # fmt: skip
    """Applies changes, five words each (kind, tail, head, weight, old), all or none. The report's count goes to every later call."""


@call
def settled(
    n: U32, landmarks: WORDS, tails: WORDS, heads: WORDS, weights: WORDS, count: U32, forward: WORDS, backward: WORDS
) -> _Told(Check):
    """Looks for the first edge that could still better a word of a row."""


@call
def choose(n: U32, tails: WORDS, heads: WORDS, weights: WORDS, count: U32, k: U32) -> _listed:
    """Chooses k landmarks: a list of them."""


@call
def row(
    n: U32, landmarks: WORDS, forward: WORDS, backward: WORDS, side: U32, landmark: U32, property: U32
) -> _Told():
    """Tells where a row starts in the list of its side."""


@call
def read(text: BYTES, tails: WRITTEN_WORDS, heads: WRITTEN_WORDS, weights: WRITTEN_WORDS) -> _Told(Size):
    """Reads network text into table lists."""


@call
def write(n: U32, tails: WORDS, heads: WORDS, weights: WORDS, count: U32, text: WRITTEN_BYTES) -> _Told():
    """Writes a network's text: its length."""


@call
def read_sources(text: BYTES, n: U32, sources: WRITTEN_WORDS) -> _Told():
    """Reads a source file of a network with n vertices: how many there are."""


@call(version=2)
def route(
    n: U32, tails: WORDS, heads: WORDS, weights: WORDS, count: U32, property: U32, source: U32, target: U32, vertices: WRITTEN_WORDS,
    marks: WRITTEN_WORDS, figures: WRITTEN_WORDS
) -> _Told():  # fmt: skip
    """Writes the vertices of the route behind a value, and for each of its edges whether it set the value (1) or passed it on (0), and its weight, of
    twins the lowest with which the route keeps its value: how many vertices there are."""


@call(version=2)
def preview(
    n: U32, landmarks: WORDS, tails: WORDS, heads: WORDS, weights: WORDS, count: U32, forward: WORDS, backward: WORDS, changes: CHANGES, property: U32,
    source: U32, effects: WRITTEN_WORDS, moves: WRITTEN_MOVES
) -> _nothing:  # fmt: skip
    """Shows what changes would do to a property from a source, and applies none: `effects` gets for each vertex SAME, GAINED, LOST or MOVED, `moves` the
    value after minus the value before where it has a route before and after, else 0."""


@call
def digest(n: U32, property: U32, effects: WORDS, moves: MOVES) -> _Told(Digest):
    """Sums up the two lists of a preview of that property."""
