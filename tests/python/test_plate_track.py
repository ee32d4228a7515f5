"""The Python package over the shared object: Deck A by documents 01 and 02, refusals, widths, lists lent without a copy, what is not lent, loading,
installing, and graphs of NetworkX against its own algorithms. tests/python/run runs it."""

import ctypes
import itertools
import os
import random
import shutil
import subprocess
import sys
import tempfile
import threading
import unittest
from array import array
from importlib.util import find_spec
from pathlib import Path

import plate_track
from plate_track import DELETE, GAINED, GREATEST as M, HANDOVERS, HEADROOM, INSERT, LOST, MOVED, REACH, SAME, TIME, UPDATE, VERSION, WORST
from plate_track import Deck, Refused, calls, native

try:
    import networkx
except ImportError:
    networkx = None
try:
    import numpy
except ImportError:
    numpy = None

ROOT = Path(__file__).resolve().parents[2]
LIBRARY = Path(os.environ["PLATE_TRACK_LIBRARY"])
EDGES = [(0, 1, 4), (0, 3, 9), (1, 2, 4), (2, 1, 4), (3, 2, 2)]
TEXT = b"p sp 4 5\na 1 2 4\na 1 4 9\na 2 3 4\na 3 2 4\na 4 3 2\n"


def deck_a(landmark=0):
    deck = Deck(4, reversed(EDGES))
    deck.open([landmark])
    return deck


def values(deck, prop, source, schedule=()):
    return list(deck.query(prop, source, schedule).settled)


def state(deck):
    """All that a refused call must leave as it is."""
    return [bytes(x) for x in (deck.landmarks, *deck._table(), deck.forward, deck.backward)], deck.n, deck.count


class DeckA(unittest.TestCase):
    def test_values(self):
        deck = deck_a()
        self.assertEqual(values(deck, TIME, 0), [0, 4, 8, 9])
        self.assertEqual(values(deck, HANDOVERS, 0), [0, 1, 2, 1])
        self.assertEqual(values(deck, HEADROOM, 0), [M, 4, 4, 9])
        self.assertEqual(values(deck, WORST, 0), [0, 4, 4, 9])
        self.assertEqual(values(deck, REACH, 3), [0, 1, 1, 1])

    def test_batch_keeps_the_count(self):
        deck = Deck(4, EDGES[:-1])
        deck.open([0])
        self.assertEqual(deck.batch([(INSERT, 3, 2, 2)]).count, 5)
        self.assertEqual(values(deck, TIME, 3), [M, 6, 2, 0])
        self.assertEqual(deck.batch([(DELETE, 0, 1, 4)])[:2], (4, 10))
        self.assertEqual(values(deck, TIME, 0), [0, 15, 11, 9])
        self.assertEqual(values(deck, HEADROOM, 0), [M, 2, 2, 9])

    def test_updates(self):
        deck = deck_a()
        self.assertEqual(deck.batch([(UPDATE, 0, 1, 4, 4)]), (5, 0, 0))
        self.assertEqual(deck.batch([(UPDATE, 0, 1, 3, 4)]), (5, 2, 5))
        self.assertEqual([values(deck, p, 0) for p in (TIME, HEADROOM, WORST)], [[0, 3, 7, 9], [M, 3, 3, 9], [0, 3, 4, 9]])
        self.assertEqual(deck.edges(), [(0, 1, 3), *EDGES[1:]])
        deck = deck_a()
        self.assertEqual(deck.batch(array("I", [DELETE, 0, 1, 4, 0, INSERT, 0, 1, 5, 0])), (5, 4, 5))
        self.assertEqual([values(deck, p, 0) for p in (TIME, HEADROOM, WORST)], [[0, 5, 9, 9], [M, 5, 4, 9], [0, 5, 5, 9]])

    def test_routes(self):
        deck = Deck.read(TEXT)
        marks = {TIME: [1, 1], HANDOVERS: [1, 1], HEADROOM: [1, 0], WORST: [1, 0], REACH: [0, 0]}
        for prop, wanted in marks.items():
            self.assertEqual(deck.route(prop, 0, 2), ([0, 1, 2], [(0, 1, 4), (1, 2, 4)], wanted))
            self.assertEqual(deck.route(prop, 1, 1), ([1], [], []))
        deck.open([0])
        deck.batch([(DELETE, 0, 1, 4)])
        marks = {TIME: [1, 1, 1], HANDOVERS: [1, 1, 1], HEADROOM: [1, 1, 0], WORST: [1, 0, 0], REACH: [0, 0, 0]}
        for prop, wanted in marks.items():
            self.assertEqual(deck.route(prop, 0, 1), ([0, 3, 2, 1], [(0, 3, 9), (3, 2, 2), (2, 1, 4)], wanted))
        route = deck.route(TIME, 0, 2)
        self.assertEqual((route.vertices, route.marks, sum(w for _, _, w in route.edges)), ([0, 3, 2], [1, 1], 11))

    def test_previews(self):
        """Effects, moves, and the digest: gained, lost, better, worse, and the vertex that loses most. Best values before and after are in a comment."""
        take, cut, join, faster = (DELETE, 0, 1, 4), (DELETE, 3, 2, 2), (INSERT, 3, 0, 5), (UPDATE, 0, 1, 3, 4)
        taller = (INSERT, 0, 1, 7)
        deck = deck_a()
        before = state(deck)
        for changes, prop, source, effects, moves, digest in (
            ([take], TIME, 0, [SAME, MOVED, MOVED, SAME], [0, 11, 3, 0], (0, 0, 0, 2, 1)),  # 0 4 8 9, 0 15 11 9
            ([take], HANDOVERS, 0, [0, 3, 0, 0], [0, 2, 0, 0], (0, 0, 0, 1, 1)),  # 0 1 2 1, 0 3 2 1
            ([take], HEADROOM, 0, [0, 3, 3, 0], [0, -2, -2, 0], (0, 0, 0, 2, 1)),  # M 4 4 9, M 2 2 9
            ([take], WORST, 0, [0, 3, 3, 0], [0, 5, 5, 0], (0, 0, 0, 2, 1)),  # 0 4 4 9, 0 9 9 9
            ([take], REACH, 0, [0] * 4, [0] * 4, (0, 0, 0, 0, 4)),
            ([cut], TIME, 3, [SAME, LOST, LOST, SAME], [0] * 4, (0, 2, 0, 0, 1)),  # M 6 2 0, M M M 0
            ([join], TIME, 3, [GAINED, SAME, SAME, SAME], [0] * 4, (1, 0, 0, 0, 4)),  # M 6 2 0, 5 6 2 0
            ([faster], TIME, 0, [0, 3, 3, 0], [0, -1, -1, 0], (0, 0, 2, 0, 4)),  # 0 4 8 9, 0 3 7 9
            ([faster], HEADROOM, 0, [0, 3, 3, 0], [0, -1, -1, 0], (0, 0, 0, 2, 1)),  # M 4 4 9, M 3 3 9
            ([take, (INSERT, 0, 2, 1)], TIME, 0, [0, 3, 3, 0], [0, 1, -7, 0], (0, 0, 1, 1, 1)),  # 0 4 8 9, 0 5 1 9
            ([(DELETE, 0, 3, 9), (UPDATE, 0, 1, 6, 4)], TIME, 0, [0, 3, 3, 2], [0, 2, 2, 0], (0, 1, 0, 2, 3)),  # 0 4 8 9, 0 6 10 M
            ([taller], HEADROOM, 0, [0, 3, 0, 0], [0, 3, 0, 0], (0, 0, 1, 0, 4)),  # M 4 4 9, M 7 4 9
            ([taller], TIME, 0, [0] * 4, [0] * 4, (0, 0, 0, 0, 4)),
            ([take, (INSERT, 0, 1, 4)], TIME, 0, [0] * 4, [0] * 4, (0, 0, 0, 0, 4)),
            ([], TIME, 0, [0] * 4, [0] * 4, (0, 0, 0, 0, 4)),
        ):
            with self.subTest(changes=changes, prop=prop):
                self.assertEqual(deck.preview(changes, prop, source), (effects, moves, digest))
                lent = array("I", [word for change in changes for word in (*change, 0)[:5]])
                self.assertEqual(deck.preview(lent, prop, source).effects, effects)
        self.assertEqual(state(deck), before)
        preview = deck.preview(iter([take]), property=TIME, source=0)
        self.assertEqual((preview.moves, preview.digest.worse, preview.digest.most), ([0, 11, 3, 0], 2, 1))
        deck.batch([take])
        self.assertEqual(values(deck, TIME, 0), [0, 15, 11, 9])

    def test_query_tells_starts_and_tally(self):
        deck = deck_a(2)
        answer = deck.query(TIME, 1)
        self.assertEqual((list(answer.starts), list(answer.settled), answer.tally), ([M, 0, 4, M], [M, 0, 4, M], (0, 1, 0)))
        self.assertEqual(deck.query(TIME, 1, [1, 1]).tally[:2], (1, 0))

    def test_rows_are_parts_of_the_deck(self):
        deck = deck_a()
        row = deck.row(plate_track.FORWARD, 0, WORST)
        self.assertEqual((list(row), row.readonly), ([0, 4, 4, 9], True))
        self.assertEqual(list(deck.row(plate_track.BACKWARD, 0, REACH)), [1, 0, 0, 0])
        deck.forward[13] = 5
        self.assertEqual(row[1], 5)
        self.assertEqual(deck.settled(), (plate_track.FORWARD, 3, 0))
        deck.forward[13] = 4
        self.assertIsNone(deck.settled())

    def test_a_row_after_another_opening(self):
        deck = deck_a()
        row = deck.row(plate_track.FORWARD, 0, TIME)
        deck.batch([(DELETE, 0, 1, 4)])
        self.assertEqual(list(row), [0, 15, 11, 9])
        deck.open([3])
        deck.batch([(INSERT, 0, 1, 4)])
        self.assertEqual(list(row), [0, 15, 11, 9])
        self.assertEqual(list(deck.row(plate_track.FORWARD, 3, TIME)), [M, 6, 2, 0])

    def test_text_choice_and_sources(self):
        deck = Deck.read(TEXT)
        self.assertEqual((deck.n, deck.edges(), deck.write()), (4, EDGES, TEXT))
        self.assertEqual((deck.choose(3), deck.choose()), ([1, 2, 0], [1, 2, 0, 3]))
        self.assertEqual(deck.read_sources(b"p aux sp ss 2\ns 4\ns 1\n"), [3, 0])

    def test_changes_of_four_numbers(self):
        """An insert or a delete may leave `old` out; an update, or any other kind, may not, and nothing else is no change."""
        for changes in ([(INSERT, 0, 1, 7)], [(INSERT, 0, 1, 7, 0)], [[INSERT, 0, 1, 7]], [iter((INSERT, 0, 1, 7))], iter([(INSERT, 0, 1, 7)])):
            self.assertEqual(deck_a().batch(changes), (6, 0, 1))
        deck = deck_a()
        self.assertEqual(deck.batch([(DELETE, 0, 1, 4), (INSERT, 0, 1, 4, 0), (UPDATE, 0, 1, 5, 4)]), (5, 4, 5))
        before = state(deck)
        for wrong in (
            (UPDATE, 0, 1, 7), (4, 0, 1, 7), (0, 0, 1, 7), (INSERT, 0, 1), (DELETE, 0, 1), (UPDATE, 0, 1), (), (INSERT, 0, 1, 7, 0, 0),
            (UPDATE, 0, 1, 7, 5, 0),
        ):  # fmt: skip
            for changes in ([wrong], [(INSERT, 3, 1, 7), wrong]):
                self.assertRaisesRegex(ValueError, "^changes: .* and this is", deck.batch, changes)
                self.assertRaisesRegex(ValueError, "^changes: .* and this is", deck.preview, changes, TIME, 0)
        self.assertEqual(state(deck), before)

    def test_words(self):
        self.assertEqual([plate_track.no_route(p) for p in range(1, 6)], [M, M, 0, M, 0])
        self.assertEqual(plate_track.row_words(2, 3), 30)


class Twins(unittest.TestCase):
    """Edges of one tail and head with different weights."""

    TWO = [(0, 1, 2), (0, 1, 9), (1, 2, 5)]  # from 0: time 0 2 7, handovers 0 1 2, headroom M 9 5, worst 0 2 5, reach 1 1 1

    def two_tracks(self):
        deck = Deck(3, reversed(self.TWO))
        deck.open([0])
        return deck

    def test_the_best_over_both(self):
        deck = self.two_tracks()
        wanted = {TIME: [0, 2, 7], HANDOVERS: [0, 1, 2], HEADROOM: [M, 9, 5], WORST: [0, 2, 5], REACH: [1, 1, 1]}
        self.assertEqual({prop: values(deck, prop, 0) for prop in wanted}, wanted)
        self.assertEqual(deck.edges(), self.TWO)

    def test_a_change_names_one(self):
        """Reports: count, affected, stores. tests/deck says how each follows."""
        for deck, changes, report, edges in (
            (deck_a(), [(DELETE, 0, 1, 4)], (4, 10, 10), EDGES[1:]),
            (deck_a(), [(INSERT, 0, 1, 7)], (6, 0, 1), [(0, 1, 4), (0, 1, 7), *EDGES[1:]]),
            (deck_a(), [(UPDATE, 0, 1, 7, 4)], (5, 4, 5), [(0, 1, 7), *EDGES[1:]]),
            (deck_a(), [(UPDATE, 0, 1, 4, 4)], (5, 0, 0), EDGES),
            (deck_a(), [(INSERT, 0, 1, 7), (DELETE, 0, 1, 4)], (5, 4, 5), [(0, 1, 7), *EDGES[1:]]),
            (deck_a(), [(INSERT, 0, 1, 3), (UPDATE, 0, 1, 9, 4)], (6, 10, 11), [(0, 1, 3), (0, 1, 9), *EDGES[1:]]),
            (self.two_tracks(), [(UPDATE, 0, 1, 1, 2), (UPDATE, 0, 1, 8, 9)], (3, 10, 11), [(0, 1, 1), (0, 1, 8), (1, 2, 5)]),
            (self.two_tracks(), [(DELETE, 0, 1, 9)], (2, 6, 6), [(0, 1, 2), (1, 2, 5)]),
            (self.two_tracks(), [(DELETE, 0, 1, 2)], (2, 8, 8), [(0, 1, 9), (1, 2, 5)]),
            (self.two_tracks(), [(UPDATE, 0, 1, 12, 2)], (3, 4, 5), [(0, 1, 9), (0, 1, 12), (1, 2, 5)]),
        ):
            with self.subTest(changes=changes):
                self.assertEqual((deck.batch(changes), deck.edges()), (report, edges))
                self.assertIsNone(deck.settled())
                fresh = Deck(deck.n, edges)
                fresh.open([0])
                self.assertEqual((deck.forward, deck.backward), (fresh.forward, fresh.backward))

    def test_a_route_names_one(self):
        """The lowest weight with which the route keeps its value: for headroom to 2, which 1->2 of 4 sets, 5 of 3, 5 and 9."""
        deck = Deck(4, [(0, 1, 9), (0, 1, 3), (0, 1, 5), *EDGES[1:]])
        for prop, to_1, to_2, mark in ((TIME, 3, 3, 1), (HANDOVERS, 3, 3, 1), (HEADROOM, 9, 5, 1), (WORST, 3, 3, 1), (REACH, 3, 3, 0)):
            self.assertEqual(deck.route(prop, 0, 1), ([0, 1], [(0, 1, to_1)], [mark]))
            self.assertEqual(deck.route(prop, 0, 2), ([0, 1, 2], [(0, 1, to_2), (1, 2, 4)], [mark, mark]))

    def test_a_preview_of_one(self):
        deck = self.two_tracks()
        self.assertEqual(deck.preview([(DELETE, 0, 1, 9)], HEADROOM, 0)[:2], ([0, 3, 3], [0, -7, -3]))  # M 9 5, M 2 2
        self.assertEqual(deck.preview([(DELETE, 0, 1, 9)], TIME, 0)[:2], ([0] * 3, [0] * 3))
        self.assertEqual(deck.preview([(DELETE, 0, 1, 9)], REACH, 0)[:2], ([0] * 3, [0] * 3))
        self.assertEqual(deck.preview([(DELETE, 0, 1, 9), (DELETE, 0, 1, 2)], REACH, 0)[:2], ([0, 2, 2], [0] * 3))
        self.assertEqual(deck.edges(), self.TWO)

    def test_text_and_choice(self):
        text = b"p sp 3 3\na 1 2 2\na 1 2 9\na 2 3 5\n"
        deck = Deck.read(b"p sp 3 3\na 1 2 9\na 2 3 5\na 1 2 2\n")
        self.assertEqual((deck.edges(), deck.write()), (self.TWO, text))
        # edges in plus out, each twin counted: 0 has 4, 1 has 5, 2 has 3, 3 has 2; by pairs 2 would come before 0
        self.assertEqual(Deck(4, [(0, 1, 3), (0, 1, 5), *EDGES]).choose(), [1, 0, 2, 3])

    def test_as_many_as_there_is_room_for(self):
        """2,048 twins, of 1 to 2,048; 3,000 in the place of 1 is worse for time and worst stretch, and better for headroom."""
        deck = Deck(2, [(0, 1, w) for w in range(1, 2049)])
        deck.open([0])
        self.assertEqual([values(deck, p, 0) for p in (TIME, HEADROOM, WORST)], [[0, 1], [M, 2048], [0, 1]])
        for number, change in ((12, (INSERT, 0, 1, 3000)), (10, (INSERT, 0, 1, 2048)), (12, (INSERT, 1, 0, 1))):
            with self.assertRaises(Refused) as caught:
                deck.batch([change])
            self.assertEqual((caught.exception.number, caught.exception.place), (number, 0))
        self.assertEqual(deck.batch([(UPDATE, 0, 1, 3000, 1)]), (2048, 2, 3))
        self.assertEqual([values(deck, p, 0) for p in (TIME, HEADROOM, WORST)], [[0, 2], [M, 3000], [0, 2]])
        self.assertEqual(Deck.read(deck.write()).edges(), deck.edges())


class Refusals(unittest.TestCase):
    def refuses(self, number, word, place, function, *arguments):
        with self.assertRaises(Refused) as caught:
            function(*arguments)
        self.assertEqual((caught.exception.number, caught.exception.word, caught.exception.place), (number, word, place))

    def test_number_word_and_place(self):
        deck = deck_a()
        before = state(deck)
        self.refuses(14, "text", 2, Deck.read, b"p sp 4 1\na 1 5 3\n")
        self.refuses(14, "text", 1, Deck.read, b"")
        self.refuses(14, "text", 3, Deck.read, b"p sp 2 2\na 1 2 3\na 1 2 3\n")
        self.refuses(14, "text", 5, Deck.read, b"p sp 2 3\na 1 2 3\na 1 2 4\nc\na 1 2 3\n")
        self.refuses(14, "text", 1, Deck.read, b"p sp 1 1\n")
        self.refuses(14, "text", 4, Deck.read, b"p sp 2 3\na 1 2 3\na 2 1 3\n")
        for number, word, change in (
            (9, "weight (figure)", (DELETE, 0, 1, 0)),
            (9, "weight (figure)", (DELETE, 0, 1, 65536)),
            (9, "weight (figure)", (DELETE, 0, 1, 4, 4)),
            (9, "weight (figure)", (INSERT, 0, 1, 0)),
            (9, "weight (figure)", (INSERT, 0, 1, 7, 7)),
            (9, "weight (figure)", (UPDATE, 0, 1, 7, 0)),
            (9, "weight (figure)", (UPDATE, 0, 1, 7, 65536)),
            (9, "weight (figure)", (UPDATE, 0, 1, 0, 4)),
            (9, "weight (figure)", (UPDATE, 0, 1, 65536, 4)),
            (10, "present", (INSERT, 0, 1, 4)),
            (10, "present", (UPDATE, 0, 1, 4, 5)),
            (11, "absent", (DELETE, 0, 1, 5)),
            (11, "absent", (UPDATE, 0, 1, 5, 5)),
            (11, "absent", (UPDATE, 0, 1, 6, 5)),
            (7, "kind", (4, 0, 1, 4, 0)),
            (7, "kind", (0, 0, 1, 4, 0)),
        ):
            with self.subTest(change=change):
                self.refuses(number, word, 0, deck.batch, [change])
                self.refuses(number, word, 1, deck.batch, [(INSERT, 3, 0, 5), change])
                self.refuses(number, word, 0, deck.preview, [change], TIME, 0)
                self.refuses(number, word, 1, deck.preview, [(INSERT, 3, 0, 5), change], TIME, 0)
        self.refuses(10, "present", 1, deck.batch, [(INSERT, 0, 1, 7), (UPDATE, 0, 1, 7, 4)])
        self.refuses(10, "present", 1, deck.batch, [(INSERT, 0, 1, 7), (UPDATE, 0, 1, 7, 9)])
        self.refuses(11, "absent", 1, deck.batch, [(DELETE, 0, 1, 4)] * 2)
        self.refuses(11, "absent", 1, deck.batch, [(UPDATE, 0, 1, 3, 4), (UPDATE, 0, 1, 5, 4)])
        self.refuses(11, "absent", 1, deck.batch, [(UPDATE, 0, 1, 3, 4), (UPDATE, 1, 0, 3, 4)])
        self.refuses(6, "vertex (station)", 0, deck.query, TIME, 4)
        self.refuses(6, "vertex (station)", 1, deck.query, TIME, 0, [1, 4])
        self.refuses(5, "property", 0, deck.query, 6, 0)
        self.refuses(5, "property", 0, deck.row, 2, 0, TIME)
        self.refuses(15, "no route", 0, deck.route, TIME, 3, 0)
        self.refuses(6, "vertex (station)", 0, deck.route, TIME, 3, 4)
        self.refuses(6, "vertex (station)", 0, deck.route, TIME, 4, 0)
        self.refuses(5, "property", 0, deck.route, 6, 0, 4)
        self.refuses(11, "absent", 1, deck.preview, [(DELETE, 0, 1, 4)] * 2, TIME, 0)
        self.refuses(6, "vertex (station)", 1, deck.preview, [(DELETE, 0, 1, 4), (DELETE, 4, 1, 4)], TIME, 0)
        self.refuses(6, "vertex (station)", 0, deck.preview, [(DELETE, 0, 1, 4), (DELETE, 4, 1, 4)], TIME, 4)
        self.refuses(5, "property", 0, deck.preview, [(4, 0, 1, 4, 0)], 6, 4)
        self.refuses(5, "property", 0, calls.digest, 4, 0, array("I", [0] * 4), array("q", [0] * 4))
        self.refuses(1, "size", 0, calls.digest, 257, TIME, array("I", [0] * 257), array("q", [0] * 257))
        self.refuses(3, "landmarks (posts)", 0, deck.open, [0, 1, 2, 3, 0])
        self.refuses(3, "landmarks (posts)", 0, deck.open, [1, 1])
        self.refuses(3, "landmarks (posts)", 0, deck.open, [4])
        self.refuses(3, "landmarks (posts)", 0, deck.open, [])
        self.refuses(3, "landmarks (posts)", 0, deck.open, range(10**9))
        self.refuses(1, "size", 0, deck.query, TIME, 0, itertools.repeat(0))
        self.refuses(1, "size", 0, deck.batch, itertools.repeat((DELETE, 0, 1, 4)))
        self.refuses(1, "size", 0, deck.preview, itertools.repeat((DELETE, 0, 1, 4)), TIME, 0)
        self.refuses(3, "landmarks (posts)", 0, deck.choose, 5)
        self.refuses(14, "text", 1, deck.read_sources, b"")
        self.assertEqual(state(deck), before)
        self.assertEqual(values(deck, TIME, 0), [0, 4, 8, 9])
        self.assertEqual(deck.batch([(DELETE, 0, 1, 4)])[:2], (4, 10))
        self.refuses(3, "landmarks (posts)", 0, Deck.read(TEXT).query, TIME, 0)
        self.refuses(3, "landmarks (posts)", 0, Deck.read(TEXT).preview, [], TIME, 0)
        self.refuses(1, "size", 0, Deck(257).preview, [], TIME, 0)
        self.refuses(1, "size", 0, Deck(257).open, [0])
        self.refuses(1, "size", 0, Deck(257).route, TIME, 0, 0)
        self.refuses(1, "size", 0, Deck(0).route, TIME, 0, 0)
        self.refuses(4, "table", 0, Deck(3, [(1, 1, 1)]).route, TIME, 0, 1)
        self.refuses(4, "table", 1, Deck(3, [(0, 1, 1), (0, 1, 1)]).open, [0])
        self.refuses(4, "table", 2, Deck(3, [(0, 1, 1), (0, 1, 2), (0, 1, 2)]).open, [0])
        falling = Deck(3, [(0, 1, 1), (0, 1, 2)])
        falling.weights[0] = 3
        self.refuses(4, "table", 1, falling.open, [0])
        self.refuses(4, "table", 0, Deck(256, [(i // 200, i % 200 + 30, 1) for i in range(2049)]).open, [0])
        self.assertEqual(str(Refused(14, 2)), "refused 14, text, at 2")

    def test_numbers_are_held_to_their_width(self):
        deck = deck_a()
        for wrong in (2**32, 2**32 + 1, -1, 2**64):
            self.assertRaises(OverflowError, deck.query, TIME, wrong)
            self.assertRaises(OverflowError, deck.query, wrong, 0)
            self.assertRaises(OverflowError, deck.query, TIME, 0, [wrong])
            self.assertRaises(OverflowError, deck.row, 0, wrong, TIME)
            self.assertRaises(OverflowError, deck.route, TIME, 0, wrong)
            self.assertRaises(OverflowError, deck.preview, [], TIME, wrong)
            self.assertRaises(OverflowError, deck.preview, [], wrong, 0)
            self.assertRaises(OverflowError, deck.choose, wrong)
            self.assertRaises(OverflowError, Deck, wrong)
            self.assertRaises(OverflowError, Deck, 2, [(0, 1, wrong)])
            self.assertRaises(OverflowError, deck.open, [wrong])
            for place in range(5):
                change = [UPDATE, 0, 1, 7, 4]
                change[place] = wrong
                self.assertRaises(OverflowError, deck.batch, [change])
                self.assertRaises(OverflowError, deck.preview, [change], TIME, 0)
        self.assertRaises(OverflowError, deck.batch, [(2**32 + 2, 0, 1, 4, 0)])
        self.assertRaises(OverflowError, deck.batch, [(DELETE, 0, 1, 2**32 + 4)])
        self.assertRaises(OverflowError, deck.batch, [(UPDATE, 0, 1, 7, 2**32 + 4)])
        self.assertRaises(TypeError, deck.batch, [(UPDATE, 0, 1, 7, 4.0)])
        self.assertRaises(TypeError, deck.batch, [(INSERT, 0, 1, "7")])
        self.assertRaises(TypeError, deck.batch, [INSERT, 0, 1, 7, 0])
        self.assertRaises(TypeError, deck.query, TIME, 1.0)
        self.assertRaises(TypeError, deck.query, "1", 0)
        self.assertRaises(TypeError, deck.route, TIME, 0, 2.0)
        self.assertRaises(TypeError, deck.preview, [], TIME, 0.0)
        self.assertRaises(TypeError, deck.preview, b"", TIME, 0)
        for text in (b"\0\0\0\0", bytearray(4), "0", b""):
            self.assertRaises(TypeError, deck.open, text)
        self.assertRaises(TypeError, deck.query, TIME, 0, b"\0\0\0\0")
        self.assertRaises(TypeError, deck.query, TIME, 0, "0")
        self.assertRaises(TypeError, deck.open, [0.0])
        self.assertRaises(TypeError, deck.open, 0)
        self.assertEqual(deck.edges(), EDGES)


class Lending(unittest.TestCase):
    """The calls alone, over lists of several kinds."""

    def lists(self, of):
        """Deck A, opened, in lists that `of` makes from words."""
        table = [of([e[i] for e in EDGES] + [0] * 2043) for i in range(3)]
        rows = [of([7] * 20) for _ in range(2)]
        calls.open(4, of([0]), *table, 5, *rows)
        return 4, of([0]), *table, 5, *rows

    def test_kinds_of_lists_without_a_copy(self):
        kinds = {  # lists of words, and of moves
            "array": (lambda ws: array("I", ws), lambda ds: array("q", ds)),
            "long": (lambda ws: array("I", ws), lambda ds: array("l", ds)),
            "memoryview": (
                lambda ws: memoryview(bytearray(array("I", ws).tobytes())).cast("I"),
                lambda ds: memoryview(bytearray(array("q", ds).tobytes())).cast("q"),
            ),
            "ctypes": (lambda ws: (ctypes.c_uint32 * len(ws))(*ws), lambda ds: (ctypes.c_int64 * len(ds))(*ds)),
        }
        if numpy:
            kinds["numpy"] = (lambda ws: numpy.array(ws, dtype=numpy.uint32), lambda ds: numpy.array(ds, dtype=numpy.int64))
        for name, (of, moves_of) in kinds.items():
            with self.subTest(name):
                network, starts, settled = self.lists(of), of([7] * 5), of([7] * 5)
                self.assertEqual(calls.query(*network, TIME, 0, of([]), starts, settled), (0, 1, 0))
                self.assertEqual(list(settled), [0, 4, 8, 9, 7])
                vertices, marks, figures = of([7] * 5), of([7] * 5), of([7] * 5)
                self.assertEqual(calls.route(4, *network[2:6], HEADROOM, 0, 2, vertices, marks, figures), 3)
                self.assertEqual((list(vertices), list(marks), list(figures)), ([0, 1, 2, 7, 7], [1, 0, 7, 7, 7], [4, 4, 7, 7, 7]))
                effects, moves = of([7] * 5), moves_of([-7] * 5)
                self.assertIsNone(calls.preview(*network, of([DELETE, 0, 1, 4, 0]), HEADROOM, 0, effects, moves))
                self.assertEqual((list(effects), list(moves)), ([0, 3, 3, 0, 7], [0, -2, -2, 0, -7]))
                self.assertEqual(calls.digest(4, HEADROOM, effects, moves), (0, 0, 0, 2, 1))
                self.assertEqual(calls.batch(*network, of([DELETE, 0, 1, 4, 0])), (4, 10, 10))
                self.assertEqual(list(network[2])[:5], [0, 1, 2, 3, 0])

    def test_the_shape_of_changes(self):
        network = self.lists(lambda ws: array("I", ws))
        two = memoryview(array("I", [DELETE, 0, 1, 4, 0, DELETE, 0, 3, 9, 0])).cast("B")
        for shape in ((5, 2), (10, 1), (1, 10), (1, 5, 2)):
            self.assertRaises(ValueError, calls.batch, *network, two.cast("I", shape))
        fours = memoryview(array("I", [DELETE, 0, 1, 4] * 5)).cast("B")  # as many words as four changes have
        self.assertRaises(ValueError, calls.batch, *network, fours.cast("I", (5, 4)))
        self.assertRaises(ValueError, calls.batch, *network, array("I", [DELETE, 0, 1, 4]))
        self.assertEqual(calls.batch(*network, two.cast("I", (2, 5))).count, 3)

    def test_the_memory_itself_is_lent(self):
        below = bytearray(array("I", [7] * 4).tobytes())
        read_only = array("I", [0]).tobytes()
        network = list(self.lists(lambda ws: array("I", ws)))
        network[1] = memoryview(read_only).cast("I")
        calls.query(*network, TIME, 0, array("I"), array("I", [7] * 4), memoryview(below).cast("I"))
        self.assertEqual(below, array("I", [0, 4, 8, 9]).tobytes())

    def test_what_is_not_lent(self):
        network, out = self.lists(lambda ws: array("I", ws)), array("I", [7] * 4)

        def query(**changed):
            lent = {"schedule": array("I"), "starts": array("I", [7] * 4), "settled": out, **changed}
            calls.query(*network, TIME, 0, **lent)

        query()
        self.assertEqual(list(out), [0, 4, 8, 9])
        for wrong in ([0, 1], array("i", [0]), array("L", [0]), array("f", [0]), b"1234", "text", None, memoryview(array("I", range(4)))[::2]):
            self.assertRaises(TypeError, query, schedule=wrong)
        self.assertRaises(TypeError, query, settled=memoryview(bytes(16)).cast("I"))
        self.assertRaises(ValueError, query, schedule=memoryview(bytearray(9))[1:].cast("I"))
        self.assertRaises(ValueError, query, starts=out)
        self.assertRaises(ValueError, query, schedule=memoryview(out)[3:])
        self.assertRaises(ValueError, calls.batch, *network, array("I", [INSERT, 3, 1, 7]))
        self.assertRaises(TypeError, calls.query, *network, TIME, 0)
        self.assertRaises(TypeError, calls.read, "p sp 1 0\n", *network[2:5])
        # read twice is no harm
        self.assertEqual(calls.choose(4, network[2], network[2], network[2], 0, 1), [0])

    def test_what_is_not_lent_to_a_route(self):
        n, _, *table, count, _, _ = self.lists(lambda ws: array("I", ws))
        out = array("I", [7] * 4)

        def route(**changed):
            lent = {"vertices": array("I", [7] * 4), "marks": out, "figures": array("I", [7] * 4), **changed}
            return calls.route(n, *table, count, TIME, 0, 2, **lent)

        for wrong in ([0] * 4, array("i", [7] * 4), array("Q", [7] * 4), bytearray(16), memoryview(bytes(16)).cast("I"), None):
            self.assertRaises(TypeError, route, vertices=wrong)
            self.assertRaises(TypeError, route, marks=wrong)
            self.assertRaises(TypeError, route, figures=wrong)
        self.assertRaises(ValueError, route, vertices=out)
        self.assertRaises(ValueError, route, figures=out)
        self.assertRaises(ValueError, route, figures=table[2])
        self.assertRaises(ValueError, route, vertices=memoryview(array("I", [7] * 8))[1:5], marks=table[1])
        both = memoryview(array("I", [7] * 8))
        self.assertRaises(ValueError, route, vertices=both[:5], marks=both[4:])
        self.assertRaises(ValueError, route, vertices=both[:5], figures=both[4:])
        for short in ("vertices", "marks", "figures"):
            for words in (0, 3):
                with self.assertRaises(Refused) as caught:
                    route(**{short: array("I", [7] * words)})
                self.assertEqual(caught.exception.number, plate_track.SHORT)
        self.assertEqual(list(out) + list(both), [7] * 12)
        # beside each other is no overlap
        self.assertEqual((route(vertices=both[:4], marks=both[4:]), list(both)), (3, [0, 1, 2, 7, 1, 1, 7, 7]))
        self.assertEqual((route(vertices=both[4:], figures=both[:4]), list(both)), (3, [4, 4, 2, 7, 0, 1, 2, 7]))

    def test_what_is_not_lent_to_a_preview(self):
        network, out = self.lists(lambda ws: array("I", ws)), array("q", [-7] * 4)

        def preview(**changed):
            lent = {"changes": array("I", [DELETE, 0, 1, 4, 0]), "effects": array("I", [7] * 4), "moves": out, **changed}
            return calls.preview(*network, property=TIME, source=0, **lent)

        for wrong in ([0] * 4, array("i", [7] * 4), array("q", [7] * 4), bytearray(16), memoryview(bytes(16)).cast("I"), None):
            self.assertRaises(TypeError, preview, effects=wrong)
        for wrong in ([0] * 4, array("i", [7] * 8), array("Q", [7] * 4), array("L", [7] * 4), array("d", [7] * 4), bytearray(32), None):
            self.assertRaises(TypeError, preview, moves=wrong)
            self.assertRaises(TypeError, calls.digest, 4, TIME, array("I", [7] * 4), wrong)
        self.assertRaises(TypeError, preview, moves=memoryview(bytes(32)).cast("q"))
        self.assertRaises(TypeError, preview, changes=array("q", [DELETE, 0, 1, 4, 0]))
        self.assertRaises(ValueError, preview, changes=array("I", [DELETE, 0, 1, 4]))
        for name, wrong, said in (
            ("moves", array("Q", [7] * 4), "moves: signed elements of 64 bits are needed, and these are 'Q' of 64"),
            ("moves", array("i", [7] * 4), "moves: signed elements of 64 bits are needed, and these are 'i' of 32"),
            ("effects", array("i", [7] * 4), "effects: unsigned elements of 32 bits are needed, and these are 'i' of 32"),
        ):
            with self.assertRaises(TypeError) as caught:
                preview(**{name: wrong})
            self.assertEqual(str(caught.exception), said)
        both = memoryview(bytearray(48))
        self.assertRaises(ValueError, preview, effects=both[:16].cast("I"), moves=both[8:40].cast("q"))
        self.assertRaises(ValueError, preview, effects=both[:16].cast("I"), changes=both[:20].cast("I"))
        self.assertRaises(ValueError, preview, moves=both[4:36].cast("q"))
        self.assertRaises(ValueError, preview, effects=network[3])
        for short, form in (("effects", "I"), ("moves", "q")):
            for entries in (0, 3):
                with self.assertRaises(Refused) as caught:
                    preview(**{short: array(form, [7] * entries)})
                self.assertEqual(caught.exception.number, plate_track.SHORT)
        self.assertEqual((list(out), bytes(both)), ([-7] * 4, bytes(48)))
        # beside each other is no overlap, and a digest only reads
        preview(effects=both[:16].cast("I"), moves=both[16:].cast("q"))
        self.assertEqual((both[:16].cast("I").tolist(), both[16:].cast("q").tolist()), ([0, 3, 3, 0], [0, 11, 3, 0]))
        self.assertEqual(calls.digest(4, TIME, both[:16].toreadonly().cast("I"), both[16:].toreadonly().cast("q")), (0, 0, 0, 2, 1))

    def test_a_list_can_not_shrink_while_it_is_lent(self):
        out = array("I", [7] * 4)
        with native._lent("out", calls.WRITTEN_WORDS, out) as (at, size):
            self.assertEqual((at, size), (out.buffer_info()[0], 16))
            self.assertRaises(BufferError, out.pop)
        calls.query(*deck_a()._network(), TIME, 0, array("I"), array("I", [7] * 4), out)
        self.assertEqual(out.pop(), 9)


class Threads(unittest.TestCase):
    def test_one_deck_from_the_first_call_on(self):
        """Several threads ask one deck at once, none of which has loaded the shared object."""
        wanted = {TIME: [0, 4, 8, 9], HANDOVERS: [0, 1, 2, 1], HEADROOM: [M, 4, 4, 9], WORST: [0, 4, 4, 9], REACH: [1, 1, 1, 1]}
        moves = {TIME: [0, 11, 3, 0], HANDOVERS: [0, 2, 0, 0], HEADROOM: [0, -2, -2, 0], WORST: [0, 5, 5, 0], REACH: [0] * 4}
        deck, wrong, begin = deck_a(), [], threading.Barrier(4)

        def ask():
            try:
                begin.wait()
                for _ in range(200):
                    wrong.extend(prop for prop, right in wanted.items() if values(deck, prop, 0) != right)
                    wrong.extend(prop for prop in wanted if deck.route(prop, 0, 2).vertices != [0, 1, 2])
                    wrong.extend(prop for prop, right in moves.items() if deck.preview([(DELETE, 0, 1, 4)], prop, 0).moves != right)
            except Exception as error:
                wrong.append(error)

        native._outside = {}
        threads = [threading.Thread(target=ask) for _ in range(4)]
        for thread in threads:
            thread.start()
        for thread in threads:
            thread.join()
        self.assertEqual(wrong, [])


class Loading(unittest.TestCase):
    def python(self, code, folder, **environment):
        keep = {k: v for k, v in os.environ.items() if k not in ("PLATE_TRACK_LIBRARY", "PYTHONPATH", "LD_LIBRARY_PATH")}
        return subprocess.run(
            [sys.executable, "-B", "-c", code], env={**keep, "PYTHONPATH": str(folder), **environment}, capture_output=True, text=True
        )

    ASK = "import plate_track as p; d = p.Deck(2, [(0, 1, 5)]); d.open([0]); print(*d.query(p.TIME, 0).settled)"

    def test_found_beside_the_package_and_by_a_path(self):
        with tempfile.TemporaryDirectory() as folder:
            shutil.copytree(ROOT / "python/plate_track", Path(folder) / "plate_track", ignore=shutil.ignore_patterns("__pycache__"))
            lost = self.python(self.ASK, folder)
            self.assertIn(f"ImportError: plate_track: no shared object of version {VERSION}", lost.stderr)
            self.assertIn("tools/shared", lost.stderr)
            self.assertIn("PLATE_TRACK_LIBRARY", lost.stderr)
            self.assertEqual(self.python(self.ASK, folder, PLATE_TRACK_LIBRARY=str(LIBRARY)).stdout, "0 5\n")
            self.assertEqual(self.python(f"import plate_track as p; p.load({str(LIBRARY)!r});" + self.ASK, folder).stdout, "0 5\n")
            self.assertEqual(self.python(self.ASK, folder, LD_LIBRARY_PATH=str(LIBRARY.parent)).stdout, "0 5\n")
            shutil.copy(LIBRARY, Path(folder) / "plate_track")
            self.assertEqual(self.python(self.ASK, folder).stdout, "0 5\n")

    def test_another_version_or_no_such_call_is_refused(self):
        with tempfile.TemporaryDirectory() as folder:
            other = Path(folder) / "other.so"
            for version, said in (
                (VERSION + 1, f"has version {VERSION + 1}, and this package is for {VERSION}"),
                (VERSION, f"no shared object of version {VERSION}: {other}: undefined symbol: {calls.open.symbol}"),
            ):
                source = f"unsigned plate_track_version(void) {{ return {version}; }}"
                subprocess.run(["gcc", "-shared", "-x", "c", "-o", other, "-"], input=source, text=True, check=True)
                self.assertIn(said, self.python(self.ASK, ROOT / "python", PLATE_TRACK_LIBRARY=str(other)).stderr)

    @unittest.skipUnless(find_spec("setuptools"), "setuptools is not here")
    def test_pyproject_builds_package_and_shared_object(self):
        """For this machine alone where a shared object goes with the package, and for any where none does."""
        for with_object in (True, False):
            with tempfile.TemporaryDirectory() as folder:
                shutil.copytree(ROOT / "python", folder, ignore=shutil.ignore_patterns("__pycache__"), dirs_exist_ok=True)
                if with_object:
                    shutil.copy(LIBRARY, Path(folder) / "plate_track")
                words = [sys.executable, "-W", "ignore", "setup.py", "-q", "build"]
                subprocess.run(words, cwd=folder, check=True, capture_output=True)
                (built,) = (Path(folder) / "build").glob("lib*")
                self.assertEqual("x86_64" in built.name, with_object)
                self.assertEqual(self.python(self.ASK, built).stdout, "0 5\n" if with_object else "")


@unittest.skipUnless(networkx, "networkx is not here")
class Graphs(unittest.TestCase):
    def found(self, graph, nodes, source):
        """The values from a source, by property, as NetworkX has them: headroom is the greatest weight such that the edges of that weight and above lead
        to a vertex, worst stretch the least such that those of it and below do. Where there are many weights these two are left out."""
        time = networkx.single_source_dijkstra_path_length(graph, nodes[source])
        handovers = networkx.single_source_shortest_path_length(graph, nodes[source])
        reached = networkx.descendants(graph, nodes[source]) | {nodes[source]}
        all_of = {
            TIME: [time.get(v, M) for v in nodes], HANDOVERS: [handovers.get(v, M) for v in nodes], REACH: [int(v in reached) for v in nodes],
        }  # fmt: skip
        edges = list(graph.edges(data="weight"))
        weights = sorted({w for *_, w in edges})
        if graph.is_directed() and len(weights) <= 12:
            up, down = {nodes[source]: M}, {nodes[source]: 0}
            for least in reversed(weights):
                for v in self.led_to(graph, nodes[source], [(t, h) for t, h, w in edges if w >= least]):
                    up.setdefault(v, least)
            for most in weights:
                for v in self.led_to(graph, nodes[source], [(t, h) for t, h, w in edges if w <= most]):
                    down.setdefault(v, most)
            all_of |= {HEADROOM: [up.get(v, 0) for v in nodes], WORST: [down.get(v, M) for v in nodes]}
        return all_of

    def led_to(self, graph, node, pairs):
        part = networkx.DiGraph()
        part.add_nodes_from(graph)
        part.add_edges_from(pairs)
        return networkx.descendants(part, node)

    def agree(self, deck, graph, nodes):
        for source in range(len(nodes)):
            for prop, wanted in self.found(graph, nodes, source).items():
                self.assertEqual(values(deck, prop, source), wanted)

    def came_true(self, preview, prop, was, now):
        """A preview is what lies between the values before and after; its digest is counted here in another way."""
        none = plate_track.no_route(prop)
        lacks = [(a == none, b == none) for a, b in zip(was, now)]
        effects = {(True, True): SAME, (True, False): GAINED, (False, True): LOST}
        self.assertEqual(preview.effects, [effects.get(lack, SAME if a == b else MOVED) for lack, a, b in zip(lacks, was, now)])
        self.assertEqual(preview.moves, [0 if any(lack) else b - a for lack, a, b in zip(lacks, was, now)])
        worse_by = [-d if prop == HEADROOM else d for d in preview.moves]  # reach never moves
        losses = [M if e == LOST else max(0, d) for e, d in zip(preview.effects, worse_by)]
        counts = [preview.effects.count(GAINED), preview.effects.count(LOST), sum(d < 0 for d in worse_by), sum(d > 0 for d in worse_by)]
        self.assertEqual(preview.digest, (*counts, losses.index(max(losses)) if any(losses) else len(was)))

    def drawn(self, draw, kind, most):
        """A graph of some vertices and weights up to `most`; twins are parallel edges, with keys that say nothing."""
        n = draw.randrange(20, 40) if most > 12 else draw.randrange(8, 14)
        graph = networkx.gnm_random_graph(n, 3 * n, seed=draw.randrange(10**6), directed=kind != "undirected")
        if kind == "twins":
            graph = networkx.MultiDiGraph(graph.edges)
            graph.add_nodes_from(range(n))
            graph.add_edges_from(draw.sample(sorted(graph.edges(keys=False)), n))
        graph = networkx.relabel_nodes(graph, {v: f"station {v}" for v in range(n)})
        for u, v in sorted(set(graph.edges())):
            parts = graph[u][v].values() if kind == "twins" else [graph[u][v]]
            for part, weight in zip(parts, draw.sample(range(1, most + 1), len(parts))):
                part["weight"] = weight
        return graph

    def changed(self, draw, edges, n, most):
        """Changes that are accepted: six deletes, inserts of new pairs and of twins, updates; and the edges after them."""
        edges, changes = set(edges), []
        for t, h, w in draw.sample(sorted(edges), 6):
            changes.append((DELETE, t, h, w))
            edges.remove((t, h, w))
        for change in (INSERT,) * 8 + (UPDATE,) * 8:
            t, h, w = draw.choice(sorted(edges))
            if change == INSERT and draw.random() < 0.5:
                t, h = draw.sample(range(n), 2)
            if len({e for e in edges if e[:2] == (t, h)}) == most:
                continue
            figure = draw.choice([f for f in range(1, most + 1) if (t, h, f) not in edges])
            changes.append((INSERT, t, h, figure) if change == INSERT else (UPDATE, t, h, figure, w))
            edges -= {(t, h, w)} if change == UPDATE else set()
            edges.add((t, h, figure))
        return changes, edges

    def test_against_dijkstra_and_bfs(self):
        draw = random.Random(14)
        for kind, most in (("directed", 65535), ("undirected", 65535), ("twins", 65535), ("directed", 12), ("twins", 12), ("twins", 4)):
            graph = self.drawn(draw, kind, most)
            deck, nodes = plate_track.from_networkx(graph)
            deck.open(deck.choose())
            self.agree(deck, graph, nodes)
            graph, n = plate_track.to_networkx(deck, nodes), len(nodes)
            for _ in range(5):
                changes, edges = self.changed(draw, deck.edges(), n, most)
                sources = draw.sample(range(n), 4)
                was = {source: self.found(graph, nodes, source) for source in sources}
                shown = [(source, prop, deck.preview(changes, prop, source)) for source in sources for prop in was[source]]
                deck.batch(changes)
                self.assertEqual(deck.edges(), sorted(edges))
                for kind_of, t, h, w, *old in changes:
                    if kind_of != INSERT:
                        graph.remove_edge(nodes[t], nodes[h], key=old[0] if old else w)
                    if kind_of != DELETE:
                        graph.add_edge(nodes[t], nodes[h], key=w, weight=w)
                self.agree(deck, graph, nodes)
                for source, prop, preview in shown:
                    self.came_true(preview, prop, was[source][prop], self.found(graph, nodes, source)[prop])
                now = plate_track.to_networkx(deck, nodes)
                self.assertEqual((set(now), set(now.edges(keys=True, data="weight"))), (set(graph), set(graph.edges(keys=True, data="weight"))))
                self.assertEqual(plate_track.from_networkx(now)[0].edges(), deck.edges())

    def test_routes_against_all_simple_paths(self):
        """Of all best routes the one with the fewest edges, then the lowest vertex at the first place where two differ: weights are few, so that
        many routes are best. A route with the fewest edges goes through no vertex twice. The weight of an edge is the lowest, of those of its pair, with
        which the route keeps its value while the others take whichever is best; taken all at once these keep it too."""
        costs = {  # of a route by its weights, less is better
            TIME: sum, HANDOVERS: len, HEADROOM: lambda ws: -min(ws, default=M), WORST: lambda ws: max(ws, default=0), REACH: lambda ws: -1,
        }  # fmt: skip
        draw = random.Random(15)
        for twins in (0, 0, 0, 5, 5, 8):
            n = draw.randrange(5, 7) if twins else draw.randrange(6, 10)
            plain = networkx.gnm_random_graph(n, 2 * n, seed=draw.randrange(10**6), directed=True)
            pairs = [*plain.edges, *(draw.choice(sorted(plain.edges)) for _ in range(twins))]
            weights = {pair: sorted(draw.sample(range(1, 8 if twins else 5), pairs.count(pair))) for pair in plain.edges}
            deck = Deck(n, [(u, v, w) for (u, v), ws in weights.items() for w in ws])
            for (source, target), (prop, cost) in itertools.product(itertools.product(plain, plain), costs.items()):
                paths = [[source]] if source == target else list(networkx.all_simple_paths(plain, source, target))
                if not paths:
                    with self.assertRaises(Refused) as caught:
                        deck.route(prop, source, target)
                    self.assertEqual((caught.exception.number, caught.exception.place), (plate_track.NO_ROUTE, 0))
                    continue
                choices = {tuple(path): [weights[pair] for pair in zip(path, path[1:])] for path in paths}
                least = {path: min(map(cost, itertools.product(*of))) for path, of in choices.items()}
                best = min(choices, key=lambda path: (least[path], len(path), path))
                kept = [ws for ws in itertools.product(*choices[best]) if cost(ws) == least[best]]
                ws = [min(column) for column in zip(*kept)]
                self.assertEqual(cost(ws), least[best])
                marks = [int(prop in (TIME, HANDOVERS) or cost(ws[: i + 1]) != cost(ws[:i])) for i in range(len(ws))]
                self.assertEqual(deck.route(prop, source, target), (list(best), list(zip(best, best[1:], ws)), marks))

    def test_forms(self):
        graph = networkx.DiGraph([("b", "a")])
        deck, nodes = plate_track.from_networkx(graph)
        self.assertEqual((deck.edges(), nodes), ([(0, 1, 1)], ["b", "a"]))
        graph = networkx.DiGraph()
        graph.add_edge(5, 6, cost=3)
        self.assertEqual(plate_track.from_networkx(graph, weight="cost")[0].edges(), [(0, 1, 3)])
        graph.add_edge(5, 6, weight=1.5)
        self.assertRaises(TypeError, plate_track.from_networkx, graph)

    def test_multigraphs(self):
        """Parallel edges are twins; the key of an edge of a deck is its weight."""
        for form, wanted in ((networkx.MultiDiGraph, [(0, 1, 1), (0, 1, 9)]), (networkx.MultiGraph, [(0, 1, 1), (0, 1, 9), (1, 0, 1), (1, 0, 9)])):
            graph = form()
            graph.add_edge("b", "a", key="tall", weight=9)
            graph.add_edge("b", "a", key="fast")
            deck, nodes = plate_track.from_networkx(graph)
            self.assertEqual((deck.edges(), nodes), (wanted, ["b", "a"]))
            deck.open([0])
            self.assertEqual([values(deck, p, 0) for p in (TIME, HEADROOM, WORST)], [[0, 1], [M, 9], [0, 1]])
            back = plate_track.to_networkx(deck, nodes, weight="cost")
            self.assertEqual((type(back), list(back)), (networkx.MultiDiGraph, ["b", "a"]))
            self.assertEqual(sorted(back.edges(keys=True, data="cost")), sorted((nodes[t], nodes[h], w, w) for t, h, w in wanted))
            self.assertTrue(back.has_edge("b", "a", 9) and not back.has_edge("b", "a", 5))
        self.assertEqual(list(plate_track.to_networkx(Deck(2, [(0, 1, 4)])).edges(keys=True, data="weight")), [(0, 1, 4, 4)])
        graph.add_edge("b", "a", weight=9)
        with self.assertRaises(Refused) as caught:
            plate_track.from_networkx(graph)[0].open([0])
        self.assertEqual((caught.exception.number, caught.exception.place), (plate_track.TABLE, 2))


if __name__ == "__main__":
    for name, module in (("numpy", numpy), ("networkx", networkx), ("setuptools", find_spec("setuptools"))):
        if not module:
            print(f"python: skipped: what needs {name}, which is not here", flush=True)
    unittest.main()
