"""Routes on a directed graph of up to 256 vertices and 2,048 weighted edges, over the proved library plate_track.

    deck = plate_track.Deck(4, [(0, 1, 4), (0, 3, 9), (1, 2, 4), (2, 1, 4), (3, 2, 2)])
    deck.open(deck.choose())
    deck.query(plate_track.TIME, 0).settled          # array('I', [0, 4, 8, 9])
    deck.route(plate_track.TIME, 0, 2).vertices      # [0, 1, 2]
    deck.preview([(plate_track.DELETE, 0, 1, 4)], plate_track.TIME, 0).moves     # [0, 11, 3, 0], and the deck stays as it is
    deck.batch([(plate_track.DELETE, 0, 1, 4), (plate_track.UPDATE, 0, 3, 7, 9)])     # 0->1 of 4 goes, 0->3 of 9 gets 7

A refused call raises Refused. Several threads may ask one deck at once, as long as none changes or opens it. plate_track.calls has the calls
alone, over lists of your own. The shared object is found beside this package, or at the path that PLATE_TRACK_LIBRARY or load() names."""

from .constants import *  # noqa: F403
from .deck import Answer, Deck, Preview, Route, Spot
from .graphs import from_networkx, to_networkx
from .native import Refused, load
