"""values.py FOLDER..: each folder's name, and what the values program prints for its deck.gr and deck.ss, through the Python package."""

import sys
from pathlib import Path

from plate_track import PROPERTIES, SHORT, Deck, Refused


def bytes_of(path):
    """A file's bytes; one that can't be opened is empty, and a long one refused."""
    try:
        text = path.read_bytes()
    except OSError:
        text = b""
    if len(text) > 65536:
        raise Refused(SHORT, 0)
    return text


def lines(folder):
    deck = Deck.read(bytes_of(folder / "deck.gr"))
    sources = deck.read_sources(bytes_of(folder / "deck.ss"))
    deck.open(deck.choose())
    yield "source station time handovers headroom worst reach"
    for source in sources:
        columns = [deck.query(p, source).settled for p in range(1, PROPERTIES + 1)]
        for vertex, values in enumerate(zip(*columns)):
            yield " ".join(map(str, (source + 1, vertex + 1, *values)))


for folder in sys.argv[1:]:
    print(folder)
    try:
        print("\n".join(lines(Path(folder))))
    except Refused as refused:
        print("refused", refused.number, refused.place)
