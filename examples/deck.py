"""Deck A of document 01 from Python: read from text, opened, asked, also what a change would do, changed, asked again, for routes too, written as text,
given a twin of one of its edges and asked for routes along either. Run it by examples/run."""

import plate_track
from plate_track import DELETE, GREATEST, HEADROOM, INSERT, MOVED, REACH, TIME, UPDATE, WORST, Deck, Refused

NAMES = ["time", "handovers", "headroom", "worst", "reach"]
EFFECTS = ["same", "gained", "lost"]


def ask(deck, prop, source):
    answer = deck.query(prop, source)
    cells = "".join(f" {'M' if w == GREATEST else w:>10}" for w in answer.settled)
    print(f"  from {source}  {NAMES[prop - 1]:<9}{cells}   rounds {answer.tally.rounds}, stores {answer.tally.stores}")


def show_route(deck, prop, source, target):
    """A route with the weights of its edges and their marks; for headroom and worst stretch also the last edge marked, whose weight is the value."""
    try:
        vertices, edges, marks = deck.route(prop, source, target)
    except Refused as refused:
        print(f"route: {refused}")
        return
    setting = [f", set by {tail}->{head} {weight}" for (tail, head, weight), mark in zip(edges, marks) if mark and prop in (HEADROOM, WORST)]
    figures = [weight for _, _, weight in edges]
    print(f"  from {source} to {target}  {NAMES[prop - 1]:<9} ", *vertices, "  figures", *figures, "  marks", *marks, end="".join(setting[-1:]) + "\n")


def show_preview(deck, prop, source, *changes):
    """Before anything is done, "what would happen if I did this?": for each vertex by how much its value would move, or that it would gain or lose its
    route, and the digest."""
    try:
        effects, moves, digest = deck.preview(changes, prop, source)
    except Refused as refused:
        print(f"preview: {refused}")
        return
    cells = "".join(f" {f'{move:+}' if effect == MOVED else EFFECTS[effect]:>10}" for effect, move in zip(effects, moves))
    counts = f"gained {digest.gained}, lost {digest.lost}, better {digest.better}, worse {digest.worse}"
    most = f"{digest.most} loses most" if digest.most < deck.n else "none loses"
    print(f"  from {source}  {NAMES[prop - 1]:<9}{cells}   {counts}; {most}")


def change(deck, what, *changes):
    try:
        report = deck.batch(changes)
        print(f"{what}: {report.count} edges, {report.affected} affected, {report.stores} stores")
    except Refused as refused:
        print(f"{what}: {refused}")


try:
    Deck.read(b"p sp 4 1\na 1 5 3\n")
except Refused as refused:
    print(f"read: {refused}")
deck = Deck.read(b"c Deck A, in any order\np sp 4 5\na 4 3 2\na 1 2 4\na 1 4 9\na 2 3 4\na 3 2 4\n")
deck.open([0])
print("Deck A is open")
for p in range(TIME, plate_track.PROPERTIES + 1):
    ask(deck, p, 0)
print("what if 0->1 is lifted?")
for p in (TIME, HEADROOM, REACH):
    show_preview(deck, p, 0, (DELETE, 0, 1, 4))
print("what if 3->2 is lifted?")
show_preview(deck, TIME, 3, (DELETE, 3, 2, 2))
print("what if 3->0 5 is laid?")
show_preview(deck, TIME, 3, (INSERT, 3, 0, 5))
print("what if 0->1 is lifted twice?")
show_preview(deck, TIME, 0, (DELETE, 0, 1, 4), (DELETE, 0, 1, 4))
change(deck, "delete 0->1 4 twice", (DELETE, 0, 1, 4), (DELETE, 0, 1, 4))
change(deck, "delete 0->1 4", (DELETE, 0, 1, 4))
for p in range(TIME, plate_track.PROPERTIES + 1):
    ask(deck, p, 0)
show_route(deck, TIME, 0, 2)
show_route(deck, HEADROOM, 0, 1)
show_route(deck, TIME, 3, 0)
print(deck.write().decode(), end="")
change(deck, "insert 0->1 4", (INSERT, 0, 1, 4))
ask(deck, TIME, 0)
change(deck, "update 0->1 from 4 to 5", (UPDATE, 0, 1, 5, 4))
change(deck, "update 1->0 from 4 to 5", (UPDATE, 1, 0, 5, 4))
for p in range(TIME, plate_track.PROPERTIES + 1):
    ask(deck, p, 0)
ask(deck, REACH, 3)
change(deck, "insert 0->1 9", (INSERT, 0, 1, 9))
change(deck, "insert 0->1 9", (INSERT, 0, 1, 9))
for p in range(TIME, plate_track.PROPERTIES + 1):
    ask(deck, p, 0)
show_route(deck, TIME, 0, 1)
show_route(deck, HEADROOM, 0, 1)
show_route(deck, HEADROOM, 0, 2)
print(deck.write().decode(), end="")
change(deck, "delete 0->1 5", (DELETE, 0, 1, 5))
change(deck, "delete 0->1 5", (DELETE, 0, 1, 5))
for p in range(TIME, plate_track.PROPERTIES + 1):
    ask(deck, p, 0)
