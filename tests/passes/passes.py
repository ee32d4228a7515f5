#!/usr/bin/env python3
"""Passes and looks of the hunt for suspects on decks of 256 stations, by document 02's request Three as it stands here, with none of the library's code.

    passes.py            the lines that the program beside this file must print
    passes.py figures    passes and looks from last to first and from first to last, of this file alone

Decks: `down`, whose segments lead from each station to lower ones, with its hub at 255; `mostly`, with one segment in eleven that leads up; and both mirrored, station v at
255 - v, with the same batch. A row is one property from the hub at 255, or to station 0 over the reversed segments.

A line has deck, side, property, passes made, looks, and how many suspects there are after each pass that adds any. The suspects are those of passes over every record of the table, from
last to first, until one adds none (`every_record`). Passes made and looks are those of passes that leave out the stations that are not to do (`to_do`): at first the tails of tight removed
records are to do, and then each station that becomes a suspect, until its records have their turn; the last pass is the one after which none is to do. What such a pass finds is
held to what a pass over every record finds."""
import sys

M = 4294967295
N = 256
SOURCE = {1: 0, 2: 0, 3: M, 4: 0, 5: 1}
NOROUTE = {1: M, 2: M, 3: 0, 4: M, 5: 0}
DECKS = [("down", False, False), ("mostly", True, False), ("mirror", False, True), ("mostly-mirror", True, True)]


def along(p, value, figure):
    if p in (1, 2):
        return min(value + (figure if p == 1 else 1), M)
    return {3: min(value, figure), 4: max(value, figure), 5: value}[p]


def better(p, a, b):
    return a > b if p in (3, 5) else a < b


def figure(t, h, ups):
    """The figure of the segment from t to h in a deck that leads down; 0 where there is none."""
    if t > h:
        there = (t == 255 and h % 8 == 0) or t == min(255, h + 1 + h * 5 % 7) or (t * 31 + h * 17 + t * h) % 97 < 4
    else:
        there = ups and t < h and (t * 7 + h * 3) % 197 == 0
    return 1 + (t * 7919 + h * 10473) % 65535 if there else 0


def is_taken(t, h):
    return (t * 13 + h * 29) % 151 == 0 or (t == 255 and h < 16)


def deck_table(ups, place):
    """The table of a deck whose station v stands at place(v), and the records of it that the batch takes out; place is its own inverse."""
    pairs = ((t, h, figure(place(t), place(h), ups)) for t in range(N) for h in range(N))
    table = [(t, h, f) for t, h, f in pairs if f]
    assert len(table) <= 2048 and table == sorted(table)
    return table, {(t, h, f) for t, h, f in table if is_taken(place(t), place(h))}


def best(p, table, source):
    """The best values over all routes from the source, by going over all records until nothing changes."""
    words = [NOROUTE[p]] * N
    words[source] = SOURCE[p]
    changed = True
    while changed:
        changed = False
        for t, h, f in table:
            v = along(p, words[t], f)
            if words[t] != NOROUTE[p] and better(p, v, words[h]):
                words[h] = v
                changed = True
    return words


def is_tight(p, source, words, t, h, f):
    return h != source and words[h] != NOROUTE[p] and along(p, words[t], f) == words[h]


def every_record(p, records, gone, source, words):
    """The suspects after each pass over the records in the order given, the last of which adds none."""
    tight = [r for r in records if is_tight(p, source, words, *r)]
    suspects, after = set(), []
    while True:
        for t, h, f in tight:
            if (t, h, f) in gone or t in suspects:
                suspects.add(h)
        after.append(set(suspects))
        if len(after) > 1 and after[-1] == after[-2] or not suspects:
            return after


def to_do(p, table, gone, source, words, descending):
    """Passes made and looks, where only the records of stations to do are looked at."""
    literal = every_record(p, table[::-1] if descending else table, gone, source, words)
    todo = {t for t, h, f in gone if is_tight(p, source, words, t, h, f)}
    suspects, made, looks = set(), 0, 0
    while todo:
        for station in range(N - 1, -1, -1) if descending else range(N):
            if station in todo:
                todo.remove(station)
                for t, h, f in [r for r in table if r[0] == station]:
                    looks += 1
                    if is_tight(p, source, words, t, h, f) and ((t, h, f) in gone or t in suspects) and h not in suspects:
                        suspects.add(h)
                        todo.add(h)
        assert suspects == literal[min(made, len(literal) - 1)]
        made += 1
    assert suspects == literal[-1]
    return made, looks


def rows():
    for name, ups, mirrored in DECKS:
        place = (lambda v: N - 1 - v) if mirrored else (lambda v: v)
        table, gone = deck_table(ups, place)
        for side, post in (("from", place(255)), ("to", place(0))):
            if side == "to":
                table = sorted(((h, t, f) for t, h, f in table), key=lambda r: r[0])
                gone = {(h, t, f) for t, h, f in gone}
            for p in range(1, 6):
                yield name, side, p, table, gone, post, best(p, table, post)


def figures():
    totals = {}
    for name, side, p, table, gone, post, words in rows():
        for descending in (True, False):
            made, looks = to_do(p, table, gone, post, words, descending)
            every = every_record(p, table[::-1] if descending else table, gone, post, words)
            t = totals.setdefault((name, side, descending), [0, 0, 0, 0])
            for i, value in enumerate((made, looks, len(every), len(every[-1]))):
                t[i] += value
    for (name, side, descending), (made, looks, every, suspects) in totals.items():
        order = "last to first" if descending else "first to last"
        print(f"{name} {side}, {order}: {suspects} suspects, {made} passes made, {looks} looks; {every} passes over every record, the one that adds none among them")
    for name, ups, mirrored in DECKS:
        place = (lambda v: N - 1 - v) if mirrored else (lambda v: v)
        table, gone = deck_table(ups, place)
        back = [(h, t, f) for t, h, f in table]
        count = 0
        for p in range(1, 6):
            words = best(p, back, place(0))
            count += len(every_record(p, back[::-1], {(h, t, f) for t, h, f in gone}, place(0), words))
        print(f"{name} to, last to first by the table's own order: {count} passes over every record")


def main():
    if sys.argv[1:] == ["figures"]:
        return figures()
    for name, side, p, table, gone, post, words in rows():
        made, looks = to_do(p, table, gone, post, words, True)
        after = [len(s) for s in every_record(p, table[::-1], gone, post, words)]
        print(name, side, p, made, looks, *(k for i, k in enumerate(after) if k > (after[i - 1] if i else 0)))


if __name__ == "__main__":
    main()
