#!/usr/bin/env python3
"""A deck of 256 stations and 2,048 segments through the archive, held to the rules of document 01 and of document 02's requests One and Five as they stand here, with
none of the library's code: the rows of an opening, what each row's run takes, a query of each property, a batch, one of updates, one that brings twins, one on twins,
and the rows after each.

The run of a row is asked for as a query over rows of no-route words, which starts where an opening's row does: its rounds and stores are in the tally. The stations
that it handles, in their order, are then a schedule: each is taken and nothing is left for a round, so they are as many as the library handles."""
import sys
from array import array

from plate_track import calls
from plate_track.deck import Deck, words as empty

M = 4294967295
N, RECORDS = 256, 2048
POSTS = [0, 77, 154, 255]
NAMES = {1: "time", 2: "handovers", 3: "headroom", 4: "worst", 5: "reach"}
SOURCE = {1: 0, 2: 0, 3: M, 4: 0, 5: 1}
NOROUTE = {1: M, 2: M, 3: 0, 4: M, 5: 0}


def along(p, value, figure):
    if p in (1, 2):
        s = value + (figure if p == 1 else 1)
        return M if s > M - 1 else s
    return {3: min(value, figure), 4: max(value, figure), 5: value}[p]


def better(p, a, b):
    return a < b if p in (1, 2, 4) else a > b


def best(p, values):
    return min(values) if p in (1, 2, 4) else max(values)


def join(p, a, b):
    if p in (1, 2):
        return M if a + b > M - 1 else a + b
    return max(a, b) if p == 4 else min(a, b)


def deck_table():
    """Station v has 1 + v % 15 segments, the last station 8; heads ascend and pass over v."""
    table = []
    for v in range(N):
        d = 8 if v == 255 else 1 + v % 15
        for j in range(d):
            h = (j * 255 + v * 7 % 255) // d
            table.append((v, h if h < v else h + 1, 1 + (v * 7919 + j * 10473) % 65535))
    assert len(table) == RECORDS and table == sorted(table)
    assert len({(t, h) for t, h, _ in table}) == RECORDS
    assert all(t != h and h < N and 1 <= f <= 65535 for t, h, f in table)
    return table


def segments(table):
    return {v: [(h, f) for t, h, f in table if t == v] for v in range(N)}


def rounds(p, out, words, waiting):
    """Rounds until none waits: (rounds, the stations handled in their order, looks, stores)."""
    n_rounds = looks = stores = 0
    handled = []
    while waiting:
        n_rounds += 1
        for v in range(N):
            if v not in waiting:
                continue
            waiting.remove(v)
            handled.append(v)
            for h, f in out[v]:
                looks += 1
                a = along(p, words[v], f)
                if better(p, a, words[h]):
                    words[h] = a
                    waiting.add(h)
                    stores += 1
    return n_rounds, handled, looks, stores


def opened(p, s):
    words = [NOROUTE[p]] * N
    words[s] = SOURCE[p]
    return words


def reverse(table):
    return [(h, t, f) for t, h, f in table]


def open_side(table):
    out = segments(table)
    rows, counts = [], []
    for s in POSTS:
        for p in range(1, 6):
            words = opened(p, s)
            counts.append(rounds(p, out, words, {s}))
            rows.append(words)
    return rows, counts


def query(table, fwd, bwd, p, source):
    start = [best(p, [join(p, bwd[i * 5 + p - 1][source], fwd[i * 5 + p - 1][v]) for i in range(len(POSTS))]) for v in range(N)]
    start[source] = SOURCE[p]
    words = start[:]
    tally = rounds(p, segments(table), words, {source})
    return start, words, tally


def worse(p, a, b):
    """Figure a is worse than figure b."""
    return {1: a > b, 3: a < b, 4: a > b}.get(p, False)


def net(p, old, new):
    """Removed and added segments for a property: of what is in one table alone, a pair's one old and one new are a retune, and any others are plainly removed or
    added."""
    less, more = set(old) - set(new), set(new) - set(old)
    gone, come = set(), set()
    for pair in {e[:2] for e in less | more}:
        a, b = ([e for e in part if e[:2] == pair] for part in (less, more))
        retuned = len(a) == len(b) == 1
        if not retuned or worse(p, b[0][2], a[0][2]):
            gone |= set(a)
        if not retuned or worse(p, a[0][2], b[0][2]):
            come |= set(b)
    return gone, come


def mend(old, new, rows):
    """One side of a batch: (suspects, stores) over its rows."""
    out, total, stores = segments(new), 0, 0
    parts = {p: net(p, old, new) for p in NAMES}
    for r, words in enumerate(rows):
        p, s = r % 5 + 1, POSTS[r // 5]
        gone, fresh = parts[p]
        kept = [e for e in old if e not in gone]

        def tight(e):
            return e[1] != s and words[e[1]] != NOROUTE[p] and along(p, words[e[0]], e[2]) == words[e[1]]

        suspects = {e[1] for e in gone if tight(e)}
        while True:
            more = {e[1] for e in kept if e[0] in suspects and tight(e)} - suspects
            if not more:
                break
            suspects |= more
        for v in suspects:
            words[v] = NOROUTE[p]
        waiting = {t for t, h, _ in new if h in suspects} | {t for t, _, _ in fresh}
        total += len(suspects)
        stores += rounds(p, out, words, waiting)[3]
    return total, stores


def twins_come(table):
    """Every 32nd segment goes, and another one of each 32 gets a twin: the changes, and the table after them."""
    gone = table[::32]
    kept = [e for e in table if e not in gone]
    come = [(t, h, (f + 20000) % 65535 + 1) for t, h, f in kept[16::31]]
    return [*((2, *e, 0) for e in gone), *((1, *e, 0) for e in come)], sorted(kept + come)


def twins_go(table):
    """Of each pair with twins, in turn: the lower goes, or the higher; one is retuned, or both; both go and one comes; one goes and two come. The changes, takes first,
    and the table after them."""
    pairs = [e[:2] for e in table]
    takes, others, after = [], [], set(table)
    for i, pair in enumerate(sorted({pair for pair in pairs if pairs.count(pair) > 1})):
        low, high = sorted(e[2] for e in table if e[:2] == pair)
        free = [f for f in ((low + 7) % 65535 + 1, (high + 30000) % 65535 + 1, 3, 5) if f not in (low, high)]
        less, more = [([low], []), ([high], []), ([low], free[:1]), ([low, high], free[:2]), ([low, high], free[:1]), ([low], free[:2])][i % 6]
        if i % 6 in (2, 3):
            others += [(3, *pair, figure, old) for old, figure in zip(less, more)]
        else:
            takes += [(2, *pair, f, 0) for f in less]
            others += [(1, *pair, f, 0) for f in more]
        after = after - {(*pair, f) for f in less} | {(*pair, f) for f in more}
    return takes + others, sorted(after)


def hold(what, found, due):
    global held
    held += 1
    if found != due:
        print(f"counts: {what}: {found}, and {due} is due")
        sys.exit(1)


def hold_runs(side, table, rows, counts):
    """Every row of a side, run again from no-route words."""
    deck = Deck(N, table)
    none = array("I", [NOROUTE[p] for p in range(1, 6) for _ in range(N)])
    for r, (n_rounds, handled, _, stores) in enumerate(counts):
        p, s = r % 5 + 1, POSTS[r // 5]
        for schedule, due in (([], (0, n_rounds, stores)), (handled, (len(handled), 0, stores))):
            starts, settled = empty(N), empty(N)
            tally = calls.query(N, array("I", [0]), deck.tails, deck.heads, deck.weights, RECORDS, none, none, p, s, array("I", schedule), starts, settled)
            what = f"{side} row of landmark {s}, {NAMES[p]}"
            hold(f"{what}: taken, rounds, stores", tuple(tally), due)
            hold(f"{what}: words", list(settled), rows[r])


def hold_rows(what, deck, fwd, bwd):
    hold(f"{what}, forward rows", list(deck.forward), sum(fwd, []))
    hold(f"{what}, backward rows", list(deck.backward), sum(bwd, []))


held = 0


def main():
    table = deck_table()
    fwd, ahead = open_side(table)
    bwd, back = open_side(reverse(table))
    deck = Deck(N, table)
    deck.open(POSTS)
    hold_rows("the opening", deck, fwd, bwd)
    hold_runs("forward", table, fwd, ahead)
    hold_runs("backward", reverse(table), bwd, back)
    for p in range(1, 6):
        start, words, (n_rounds, _, _, stores) = query(table, fwd, bwd, p, 100)
        answer = deck.query(p, 100)
        hold(f"query from 100, {NAMES[p]}", (list(answer.starts), list(answer.settled), tuple(answer.tally)), (start, words, (0, n_rounds, stores)))
    cut, put = table[0], (0, 255, 9)
    assert put[:2] not in {(t, h) for t, h, _ in table}
    new = sorted([e for e in table if e != cut] + [put])
    sums = [mend(table, new, fwd), mend(reverse(table), reverse(new), bwd)]
    report = deck.batch([(2, *cut, 0), (1, *put, 0)])
    hold("the batch's report", tuple(report), (len(new), sums[0][0] + sums[1][0], sums[0][1] + sums[1][1]))
    hold_rows("the batch", deck, fwd, bwd)
    # each row of the mended network is that of a fresh opening
    assert open_side(new)[0] == fwd and open_side(reverse(new))[0] == bwd
    # every 50th segment gets half its figure, the next one twice, the next its own; one more by a take and an add
    figures = {e[:2]: (e[2] + 1) // 2 if i % 50 == 0 else min(2 * e[2], 65535) if i % 50 == 1 else e[2] for i, e in enumerate(new) if i % 50 < 3}
    cut = new[1040]
    present = {e[:2]: e[2] for e in new}
    updates = [(3, *pair, figure, present[pair]) for pair, figure in figures.items()]
    figures[cut[:2]] = 65535 - cut[2]
    old, new = new, [(t, h, figures.get((t, h), f)) for t, h, f in new]
    sums = [mend(old, new, fwd), mend(reverse(old), reverse(new), bwd)]
    report = deck.batch([*updates, (2, *cut, 0), (1, *cut[:2], figures[cut[:2]], 0)])
    hold("the report of updates", tuple(report), (len(new), sums[0][0] + sums[1][0], sums[0][1] + sums[1][1]))
    hold("the segments", deck.edges(), new)
    hold_rows("the updates", deck, fwd, bwd)
    assert open_side(new)[0] == fwd and open_side(reverse(new))[0] == bwd
    for what, brought in (("twins that come", twins_come), ("changes of twins", twins_go)):
        old, (changes, new) = new, brought(new)
        sums = [mend(old, new, fwd), mend(reverse(old), reverse(new), bwd)]
        report = deck.batch(changes)
        hold(f"the report of {what}", tuple(report), (len(new), sums[0][0] + sums[1][0], sums[0][1] + sums[1][1]))
        hold(f"the segments after {what}", deck.edges(), new)
        hold_rows(what, deck, fwd, bwd)
        assert open_side(new)[0] == fwd and open_side(reverse(new))[0] == bwd
        for p in NAMES:
            start, words, (n_rounds, _, _, stores) = query(new, fwd, bwd, p, 100)
            answer = deck.query(p, 100)
            hold(f"a query after {what}, {NAMES[p]}", (list(answer.starts), list(answer.settled), tuple(answer.tally)), (start, words, (0, n_rounds, stores)))
    total = [sum(c) for c in zip(*((a, len(b), c, d) for a, b, c, d in ahead + back))]
    print(f"counts: {held} held; an opening takes {total[0]} rounds, {total[1]} handles, {total[2]} looks and {total[3]} stores; "
          f"scans of the table would take {RECORDS * N * total[0]} looks")


main()
