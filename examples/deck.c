/* Deck A of document 01: read from text, opened, asked, also what a change would do, changed, asked again, for routes too, written as text, given a twin
 * of one of its edges and asked for routes along either. Build and run it by examples/run, which holds what it prints to examples/deck.out. That follows
 * from document 01 and from document 02, One, Two, Four and Five, by hand, where it does not stand there:
 *
 * From 0, the landmark, the start words are the forward row, best values: 0 is handled in one round, and nothing is bettered.
 * If 0->1 is lifted, the ways from 0 to 1 and 2 are over 3: for time 9 + 2 + 4 and 9 + 2, 15 - 4 = 11 and 11 - 8 = 3 more; for headroom 2 and 2 in the
 * place of 4 and 4. There, less is the worse, and of two that lose as much the lower is named. All are reached as before. If 3->2 is lifted, nothing
 * leads on from 3, and 1 and 2 lose their routes from it; 0 had none. A segment from 3 to 0 gives it one, of 5, and the others have better ones than
 * over 0.
 * Delete 0->1: in each of the five forward rows 0->1 is tight, and so is 1->2, so 1 and 2 are affected: 10. No backward row has a route but 0's own.
 * Waiting are 1, 2 and 3, the tails of edges into 1 and 2. Round 1: 1 and 2 have no route, 3 betters 2. Round 2: 2 betters 1. Round 3: 1 does not
 * better 2. Two stores in each of the five rows: 10.
 * Then the one route from 0 to 2 is over 3, 9 + 2: the 11 that was asked for. The one to 1 goes on by 2->1. For headroom 0->3 sets 9, 3->2
 * sets 2 and 2->1 of 4 passes 2 on: whoever wants more headroom at 1 looks at the last edge marked, 3->2. No edge leads to 0.
 * Insert 0->1 4: 0 waits and betters 1 but for reach; 1 then betters 2, but for handovers (2 as before) and reach: time 2, handovers 1, headroom 2,
 * worst 2, reach 0 stores: 7.
 * Update 0->1 from 4 to 5: more is worse for time and worst stretch. In both rows 0->1 is tight, and so is 1->2: 1 and 2 are affected in each, 4. 0 stores 1
 * and 1 stores 2 again: 4 stores. For headroom 5 is better: 0 waits and betters 1; 1->2 of 4 gives 2 the 4 that it has: 1 store, 5 in all. Handovers
 * and reach do not go by weights. There is no 1->0 to update.
 * Reach from 3: no way to the landmark, so the start words have no route but at 3. Round 1: 3 betters 2. Round 2: 2 betters 1. Round 3: 1 betters
 * nothing. Three rounds, two stores.
 * Insert 0->1 9, beside its twin of 5: 0 waits, and betters 1 for headroom alone, from 5 to 9: 1 store, for 1->2 of 4 gives 2 no more than it has. An
 * edge that is there is refused. Then the route to 1 is along the twin of 5 for time and along that of 9 for headroom. For headroom to 2, which is 4 by
 * 1->2, 5 is enough, and the route names the lowest that is.
 * Delete 0->1 5: one edge goes and none comes, so that it counts for every property, although its twin stays. It is tight for time, handovers, worst
 * stretch and reach, and 1->2 with it: 1 and 2 are affected in four rows, 8; for headroom it is not, where 1 has 9. All four vertices wait. For time 0
 * stores 9 at 1, 1 stores 13 at 2, and 3 stores 11 there: 3 stores. For the others 0 stores 1 and 1 stores 2: 2 stores each, 9 in all. The twin of 5 is
 * then absent. */
#include "plate_track_deck.h"

#include <inttypes.h>
#include <stdio.h>
#include <string.h>

static const char *const names[] = {"time", "handovers", "headroom", "worst", "reach"};

static void print_word(uint32_t w)
{
    if (w == PLATE_TRACK_GREATEST)
        printf(" %10s", "M");
    else
        printf(" %10" PRIu32, w);
}

static int refused(const char *what, uint32_t number, const uint64_t *reply)
{
    if (number != PLATE_TRACK_ACCEPTED)
        printf("%s: refused %" PRIu32 ", %s, at %" PRIu64 "\n", what, number, plate_track_word(number), reply[PLATE_TRACK_PLACE]);
    return number != PLATE_TRACK_ACCEPTED;
}

static int read_text(plate_track_deck *d, const char *text)
{
    uint64_t reply[PLATE_TRACK_REPLY_WORDS];
    return !refused("read", plate_track_deck_read(d, (const uint8_t *)text, strlen(text), reply), reply);
}

static void ask(const plate_track_deck *d, uint32_t property, uint32_t source)
{
    uint32_t starts[PLATE_TRACK_MOST_VERTICES], settled[PLATE_TRACK_MOST_VERTICES];
    uint64_t reply[PLATE_TRACK_REPLY_WORDS];
    uint32_t number = plate_track_deck_query(d, property, source, NULL, 0, starts, d->n, settled, d->n, reply);
    if (refused("query", number, reply))
        return;
    printf("  from %" PRIu32 "  %-9s", source, names[property - 1]);
    for (uint32_t v = 0; v < d->n; v++)
        print_word(settled[v]);
    printf("   rounds %" PRIu64 ", stores %" PRIu64 "\n", reply[PLATE_TRACK_QUERY_ROUNDS], reply[PLATE_TRACK_QUERY_STORES]);
}

static void ask_all(const plate_track_deck *d, uint32_t source)
{
    for (uint32_t p = PLATE_TRACK_TIME; p <= PLATE_TRACK_REACH; p++)
        ask(d, p, source);
}

/* A route with the weights of its edges and their marks; for headroom and worst stretch also the last edge marked, whose weight is the value. */
static void show_route(const plate_track_deck *d, uint32_t property, uint32_t source, uint32_t target)
{
    uint32_t vertices[PLATE_TRACK_MOST_VERTICES], marks[PLATE_TRACK_MOST_VERTICES], figures[PLATE_TRACK_MOST_VERTICES];
    uint64_t reply[PLATE_TRACK_REPLY_WORDS], edges, last = 0;
    uint32_t number = plate_track_deck_route(d, property, source, target, vertices, d->n, marks, d->n, figures, d->n, reply);
    if (refused("route", number, reply))
        return;
    edges = reply[PLATE_TRACK_ROUTE_VERTICES] - 1;
    printf("  from %" PRIu32 " to %" PRIu32 "  %-9s ", source, target, names[property - 1]);
    for (uint64_t i = 0; i <= edges; i++)
        printf(" %" PRIu32, vertices[i]);
    printf("   figures");
    for (uint64_t i = 0; i < edges; i++)
        printf(" %" PRIu32, figures[i]);
    printf("   marks");
    for (uint64_t i = 0; i < edges; i++) {
        printf(" %" PRIu32, marks[i]);
        if (marks[i] == 1)
            last = i;
    }
    if (edges > 0 && (property == PLATE_TRACK_HEADROOM || property == PLATE_TRACK_WORST))
        printf(", set by %" PRIu32 "->%" PRIu32 " %" PRIu32, vertices[last], vertices[last + 1], figures[last]);
    printf("\n");
}

/* Before anything is done, "what would happen if I did this?": for each vertex by how much its value would move, or that it would gain or lose its
 * route, and the digest. */
static void show_preview(const plate_track_deck *d, const plate_track_change *changes, size_t len, uint32_t property, uint32_t source)
{
    static const char *const words[] = {"same", "gained", "lost"};
    uint32_t effects[PLATE_TRACK_MOST_VERTICES];
    int64_t moves[PLATE_TRACK_MOST_VERTICES];
    uint64_t reply[PLATE_TRACK_REPLY_WORDS];
    uint32_t number = plate_track_deck_preview(d, changes, len, property, source, effects, d->n, moves, d->n, reply);
    if (refused("preview", number, reply))
        return;
    printf("  from %" PRIu32 "  %-9s", source, names[property - 1]);
    for (uint32_t v = 0; v < d->n; v++)
        if (effects[v] == PLATE_TRACK_MOVED)
            printf(" %+10" PRId64, moves[v]);
        else
            printf(" %10s", words[effects[v]]);
    if (refused("digest", plate_track_digest(d->n, property, effects, d->n, moves, d->n, reply, PLATE_TRACK_REPLY_WORDS), reply))
        return;
    printf("   gained %" PRIu64 ", lost %" PRIu64 ", better %" PRIu64 ", worse %" PRIu64, reply[PLATE_TRACK_DIGEST_GAINED],
        reply[PLATE_TRACK_DIGEST_LOST], reply[PLATE_TRACK_DIGEST_BETTER], reply[PLATE_TRACK_DIGEST_WORSE]);
    if (reply[PLATE_TRACK_DIGEST_MOST] < d->n)
        printf("; %" PRIu64 " loses most\n", reply[PLATE_TRACK_DIGEST_MOST]);
    else
        printf("; none loses\n");
}

static void change(plate_track_deck *d, const char *what, const plate_track_change *changes, size_t len)
{
    uint64_t reply[PLATE_TRACK_REPLY_WORDS];
    if (refused(what, plate_track_deck_batch(d, changes, len, reply), reply))
        return;
    printf("%s: %" PRIu32 " edges, %" PRIu64 " affected, %" PRIu64 " stores\n", what, d->count, reply[PLATE_TRACK_BATCH_AFFECTED],
        reply[PLATE_TRACK_BATCH_STORES]);
}

static void write_text(const plate_track_deck *d)
{
    static uint8_t text[PLATE_TRACK_LONGEST_TEXT];
    uint64_t reply[PLATE_TRACK_REPLY_WORDS];
    if (!refused("write", plate_track_deck_write(d, text, sizeof text, reply), reply))
        fwrite(text, 1, (size_t)reply[PLATE_TRACK_WRITE_LENGTH], stdout);
}

int main(void)
{
    static plate_track_deck d;
    const uint32_t landmarks[] = {0};
    const plate_track_change take = {PLATE_TRACK_DELETE, 0, 1, 4, 0};
    const plate_track_change cut = {PLATE_TRACK_DELETE, 3, 2, 2, 0}, way_back = {PLATE_TRACK_INSERT, 3, 0, 5, 0};
    const plate_track_change put_back = {PLATE_TRACK_INSERT, 0, 1, 4, 0};
    const plate_track_change slower = {PLATE_TRACK_UPDATE, 0, 1, 5, 4}, missing = {PLATE_TRACK_UPDATE, 1, 0, 5, 4};
    const plate_track_change twin = {PLATE_TRACK_INSERT, 0, 1, 9, 0}, fast = {PLATE_TRACK_DELETE, 0, 1, 5, 0};
    const plate_track_change twice[] = {take, take};
    uint64_t reply[PLATE_TRACK_REPLY_WORDS];
    read_text(&d, "p sp 4 1\na 1 5 3\n");
    if (!read_text(&d, "c Deck A, in any order\np sp 4 5\na 4 3 2\na 1 2 4\na 1 4 9\na 2 3 4\na 3 2 4\n"))
        return 1;
    if (refused("open", plate_track_deck_open(&d, landmarks, 1, reply), reply))
        return 1;
    printf("Deck A is open\n");
    ask_all(&d, 0);
    printf("what if 0->1 is lifted?\n");
    show_preview(&d, &take, 1, PLATE_TRACK_TIME, 0);
    show_preview(&d, &take, 1, PLATE_TRACK_HEADROOM, 0);
    show_preview(&d, &take, 1, PLATE_TRACK_REACH, 0);
    printf("what if 3->2 is lifted?\n");
    show_preview(&d, &cut, 1, PLATE_TRACK_TIME, 3);
    printf("what if 3->0 5 is laid?\n");
    show_preview(&d, &way_back, 1, PLATE_TRACK_TIME, 3);
    printf("what if 0->1 is lifted twice?\n");
    show_preview(&d, twice, 2, PLATE_TRACK_TIME, 0);
    change(&d, "delete 0->1 4 twice", twice, 2);
    change(&d, "delete 0->1 4", &take, 1);
    ask_all(&d, 0);
    show_route(&d, PLATE_TRACK_TIME, 0, 2);
    show_route(&d, PLATE_TRACK_HEADROOM, 0, 1);
    show_route(&d, PLATE_TRACK_TIME, 3, 0);
    write_text(&d);
    change(&d, "insert 0->1 4", &put_back, 1);
    ask(&d, PLATE_TRACK_TIME, 0);
    change(&d, "update 0->1 from 4 to 5", &slower, 1);
    change(&d, "update 1->0 from 4 to 5", &missing, 1);
    ask_all(&d, 0);
    ask(&d, PLATE_TRACK_REACH, 3);
    change(&d, "insert 0->1 9", &twin, 1);
    change(&d, "insert 0->1 9", &twin, 1);
    ask_all(&d, 0);
    show_route(&d, PLATE_TRACK_TIME, 0, 1);
    show_route(&d, PLATE_TRACK_HEADROOM, 0, 1);
    show_route(&d, PLATE_TRACK_HEADROOM, 0, 2);
    write_text(&d);
    change(&d, "delete 0->1 5", &fast, 1);
    change(&d, "delete 0->1 5", &fast, 1);
    ask_all(&d, 0);
    return 0;
}
