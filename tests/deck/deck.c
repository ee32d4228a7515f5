/* What plate_track.h gives beside the calls, and plate_track_deck.h: each function, accepted and refused, on Deck A. The expected words are
 * documents 01's and 02's or follow from 01 and from 02, One, Two, Four and Five, by hand. Exit status 1 where one differs. Compiled as C11 and as
 * C++17. */
#include "plate_track_deck.h"

#include <pthread.h>
#include <stdio.h>
#include <string.h>

static int bad = 0;
static uint64_t reply[PLATE_TRACK_REPLY_WORDS];
static uint32_t starts[PLATE_TRACK_MOST_VERTICES], settled[PLATE_TRACK_MOST_VERTICES];
static uint32_t vertices[5], marks[5], figures[5]; /* a word more than a route of Deck A needs */
static uint32_t effects[5]; /* and an entry more than a preview needs */
static int64_t moves[5];
static const uint32_t M = PLATE_TRACK_GREATEST;
static const uint32_t zero[] = {0};

/* Deck A, and Deck A without its last record. */
static const char deck_a[] = "p sp 4 5\na 1 2 4\na 1 4 9\na 2 3 4\na 3 2 4\na 4 3 2\n";
static const char without[] = "p sp 4 4\na 1 2 4\na 1 4 9\na 2 3 4\na 3 2 4\n";

static void check(int right, const char *what)
{
    if (!right) {
        printf("deck: WRONG: %s\n", what);
        bad = 1;
    }
}

static int are(const uint32_t *words, uint32_t a, uint32_t b, uint32_t c, uint32_t d)
{
    return words[0] == a && words[1] == b && words[2] == c && words[3] == d;
}

static int refuses(uint32_t number, uint32_t wanted, uint64_t place)
{
    return number == wanted && reply[PLATE_TRACK_PLACE] == place;
}

static uint32_t read_text(plate_track_deck *d, const char *text)
{
    return plate_track_deck_read(d, (const uint8_t *)text, strlen(text), reply);
}

static uint32_t ask(const plate_track_deck *d, uint32_t property, uint32_t source)
{
    return plate_track_deck_query(d, property, source, NULL, 0, starts, 4, settled, 4, reply);
}

static uint32_t find(const plate_track_deck *d, uint32_t property, uint32_t source, uint32_t target)
{
    for (int i = 0; i < 5; i++)
        vertices[i] = marks[i] = figures[i] = 7;
    return plate_track_deck_route(d, property, source, target, vertices, 5, marks, 5, figures, 5, reply);
}

static int lists_stay(void)
{
    return are(vertices, 7, 7, 7, 7) && vertices[4] == 7 && are(marks, 7, 7, 7, 7) && marks[4] == 7 && are(figures, 7, 7, 7, 7) && figures[4] == 7;
}

static uint32_t foresee(const plate_track_deck *d, const plate_track_change *changes, size_t len, uint32_t property, uint32_t source)
{
    for (int i = 0; i < 5; i++) {
        effects[i] = 7;
        moves[i] = -7;
    }
    for (int i = 0; i < PLATE_TRACK_REPLY_WORDS; i++)
        reply[i] = 7;
    return plate_track_deck_preview(d, changes, len, property, source, effects, 5, moves, 5, reply);
}

/* What becomes of each vertex, and by how much it moves; the fifth entries are as they were. */
static int shows(const uint32_t *effect, const int64_t *move)
{
    return memcmp(effects, effect, 4 * sizeof *effect) == 0 && effects[4] == 7 && memcmp(moves, move, 4 * sizeof *move) == 0 && moves[4] == -7;
}

static int shows_nothing(void)
{
    static const uint32_t sevens[] = {7, 7, 7, 7};
    static const int64_t less_sevens[] = {-7, -7, -7, -7};
    return shows(sevens, less_sevens);
}

/* The trap that the deck closes: after an insert, a query with the count from before is accepted and misses the new edge. */
static void stale_count(void)
{
    static plate_track_deck d;
    const plate_track_change insert = {PLATE_TRACK_INSERT, 3, 2, 2, 0};
    uint32_t number;
    check(read_text(&d, without) == 0 && plate_track_deck_open(&d, zero, 1, reply) == 0, "Deck A without 3->2 opens");
    check(plate_track_deck_batch(&d, &insert, 1, reply) == 0 && d.count == 5, "the deck has the new count");
    check(ask(&d, PLATE_TRACK_TIME, 3) == 0 && are(settled, M, 6, 2, 0), "time from 3 is M 6 2 0 with the deck");
    number = plate_track_query(
        4, d.landmarks, 1, d.tails, 2048, d.heads, 2048, d.weights, 2048, 4, d.forward, 20, d.backward, 20, PLATE_TRACK_TIME, 3, NULL, 0, starts,
        4, settled, 4, reply, 8);
    check(number == 0 && are(settled, M, M, M, 0), "with the count from before the call is accepted and says M M M 0");
}

static void accepted(void)
{
    static plate_track_deck d;
    static uint8_t text[PLATE_TRACK_LONGEST_TEXT];
    const plate_track_change update = {PLATE_TRACK_UPDATE, 0, 1, 3, 4}, take = {PLATE_TRACK_DELETE, 0, 1, 3, 0};
    const uint32_t landmark_2[] = {2}, ones[] = {1, 1};
    const char sources_text[] = "p aux sp ss 2\ns 4\ns 1\n";
    uint32_t landmarks[PLATE_TRACK_MOST_LANDMARKS] = {9, 9, 9, 9}, sources[PLATE_TRACK_MOST_SOURCES];
    const uint32_t *row = NULL;
    check(read_text(&d, deck_a) == 0 && d.n == 4 && d.count == 5 && reply[PLATE_TRACK_READ_COUNT] == 5, "Deck A is read");
    /* edges in plus out: 0 has 2, 1 has 3, 2 has 3, 3 has 2 */
    check(plate_track_deck_choose(&d, 3, landmarks, reply) == 0 && reply[PLATE_TRACK_CHOOSE_COUNT] == 3 && are(landmarks, 1, 2, 0, 9),
        "three landmarks are 1, 2 and 0");
    check(plate_track_deck_open(&d, zero, 1, reply) == 0 && d.landmarks_len == 1 && d.landmarks[0] == 0, "it opens");
    check(ask(&d, PLATE_TRACK_HEADROOM, 0) == 0 && are(settled, M, 4, 4, 9), "headroom from 0 is M 4 4 9");
    check(plate_track_deck_row(&d, PLATE_TRACK_FORWARD, 0, PLATE_TRACK_WORST, &row, reply) == 0 && are(row, 0, 4, 4, 9), "worst row from 0");
    check(plate_track_deck_row(&d, PLATE_TRACK_BACKWARD, 0, PLATE_TRACK_REACH, &row, reply) == 0 && are(row, 1, 0, 0, 0), "reach row to 0");
    check(plate_track_deck_settled(&d, reply) == 0 && reply[PLATE_TRACK_SETTLED_ALL] == 1, "it is settled");
    d.forward[4 * 3 + 1] = 5; /* row 3, worst stretch: record 0, 0->1 of 4, betters it */
    check(plate_track_deck_settled(&d, reply) == 0 && reply[PLATE_TRACK_SETTLED_ALL] == 0 && reply[PLATE_TRACK_SETTLED_SIDE] == PLATE_TRACK_FORWARD
        && reply[PLATE_TRACK_SETTLED_ROW] == 3 && reply[PLATE_TRACK_SETTLED_RECORD] == 0, "a word that is too bad is found");
    d.forward[4 * 3 + 1] = 4;
    check(plate_track_deck_write(&d, text, strlen(deck_a), reply) == 0 && reply[PLATE_TRACK_WRITE_LENGTH] == strlen(deck_a)
        && memcmp(text, deck_a, strlen(deck_a)) == 0, "it is written as it was read");
    check(plate_track_deck_read_sources(&d, (const uint8_t *)sources_text, strlen(sources_text), sources, PLATE_TRACK_MOST_SOURCES, reply) == 0
        && reply[PLATE_TRACK_READ_SOURCES_COUNT] == 2 && sources[0] == 3 && sources[1] == 0, "sources 3 and 0");
    /* 3 is worse than 4 for headroom alone: 1 and 2 of one row. Stores: 1 and 2 for time and headroom, 1 for worst stretch */
    check(plate_track_deck_batch(&d, &update, 1, reply) == 0 && d.count == 5 && d.weights[0] == 3 && reply[PLATE_TRACK_BATCH_AFFECTED] == 2
        && reply[PLATE_TRACK_BATCH_STORES] == 5, "update 0->1 from 4 to 3");
    check(ask(&d, PLATE_TRACK_HEADROOM, 0) == 0 && are(settled, M, 3, 3, 9), "headroom from 0 is M 3 3 9 afterwards");
    check(plate_track_deck_batch(&d, &take, 1, reply) == 0 && d.count == 4 && reply[PLATE_TRACK_BATCH_AFFECTED] == 10, "take 0->1 of 3");
    check(ask(&d, PLATE_TRACK_TIME, 0) == 0 && are(settled, 0, 15, 11, 9), "time from 0 is 0 15 11 9 afterwards");
    check(read_text(&d, deck_a) == 0 && plate_track_deck_open(&d, landmark_2, 1, reply) == 0, "Deck A with landmark 2");
    check(ask(&d, PLATE_TRACK_TIME, 1) == 0 && are(starts, M, 0, 4, M) && are(settled, M, 0, 4, M) && reply[PLATE_TRACK_QUERY_TAKEN] == 0
        && reply[PLATE_TRACK_QUERY_ROUNDS] == 1 && reply[PLATE_TRACK_QUERY_STORES] == 0, "time from 1 takes 1 round");
    check(plate_track_deck_query(&d, PLATE_TRACK_TIME, 1, ones, 2, starts, 4, settled, 4, reply) == 0 && reply[PLATE_TRACK_QUERY_TAKEN] == 1
        && reply[PLATE_TRACK_QUERY_ROUNDS] == 0, "schedule 1, 1: taken 1, rounds 0");
    plate_track_deck_clear(&d, 1);
    check(plate_track_deck_open(&d, zero, 1, reply) == 0 && ask(&d, PLATE_TRACK_HEADROOM, 0) == 0 && settled[0] == M, "one vertex, no edge");
}

/* The route behind a value, of a deck that is read and not open, and after a batch. Words past the route are 7, as they were. */
static void routes(void)
{
    static plate_track_deck d;
    static const uint32_t two[PLATE_TRACK_PROPERTIES][2] = {{1, 1}, {1, 1}, {1, 0}, {1, 0}, {0, 0}};
    static const uint32_t three[PLATE_TRACK_PROPERTIES][3] = {{1, 1, 1}, {1, 1, 1}, {1, 1, 0}, {1, 0, 0}, {0, 0, 0}};
    const plate_track_change take = {PLATE_TRACK_DELETE, 0, 1, 4, 0};
    check(read_text(&d, deck_a) == 0, "Deck A is read");
    for (uint32_t p = PLATE_TRACK_TIME; p <= PLATE_TRACK_REACH; p++) {
        const uint32_t *m = two[p - 1];
        check(find(&d, p, 0, 2) == 0 && reply[PLATE_TRACK_ROUTE_VERTICES] == 3 && are(vertices, 0, 1, 2, 7) && vertices[4] == 7
            && are(marks, m[0], m[1], 7, 7) && marks[4] == 7 && are(figures, 4, 4, 7, 7) && figures[4] == 7, "0 to 2 goes over 1");
        /* 1 lies on the ring with 2 */
        check(find(&d, p, 1, 1) == 0 && reply[PLATE_TRACK_ROUTE_VERTICES] == 1 && are(vertices, 1, 7, 7, 7) && are(marks, 7, 7, 7, 7)
            && are(figures, 7, 7, 7, 7), "from 1 to itself");
    }
    check(plate_track_deck_open(&d, zero, 1, reply) == 0 && plate_track_deck_batch(&d, &take, 1, reply) == 0, "take 0->1");
    for (uint32_t p = PLATE_TRACK_TIME; p <= PLATE_TRACK_REACH; p++) {
        const uint32_t *m = three[p - 1];
        check(find(&d, p, 0, 1) == 0 && reply[PLATE_TRACK_ROUTE_VERTICES] == 4 && are(vertices, 0, 3, 2, 1) && vertices[4] == 7
            && are(marks, m[0], m[1], m[2], 7) && marks[4] == 7 && are(figures, 9, 2, 4, 7) && figures[4] == 7, "0 to 1 goes over 3 and 2");
    }
    check(find(&d, PLATE_TRACK_TIME, 0, 2) == 0 && reply[PLATE_TRACK_ROUTE_VERTICES] == 3 && are(vertices, 0, 3, 2, 7) && are(marks, 1, 1, 7, 7)
        && are(figures, 9, 2, 7, 7), "the route behind 11");
    check(plate_track_deck_route(&d, PLATE_TRACK_TIME, 0, 1, vertices, 4, marks, 4, figures, 4, reply) == 0 && are(vertices, 0, 3, 2, 1),
        "lists of n words");
}

/* Numbers of a route, in their order: the lowest that applies, and 15 after all others. */
static void no_routes(void)
{
    static plate_track_deck d, before;
    check(refuses(find(&d, PLATE_TRACK_TIME, 0, 0), PLATE_TRACK_SIZE, 0) && lists_stay(), "a deck of no vertices has no route");
    check(read_text(&d, deck_a) == 0, "Deck A is read");
    before = d;
    for (uint32_t p = PLATE_TRACK_TIME; p <= PLATE_TRACK_REACH; p++)
        check(refuses(find(&d, p, 3, 0), PLATE_TRACK_NO_ROUTE, 0) && lists_stay(), "no route from 3 to 0");
    check(refuses(find(&d, PLATE_TRACK_TIME, 0, 4), PLATE_TRACK_VERTEX, 0) && lists_stay(), "target 4 of 4");
    check(refuses(find(&d, PLATE_TRACK_TIME, 4, 0), PLATE_TRACK_VERTEX, 0) && lists_stay(), "source 4 of 4");
    check(refuses(find(&d, 0, 0, 2), PLATE_TRACK_PROPERTY, 0) && refuses(find(&d, 6, 0, 4), PLATE_TRACK_PROPERTY, 0) && lists_stay(),
        "property 0; 6, with target 4");
    check(refuses(plate_track_deck_route(&d, PLATE_TRACK_TIME, 0, 2, vertices, 3, marks, 4, figures, 4, reply), PLATE_TRACK_SHORT, 0)
        && refuses(plate_track_deck_route(&d, PLATE_TRACK_TIME, 0, 2, vertices, 4, marks, 3, figures, 4, reply), PLATE_TRACK_SHORT, 0)
        && refuses(plate_track_deck_route(&d, PLATE_TRACK_TIME, 0, 2, vertices, 4, marks, 4, figures, 3, reply), PLATE_TRACK_SHORT, 0) && lists_stay(),
        "a list of three words, enough for the route and not for n");
    d.heads[0] = 0;
    check(refuses(find(&d, 6, 0, 2), PLATE_TRACK_TABLE, 0) && lists_stay(), "record 0 is a loop, and property 6");
    d.heads[0] = 1;
    check(memcmp(&d, &before, sizeof d) == 0, "no route changed the deck");
}

/* What a batch would do to Deck A, by property, and its digest: gained, lost, better, worse, and the vertex that loses most. */
struct foreseen {
    const plate_track_change *changes;
    size_t len;
    uint32_t property, source, effects[4];
    int64_t moves[4];
    uint64_t digest[5];
};

/* Best values of Deck A from 0: time 0 4 8 9, handovers 0 1 2 1, headroom M 4 4 9, worst 0 4 4 9, reach 1 1 1 1; from 3: time M 6 2 0. Afterwards:
 * without 0->1, from 0: time 0 15 11 9, handovers 0 3 2 1, headroom M 2 2 9, worst 0 9 9 9, reach 1 1 1 1
 * without 3->2, from 3: time M M M 0; with 3->0 5, from 3: time 5 6 2 0
 * 0->1 set to 3, from 0: time 0 3 7 9, headroom M 3 3 9, which is the worse for it
 * 0->1 of 7 beside that of 4, from 0: headroom M 7 4 9, time as before
 * without 0->1 and with 0->2 1, from 0: time 0 5 1 9, as 1 is reached over 2
 * without 0->3 and 0->1 set to 6, from 0: time 0 6 10 M; the lost route of 3 is more than the 2 by which 1 and 2 move */
static void previews(void)
{
    static plate_track_deck d, before;
    static const plate_track_change take[] = {{PLATE_TRACK_DELETE, 0, 1, 4, 0}}, cut[] = {{PLATE_TRACK_DELETE, 3, 2, 2, 0}};
    static const plate_track_change join[] = {{PLATE_TRACK_INSERT, 3, 0, 5, 0}}, faster[] = {{PLATE_TRACK_UPDATE, 0, 1, 3, 4}};
    static const plate_track_change mixed[] = {{PLATE_TRACK_DELETE, 0, 1, 4, 0}, {PLATE_TRACK_INSERT, 0, 2, 1, 0}};
    static const plate_track_change worse[] = {{PLATE_TRACK_DELETE, 0, 3, 9, 0}, {PLATE_TRACK_UPDATE, 0, 1, 6, 4}};
    static const plate_track_change taller[] = {{PLATE_TRACK_INSERT, 0, 1, 7, 0}};
    static const struct foreseen wanted[] = {
        {take, 1, PLATE_TRACK_TIME, 0, {0, 3, 3, 0}, {0, 11, 3, 0}, {0, 0, 0, 2, 1}},
        {take, 1, PLATE_TRACK_HANDOVERS, 0, {0, 3, 0, 0}, {0, 2, 0, 0}, {0, 0, 0, 1, 1}},
        {take, 1, PLATE_TRACK_HEADROOM, 0, {0, 3, 3, 0}, {0, -2, -2, 0}, {0, 0, 0, 2, 1}},
        {take, 1, PLATE_TRACK_WORST, 0, {0, 3, 3, 0}, {0, 5, 5, 0}, {0, 0, 0, 2, 1}},
        {take, 1, PLATE_TRACK_REACH, 0, {0, 0, 0, 0}, {0, 0, 0, 0}, {0, 0, 0, 0, 4}},
        {cut, 1, PLATE_TRACK_TIME, 3, {0, 2, 2, 0}, {0, 0, 0, 0}, {0, 2, 0, 0, 1}},
        {join, 1, PLATE_TRACK_TIME, 3, {1, 0, 0, 0}, {0, 0, 0, 0}, {1, 0, 0, 0, 4}},
        {faster, 1, PLATE_TRACK_TIME, 0, {0, 3, 3, 0}, {0, -1, -1, 0}, {0, 0, 2, 0, 4}},
        {faster, 1, PLATE_TRACK_HEADROOM, 0, {0, 3, 3, 0}, {0, -1, -1, 0}, {0, 0, 0, 2, 1}},
        {mixed, 2, PLATE_TRACK_TIME, 0, {0, 3, 3, 0}, {0, 1, -7, 0}, {0, 0, 1, 1, 1}},
        {worse, 2, PLATE_TRACK_TIME, 0, {0, 3, 3, 2}, {0, 2, 2, 0}, {0, 1, 0, 2, 3}},
        {taller, 1, PLATE_TRACK_HEADROOM, 0, {0, 3, 0, 0}, {0, 3, 0, 0}, {0, 0, 1, 0, 4}},
        {taller, 1, PLATE_TRACK_TIME, 0, {0, 0, 0, 0}, {0, 0, 0, 0}, {0, 0, 0, 0, 4}}};
    check(PLATE_TRACK_SAME == 0 && PLATE_TRACK_GAINED == 1 && PLATE_TRACK_LOST == 2 && PLATE_TRACK_MOVED == 3, "the numbers of effects");
    check(read_text(&d, deck_a) == 0 && plate_track_deck_open(&d, zero, 1, reply) == 0, "Deck A opens");
    before = d;
    for (size_t i = 0; i < sizeof wanted / sizeof *wanted; i++) {
        const struct foreseen *w = &wanted[i];
        check(foresee(&d, w->changes, w->len, w->property, w->source) == 0 && shows(w->effects, w->moves), "what a batch would do");
        check(reply[0] == 7 && reply[1] == 7, "the reply has no words");
        check(plate_track_digest(d.n, w->property, effects, 5, moves, 5, reply, PLATE_TRACK_REPLY_WORDS) == 0
            && reply[PLATE_TRACK_DIGEST_GAINED] == w->digest[0] && reply[PLATE_TRACK_DIGEST_LOST] == w->digest[1]
            && reply[PLATE_TRACK_DIGEST_BETTER] == w->digest[2] && reply[PLATE_TRACK_DIGEST_WORSE] == w->digest[3]
            && reply[PLATE_TRACK_DIGEST_MOST] == w->digest[4] && reply[5] == 7, "its digest");
        check(shows(w->effects, w->moves), "which writes neither list");
    }
    check(memcmp(&d, &before, sizeof d) == 0, "no preview changed the deck");
    check(plate_track_deck_preview(&d, take, 1, PLATE_TRACK_TIME, 0, effects, 4, moves, 4, reply) == 0 && are(effects, 0, 3, 3, 0), "lists of n entries");
    /* what was shown comes true */
    check(plate_track_deck_batch(&d, worse, 2, reply) == 0 && ask(&d, PLATE_TRACK_TIME, 0) == 0 && are(settled, 0, 6, 10, M), "the batch does it");
}

/* Numbers of a preview, in their order: property and source after the table and before the changes, and these as in a batch. */
static void no_previews(void)
{
    static plate_track_deck d, before;
    static plate_track_change many[PLATE_TRACK_MOST_CHANGES + 1];
    const plate_track_change take = {PLATE_TRACK_DELETE, 0, 1, 4, 0}, unknown = {4, 0, 1, 4, 0}, outside = {PLATE_TRACK_INSERT, 4, 0, 1, 0};
    const plate_track_change twin = {PLATE_TRACK_DELETE, 0, 1, 5, 0};
    const plate_track_change twice[] = {take, take}, there[] = {take, outside}, kinds[] = {unknown, take};
    const uint32_t p = PLATE_TRACK_TIME;
    check(refuses(foresee(&d, &take, 1, p, 0), PLATE_TRACK_SIZE, 0) && shows_nothing(), "a deck of no vertices");
    check(read_text(&d, deck_a) == 0 && refuses(foresee(&d, &take, 1, p, 0), PLATE_TRACK_LANDMARKS, 0) && shows_nothing(), "a deck that is not open");
    check(plate_track_deck_open(&d, zero, 1, reply) == 0, "Deck A opens");
    before = d;
    check(refuses(foresee(&d, twice, 2, p, 0), PLATE_TRACK_ABSENT, 1) && shows_nothing(), "take 0->1 twice");
    check(refuses(foresee(&d, &twin, 1, p, 0), PLATE_TRACK_ABSENT, 0) && shows_nothing(), "take 0->1 of 5, and it has 4");
    check(refuses(foresee(&d, there, 2, p, 0), PLATE_TRACK_VERTEX, 1) && shows_nothing(), "a change of vertex 4");
    check(refuses(foresee(&d, there, 2, p, 4), PLATE_TRACK_VERTEX, 0) && shows_nothing(), "the same, and source 4");
    check(refuses(foresee(&d, kinds, 2, p, 0), PLATE_TRACK_KIND, 0) && shows_nothing(), "kind 4");
    check(refuses(foresee(&d, kinds, 2, p, 4), PLATE_TRACK_VERTEX, 0) && shows_nothing(), "the same, and source 4");
    check(refuses(foresee(&d, there, 2, 0, 0), PLATE_TRACK_PROPERTY, 0) && refuses(foresee(&d, there, 2, 6, 4), PLATE_TRACK_PROPERTY, 0) && shows_nothing(),
        "property 0; 6, with source 4");
    check(refuses(foresee(&d, many, PLATE_TRACK_MOST_CHANGES + 1, 6, 4), PLATE_TRACK_SIZE, 0) && shows_nothing(), "1,025 changes");
    check(refuses(foresee(&d, many, PLATE_TRACK_MOST_CHANGES, p, 0), PLATE_TRACK_KIND, 0) && shows_nothing(), "1,024 of kind 0");
    check(refuses(plate_track_deck_preview(&d, &take, 1, p, 0, effects, 3, moves, 4, reply), PLATE_TRACK_SHORT, 0)
        && refuses(plate_track_deck_preview(&d, &take, 1, p, 0, effects, 4, moves, 3, reply), PLATE_TRACK_SHORT, 0) && shows_nothing(),
        "a list of three entries");
    d.heads[0] = 0;
    check(refuses(foresee(&d, twice, 2, 6, 4), PLATE_TRACK_TABLE, 0) && shows_nothing(), "record 0 is a loop, and property 6");
    d.heads[0] = 1;
    check(memcmp(&d, &before, sizeof d) == 0, "no preview changed the deck");
    check(refuses(plate_track_digest(0, 6, effects, 0, moves, 0, reply, 8), PLATE_TRACK_SIZE, 0)
        && refuses(plate_track_digest(257, p, effects, 5, moves, 5, reply, 8), PLATE_TRACK_SIZE, 0), "a digest of 0 or 257 vertices");
    check(refuses(plate_track_digest(4, 6, effects, 3, moves, 4, reply, 8), PLATE_TRACK_SHORT, 0)
        && refuses(plate_track_digest(4, p, effects, 4, moves, 3, reply, 8), PLATE_TRACK_SHORT, 0), "of three entries");
    check(refuses(plate_track_digest(4, 0, effects, 4, moves, 4, reply, 8), PLATE_TRACK_PROPERTY, 0)
        && refuses(plate_track_digest(4, 6, effects, 4, moves, 4, reply, 8), PLATE_TRACK_PROPERTY, 0) && shows_nothing(), "of no property");
}

/* ---- twins */

/* A batch on a deck as it is opened with landmark 0: a number and place, or the report: count, affected, stores. */
struct batched {
    const char *text;
    plate_track_change changes[2];
    size_t len;
    uint32_t number;
    uint64_t words[3];
};

/* 0->1 of 2 and of 9, 1->2 of 5. From 0: time 0 2 7, handovers 0 1 2, headroom M 9 5, worst 0 2 5, reach 1 1 1. */
static const char two_tracks[] = "p sp 3 3\na 1 2 2\na 1 2 9\na 2 3 5\n";

/* No edge leads to 0, so that forward rows alone have suspects.
 * Deck A, take 0->1: 1 and 2 in five rows, stored again over 3.
 * Add 0->1 of 7: for headroom 1 becomes 7. From 4 to 7, by an update or by an add and a take: worse for time and worst stretch, 1 and 2 in both rows; they
 * are stored again, and 1 for headroom.
 * Of 4 to 3 and 9, one edge before and two after: it is gone for every property, 10; stores are 2 in each row, and for headroom 3 at 1 first.
 * Two tracks, 2 and 9 to 1 and 8, two and two: both are gone for every property, and 1 and 2 affected in all rows: 10; stores are 2 in each row, and for
 * headroom 1 at 1 first. Without 9: it is tight for handovers, headroom and reach, 1 and 2 in each, although its twin stays; they are stored again.
 * Without 2: tight for time, handovers, worst stretch and reach. From 2 to 3: worse for time and worst stretch; of headroom 1 stays, by its twin. */
static void changes_of_twins(void)
{
    static plate_track_deck d, before;
    enum { add = PLATE_TRACK_INSERT, take = PLATE_TRACK_DELETE, set = PLATE_TRACK_UPDATE };
    static const struct batched wanted[] = {
        {deck_a, {{take, 0, 1, 4, 0}}, 1, 0, {4, 10, 10}},
        {deck_a, {{take, 0, 1, 5, 0}}, 1, PLATE_TRACK_ABSENT, {0}},
        {deck_a, {{take, 0, 1, 0, 0}}, 1, PLATE_TRACK_WEIGHT, {0}},
        {deck_a, {{take, 0, 1, 65536, 0}}, 1, PLATE_TRACK_WEIGHT, {0}},
        {deck_a, {{take, 0, 1, 4, 4}}, 1, PLATE_TRACK_WEIGHT, {0}},
        {deck_a, {{add, 0, 1, 7, 0}}, 1, 0, {6, 0, 1}},
        {deck_a, {{add, 0, 1, 4, 0}}, 1, PLATE_TRACK_PRESENT, {0}},
        {deck_a, {{add, 0, 1, 7, 7}}, 1, PLATE_TRACK_WEIGHT, {0}},
        {deck_a, {{set, 0, 1, 7, 4}}, 1, 0, {5, 4, 5}},
        {deck_a, {{set, 0, 1, 7, 0}}, 1, PLATE_TRACK_WEIGHT, {0}},
        {deck_a, {{set, 0, 1, 7, 65536}}, 1, PLATE_TRACK_WEIGHT, {0}},
        {deck_a, {{set, 0, 1, 0, 4}}, 1, PLATE_TRACK_WEIGHT, {0}},
        {deck_a, {{set, 0, 1, 65536, 4}}, 1, PLATE_TRACK_WEIGHT, {0}},
        {deck_a, {{set, 0, 1, 4, 4}}, 1, 0, {5, 0, 0}},
        {deck_a, {{set, 0, 1, 5, 5}}, 1, PLATE_TRACK_ABSENT, {0}},
        {deck_a, {{set, 0, 1, 6, 5}}, 1, PLATE_TRACK_ABSENT, {0}},
        {deck_a, {{set, 0, 1, 4, 5}}, 1, PLATE_TRACK_PRESENT, {0}},
        {deck_a, {{add, 0, 1, 7, 0}, {set, 0, 1, 7, 4}}, 2, PLATE_TRACK_PRESENT, {1}},
        {deck_a, {{add, 0, 1, 7, 0}, {set, 0, 1, 7, 9}}, 2, PLATE_TRACK_PRESENT, {1}},
        {deck_a, {{set, 0, 1, 7, 4}, {take, 0, 1, 4, 0}}, 2, PLATE_TRACK_ABSENT, {1}},
        {deck_a, {{add, 0, 1, 7, 0}, {take, 0, 1, 4, 0}}, 2, 0, {5, 4, 5}},
        {deck_a, {{add, 0, 1, 3, 0}, {set, 0, 1, 9, 4}}, 2, 0, {6, 10, 11}},
        {two_tracks, {{set, 0, 1, 1, 2}, {set, 0, 1, 8, 9}}, 2, 0, {3, 10, 11}},
        {two_tracks, {{take, 0, 1, 9, 0}}, 1, 0, {2, 6, 6}},
        {two_tracks, {{take, 0, 1, 2, 0}}, 1, 0, {2, 8, 8}},
        {two_tracks, {{set, 0, 1, 3, 2}}, 1, 0, {3, 4, 4}},
        {two_tracks, {{set, 0, 1, 9, 2}}, 1, PLATE_TRACK_PRESENT, {0}},
        {two_tracks, {{set, 0, 1, 9, 9}}, 1, 0, {3, 0, 0}}};
    for (size_t i = 0; i < sizeof wanted / sizeof *wanted; i++) {
        const struct batched *w = &wanted[i];
        char what[80];
        uint32_t number;
        snprintf(what, sizeof what, "a batch of twins: line %d of the table", (int)i + 1);
        check(read_text(&d, w->text) == 0 && plate_track_deck_open(&d, zero, 1, reply) == 0, what);
        before = d;
        number = plate_track_deck_batch(&d, w->changes, w->len, reply);
        check(number == w->number && reply[0] == w->words[0] && (number != 0 || (reply[1] == w->words[1] && reply[2] == w->words[2])), what);
        check(number != 0 ? memcmp(&d, &before, sizeof d) == 0 : d.count == w->words[0], what);
        /* afterwards the rows are those of an opening of the table */
        before = d;
        check(plate_track_deck_open(&d, zero, 1, reply) == 0 && memcmp(&d, &before, sizeof d) == 0, what);
    }
    check(read_text(&d, two_tracks) == 0 && plate_track_deck_open(&d, zero, 1, reply) == 0, "two tracks open");
    {
        const plate_track_change changes[] = {{take, 0, 1, 9, 0}, {add, 0, 1, 4, 0}, {set, 0, 1, 7, 2}};
        check(plate_track_deck_batch(&d, changes, 3, reply) == 0 && d.count == 3 && are(d.tails, 0, 0, 1, 0) && are(d.heads, 1, 1, 2, 0)
            && are(d.weights, 4, 7, 5, 0), "9 goes, 4 comes, and 2 becomes 7: the records ascend");
    }
}

/* Deck A with 0->1 of 3, 5 and 9. From 0 to 1 the values are 3, 1, 9, 3, 1; to 2, over 1, they are 7, 2, 4, 4, 1: for headroom 1->2 of 4 sets it, and 5 is the
 * lowest figure of 0->1 that is no less. */
static void routes_of_twins(void)
{
    static plate_track_deck d;
    static const char three[] = "p sp 4 7\na 1 2 9\na 1 2 3\na 1 4 9\na 2 3 4\na 1 2 5\na 3 2 4\na 4 3 2\n";
    static const uint32_t to_1[PLATE_TRACK_PROPERTIES] = {3, 3, 9, 3, 3}, to_2[PLATE_TRACK_PROPERTIES] = {3, 3, 5, 3, 3};
    const plate_track_change tall = {PLATE_TRACK_DELETE, 0, 1, 9, 0}, fast = {PLATE_TRACK_DELETE, 0, 1, 3, 0};
    uint32_t landmarks[PLATE_TRACK_MOST_LANDMARKS];
    check(read_text(&d, three) == 0 && d.count == 7 && are(d.weights, 3, 5, 9, 9), "three tracks are read");
    for (uint32_t p = PLATE_TRACK_TIME; p <= PLATE_TRACK_REACH; p++) {
        const uint32_t m = p != PLATE_TRACK_REACH;
        check(find(&d, p, 0, 1) == 0 && reply[PLATE_TRACK_ROUTE_VERTICES] == 2 && are(vertices, 0, 1, 7, 7) && are(marks, m, 7, 7, 7)
            && are(figures, to_1[p - 1], 7, 7, 7) && figures[4] == 7, "0 to 1 names one of three");
        check(find(&d, p, 0, 2) == 0 && reply[PLATE_TRACK_ROUTE_VERTICES] == 3 && are(vertices, 0, 1, 2, 7) && are(marks, m, m, 7, 7)
            && are(figures, to_2[p - 1], 4, 7, 7) && figures[4] == 7, "0 to 2 names one of three");
    }
    /* edges in plus out, each twin counted: 0 has 4, 1 has 5, 2 has 3, 3 has 2; by pairs 2 would come before 0 */
    check(plate_track_deck_choose(&d, 4, landmarks, reply) == 0 && are(landmarks, 1, 0, 2, 3), "landmarks 1, 0, 2 and 3");
    check(plate_track_deck_open(&d, zero, 1, reply) == 0, "three tracks open");
    check(ask(&d, PLATE_TRACK_TIME, 0) == 0 && are(settled, 0, 3, 7, 9) && ask(&d, PLATE_TRACK_HEADROOM, 0) == 0 && are(settled, M, 9, 4, 9)
        && ask(&d, PLATE_TRACK_WORST, 0) == 0 && are(settled, 0, 3, 4, 9), "the best over all of them");
    check(foresee(&d, &tall, 1, PLATE_TRACK_HEADROOM, 0) == 0 && are(effects, 0, 3, 0, 0) && moves[1] == -4, "without 9 station 1 has 5");
    check(foresee(&d, &tall, 1, PLATE_TRACK_TIME, 0) == 0 && are(effects, 0, 0, 0, 0), "and time stays");
    check(foresee(&d, &fast, 1, PLATE_TRACK_TIME, 0) == 0 && are(effects, 0, 3, 3, 0) && moves[1] == 2 && moves[2] == 2, "without 3 time is 5 and 9");
    check(foresee(&d, &fast, 1, PLATE_TRACK_HEADROOM, 0) == 0 && are(effects, 0, 0, 0, 0), "and headroom stays");
}

static void texts_of_twins(void)
{
    static plate_track_deck d;
    static uint8_t text[100];
    static const char twins[] = "p sp 2 3\na 1 2 5\na 1 2 60\na 2 1 5\n";
    check(refuses(read_text(&d, "p sp 3 2\na 1 2 5\na 1 2 5\n"), PLATE_TRACK_TEXT, 3), "the same line again");
    check(refuses(read_text(&d, "p sp 3 3\na 1 2 5\na 1 2 6\nc\na 1 2 5\n"), PLATE_TRACK_TEXT, 5), "the same line again, after a twin");
    check(refuses(read_text(&d, "p sp 1 1\n"), PLATE_TRACK_TEXT, 1), "an edge of one vertex");
    check(refuses(read_text(&d, "p sp 2 3\na 1 2 5\na 2 1 5\n"), PLATE_TRACK_TEXT, 4), "one edge too few");
    d.weights[3] = 77;
    check(read_text(&d, "p sp 2 3\na 2 1 5\na 1 2 60\na 1 2 5\n") == 0 && d.count == 3 && are(d.weights, 5, 60, 5, 77),
        "more edges than pairs, in any order");
    check(plate_track_deck_write(&d, text, sizeof text, reply) == 0 && reply[PLATE_TRACK_WRITE_LENGTH] == strlen(twins)
        && memcmp(text, twins, strlen(twins)) == 0, "written they ascend");
    check(plate_track_deck_open(&d, zero, 1, reply) == 0, "twins in order");
    d.weights[1] = 5;
    check(refuses(plate_track_deck_open(&d, zero, 1, reply), PLATE_TRACK_TABLE, 1), "the same three words twice");
    d.weights[1] = 4;
    check(refuses(plate_track_deck_open(&d, zero, 1, reply), PLATE_TRACK_TABLE, 1), "twins that descend");
}

/* 2,048 twins, from 0 to 1, of 1 to 2,048. One that gets 3,000 in the place of 1 is worse for time and worst stretch, where 2 is stored for it; for headroom
 * 3,000 is stored. */
static void full_of_twins(void)
{
    static plate_track_deck d;
    const plate_track_change add = {PLATE_TRACK_INSERT, 0, 1, 3000, 0}, set = {PLATE_TRACK_UPDATE, 0, 1, 3000, 1};
    const plate_track_change there = {PLATE_TRACK_INSERT, 0, 1, 2048, 0}, take = {PLATE_TRACK_DELETE, 0, 1, 2, 0};
    const plate_track_change room[] = {take, {PLATE_TRACK_INSERT, 0, 1, 1, 0}};
    plate_track_deck_clear(&d, 2);
    for (uint32_t i = 0; i < PLATE_TRACK_MOST_EDGES; i++) {
        d.tails[i] = 0;
        d.heads[i] = 1;
        d.weights[i] = i + 1;
    }
    d.count = PLATE_TRACK_MOST_EDGES;
    check(plate_track_deck_open(&d, zero, 1, reply) == 0 && d.forward[1] == 1 && d.forward[5] == 2048, "2,048 twins open");
    check(refuses(plate_track_deck_batch(&d, &add, 1, reply), PLATE_TRACK_FULL, 0), "a twin more");
    check(refuses(plate_track_deck_batch(&d, &there, 1, reply), PLATE_TRACK_PRESENT, 0), "one that is there");
    check(plate_track_deck_batch(&d, &set, 1, reply) == 0 && reply[0] == 2048 && reply[1] == 2 && reply[2] == 3, "a full table is updated");
    check(d.weights[0] == 2 && d.weights[2046] == 2048 && d.weights[2047] == 3000 && d.forward[1] == 2 && d.forward[5] == 3000, "in order");
    check(plate_track_deck_batch(&d, room, 2, reply) == 0 && reply[0] == 2048 && d.weights[0] == 1 && d.weights[1] == 3 && d.forward[1] == 1,
        "one goes and one comes");
}

static void refused(void)
{
    static plate_track_deck d, before;
    const plate_track_change take = {PLATE_TRACK_DELETE, 0, 1, 4, 0}, update = {PLATE_TRACK_UPDATE, 0, 1, 3, 4}, unknown = {4, 0, 1, 4, 0};
    const plate_track_change twice[] = {take, take}, gone[] = {take, update}, kinds[] = {update, unknown};
    const uint32_t five[] = {0, 1, 2, 3, 0};
    uint32_t landmarks[PLATE_TRACK_MOST_LANDMARKS], sources[PLATE_TRACK_MOST_SOURCES];
    uint8_t text[4];
    const uint32_t *row = NULL;
    check(refuses(plate_track_deck_open(&d, zero, 1, reply), PLATE_TRACK_SIZE, 0), "a deck of no vertices does not open");
    check(read_text(&d, deck_a) == 0, "Deck A is read");
    check(refuses(ask(&d, PLATE_TRACK_TIME, 0), PLATE_TRACK_LANDMARKS, 0), "a deck that is not open has no landmarks");
    check(plate_track_deck_open(&d, zero, 1, reply) == 0, "it opens");
    before = d;
    check(refuses(read_text(&d, "p sp 4 1\na 1 5 3\n"), PLATE_TRACK_TEXT, 2), "vertex 5 of 4");
    check(refuses(plate_track_deck_open(&d, five, 5, reply), PLATE_TRACK_LANDMARKS, 0), "five landmarks");
    check(refuses(plate_track_deck_batch(&d, twice, 2, reply), PLATE_TRACK_ABSENT, 1), "take 0->1 twice");
    check(refuses(plate_track_deck_batch(&d, gone, 2, reply), PLATE_TRACK_ABSENT, 1), "take 0->1, then update it");
    check(refuses(plate_track_deck_batch(&d, kinds, 2, reply), PLATE_TRACK_KIND, 1), "kind 4");
    check(refuses(plate_track_deck_choose(&d, 5, landmarks, reply), PLATE_TRACK_LANDMARKS, 0), "choose five");
    check(refuses(plate_track_deck_row(&d, 2, 0, 1, &row, reply), PLATE_TRACK_PROPERTY, 0) && row == NULL, "side 2");
    check(refuses(plate_track_deck_query(&d, 1, 0, NULL, 0, starts, 3, settled, 4, reply), PLATE_TRACK_SHORT, 0), "three start words of four");
    check(refuses(plate_track_deck_write(&d, text, 4, reply), PLATE_TRACK_SHORT, 0), "a text of four bytes");
    check(refuses(plate_track_deck_read_sources(&d, NULL, 0, sources, PLATE_TRACK_MOST_SOURCES, reply), PLATE_TRACK_TEXT, 1), "no source text");
    check(memcmp(&d, &before, sizeof d) == 0, "no refused call changed the deck");
    check(read_text(&d, deck_a) == 0 && refuses(plate_track_deck_settled(&d, reply), PLATE_TRACK_LANDMARKS, 0), "a deck read anew is not open");
}

/* What a deck that is not open says, also where it was open before it was cleared, and one of a bad n: the lowest number that applies; text gives
 * it another n. */
static void unopened(void)
{
    static plate_track_deck d;
    const plate_track_change take = {PLATE_TRACK_DELETE, 0, 1, 4, 0};
    const char sources_text[] = "p aux sp ss 0\n";
    const uint32_t sizes[] = {0, 4, 257, 4};
    uint32_t landmarks[PLATE_TRACK_MOST_LANDMARKS], sources[PLATE_TRACK_MOST_SOURCES];
    uint8_t text[100];
    const uint32_t *row = NULL;
    for (int i = 0; i < 4; i++) {
        const uint32_t n = sizes[i], number = n == 4 ? PLATE_TRACK_LANDMARKS : PLATE_TRACK_SIZE, fine = n == 4 ? PLATE_TRACK_ACCEPTED : PLATE_TRACK_SIZE;
        plate_track_deck_clear(&d, n);
        check(refuses(plate_track_deck_batch(&d, &take, 1, reply), number, 0), "not open: batch");
        check(refuses(ask(&d, PLATE_TRACK_TIME, 0), number, 0), "not open: query");
        check(refuses(foresee(&d, &take, 1, PLATE_TRACK_TIME, 0), number, 0) && shows_nothing(), "not open: preview");
        check(refuses(plate_track_deck_row(&d, PLATE_TRACK_FORWARD, 0, PLATE_TRACK_TIME, &row, reply), number, 0), "not open: row");
        check(refuses(plate_track_deck_settled(&d, reply), number, 0), "not open: settled");
        check(plate_track_deck_choose(&d, 1, landmarks, reply) == fine, "not open: choose");
        check(find(&d, PLATE_TRACK_TIME, 0, 0) == fine, "not open: route");
        check(plate_track_deck_write(&d, text, sizeof text, reply) == fine, "not open: write");
        check(plate_track_deck_read_sources(
            &d, (const uint8_t *)sources_text, strlen(sources_text), sources, PLATE_TRACK_MOST_SOURCES, reply) == fine, "not open: read_sources");
        check(plate_track_deck_open(&d, zero, 1, reply) == fine, "not open: open");
    }
    plate_track_deck_clear(&d, 4);
    check(refuses(plate_track_deck_query(&d, 1, 0, NULL, 0, starts, 3, settled, 4, reply), PLATE_TRACK_SHORT, 0), "not open, and starts too short");
    plate_track_deck_clear(&d, 0);
    check(read_text(&d, deck_a) == 0 && d.n == 4, "text gives a cleared deck another n");
}

/* An empty list is lent by null and by a pointer to something, alike. */
static void empty(const uint32_t *none, const plate_track_change *nothing, const uint8_t *silence)
{
    static plate_track_deck d;
    check(read_text(&d, deck_a) == 0, "Deck A is read");
    check(refuses(plate_track_deck_open(&d, none, 0, reply), PLATE_TRACK_LANDMARKS, 0), "no landmark");
    check(plate_track_deck_open(&d, zero, 1, reply) == 0, "it opens");
    check(plate_track_deck_batch(&d, nothing, 0, reply) == 0 && reply[0] == 5 && reply[1] == 0 && reply[2] == 0, "an empty batch");
    check(foresee(&d, nothing, 0, PLATE_TRACK_TIME, 0) == 0 && are(effects, 0, 0, 0, 0) && moves[0] == 0 && moves[3] == 0, "a preview of an empty batch");
    check(plate_track_deck_query(&d, PLATE_TRACK_REACH, 3, none, 0, starts, 4, settled, 4, reply) == 0 && are(settled, 0, 1, 1, 1), "reach from 3");
    check(refuses(plate_track_deck_read(&d, silence, 0, reply), PLATE_TRACK_TEXT, 1), "the empty text");
}

/* Each list that a call needs is too short where it is empty, whatever its pointer. List k is lent empty, by `w`, `b`, `m` or `r`; the reply is list 0. */
#define WORD(i, list, len) (k == i ? w : (list)), (k == i ? 0 : (size_t)(len))
#define BYTE(i, list, len) (k == i ? b : (list)), (k == i ? 0 : (size_t)(len))
#define MOVE(i, list, len) (k == i ? m : (list)), (k == i ? 0 : (size_t)(len))
#define LONG(i) (k == i ? r : reply), (k == i ? 0 : (size_t)PLATE_TRACK_REPLY_WORDS)
#define TABLE WORD(1, d.tails, 2048), WORD(2, d.heads, 2048), WORD(3, d.weights, 2048)
#define ROWS WORD(4, d.forward, 20), WORD(5, d.backward, 20)

static void too_short(uint32_t *w, uint8_t *b, int64_t *m, uint64_t *r)
{
    static plate_track_deck d;
    static uint8_t text[100];
    uint32_t sources[PLATE_TRACK_MOST_SOURCES];
    const plate_track_change take = {PLATE_TRACK_DELETE, 0, 1, 4, 0};
    check(read_text(&d, deck_a) == 0 && plate_track_deck_open(&d, zero, 1, reply) == 0, "Deck A opens");
    for (int k = 0; k <= 8; k++) {
        int table = k >= 1 && k <= 3, rows = k == 4 || k == 5, answer = k == 0, written = k == 6 || k == 7;
        check((plate_track_open(4, zero, 1, TABLE, 5, ROWS, LONG(0)) == 2) == (answer || table || rows), "an empty list of open");
        check((plate_track_query(4, zero, 1, TABLE, 5, ROWS, 1, 0, NULL, 0, WORD(6, starts, 4), WORD(7, settled, 4), LONG(0)) == 2)
            == (answer || table || rows || written), "an empty list of query");
        check((plate_track_settled(4, zero, 1, TABLE, 5, ROWS, LONG(0)) == 2) == (answer || table || rows), "an empty list of settled");
        check((plate_track_choose(4, TABLE, 5, 1, LONG(0)) == 2) == (answer || table), "an empty list of choose");
        check((plate_track_route(4, TABLE, 5, 1, 0, 2, WORD(6, vertices, 4), WORD(7, marks, 4), WORD(8, figures, 4), LONG(0)) == 2)
            == (answer || table || written || k == 8), "an empty list of route");
        check((plate_track_preview(4, zero, 1, TABLE, 5, ROWS, &take, 1, 1, 0, WORD(6, effects, 4), MOVE(7, moves, 4), LONG(0)) == 2)
            == (answer || table || rows || written), "an empty list of preview");
        check((plate_track_digest(4, 1, WORD(6, effects, 4), MOVE(7, moves, 4), LONG(0)) == 2) == (answer || written), "an empty list of digest");
        check((plate_track_row(4, zero, 1, ROWS, 0, 0, 1, LONG(0)) == 2) == (answer || rows), "an empty list of row");
        check((plate_track_write(4, TABLE, 5, BYTE(6, text, 100), LONG(0)) == 2) == (answer || table || k == 6), "an empty list of write");
        check((plate_track_read_sources((const uint8_t *)"p aux sp ss 0\n", 14, 4, WORD(6, sources, 256), LONG(0)) == 2) == (answer || k == 6),
            "an empty list of read_sources");
        check((plate_track_read((const uint8_t *)deck_a, strlen(deck_a), TABLE, LONG(0)) == 2) == (answer || table), "an empty list of read");
        if (answer || table || rows)
            check(plate_track_batch(4, zero, 1, TABLE, 5, ROWS, &take, 1, LONG(0)) == 2, "an empty list of batch");
    }
    check(d.count == 5 && d.tails[4] == 3, "the deck is as it was");
}

static void words(void)
{
    static const char *const wanted[] = {
        "accepted", "size", "short", "landmarks (posts)", "table", "property", "vertex (station)", "kind", "loop", "weight (figure)", "present",
        "absent", "full", "unsettled (restless)", "text", "no route", "unknown"};
    for (uint32_t k = 0; k < 17; k++)
        check(strcmp(plate_track_word(k), wanted[k]) == 0, wanted[k]);
    check(strcmp(plate_track_word(PLATE_TRACK_GREATEST), "unknown") == 0, "a number of no refusal");
    check(plate_track_no_route(PLATE_TRACK_TIME) == M && plate_track_no_route(PLATE_TRACK_HANDOVERS) == M
        && plate_track_no_route(PLATE_TRACK_HEADROOM) == 0 && plate_track_no_route(PLATE_TRACK_WORST) == M
        && plate_track_no_route(PLATE_TRACK_REACH) == 0, "no-route words");
    check(PLATE_TRACK_ROW_WORDS(1 + 1, 3) == 30 && PLATE_TRACK_ROW_WORDS(4, 256) == 5120, "words of a row list");
    check(sizeof(plate_track_change) == 20 && PLATE_TRACK_CHANGE_WORDS == 5 && offsetof(plate_track_change, weight) == 12
        && offsetof(plate_track_change, old) == 16, "words of a change");
}

/* Several threads ask one deck at once, each with memory of its own for the answer. */
static plate_track_deck shared;
static int thread_wrong[4];

static void *asks(void *wrong)
{
    static const uint32_t wanted[PLATE_TRACK_PROPERTIES][4] = {{0, 4, 8, 9}, {0, 1, 2, 1}, {UINT32_MAX, 4, 4, 9}, {0, 4, 4, 9}, {1, 1, 1, 1}};
    static const uint32_t over_1[] = {0, 1, 2, 7};
    static const int64_t without_0_1[PLATE_TRACK_PROPERTIES][4] = {{0, 11, 3, 0}, {0, 2, 0, 0}, {0, -2, -2, 0}, {0, 5, 5, 0}, {0, 0, 0, 0}};
    const plate_track_change take = {PLATE_TRACK_DELETE, 0, 1, 4, 0};
    uint32_t own_starts[4], own_settled[4], own_vertices[4] = {7, 7, 7, 7}, own_marks[4], own_figures[4], own_effects[4];
    int64_t own_moves[4];
    uint64_t own_reply[PLATE_TRACK_REPLY_WORDS];
    for (uint32_t i = 0; i < 5000; i++) {
        uint32_t p = i % PLATE_TRACK_PROPERTIES;
        if (plate_track_deck_query(&shared, p + 1, 0, NULL, 0, own_starts, 4, own_settled, 4, own_reply) != 0
            || memcmp(own_settled, wanted[p], sizeof own_settled) != 0
            || plate_track_deck_route(&shared, p + 1, 0, 2, own_vertices, 4, own_marks, 4, own_figures, 4, own_reply) != 0
            || memcmp(own_vertices, over_1, sizeof own_vertices) != 0 || own_figures[0] != 4 || own_figures[1] != 4
            || plate_track_deck_preview(&shared, &take, 1, p + 1, 0, own_effects, 4, own_moves, 4, own_reply) != 0
            || memcmp(own_moves, without_0_1[p], sizeof own_moves) != 0)
            *(int *)wrong = 1;
    }
    return NULL;
}

static void threads(void)
{
    pthread_t ids[4];
    check(read_text(&shared, deck_a) == 0 && plate_track_deck_open(&shared, zero, 1, reply) == 0, "Deck A opens");
    for (int i = 0; i < 4; i++)
        check(pthread_create(&ids[i], NULL, asks, &thread_wrong[i]) == 0, "a thread begins");
    for (int i = 0; i < 4; i++) {
        pthread_join(ids[i], NULL);
        check(!thread_wrong[i], "a thread's answers");
    }
}

int main(void)
{
    const uint32_t none[] = {7};
    const plate_track_change nothing = {7, 7, 7, 7, 7};
    const uint8_t silence[] = {7};
    uint32_t word = 7;
    uint8_t byte = 7;
    int64_t move = -7;
    uint64_t answer = 7;
    stale_count();
    accepted();
    routes();
    no_routes();
    previews();
    no_previews();
    changes_of_twins();
    routes_of_twins();
    texts_of_twins();
    full_of_twins();
    refused();
    unopened();
    empty(NULL, NULL, NULL);
    empty(none, &nothing, silence);
    too_short(NULL, NULL, NULL, NULL);
    too_short(&word, &byte, &move, &answer);
    check(word == 7 && byte == 7 && move == -7 && answer == 7, "nothing is written where an empty list points");
    words();
    threads();
    printf(bad ? "deck: FAILED\n" : "deck: ok\n");
    return bad;
}
