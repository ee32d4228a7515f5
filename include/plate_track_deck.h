/* A network with all its memory and its present count in one struct, so that no caller carries a count by hand. Header only, C11 and C++17,
 * over the calls of plate_track.h, which says what each of them does.
 *
 * A deck takes about 64 KiB: keep it in static memory or allocate it. Its fields may be read at any time and are written by these functions
 * alone. Begin with plate_track_deck_read or plate_track_deck_clear, then plate_track_deck_open; until it is opened there are no landmarks, and
 * what needs them (batch, query, preview, row, settled) is refused: with PLATE_TRACK_LANDMARKS, where no lower number applies.
 *
 * Each function but plate_track_deck_clear returns the number of the call's refusal, 0 where accepted. `reply` is 8 words of the caller's,
 * written as by the call of the same name; a refused call changes nothing in the deck. Functions of a const deck can run on several threads at
 * once, each with memory of its own for whatever it writes: reply, starts, settled, vertices, marks, figures, effects, moves, landmarks, row, text,
 * sources. */
#ifndef PLATE_TRACK_DECK_H
#define PLATE_TRACK_DECK_H

#include "plate_track.h"

typedef struct plate_track_deck {
    uint32_t n;
    uint32_t count; /* the present count of records */
    size_t landmarks_len;
    uint32_t landmarks[PLATE_TRACK_MOST_LANDMARKS];
    uint32_t tails[PLATE_TRACK_MOST_EDGES];
    uint32_t heads[PLATE_TRACK_MOST_EDGES];
    uint32_t weights[PLATE_TRACK_MOST_EDGES];
    uint32_t forward[PLATE_TRACK_MOST_LANDMARKS * PLATE_TRACK_PROPERTIES * PLATE_TRACK_MOST_VERTICES];
    uint32_t backward[PLATE_TRACK_MOST_LANDMARKS * PLATE_TRACK_PROPERTIES * PLATE_TRACK_MOST_VERTICES];
} plate_track_deck;

/* The lists of a deck as arguments of a call; no names for users of this header. */
#define PLATE_TRACK_DECK_TABLE(d) \
    (d)->tails, PLATE_TRACK_MOST_EDGES, (d)->heads, PLATE_TRACK_MOST_EDGES, (d)->weights, PLATE_TRACK_MOST_EDGES
#define PLATE_TRACK_DECK_ROWS(d) \
    (d)->forward, sizeof (d)->forward / sizeof *(d)->forward, (d)->backward, sizeof (d)->backward / sizeof *(d)->backward

/* A word of a reply as a word of a list; no name for users either. */
#ifdef __cplusplus
#define PLATE_TRACK_DECK_WORD(w) static_cast<uint32_t>(w)
#else
#define PLATE_TRACK_DECK_WORD(w) ((uint32_t)(w))
#endif

/* A deck of n vertices without an edge and without landmarks. A bad n is refused, with PLATE_TRACK_SIZE, by every function below but
 * plate_track_deck_read, which gives the deck another n. */
static inline void plate_track_deck_clear(plate_track_deck *d, uint32_t n)
{
    d->n = n;
    d->count = 0;
    d->landmarks_len = 0;
}

/* Reads network text. The deck is not open afterwards: its rows were those of another network. */
static inline uint32_t plate_track_deck_read(plate_track_deck *d, const uint8_t *text, size_t text_len, uint64_t *reply)
{
    uint32_t number = plate_track_read(text, text_len, PLATE_TRACK_DECK_TABLE(d), reply, PLATE_TRACK_REPLY_WORDS);
    if (number == PLATE_TRACK_ACCEPTED) {
        d->n = PLATE_TRACK_DECK_WORD(reply[PLATE_TRACK_READ_VERTICES]);
        d->count = PLATE_TRACK_DECK_WORD(reply[PLATE_TRACK_READ_COUNT]);
        d->landmarks_len = 0;
    }
    return number;
}

/* Chooses k landmarks to open with: `landmarks` gets them, reply[PLATE_TRACK_CHOOSE_COUNT] is how many. */
static inline uint32_t plate_track_deck_choose(
    const plate_track_deck *d, uint32_t k, uint32_t landmarks[PLATE_TRACK_MOST_LANDMARKS], uint64_t *reply)
{
    uint32_t number = plate_track_choose(d->n, PLATE_TRACK_DECK_TABLE(d), d->count, k, reply, PLATE_TRACK_REPLY_WORDS);
    if (number == PLATE_TRACK_ACCEPTED)
        for (uint64_t i = 0; i < reply[PLATE_TRACK_CHOOSE_COUNT]; i++)
            landmarks[i] = PLATE_TRACK_DECK_WORD(reply[PLATE_TRACK_CHOOSE_FIRST + i]);
    return number;
}

/* Opens the deck with these landmarks; again with others at any time. */
static inline uint32_t plate_track_deck_open(plate_track_deck *d, const uint32_t *landmarks, size_t landmarks_len, uint64_t *reply)
{
    uint32_t number = plate_track_open(
        d->n, landmarks, landmarks_len, PLATE_TRACK_DECK_TABLE(d), d->count, PLATE_TRACK_DECK_ROWS(d), reply, PLATE_TRACK_REPLY_WORDS);
    if (number == PLATE_TRACK_ACCEPTED) {
        for (size_t i = 0; i < landmarks_len; i++)
            d->landmarks[i] = landmarks[i];
        d->landmarks_len = landmarks_len;
    }
    return number;
}

/* Changes the deck by a batch of change records, five words each, and keeps the new count. */
static inline uint32_t plate_track_deck_batch(plate_track_deck *d, const plate_track_change *changes, size_t changes_len, uint64_t *reply)
{
    uint32_t number = plate_track_batch(
        d->n, d->landmarks, d->landmarks_len, PLATE_TRACK_DECK_TABLE(d), d->count, PLATE_TRACK_DECK_ROWS(d), changes, changes_len, reply,
        PLATE_TRACK_REPLY_WORDS);
    if (number == PLATE_TRACK_ACCEPTED)
        d->count = PLATE_TRACK_DECK_WORD(reply[PLATE_TRACK_BATCH_COUNT]);
    return number;
}

/* Asks for a property from a source: two lists of at least n words get start words and values. */
static inline uint32_t plate_track_deck_query(
    const plate_track_deck *d, uint32_t property, uint32_t source, const uint32_t *schedule, size_t schedule_len, uint32_t *starts,
    size_t starts_len, uint32_t *settled, size_t settled_len, uint64_t *reply)
{
    return plate_track_query(
        d->n, d->landmarks, d->landmarks_len, PLATE_TRACK_DECK_TABLE(d), d->count, PLATE_TRACK_DECK_ROWS(d), property, source, schedule,
        schedule_len, starts, starts_len, settled, settled_len, reply, PLATE_TRACK_REPLY_WORDS);
}

/* Asks for the route behind a value: three lists of at least n words get its vertices, and of its edges the marks and the weights (figures). The deck
 * may be one that is not open, for a route needs no landmarks. */
static inline uint32_t plate_track_deck_route(
    const plate_track_deck *d, uint32_t property, uint32_t source, uint32_t target, uint32_t *vertices, size_t vertices_len, uint32_t *marks,
    size_t marks_len, uint32_t *figures, size_t figures_len, uint64_t *reply)
{
    return plate_track_route(
        d->n, PLATE_TRACK_DECK_TABLE(d), d->count, property, source, target, vertices, vertices_len, marks, marks_len, figures, figures_len, reply,
        PLATE_TRACK_REPLY_WORDS);
}

/* Shows what a batch would do to a property from a source: two lists of at least n entries get what becomes of each vertex and by how much it moves.
 * The deck stays as it is. plate_track_digest sums them up. */
static inline uint32_t plate_track_deck_preview(
    const plate_track_deck *d, const plate_track_change *changes, size_t changes_len, uint32_t property, uint32_t source, uint32_t *effects,
    size_t effects_len, int64_t *moves, size_t moves_len, uint64_t *reply)
{
    return plate_track_preview(
        d->n, d->landmarks, d->landmarks_len, PLATE_TRACK_DECK_TABLE(d), d->count, PLATE_TRACK_DECK_ROWS(d), changes, changes_len, property, source,
        effects, effects_len, moves, moves_len, reply, PLATE_TRACK_REPLY_WORDS);
}

/* Looks a row up: *row points to its n words in the deck, and stays where refused. */
static inline uint32_t plate_track_deck_row(
    const plate_track_deck *d, uint32_t side, uint32_t landmark, uint32_t property, const uint32_t **row, uint64_t *reply)
{
    uint32_t number = plate_track_row(
        d->n, d->landmarks, d->landmarks_len, PLATE_TRACK_DECK_ROWS(d), side, landmark, property, reply, PLATE_TRACK_REPLY_WORDS);
    if (number == PLATE_TRACK_ACCEPTED)
        *row = (side == PLATE_TRACK_FORWARD ? d->forward : d->backward) + reply[PLATE_TRACK_ROW_START];
    return number;
}

/* Checks whether every row is settled. */
static inline uint32_t plate_track_deck_settled(const plate_track_deck *d, uint64_t *reply)
{
    return plate_track_settled(
        d->n, d->landmarks, d->landmarks_len, PLATE_TRACK_DECK_TABLE(d), d->count, PLATE_TRACK_DECK_ROWS(d), reply, PLATE_TRACK_REPLY_WORDS);
}

/* Writes the deck's text. */
static inline uint32_t plate_track_deck_write(const plate_track_deck *d, uint8_t *text, size_t text_len, uint64_t *reply)
{
    return plate_track_write(d->n, PLATE_TRACK_DECK_TABLE(d), d->count, text, text_len, reply, PLATE_TRACK_REPLY_WORDS);
}

/* Reads a source file of the deck's n vertices. */
static inline uint32_t plate_track_deck_read_sources(
    const plate_track_deck *d, const uint8_t *text, size_t text_len, uint32_t *sources, size_t sources_len, uint64_t *reply)
{
    return plate_track_read_sources(text, text_len, d->n, sources, sources_len, reply, PLATE_TRACK_REPLY_WORDS);
}

#undef PLATE_TRACK_DECK_TABLE
#undef PLATE_TRACK_DECK_ROWS
#undef PLATE_TRACK_DECK_WORD

#endif
