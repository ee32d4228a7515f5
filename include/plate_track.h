/* Plate track: routes on a directed graph of up to 256 vertices and 2,048 weighted edges, landmark rows that are kept up to date
 * while edges come, go and change their weights in batches, queries from any vertex, the route behind a value, and what a batch would do.
 *
 * Every plate_track_ function of the archive is proved to meet its contract (crates/plate_track). Nothing is allocated and nothing is kept
 * between calls: the caller lends all memory. PLATE_TRACK_STACK_ below has the stack of each call; none needs more than 192 KiB.
 * plate_track_deck.h holds a network and its memory in one struct and keeps the count.
 *
 * WORDS. Here, and in document 01: vertex = station, edge = segment, weight = figure, landmark = post, forward = outward, backward =
 * homeward, schedule = picks, affected = suspect, unsettled = restless, refused = turned back, insert = add, delete = take; update is document
 * 02's kind 3, a retuned segment; twins are its twin tracks, and figures the weights that a
 * route names. Words have 32 bits, those of a reply 64; moves of a preview are signed numbers of 64 bits.
 *
 * LISTS. A list is a pointer and a length in elements, in that order. With length 0 it is empty, and any pointer will do, null too; with
 * another length the pointer points to that many elements, aligned as C aligns them. A list that a call may write (not const here) overlaps no
 * other list of the same call; so `starts` and `settled` of a query are two lists, `effects` and `moves` of a preview too, and `vertices`, `marks` and
 * `figures` of a route are three. Nothing can check this: it is what the caller owes. Everything else may be any value.
 *
 * NETWORK. Vertices are 0 to n - 1, n from 1 to 256. An edge is its three words, tail, head and weight: tail and head differ, and a weight is 1 to
 * 65,535. Edges of one pair, tail and head, with different weights are twins; there may be as many as there is room for, and a best value is the best over
 * all of them. The edge table is three lists, tails, heads and weights, of at least 2,048 words EACH, however few edges there are, and a count of
 * records. Records ascend by tail, then head, then weight, so that twins stand beside each other, the lowest weight first; no three words stand twice.
 * Landmarks are 1 to 4 different vertices. Two lists hold the landmark rows: forward (landmark to each vertex) and backward (each vertex to landmark),
 * each of at least PLATE_TRACK_ROW_WORDS(landmarks, n) words. Row i * 5 + p - 1, of n words, is that of landmark i of the list for property p.
 *
 *   property                     at the source   no route      along an edge           better
 *   1 time                       0               4294967295    value + weight          less
 *   2 handovers                  0               4294967295    value + 1               less
 *   3 headroom                   4294967295      0             lesser of both          greater
 *   4 worst stretch              0               4294967295    greater of both         less
 *   5 reach                      1               0             value                   greater
 * A sum above 4294967294 is 4294967295: it never wraps.
 *
 * REPLIES. A call, which is every function here with a reply list, returns 0 where it is accepted, and else the number of its refusal (below).
 * `reply` is a list of at least 8 words; with fewer, every call returns PLATE_TRACK_SHORT and looks at nothing else. Accepted, reply[0] and on
 * hold the words that are named at the function, and the rest stay. Refused, reply[0] is the place (an index, a line, or 0), the rest stay, and NO
 * other lent memory has changed. The lowest number that applies is given, but for two: plate_track_write judges the length of its buffer last; and
 * in a batch, after 1 to 4, the first change with any of 6 to 12 decides, by its lowest number, against the table as earlier changes left it, and
 * its index is the place. So it does in a preview, after 1 to 5 and a bad source.
 *
 * TEXT. Network text is the 9th DIMACS Challenge's shortest-path layout: a line `p sp N M`, then M lines `a TAIL HEAD WEIGHT` in any
 * order, and comments, `c` alone or `c ` and any bytes, anywhere. N is 1 to 256, M at most 2,048, and 0 where N is 1. Twins are lines of one TAIL and
 * HEAD with different WEIGHTs; a line with the same three numbers as one before it is refused. A source file has `p aux sp ss COUNT`, then COUNT lines
 * `s VERTEX`; COUNT is 0 to 256, and a vertex may stand twice. Each line ends with a line feed, the last one too; single spaces; numbers have no
 * sign and no leading zero. VERTICES COUNT FROM 1 IN TEXT and from 0 in every list.
 *
 * A network keeps best values as long as only plate_track_batch writes its table and rows after plate_track_open, and each call gets
 * the same n and landmarks and the PRESENT COUNT: the opening's, until a batch is accepted, and then the one last reported. A count that is too
 * small is not found out: the call is accepted, and answers for the table without its last records. plate_track_deck.h keeps the count.
 *
 * THREADS. The functions may run on several threads at once. Lists that no running call may write can be shared by all of them; a list
 * that a running call may write belongs to that call alone.
 *
 * VERSION. PLATE_TRACK_VERSION here and plate_track_version() of the archive are the same number. It rises by one where a program that was
 * compiled against the header before would call something else than it meant: parameters or the change record change. A changed function then
 * has a symbol with the version in it, and the header maps the plain name to it (#define plate_track_batch plate_track_batch_v2): a program
 * compiled against another version that calls it fails to link. In version 2 the change record has grown from four words to five, of which `old` is the
 * last, and a delete names the weight of its edge; a route has a third list, `figures`. Records of four words are none of this version: make them anew. */
#ifndef PLATE_TRACK_H
#define PLATE_TRACK_H

#include <stddef.h>
#include <stdint.h>

#ifdef __cplusplus
extern "C" {
#endif

#define PLATE_TRACK_VERSION 2

/* The calls that version 2 changed; who looks calls up by name, as by dlsym, looks for these. */
#define plate_track_batch plate_track_batch_v2
#define plate_track_route plate_track_route_v2
#define plate_track_preview plate_track_preview_v2

/* The greatest word, M of document 01. */
#define PLATE_TRACK_GREATEST UINT32_C(4294967295)

/* The least length of each row list, a size_t; in C++ without a cast, of which some compilers' options warn. */
#ifdef __cplusplus
#define PLATE_TRACK_ROW_WORDS(landmarks, n) (sizeof(char) * (landmarks) * PLATE_TRACK_PROPERTIES * (n))
#else
#define PLATE_TRACK_ROW_WORDS(landmarks, n) ((size_t)(landmarks) * PLATE_TRACK_PROPERTIES * (size_t)(n))
#endif

enum {
    PLATE_TRACK_MOST_VERTICES = 256,
    PLATE_TRACK_MOST_EDGES = 2048,      /* and the least length of each table list */
    PLATE_TRACK_GREATEST_WEIGHT = 65535,
    PLATE_TRACK_MOST_LANDMARKS = 4,
    PLATE_TRACK_MOST_CHANGES = 1024,
    PLATE_TRACK_CHANGE_WORDS = 5,       /* of a change record, 32 bits each */
    PLATE_TRACK_LONGEST_SCHEDULE = 4096,
    PLATE_TRACK_MOST_SOURCES = 256,     /* and the least length of a list of sources */
    PLATE_TRACK_LONGEST_TEXT = 32782,   /* no written text has more bytes */
    PLATE_TRACK_PROPERTIES = 5,
    PLATE_TRACK_REPLY_WORDS = 8         /* the least length of a reply list */
};

/* Properties. */
enum { PLATE_TRACK_TIME = 1, PLATE_TRACK_HANDOVERS, PLATE_TRACK_HEADROOM, PLATE_TRACK_WORST, PLATE_TRACK_REACH };

/* Sides. */
enum { PLATE_TRACK_FORWARD = 0, PLATE_TRACK_BACKWARD = 1 };

/* Refusals. */
enum {
    PLATE_TRACK_ACCEPTED = 0,
    PLATE_TRACK_SIZE = 1,       /* n is 0 or over 256, a batch over 1,024, a schedule over 4,096 */
    PLATE_TRACK_SHORT = 2,      /* a list or buffer is too short */
    PLATE_TRACK_LANDMARKS = 3,  /* none, over 4, no vertex, repeated; k not 1 to 4; a look-up's landmark is not in the list */
    PLATE_TRACK_TABLE = 4,      /* count over 2,048 (place 0), or a record breaks the rules (its index): a tail or head is no vertex, or both are one; a
                                   weight is not 1 to 65,535; or it does not come after the record before it by tail, head, weight: one with
                                   the same three words does not */
    PLATE_TRACK_PROPERTY = 5,   /* not 1 to 5; a side neither 0 nor 1 */
    PLATE_TRACK_VERTEX = 6,     /* a source or target (place 0), then an entry of a schedule (its index); a tail or head of a change: n or more */
    PLATE_TRACK_KIND = 7,       /* a change is none of insert, delete and update */
    PLATE_TRACK_LOOP = 8,       /* tail equals head */
    PLATE_TRACK_WEIGHT = 9,     /* weight is not 1 to 65,535; old is not 1 to 65,535 (update) or not 0 (insert, delete) */
    PLATE_TRACK_PRESENT = 10,   /* insert of an edge that is there; update to a weight, other than old, that an edge of the pair has, also where the edge
                                   to be updated is not there */
    PLATE_TRACK_ABSENT = 11,    /* delete of tail, head, weight or update of tail, head, old, where that edge is not there, even if a twin is */
    PLATE_TRACK_FULL = 12,      /* insert, of a twin too, when 2,048 records are there */
    PLATE_TRACK_UNSETTLED = 13, /* some vertex waits after n rounds */
    PLATE_TRACK_TEXT = 14,      /* a text breaks the rules; the place is the first line, from 1, with which no good text can go on, and the
                                   number of complete lines + 1 where it ends too soon */
    PLATE_TRACK_NO_ROUTE = 15   /* there is no route from source to target */
};

/* What becomes of a vertex, in a preview. */
enum { PLATE_TRACK_SAME = 0, PLATE_TRACK_GAINED = 1, PLATE_TRACK_LOST = 2, PLATE_TRACK_MOVED = 3 };

/* Kinds of change. */
enum { PLATE_TRACK_INSERT = 1, PLATE_TRACK_DELETE = 2, PLATE_TRACK_UPDATE = 3 };

/* The words of each reply, by place in `reply`. The place of a refusal is reply[PLATE_TRACK_PLACE]. */
enum { PLATE_TRACK_PLACE };
enum { PLATE_TRACK_QUERY_TAKEN, PLATE_TRACK_QUERY_ROUNDS, PLATE_TRACK_QUERY_STORES };
enum { PLATE_TRACK_BATCH_COUNT, PLATE_TRACK_BATCH_AFFECTED, PLATE_TRACK_BATCH_STORES };
enum { PLATE_TRACK_SETTLED_ALL, PLATE_TRACK_SETTLED_SIDE, PLATE_TRACK_SETTLED_ROW, PLATE_TRACK_SETTLED_RECORD };
enum { PLATE_TRACK_CHOOSE_COUNT, PLATE_TRACK_CHOOSE_FIRST };
enum { PLATE_TRACK_ROW_START };
enum { PLATE_TRACK_READ_VERTICES, PLATE_TRACK_READ_COUNT };
enum { PLATE_TRACK_WRITE_LENGTH };
enum { PLATE_TRACK_READ_SOURCES_COUNT };
enum { PLATE_TRACK_ROUTE_VERTICES };
enum { PLATE_TRACK_DIGEST_GAINED, PLATE_TRACK_DIGEST_LOST, PLATE_TRACK_DIGEST_BETTER, PLATE_TRACK_DIGEST_WORSE, PLATE_TRACK_DIGEST_MOST };

/* Bytes of stack that each call takes at most, at the greatest sizes; measured (tests/stack). Where the C library is bound lazily, the first call
 * that reaches one of its functions takes up to 4 KiB more, once, for the dynamic linker. */
enum {
    PLATE_TRACK_STACK_OPEN = 12 * 1024,
    PLATE_TRACK_STACK_QUERY = 3 * 1024,
    PLATE_TRACK_STACK_BATCH = 124 * 1024,
    PLATE_TRACK_STACK_SETTLED = 1024,
    PLATE_TRACK_STACK_CHOOSE = 1024,
    PLATE_TRACK_STACK_ROW = 1024,
    PLATE_TRACK_STACK_READ = 28 * 1024,
    PLATE_TRACK_STACK_WRITE = 256,
    PLATE_TRACK_STACK_READ_SOURCES = 2 * 1024,
    PLATE_TRACK_STACK_ROUTE = 14 * 1024,
    PLATE_TRACK_STACK_PREVIEW = 192 * 1024,
    PLATE_TRACK_STACK_DIGEST = 256
};

/* The word of a refusal number; in parentheses document 01's, where it is another. */
static inline const char *plate_track_word(uint32_t number)
{
    static const char *const words[] = {
        "accepted",
        "size",
        "short",
        "landmarks (posts)",
        "table",
        "property",
        "vertex (station)",
        "kind",
        "loop",
        "weight (figure)",
        "present",
        "absent",
        "full",
        "unsettled (restless)",
        "text",
        "no route"
    };
    return number < sizeof words / sizeof *words ? words[number] : "unknown";
}

/* The word that stands where there is no route, for a property of 1 to 5. */
static inline uint32_t plate_track_no_route(uint32_t property)
{
    return property == PLATE_TRACK_HEADROOM || property == PLATE_TRACK_REACH ? 0 : PLATE_TRACK_GREATEST;
}

/* The version of the archive: PLATE_TRACK_VERSION, where header and archive belong together. */
uint32_t plate_track_version(void);

/* A change of a batch: PLATE_TRACK_CHANGE_WORDS words. Each names one edge by its three words, and twins of that edge stay as they are.
 *   {PLATE_TRACK_INSERT, tail, head, weight, 0}     puts in the edge tail, head, weight
 *   {PLATE_TRACK_DELETE, tail, head, weight, 0}     strikes the edge tail, head, weight
 *   {PLATE_TRACK_UPDATE, tail, head, weight, old}   gives the edge tail, head, old the weight `weight`; where the two are equal nothing changes */
typedef struct plate_track_change {
    uint32_t kind;
    uint32_t tail;
    uint32_t head;
    uint32_t weight;
    uint32_t old; /* of an update the weight that its edge has, else 0 */
} plate_track_change;

/* Opens a network: both row lists get best values; words past the rows stay. The reply has no words.
 * Numbers: 1 to 4, 13. */
uint32_t plate_track_open(
    uint32_t n,
    const uint32_t *landmarks, size_t landmarks_len,
    const uint32_t *tails, size_t tails_len,
    const uint32_t *heads, size_t heads_len,
    const uint32_t *weights, size_t weights_len,
    uint32_t count,
    uint32_t *forward, size_t forward_len,
    uint32_t *backward, size_t backward_len,
    uint64_t *reply, size_t reply_len);

/* Asks for one property from one source to every vertex. The schedule (0 to 4,096 vertices, usually none) is gone through before the
 * rounds. `starts` gets the n words that the landmark rows alone give (at the source its own value), `settled` the n values asked for; both have
 * at least n words, and words past them stay.
 * reply: entries of the schedule taken, rounds, stores. Numbers: 1 to 6, 13. */
uint32_t plate_track_query(
    uint32_t n,
    const uint32_t *landmarks, size_t landmarks_len,
    const uint32_t *tails, size_t tails_len,
    const uint32_t *heads, size_t heads_len,
    const uint32_t *weights, size_t weights_len,
    uint32_t count,
    const uint32_t *forward, size_t forward_len,
    const uint32_t *backward, size_t backward_len,
    uint32_t property,
    uint32_t source,
    const uint32_t *schedule, size_t schedule_len,
    uint32_t *starts, size_t starts_len,
    uint32_t *settled, size_t settled_len,
    uint64_t *reply, size_t reply_len);

/* Applies up to 1,024 changes in order, all or none, and brings the rows up to date. Records from the new count to 2,047 become zero; table
 * words from 2,048 on and words past the rows stay. changes_len counts changes, not words. What counts is the table before and after: edges that are in both
 * count for nothing. Of the others, where a pair has just one before and just one after, by an update or by a delete and an insert, its weight has changed:
 * that affects vertices only in rows of a property for which it got worse. More is worse for time and worst stretch, less for headroom, neither for
 * handovers and reach. Any others are edges that are gone or have come, which counts for every property, even where a twin stays.
 * reply: the new count (hand it to every later call: the one before is not found out), affected vertices and stores over all rows. Numbers: 1 to 4, 6 to 13. */
uint32_t plate_track_batch(
    uint32_t n,
    const uint32_t *landmarks, size_t landmarks_len,
    uint32_t *tails, size_t tails_len,
    uint32_t *heads, size_t heads_len,
    uint32_t *weights, size_t weights_len,
    uint32_t count,
    uint32_t *forward, size_t forward_len,
    uint32_t *backward, size_t backward_len,
    const plate_track_change *changes, size_t changes_len,
    uint64_t *reply, size_t reply_len);

/* Looks for the first edge that could still better a word of a row: forward, then backward, by row, then record.
 * reply: 1 where there is none; else 0, side, row, record. "Settled" does not say that no word is too good.
 * Numbers: 1 to 4. */
uint32_t plate_track_settled(
    uint32_t n,
    const uint32_t *landmarks, size_t landmarks_len,
    const uint32_t *tails, size_t tails_len,
    const uint32_t *heads, size_t heads_len,
    const uint32_t *weights, size_t weights_len,
    uint32_t count,
    const uint32_t *forward, size_t forward_len,
    const uint32_t *backward, size_t backward_len,
    uint64_t *reply, size_t reply_len);

/* Chooses k landmarks (1 to 4; n of them where n is less): most edges in plus out first, each twin counted, ties to the lower number.
 * reply: how many, then four places of which the unused are 0. Numbers: 1 to 4. */
uint32_t plate_track_choose(
    uint32_t n,
    const uint32_t *tails, size_t tails_len,
    const uint32_t *heads, size_t heads_len,
    const uint32_t *weights, size_t weights_len,
    uint32_t count,
    uint32_t k,
    uint64_t *reply, size_t reply_len);

/* Tells where the row of a side, a landmark (its vertex number) and a property starts in the row list of that side; it has n words.
 * reply: that index. Numbers: 1, 2, 3, 5. */
uint32_t plate_track_row(
    uint32_t n,
    const uint32_t *landmarks, size_t landmarks_len,
    const uint32_t *forward, size_t forward_len,
    const uint32_t *backward, size_t backward_len,
    uint32_t side,
    uint32_t landmark,
    uint32_t property,
    uint64_t *reply, size_t reply_len);

/* Reads network text into table lists, each of at least 2,048 words: the edges ascend, words past them stay.
 * reply: n, count. Numbers: 2, 14. */
uint32_t plate_track_read(
    const uint8_t *text, size_t text_len,
    uint32_t *tails, size_t tails_len,
    uint32_t *heads, size_t heads_len,
    uint32_t *weights, size_t weights_len,
    uint64_t *reply, size_t reply_len);

/* Writes a network's text: no comment, edges ascending; bytes past it stay. A buffer of PLATE_TRACK_LONGEST_TEXT bytes is always enough.
 * reply: its length. Numbers: 1, 2, 4. */
uint32_t plate_track_write(
    uint32_t n,
    const uint32_t *tails, size_t tails_len,
    const uint32_t *heads, size_t heads_len,
    const uint32_t *weights, size_t weights_len,
    uint32_t count,
    uint8_t *text, size_t text_len,
    uint64_t *reply, size_t reply_len);

/* Reads a source file of a network with n vertices into a list of at least 256 words: its vertices, from 0, in the file's order; words
 * past them stay.
 * reply: count. Numbers: 1, 2, 14. */
uint32_t plate_track_read_sources(
    const uint8_t *text, size_t text_len,
    uint32_t n,
    uint32_t *sources, size_t sources_len,
    uint64_t *reply, size_t reply_len);

/* Writes the route behind a value: of the routes from source to target with the best value of the property, one with the fewest edges, and of those
 * the one with the lowest vertex at the first place where two differ. It needs no landmarks and no rows. `vertices` gets its vertices, the source
 * first and the target last. `figures` gets for each edge of it the lowest weight, of those of the pair, with which the route keeps its value: for
 * headroom the lowest that is no less than the value, for any other property the lowest there is. So edge i of the route is vertices[i],
 * vertices[i + 1], figures[i]. `marks` gets for each edge, with that weight, 1 where the edge set the value and 0 where it passed it on: for time and
 * handovers always 1, for reach always 0, for headroom and worst stretch 1 where the running value changes, so that the last edge marked has the value
 * for its weight. The three lists have at least n words each, and words past the route stay. Where source and target are one, the route is that
 * vertex, without a mark or a figure.
 * reply: how many vertices, 1 to n; there is a mark and a figure less. Numbers: 1, 2, 4, 5, 6 (source or target, place 0), 15. */
uint32_t plate_track_route(
    uint32_t n,
    const uint32_t *tails, size_t tails_len,
    const uint32_t *heads, size_t heads_len,
    const uint32_t *weights, size_t weights_len,
    uint32_t count,
    uint32_t property,
    uint32_t source,
    uint32_t target,
    uint32_t *vertices, size_t vertices_len,
    uint32_t *marks, size_t marks_len,
    uint32_t *figures, size_t figures_len,
    uint64_t *reply, size_t reply_len);

/* Shows what a batch would do to one property from one source, and writes nothing of the network: it is the batch on a copy, and a query before and
 * after, without a schedule. `effects` gets for each vertex PLATE_TRACK_SAME, _GAINED (it has a route after the batch and none before), _LOST or _MOVED;
 * `moves` gets the value after minus the value before where it has a route before and after, else 0. Both have at least n entries, and entries past
 * them stay. With a good property and source, a batch that would be refused is refused by the same number and place.
 * The reply has no words. Numbers: 1 to 5, 6 (the source, place 0), then 6 to 12 of the batch's changes, 13. */
uint32_t plate_track_preview(
    uint32_t n,
    const uint32_t *landmarks, size_t landmarks_len,
    const uint32_t *tails, size_t tails_len,
    const uint32_t *heads, size_t heads_len,
    const uint32_t *weights, size_t weights_len,
    uint32_t count,
    const uint32_t *forward, size_t forward_len,
    const uint32_t *backward, size_t backward_len,
    const plate_track_change *changes, size_t changes_len,
    uint32_t property,
    uint32_t source,
    uint32_t *effects, size_t effects_len,
    int64_t *moves, size_t moves_len,
    uint64_t *reply, size_t reply_len);

/* Sums up the two lists of a preview of that property, each of at least n entries: how many vertices gained a route, lost it, moved for the better and
 * moved for the worse, and which vertex loses most. A vertex that lost its route loses more than one that moved; of several that lose as much it is
 * the lowest.
 * reply: gained, lost, better, worse, and that vertex, or n where none loses. Numbers: 1, 2, 5. */
uint32_t plate_track_digest(
    uint32_t n,
    uint32_t property,
    const uint32_t *effects, size_t effects_len,
    const int64_t *moves, size_t moves_len,
    uint64_t *reply, size_t reply_len);

#ifdef __cplusplus
}
#endif

#endif
