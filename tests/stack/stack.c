/* How many bytes of stack each call takes: it runs on a painted stack of its own, and the lowest byte that changed is looked up.
 * 256 vertices, 2,048 edges, 4 landmarks, a schedule of 4,096, a batch of 1,024, 256 sources, a route over all vertices for each property, a preview of
 * that batch and its digest for each property. Exit status 1 where a call is refused or takes more than the header promises. */
#include "plate_track.h"

#include <stdio.h>
#include <string.h>
#include <ucontext.h>

enum { SIZE = 1 << 20, PAINT = 0xA5 };

static unsigned char stack[SIZE] __attribute__((aligned(4096)));
static ucontext_t here, there;
static uint32_t tails[2048], heads[2048], weights[2048], landmarks[4] = {0, 77, 154, 255};
static uint32_t forward[5120], backward[5120], starts[256], settled[256], schedule[4096], sources[256];
static uint32_t chain_tails[2048], chain_heads[2048], chain_weights[2048], vertices[256], marks[256], figures[256], effects[256];
static int64_t moves[256];
static plate_track_change changes[1024];
static uint8_t text[PLATE_TRACK_LONGEST_TEXT], source_text[4096];
static size_t text_len, source_len;
static uint64_t reply[8];
static uint32_t number;

#define TABLE tails, 2048, heads, 2048, weights, 2048
#define CHAIN chain_tails, 2048, chain_heads, 2048, chain_weights, 2048
#define ROWS forward, 5120, backward, 5120

/* Each vertex leads to the next one, and else only back, to seven before it or as many as there are, the last 29 to eight: 255 + 1,764 + 29 edges. The
 * one route from 0 to 255 has all vertices. */
static void fill_chain(void)
{
    uint32_t k = 0;
    for (uint32_t v = 0; v < 256; v++) {
        uint32_t back = v < 7 ? v : v < 227 ? 7 : 8;
        for (uint32_t h = v - back; h <= v + 1 && h < 256; h++) {
            if (h == v) continue;
            chain_tails[k] = v;
            chain_heads[k] = h;
            chain_weights[k++] = 1 + (v * 7919 + h * 10473) % 65535;
        }
    }
}

static void fill(void)
{
    uint32_t k = 0;
    for (uint32_t v = 0; v < 256; v++) {
        uint32_t d = v == 255 ? 8 : 1 + v % 15;
        for (uint32_t j = 0; j < d; j++, k++) {
            uint32_t h = (j * 255 + v * 7 % 255) / d;
            tails[k] = v;
            heads[k] = h < v ? h : h + 1;
            weights[k] = 1 + (v * 7919 + j * 10473) % 65535;
        }
    }
    for (uint32_t i = 0; i < 4096; i++) schedule[i] = i % 256;
    /* 512 edges are taken and added again with another weight */
    for (uint32_t i = 0; i < 512; i++) {
        uint32_t e = i * 4;
        changes[2 * i] = (plate_track_change){2, tails[e], heads[e], weights[e], 0};
        changes[2 * i + 1] = (plate_track_change){1, tails[e], heads[e], weights[e] % 65535 + 1, 0};
    }
    source_len = (size_t)sprintf((char *)source_text, "p aux sp ss 256\n");
    for (int v = 1; v <= 256; v++) source_len += (size_t)sprintf((char *)source_text + source_len, "s %d\n", v);
}

static void nothing(void) { number = 0; }
static void open_(void) { number = plate_track_open(256, landmarks, 4, TABLE, 2048, ROWS, reply, 8); }
static void query(void) { number = plate_track_query(256, landmarks, 4, TABLE, 2048, ROWS, 1, 100, schedule, 4096, starts, 256, settled, 256, reply, 8); }
static void batch(void) { number = plate_track_batch(256, landmarks, 4, TABLE, 2048, ROWS, changes, 1024, reply, 8); }
/* before the batch, which after itself changes nothing more */
static void preview(void)
{
    number = 0;
    for (uint32_t p = 1; p <= PLATE_TRACK_PROPERTIES && number == 0; p++)
        number = plate_track_preview(256, landmarks, 4, TABLE, 2048, ROWS, changes, 1024, p, 100, effects, 256, moves, 256, reply, 8);
}
static void digest(void)
{
    number = 0;
    for (uint32_t p = 1; p <= PLATE_TRACK_PROPERTIES && number == 0; p++)
        number = plate_track_digest(256, p, effects, 256, moves, 256, reply, 8);
}
static void check(void) { number = plate_track_settled(256, landmarks, 4, TABLE, 2048, ROWS, reply, 8); }
static void choose(void) { number = plate_track_choose(256, TABLE, 2048, 4, reply, 8); }
static void row(void) { number = plate_track_row(256, landmarks, 4, ROWS, 1, 154, 3, reply, 8); }
static void write_(void) { number = plate_track_write(256, TABLE, 2048, text, sizeof text, reply, 8); }
static void read_(void) { number = plate_track_read(text, text_len, TABLE, reply, 8); }
static void route(void)
{
    number = 0;
    for (uint32_t p = 1; p <= PLATE_TRACK_PROPERTIES && number == 0; p++) {
        number = plate_track_route(256, CHAIN, 2048, p, 0, 255, vertices, 256, marks, 256, figures, 256, reply, 8);
        if (number == 0 && reply[PLATE_TRACK_ROUTE_VERTICES] != 256) number = 99;
    }
}
static void read_sources(void) { number = plate_track_read_sources(source_text, source_len, 256, sources, 256, reply, 8); }

static size_t measure(void (*call)(void))
{
    memset(stack, PAINT, SIZE);
    number = 99;
    getcontext(&there);
    there.uc_stack.ss_sp = stack;
    there.uc_stack.ss_size = SIZE;
    there.uc_link = &here;
    makecontext(&there, call, 0);
    swapcontext(&here, &there);
    size_t low = 0;
    while (low < SIZE && stack[low] == PAINT) low++;
    return SIZE - low;
}

int main(void)
{
    /* what the header promises, and what the call took before the room for document 02's requests was made (0: there was none); settled check and write
       took 328 and 128 then: an order by three words takes a register more (docs/DECISIONS.md); row and write 64 and 136 until the compiler of today's kit,
       which saves one register and three more there (docs/PORT.md) */
    struct { const char *name; void (*call)(void); size_t most, before; } calls[] = {
        {"open", open_, PLATE_TRACK_STACK_OPEN, 62856}, {"query", query, PLATE_TRACK_STACK_QUERY, 3560},
        {"preview", preview, PLATE_TRACK_STACK_PREVIEW, 0}, {"digest", digest, PLATE_TRACK_STACK_DIGEST, 0},
        {"batch", batch, PLATE_TRACK_STACK_BATCH, 138504}, {"settled", check, PLATE_TRACK_STACK_SETTLED, 329},
        {"choose", choose, PLATE_TRACK_STACK_CHOOSE, 1160}, {"row", row, PLATE_TRACK_STACK_ROW, 72},
        {"write", write_, PLATE_TRACK_STACK_WRITE, 160}, {"read", read_, PLATE_TRACK_STACK_READ, 24776},
        {"read_sources", read_sources, PLATE_TRACK_STACK_READ_SOURCES, 1160}, {"route", route, PLATE_TRACK_STACK_ROUTE, 0}};
    int bad = 0;
    fill();
    fill_chain();
    size_t base = measure(nothing);
    for (size_t i = 0; i < sizeof calls / sizeof *calls; i++) {
        size_t used = measure(calls[i].call) - base;
        printf("stack: plate_track_%s takes %zu bytes of %zu, number %u\n", calls[i].name, used, calls[i].most, number);
        if (calls[i].call == write_) text_len = (size_t)reply[0];
        bad |= number != 0 || used > calls[i].most || (calls[i].before && used > calls[i].before);
    }
    return bad;
}
