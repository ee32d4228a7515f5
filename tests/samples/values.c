/* values FOLDER..: each folder's name, and what the values program prints for its deck.gr and deck.ss, through plate_track_deck.h. */
#include "plate_track_deck.h"

#include <inttypes.h>
#include <stdio.h>

enum { MOST_BYTES = 65536 };

static uint64_t reply[PLATE_TRACK_REPLY_WORDS];

/* Reads a file, and one byte more than is good; one that can't be opened is empty. */
static size_t bytes_of(const char *folder, const char *name, uint8_t *text)
{
    char path[4096];
    FILE *file;
    size_t len = 0;
    snprintf(path, sizeof path, "%s/%s", folder, name);
    file = fopen(path, "rb");
    if (file != NULL) {
        len = fread(text, 1, MOST_BYTES + 1, file);
        fclose(file);
    }
    return len;
}

/* Tells a refusal with its place. */
static int refused(uint32_t number)
{
    if (number != PLATE_TRACK_ACCEPTED)
        printf("refused %" PRIu32 " %" PRIu64 "\n", number, reply[PLATE_TRACK_PLACE]);
    return number != PLATE_TRACK_ACCEPTED;
}

static int is_long(size_t len)
{
    reply[PLATE_TRACK_PLACE] = 0;
    return refused(len > MOST_BYTES ? PLATE_TRACK_SHORT : PLATE_TRACK_ACCEPTED);
}

static void print_values(const char *folder)
{
    static plate_track_deck d;
    static uint8_t text[MOST_BYTES + 1];
    static uint32_t values[PLATE_TRACK_PROPERTIES][PLATE_TRACK_MOST_VERTICES], starts[PLATE_TRACK_MOST_VERTICES];
    uint32_t landmarks[PLATE_TRACK_MOST_LANDMARKS], sources[PLATE_TRACK_MOST_SOURCES];
    uint64_t count;
    size_t len = bytes_of(folder, "deck.gr", text);
    if (is_long(len) || refused(plate_track_deck_read(&d, text, len, reply)))
        return;
    len = bytes_of(folder, "deck.ss", text);
    if (is_long(len) || refused(plate_track_deck_read_sources(&d, text, len, sources, PLATE_TRACK_MOST_SOURCES, reply)))
        return;
    count = reply[PLATE_TRACK_READ_SOURCES_COUNT];
    if (refused(plate_track_deck_choose(&d, PLATE_TRACK_MOST_LANDMARKS, landmarks, reply))
        || refused(plate_track_deck_open(&d, landmarks, (size_t)reply[PLATE_TRACK_CHOOSE_COUNT], reply)))
        return;
    printf("source station time handovers headroom worst reach\n");
    for (uint64_t i = 0; i < count; i++) {
        for (uint32_t p = PLATE_TRACK_TIME; p <= PLATE_TRACK_REACH; p++)
            if (refused(plate_track_deck_query(&d, p, sources[i], NULL, 0, starts, d.n, values[p - 1], d.n, reply)))
                return;
        for (uint32_t v = 0; v < d.n; v++) {
            printf("%" PRIu32 " %" PRIu32, sources[i] + 1, v + 1);
            for (int p = 0; p < PLATE_TRACK_PROPERTIES; p++)
                printf(" %" PRIu32, values[p][v]);
            printf("\n");
        }
    }
}

int main(int argc, char **argv)
{
    for (int i = 1; i < argc; i++) {
        printf("%s\n", argv[i]);
        print_values(argv[i]);
    }
    return 0;
}
