/*
 * How much stack the calls take: each runs in a thread whose stack was painted before, and the paint that is gone is
 * counted. What the thread takes for itself is counted with it.
 *
 *     stack METADATA LISTING ..     each listing is one that is accepted, and so is the metadata listing beside it
 *
 * Exit status: 0 no call takes more than the 64 KiB of the promise; 1 one does; 2 it could not be measured.
 */
#define _DEFAULT_SOURCE /* pthread_attr_setstack */
#include <pthread.h>
#include <stdint.h>
#include <stdio.h>
#include <stdlib.h>
#include <string.h>

#include "desterlin.h"
#include "walled.h"

enum { STACK = 1 << 20, PAINT = 0x5c, PROMISED = 65536 };

/* Without workspace the time of a report grows with the square of the tiles: that is tried on short listings alone. */
enum { SHORT_LISTING = 65536 };

static uint8_t listing[DESTERLIN_LISTING_MOST];
static uint8_t findings[1 << 20];
static uint8_t work[DESTERLIN_WORK_FULL];
static uint8_t written[DESTERLIN_LISTING_MOST];
static uint8_t columns[4][DESTERLIN_COLUMN_SIZE(DESTERLIN_TILES_MOST)];
static uint8_t metadata[DESTERLIN_METADATA_MOST];
static size_t listing_size, metadata_size;

static void failed(const char *what)
{
    fprintf(stderr, "stack: %s\n", what);
    exit(2);
}

static void *report(void *unused)
{
    uint8_t answer[DESTERLIN_REPORT_ANSWER];
    desterlin_report(listing, listing_size, findings, sizeof findings, work, sizeof work, answer, sizeof answer);
    if (listing_size <= SHORT_LISTING)
        desterlin_report(listing, listing_size, findings, sizeof findings, NULL, 0, answer, sizeof answer);
    return unused;
}

static void *verdict(void *unused)
{
    uint8_t answer[DESTERLIN_VERDICT_ANSWER];
#define VERDICT(code, table, words) \
    desterlin_verdict(listing, listing_size, code, work, sizeof work, answer, sizeof answer);
    DESTERLIN_CODES(VERDICT)
#undef VERDICT
    return unused;
}

static void *lookup(void *unused)
{
    uint8_t answer[DESTERLIN_LOOKUP_ANSWER];
    desterlin_lookup(listing, listing_size, 0, 0, 0, 0, answer, sizeof answer);
    return unused;
}

#define COLUMNS columns[0], sizeof columns[0], columns[1], sizeof columns[1], columns[2], sizeof columns[2], \
    columns[3], sizeof columns[3]

static void *fill(void *unused)
{
    uint8_t answer[DESTERLIN_FILL_ANSWER];
    desterlin_fill(listing, listing_size, COLUMNS, answer, sizeof answer);
    if (desterlin_word(answer, DESTERLIN_FILL_NUMBER) != DESTERLIN_ACCEPTED)
        failed("the columns are not filled");
    return unused;
}

static void *report_columns(void *unused)
{
    uint8_t answer[DESTERLIN_REPORT_ANSWER];
    desterlin_report_columns(listing, listing_size, COLUMNS, findings, sizeof findings, work, sizeof work,
                             answer, sizeof answer);
    if (listing_size <= SHORT_LISTING)
        desterlin_report_columns(listing, listing_size, COLUMNS, findings, sizeof findings, NULL, 0,
                                 answer, sizeof answer);
    return unused;
}

static void *lookup_columns(void *unused)
{
    uint8_t answer[DESTERLIN_LOOKUP_ANSWER];
    desterlin_lookup_columns(listing, listing_size, COLUMNS, 0, 0, 0, 0, answer, sizeof answer);
    return unused;
}

/* Writes the parts of the listing: a table ends where the next one starts. */
static void *write_parts(void *unused)
{
    uint8_t answer[DESTERLIN_WRITE_ANSWER];
    size_t at[8];
    for (size_t i = 0; i < 7; i++)
        at[i] = desterlin_word(listing, 3 + 2 * i);
    at[7] = listing_size;
#define PART(i) listing + at[i], at[(i) + 1] - at[i]
    desterlin_write(PART(0), PART(1), PART(2), PART(3), PART(4), PART(5), PART(6), written, sizeof written, answer,
                    sizeof answer);
#undef PART
    if (desterlin_word(answer, DESTERLIN_WRITE_OCTETS) != listing_size)
        failed("the parts of a listing are not written");
    return unused;
}

static void *report_metadata(void *unused)
{
    static const size_t work_sizes[] = { sizeof work, DESTERLIN_METADATA_WORK, 0 };
    uint8_t answer[DESTERLIN_REPORT_ANSWER];
    for (size_t i = 0; i < sizeof work_sizes / sizeof work_sizes[0]; i++) {
        desterlin_report_metadata(listing, listing_size, metadata, metadata_size, findings, sizeof findings,
                                  work, work_sizes[i], answer, sizeof answer);
        if (desterlin_word(answer, DESTERLIN_REPORT_NUMBER) != DESTERLIN_ACCEPTED)
            failed("the metadata listing is not accepted");
    }
    return unused;
}

/* The octets of stack that a thread touches. */
static size_t touched(void *(*body)(void *))
{
    static uint8_t *stack;
    pthread_attr_t attributes;
    pthread_t thread;
    if (stack == NULL)
        stack = walled(STACK);
    memset(stack, PAINT, STACK);
    if (pthread_attr_init(&attributes) != 0 || pthread_attr_setstack(&attributes, stack, STACK) != 0
        || pthread_create(&thread, &attributes, body, NULL) != 0 || pthread_join(thread, NULL) != 0)
        failed("no thread");
    pthread_attr_destroy(&attributes);
    size_t untouched = 0;
    while (untouched < STACK && stack[untouched] == PAINT)
        untouched++;
    return STACK - untouched;
}

/* The octets of a file that are read into a buffer. */
static size_t read_file(const char *path, uint8_t *octets, size_t room)
{
    FILE *file = fopen(path, "rb");
    if (file == NULL)
        failed(path);
    size_t size = fread(octets, 1, room, file);
    fclose(file);
    return size;
}

int main(int count, char **words)
{
    static const struct {
        const char *name;
        void *(*body)(void *);
    } calls[] = {
        { "report", report }, { "verdict", verdict }, { "lookup", lookup }, { "fill", fill },
        { "report from columns", report_columns }, { "lookup from columns", lookup_columns }, { "write", write_parts },
        { "report on metadata", report_metadata }
    };
    size_t most = 0;
    if (count < 3)
        failed("usage: stack METADATA LISTING ..");
    metadata_size = read_file(words[1], metadata, sizeof metadata);
    for (int i = 2; i < count; i++) {
        listing_size = read_file(words[i], listing, sizeof listing);
        for (size_t k = 0; k < sizeof calls / sizeof calls[0]; k++) {
            size_t taken = touched(calls[k].body);
            most = taken > most ? taken : most;
            printf("stack: %s of %s takes at most %zu octets\n", calls[k].name, words[i], taken);
        }
    }
    return most > PROMISED;
}
