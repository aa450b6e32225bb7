/*
 * Shows that AddressSanitizer is in the proved code: a call is told of more octets than a buffer has, or lent a buffer
 * that is no longer there, and the program must be stopped for it.
 *
 *     overrun BUFFER LISTING METADATA     BUFFER is listing, findings, work, answer, filled (a column that is written),
 *                                         column (one that is read), metadata or freed; the listing has tiles and a
 *                                         finding, and the metadata listing is accepted beside it
 *
 * Exit status: 0 nothing has stopped it; 2 called wrongly.
 */
#include <stdint.h>
#include <stdio.h>
#include <stdlib.h>
#include <string.h>

#include "desterlin.h"

/* A buffer of so many octets, or of fewer, where it is the one to overrun. */
static uint8_t *lend(size_t size, size_t fewer, int is_short)
{
    uint8_t *octets = calloc(is_short ? fewer : size, 1);
    if (octets == NULL)
        exit(2);
    return octets;
}

/* Fills columns, twice, and reports from them; a short one has an octet less than the calls are told. */
static void call_on_columns(const uint8_t *listing, size_t listing_size, int is_filled_short, int is_read_short)
{
    uint8_t answer[DESTERLIN_REPORT_ANSWER];
    size_t size = DESTERLIN_COLUMN_SIZE(desterlin_word(listing, 2 * DESTERLIN_TILES));
    uint8_t *three = lend(3 * size, 0, 0), *fourth = lend(size, 0, 0);
    uint8_t *filled = lend(size, size - 1, is_filled_short), *read = lend(size, size - 1, is_read_short);
#define THREE three, size, three + size, size, three + 2 * size, size
    desterlin_fill(listing, listing_size, THREE, fourth, size, answer, sizeof answer);
    desterlin_fill(listing, listing_size, THREE, filled, size, answer, sizeof answer);
    memcpy(read, fourth, is_read_short ? size - 1 : size);
    desterlin_report_columns(listing, listing_size, THREE, read, size, NULL, 0, NULL, 0, answer, sizeof answer);
#undef THREE
}

/* Reports on metadata; a short metadata listing has an octet less than the call is told. */
static void call_on_metadata(const uint8_t *listing, size_t listing_size, const uint8_t *read, size_t size,
                             int is_short)
{
    uint8_t answer[DESTERLIN_REPORT_ANSWER];
    uint8_t *metadata = lend(size, size - 1, is_short);
    memcpy(metadata, read, is_short ? size - 1 : size);
    desterlin_report_metadata(listing, listing_size, metadata, size, NULL, 0, NULL, 0, answer, sizeof answer);
}

/* The octets of a file that are read into a buffer; none, where there is no such file. */
static size_t read_file(const char *path, uint8_t *octets, size_t room)
{
    FILE *file = fopen(path, "rb");
    size_t size = file == NULL ? 0 : fread(octets, 1, room, file);
    if (file != NULL)
        fclose(file);
    return size;
}

int main(int count, char **words)
{
    static uint8_t read[DESTERLIN_LISTING_MOST], read_metadata[DESTERLIN_METADATA_MOST];
    size_t size = count == 4 ? read_file(words[2], read, sizeof read) : 0;
    size_t metadata_size = count == 4 ? read_file(words[3], read_metadata, sizeof read_metadata) : 0;
    if (size == 0 || metadata_size == 0) {
        fprintf(stderr, "usage: overrun BUFFER LISTING METADATA\n");
        return 2;
    }

    const char *name = words[1];
    int is_listing_short = strcmp(name, "listing") == 0;
    uint8_t *listing = lend(size, size - 1, is_listing_short);
    uint8_t *findings = lend(DESTERLIN_FINDING, DESTERLIN_FINDING - 1, strcmp(name, "findings") == 0);
    uint8_t *work = lend(DESTERLIN_WORK_FULL, 1, strcmp(name, "work") == 0);
    uint8_t *answer = lend(DESTERLIN_REPORT_ANSWER, DESTERLIN_REPORT_ANSWER - 1, strcmp(name, "answer") == 0);
    memcpy(listing, read, is_listing_short ? size - 1 : size);
    call_on_columns(read, size, strcmp(name, "filled") == 0, strcmp(name, "column") == 0);
    call_on_metadata(read, size, read_metadata, metadata_size, strcmp(name, "metadata") == 0);
    if (strcmp(name, "freed") == 0)
        free(listing);
    desterlin_report(listing, size, findings, DESTERLIN_FINDING, work, DESTERLIN_WORK_FULL, answer,
                     DESTERLIN_REPORT_ANSWER);
    printf("nothing has stopped it\n");
    return 0;
}
