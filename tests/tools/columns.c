/*
 * Tiles in arrays of int64_t, which are lent as columns with one cast each: C99 and C++11, on a little-endian machine.
 *
 *     columns CONTENTS [ZOOM COLUMN ROW] .. < LENT
 *
 * LENT is the listing and then the four columns, each string of octets after its length, a u32. The output is the
 * report from the columns in the lines of tools/call-library.c; the lookups under that contents row, a line for each
 * address; and at last "filled", or the refusal of a fill, with what the columns hold after it, a line for each entry
 * that all of them have. What these should be is for test_columns.py to say.
 *
 * Exit status: 0 the calls were made; 2 called wrongly.
 */
#include <inttypes.h>
#include <stdio.h>
#include <stdlib.h>

#include "desterlin.h"

enum { COLUMNS = 4, MOST_FINDINGS = 4096 };

static uint8_t listing[DESTERLIN_LISTING_MOST], findings[MOST_FINDINGS * DESTERLIN_FINDING];
static size_t listing_size, size[COLUMNS];
static int64_t *column[COLUMNS];

#define LENT(type, i) (type *)column[i], size[i]
#define COLUMNS_AS(type) LENT(type, 0), LENT(type, 1), LENT(type, 2), LENT(type, 3)

static int print_if_refused(const uint8_t *answer, size_t place)
{
    uint32_t number = desterlin_word(answer, place);
    if (number != DESTERLIN_ACCEPTED)
        printf("refused %" PRIu32 " %" PRIu32 " %" PRIu32 "\n", number,
               desterlin_word(answer, place + 1), desterlin_word(answer, place + 2));
    return number != DESTERLIN_ACCEPTED;
}

static void print_row(uint32_t row)
{
    if (row == DESTERLIN_NONE)
        printf(" -");
    else
        printf(" %" PRIu32, row);
}

static void report(void)
{
    uint8_t answer[DESTERLIN_REPORT_ANSWER];
    desterlin_report_columns(listing, listing_size, COLUMNS_AS(const uint8_t), findings, sizeof findings, NULL, 0,
                             answer, sizeof answer);
    if (print_if_refused(answer, DESTERLIN_REPORT_NUMBER))
        return;
    for (uint32_t i = 0; i < desterlin_word(answer, DESTERLIN_REPORT_WRITTEN); i++) {
        struct desterlin_finding finding = desterlin_finding_at(findings, i);
        printf("finding %" PRIu32, finding.code);
        print_row(finding.row);
        print_row(finding.partner);
        printf("\n");
    }
    printf("total %" PRIu32 "\n", desterlin_word(answer, DESTERLIN_REPORT_TOTAL));
}

static void look_up(const char *contents, char **address)
{
    uint8_t answer[DESTERLIN_LOOKUP_ANSWER];
    desterlin_lookup_columns(listing, listing_size, COLUMNS_AS(const uint8_t), (uint32_t)strtoul(contents, NULL, 10),
                             strtoll(address[0], NULL, 10), strtoll(address[1], NULL, 10),
                             strtoll(address[2], NULL, 10), answer, sizeof answer);
    if (print_if_refused(answer, DESTERLIN_LOOKUP_NUMBER))
        return;
    printf("tile");
    print_row(desterlin_word(answer, DESTERLIN_LOOKUP_TILE));
    printf("\n");
}

static void fill(void)
{
    uint8_t answer[DESTERLIN_FILL_ANSWER];
    desterlin_fill(listing, listing_size, COLUMNS_AS(uint8_t), answer, sizeof answer);
    if (!print_if_refused(answer, DESTERLIN_FILL_NUMBER))
        printf("filled\n");
    size_t shortest = size[0];
    for (size_t k = 1; k < COLUMNS; k++)
        shortest = size[k] < shortest ? size[k] : shortest;
    for (size_t i = 0; i < shortest / sizeof **column; i++)
        printf("entry %" PRId64 " %" PRId64 " %" PRId64 " %" PRId64 "\n",
               column[0][i], column[1][i], column[2][i], column[3][i]);
}

/* Returns whether the octets are there. */
static int read_octets(void *octets, size_t count)
{
    return fread(octets, 1, count, stdin) == count;
}

/* Returns whether all of it is there, and there is memory for it. */
static int read_lent(void)
{
    uint8_t length[4];
    if (!read_octets(length, sizeof length))
        return 0;
    listing_size = desterlin_word(length, 0);
    if (listing_size > sizeof listing || !read_octets(listing, listing_size))
        return 0;
    for (size_t k = 0; k < COLUMNS; k++) {
        if (!read_octets(length, sizeof length))
            return 0;
        size[k] = desterlin_word(length, 0);
        column[k] = (int64_t *)malloc(size[k] + sizeof **column);
        if (column[k] == NULL || !read_octets(column[k], size[k]))
            return 0;
    }
    return 1;
}

int main(int count, char **words)
{
    if (count < 2 || count % 3 != 2 || !read_lent())
        return 2;
    report();
    for (int i = 2; i < count; i += 3)
        look_up(words[1], words + i);
    fill();
    return fflush(stdout) == 0 ? 0 : 2;
}
