#define _DEFAULT_SOURCE /* MAP_ANONYMOUS */
#include "beyond.h"

#include <inttypes.h>
#include <stdio.h>
#include <string.h>
#include <sys/mman.h>

#include "cases.h"
#include "desterlin.h"

/* A part alone, and the reason that it must be refused for: a count that wrapped would be good, or another's fault. */
static const struct beyond {
    enum desterlin_table table;
    uint64_t size;
    enum desterlin_reason reason;
} cases[] = {
    { DESTERLIN_NAME_OCTETS, (UINT64_C(1) << 32) + 1, DESTERLIN_REFUSED_COUNT },
    { DESTERLIN_NAME_OCTETS, UINT64_C(1) << 32, DESTERLIN_REFUSED_COUNT },
    { DESTERLIN_TILES, (UINT64_C(1) << 32) + 32, DESTERLIN_REFUSED_COUNT },
    { DESTERLIN_TILES, (UINT64_C(1) << 32) + 1, DESTERLIN_REFUSED_PART },
    { DESTERLIN_REFERENCE_SYSTEMS, UINT64_C(1) << 32, DESTERLIN_REFUSED_COUNT },
};

/* Octets of a column that has more entries than the one that its listing takes; a number of them that wrapped is none. */
static const uint64_t columns[] = { UINT64_C(1) << 32, UINT64_C(1) << 35 };

/* Octets that may be read and written, all of them 0. Those that nobody writes take no memory; NULL where a machine has
 * not even the addresses. */
static uint8_t *mapped(uint64_t size)
{
    void *octets = mmap(NULL, (size_t)size, PROT_READ | PROT_WRITE, MAP_PRIVATE | MAP_ANONYMOUS | MAP_NORESERVE, -1, 0);
    if (octets == MAP_FAILED)
        printf("compare: %" PRIu64 " octets cannot be lent here, and are not tried\n", size);
    return octets == MAP_FAILED ? NULL : octets;
}

static int is_as_it_must_be(const struct beyond *tried, const uint8_t *octets)
{
    size_t sizes[PARTS] = { 0 };
    uint8_t listing[64], kept[sizeof listing], answer[DESTERLIN_WRITE_ANSWER];
    sizes[tried->table - 1] = (size_t)tried->size;
    memset(listing, 0xa5, sizeof listing);
    memcpy(kept, listing, sizeof listing);
    uint32_t returned = desterlin_write(octets, sizes[0], octets, sizes[1], octets, sizes[2], octets, sizes[3], octets,
                                        sizes[4], octets, sizes[5], octets, sizes[6], listing, sizeof listing, answer,
                                        sizeof answer);
    return returned == 1 && memcmp(listing, kept, sizeof listing) == 0
        && desterlin_word(answer, DESTERLIN_WRITE_NUMBER) == (uint32_t)tried->reason
        && desterlin_word(answer, DESTERLIN_WRITE_REFUSED_TABLE) == (uint32_t)tried->table
        && desterlin_word(answer, DESTERLIN_WRITE_REFUSED_ROW) == 0
        && desterlin_word(answer, DESTERLIN_WRITE_OCTETS) == 0;
}

static unsigned long compare_part(const struct beyond *tried)
{
    uint8_t *octets = mapped(tried->size);
    if (octets == NULL)
        return 0;
    int is_good = is_as_it_must_be(tried, octets);
    munmap(octets, (size_t)tried->size);
    if (!is_good)
        printf("difference: a write with %" PRIu64 " octets for table %d is not refused for %d\n", tried->size,
               tried->table, tried->reason);
    return !is_good;
}

enum { ENTRY = 8, ONE_TILE = 64 + DESTERLIN_TILES_ROW };

/* A listing of one tile alone, of the empty name, with zoom 1, column 2 and row 3. */
static void put_one_tile(uint8_t *listing)
{
    uint8_t tile[DESTERLIN_TILES_ROW] = { 0 }, answer[DESTERLIN_WRITE_ANSWER];
    for (uint8_t i = 1; i < 4; i++)
        tile[ENTRY * i] = i;
    desterlin_write(NULL, 0, NULL, 0, NULL, 0, NULL, 0, tile, sizeof tile, NULL, 0, NULL, 0, listing, ONE_TILE, answer,
                    sizeof answer);
}

/* The findings on that listing: the four of a listing without rows, and 341 and 441. */
enum { FINDINGS = 6 };

/* Are the columns, of which one is so long, filled and judged? */
static int is_filled(int number, uint8_t *octets, uint64_t size)
{
    uint8_t listing[ONE_TILE], others[4][ENTRY], answer[DESTERLIN_REPORT_ANSWER];
    uint8_t *column[4];
    size_t sizes[4];
    put_one_tile(listing);
    for (int i = 0; i < 4; i++) {
        column[i] = i == number ? octets : others[i];
        sizes[i] = i == number ? (size_t)size : ENTRY;
    }
    desterlin_fill(listing, sizeof listing, column[0], sizes[0], column[1], sizes[1], column[2], sizes[2], column[3],
                   sizes[3], answer, sizeof answer);
    if (desterlin_word(answer, DESTERLIN_FILL_NUMBER) != DESTERLIN_ACCEPTED)
        return 0;
    for (int i = 0; i < 4; i++)
        if (desterlin_word(column[i], 0) != (uint32_t)i || desterlin_word(column[i], 1) != 0)
            return 0;
    desterlin_report_columns(listing, sizeof listing, column[0], sizes[0], column[1], sizes[1], column[2], sizes[2],
                             column[3], sizes[3], NULL, 0, NULL, 0, answer, sizeof answer);
    return desterlin_word(answer, DESTERLIN_REPORT_TOTAL) == FINDINGS;
}

static unsigned long compare_columns(uint64_t size)
{
    unsigned long differences = 0;
    uint8_t *octets = mapped(size);
    for (int number = 0; octets != NULL && number < 4; number++) {
        octets[0] = 0xa5;
        if (!is_filled(number, octets, size)) {
            printf("difference: column %d of %" PRIu64 " octets is not filled, or not judged\n", number, size);
            differences++;
        }
    }
    if (octets != NULL)
        munmap(octets, (size_t)size);
    return differences;
}

/* A header alone, of as many pairs of count and offset as there are tables. */
static void put_header_alone(uint8_t *octets, size_t tables)
{
    uint32_t size = (uint32_t)(8 + 8 * tables);
    desterlin_put_word(octets, 0, 1);
    desterlin_put_word(octets, 1, size);
    for (size_t i = 1; i <= tables; i++)
        desterlin_put_word(octets, 2 * i + 1, size);
}

enum { TABLES = PARTS, METADATA_TABLES = 3, METADATA_ALONE = 8 + 8 * METADATA_TABLES };

/* A header alone, lent with so many octets that their number, were it cut to 32 bits, would be the header's: too long. */
static unsigned long compare_metadata(void)
{
    uint64_t size = (UINT64_C(1) << 32) + METADATA_ALONE;
    uint8_t listing[8 + 8 * TABLES] = { 0 }, answer[DESTERLIN_REPORT_ANSWER];
    uint8_t *metadata = mapped(size);
    if (metadata == NULL)
        return 0;
    put_header_alone(listing, TABLES);
    put_header_alone(metadata, METADATA_TABLES);
    int differs = 0;
    for (int is_longer = 0; is_longer < 2; is_longer++) {
        desterlin_report_metadata(listing, sizeof listing, metadata, is_longer ? (size_t)size : METADATA_ALONE, NULL, 0,
                                  NULL, 0, answer, sizeof answer);
        uint32_t must = is_longer ? DESTERLIN_REFUSED_LONG : DESTERLIN_ACCEPTED;
        differs |= desterlin_word(answer, DESTERLIN_REPORT_NUMBER) != must;
    }
    munmap(metadata, (size_t)size);
    if (differs)
        printf("difference: a metadata listing is not accepted, or with %" PRIu64 " octets not refused\n", size);
    return (unsigned long)differs;
}

unsigned long compare_beyond_a_word(void)
{
    unsigned long differences = 0;
    for (size_t i = 0; i < sizeof cases / sizeof cases[0]; i++)
        differences += compare_part(&cases[i]);
    for (size_t i = 0; i < sizeof columns / sizeof columns[0]; i++)
        differences += compare_columns(columns[i]);
    return differences + compare_metadata();
}
