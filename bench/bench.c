/* Times the calls on one listing: bench LISTING RUNS [reader]. The least of the runs, in milliseconds, one line: read (a
 * lookup that the reader accepts and 10 then refuses), report, verdict 541, a lookup that misses, a write of the listing's
 * parts, a copy of the listing by memcpy; the total; then, from columns, read (that lookup), report and a lookup that
 * misses; a fill of columns and the same by a plain loop; and in the end, from rows and from columns, a lookup that
 * misses by its zoom alone: column and row are the last tile's. With "reader" the first of these and nothing else, for
 * listings of more text than a report can go over. The buffers are not cleared between runs, and the columns are filled
 * before; nothing else is measured.
 *
 * On a tile listing with a metadata listing, each after its length as 32 bits: bench LENT RUNS metadata. Read, as above,
 * a report on the metadata, and its total. */
#define _POSIX_C_SOURCE 199309L
#include <stdio.h>
#include <stdlib.h>
#include <string.h>
#include <time.h>

#include "desterlin.h"

enum { WORK = 2097152, FINDINGS = 12 * 1048576, LISTING = 16777216, TABLES = 7, COLUMNS = 4 };
enum call {
    READ, REPORT, VERDICT, LOOKUP, WRITE, COPY, /* the total stands here in the line */
    READ_COLUMNS, REPORT_COLUMNS, LOOKUP_COLUMNS, FILL, LOOP, PLACED, PLACED_COLUMNS, CALLS,
    REPORT_METADATA = CALLS
};

static uint8_t *listing, *metadata, *findings, *work, *written, answer[20];
static size_t size, metadata_size;

/* Columns as the library fills them, and as the loop does. */
static int64_t column[COLUMNS][DESTERLIN_TILES_MOST], looped[COLUMNS][DESTERLIN_TILES_MOST];
#define AS_LENT(k) (uint8_t *)column[k], sizeof column[k]
#define LENT_COLUMNS AS_LENT(0), AS_LENT(1), AS_LENT(2), AS_LENT(3)

/* The parts of the listing: a table ends where the next one starts. */
static const uint8_t *part[TABLES];
static size_t part_size[TABLES];

static double now(void) {
    struct timespec t;
    clock_gettime(CLOCK_MONOTONIC, &t);
    return t.tv_sec * 1e3 + t.tv_nsec / 1e6;
}

static uint8_t *octets(size_t count) {
    uint8_t *lent = malloc(count);
    if (lent == NULL) {
        perror("bench");
        exit(2);
    }
    return lent;
}

static void read_file(const char *name) {
    FILE *file = fopen(name, "rb");
    if (file == NULL) {
        perror(name);
        exit(2);
    }
    listing = octets(LISTING);
    size = fread(listing, 1, LISTING, file);
    fclose(file);
}

static void find_metadata(void) {
    listing += 4;
    size = desterlin_word(listing - 4, 0);
    metadata = listing + size + 4;
    metadata_size = desterlin_word(metadata - 4, 0);
}

static void find_parts(void) {
    size_t end = size;
    for (int i = TABLES - 1; i >= 0; i--) {
        size_t start = desterlin_word(listing, 3 + 2 * i);
        part[i] = listing + start;
        part_size[i] = end - start;
        end = start;
    }
}

/* What a C programmer would write for the fill, once the listing is known to be good. */
static void loop(void) {
    const uint8_t *row = part[DESTERLIN_TILES - 1];
    size_t tiles = part_size[DESTERLIN_TILES - 1] / DESTERLIN_TILES_ROW;
    for (size_t i = 0; i < tiles; i++, row += DESTERLIN_TILES_ROW) {
        uint32_t start, length;
        memcpy(&start, row, 4);
        memcpy(&length, row + 4, 4);
        looped[0][i] = (int64_t)((uint64_t)start << 32 | length);
        memcpy(&looped[1][i], row + 8, 8);
        memcpy(&looped[2][i], row + 16, 8);
        memcpy(&looped[3][i], row + 24, 8);
    }
}

/* A number of the last tile row, by its place in the row; 0 where there is none. */
static int64_t last_number(size_t place) {
    size_t tiles_size = part_size[DESTERLIN_TILES - 1];
    int64_t number = 0;
    if (tiles_size != 0) memcpy(&number, part[DESTERLIN_TILES - 1] + tiles_size - DESTERLIN_TILES_ROW + place, 8);
    return number;
}

static void make(enum call call) {
    switch (call) {
    case READ:
        desterlin_lookup(listing, size, DESTERLIN_NONE, 0, 0, 0, answer, 16);
        break;
    case REPORT:
        desterlin_report(listing, size, findings, FINDINGS, work, WORK, answer, 20);
        break;
    case VERDICT:
        desterlin_verdict(listing, size, 541, work, WORK, answer, 20);
        break;
    case LOOKUP:
        desterlin_lookup(listing, size, 0, -1, -1, -1, answer, 16);
        break;
    case WRITE:
        desterlin_write(part[0], part_size[0], part[1], part_size[1], part[2], part_size[2], part[3], part_size[3],
                        part[4], part_size[4], part[5], part_size[5], part[6], part_size[6], written, LISTING, answer, 16);
        break;
    case COPY:
        memcpy(written, listing, size);
        break;
    case READ_COLUMNS:
        desterlin_lookup_columns(listing, size, LENT_COLUMNS, DESTERLIN_NONE, 0, 0, 0, answer, 16);
        break;
    case REPORT_COLUMNS:
        desterlin_report_columns(listing, size, LENT_COLUMNS, findings, FINDINGS, work, WORK, answer, 20);
        break;
    case LOOKUP_COLUMNS:
        desterlin_lookup_columns(listing, size, LENT_COLUMNS, 0, -1, -1, -1, answer, 16);
        break;
    case FILL:
        desterlin_fill(listing, size, LENT_COLUMNS, answer, 12);
        break;
    case LOOP:
        loop();
        break;
    case REPORT_METADATA:
        desterlin_report_metadata(listing, size, metadata, metadata_size, findings, FINDINGS, work, WORK, answer, 20);
        break;
    case PLACED:
        desterlin_lookup(listing, size, 0, -1, last_number(16), last_number(24), answer, 16);
        break;
    default:
        desterlin_lookup_columns(listing, size, LENT_COLUMNS, 0, -1, last_number(16), last_number(24), answer, 16);
    }
}

static double least_time(enum call call, int runs) {
    double least = 1e9;
    for (int run = 0; run < runs; run++) {
        double start = now();
        make(call);
        double took = now() - start;
        if (took < least) least = took;
    }
    return least;
}

static int is_accepted(void) {
    make(READ);
    return desterlin_word(answer, DESTERLIN_LOOKUP_NUMBER) == DESTERLIN_REFUSED_NO_TILES;
}

static int is_written_back(void) {
    make(WRITE);
    return desterlin_word(answer, DESTERLIN_WRITE_OCTETS) == size && memcmp(written, listing, size) == 0;
}

static int is_filled_alike(void) {
    make(FILL);
    loop();
    return desterlin_word(answer, DESTERLIN_FILL_NUMBER) == DESTERLIN_ACCEPTED
        && memcmp(column, looped, sizeof column) == 0;
}

static unsigned total(enum call report) {
    make(report);
    return desterlin_word(answer, DESTERLIN_REPORT_TOTAL);
}

static void print_times(enum call first, enum call end, int runs) {
    for (enum call call = first; call < end; call++) printf("%.3f ", least_time(call, runs));
}

static int fails(const char *words) {
    fprintf(stderr, "bench: %s\n", words);
    return 1;
}

static int time_metadata(int runs) {
    unsigned findings_on_metadata = total(REPORT_METADATA);
    if (desterlin_word(answer, DESTERLIN_REPORT_NUMBER) != DESTERLIN_ACCEPTED)
        return fails("the metadata listing is not accepted");
    printf("%.3f ", least_time(READ, runs));
    printf("%.3f %u\n", least_time(REPORT_METADATA, runs), findings_on_metadata);
    return 0;
}

int main(int words, char **word) {
    int is_reader_alone = words == 4 && strcmp(word[3], "reader") == 0;
    int is_on_metadata = words == 4 && strcmp(word[3], "metadata") == 0;
    if (words != 3 && !is_reader_alone && !is_on_metadata) return 2;
    findings = octets(FINDINGS);
    work = octets(WORK);
    written = octets(LISTING);
    read_file(word[1]);
    if (is_on_metadata) find_metadata();
    find_parts();
    if (!is_accepted()) return fails("the listing is not accepted");
    int runs = atoi(word[2]);
    if (is_reader_alone) {
        printf("%.3f\n", least_time(READ, runs));
        return 0;
    }
    if (is_on_metadata) return time_metadata(runs);
    if (!is_filled_alike()) return fails("the fill and the loop differ");
    if (total(REPORT) != total(REPORT_COLUMNS)) return fails("the reports differ");
    print_times(READ, READ_COLUMNS, runs);
    printf("%u ", total(REPORT));
    print_times(READ_COLUMNS, CALLS, runs);
    printf("\n");
    if (!is_written_back()) return fails("the parts do not write back");
    return 0;
}
