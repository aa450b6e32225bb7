/*
 * What a viewer does with a listing before it draws: refuse it or report what is wrong with it, ask for the verdict on
 * doubled addresses, then fill columns with its tiles, once, and look up the tiles of a screen in them.
 *
 *     viewer LISTING [CONTENTS-ROW ZOOM FIRST-COLUMN LAST-COLUMN FIRST-ROW LAST-ROW]
 *
 * Exit status: 0 no findings, 1 findings, 2 refused, not readable or called wrongly.
 *
 * The columns are arrays of int64_t, so this is for a little-endian machine.
 */
#include <errno.h>
#include <inttypes.h>
#include <stdio.h>
#include <stdlib.h>

#include "desterlin.h"

enum { CLEAN = 0, FINDINGS = 1, UNUSABLE = 2 };

/* A listing and the scratch memory for the calls on it. */
struct lent {
    uint8_t *listing;
    size_t listing_size;
    uint8_t *work;
    size_t work_size;
};

/* The tiles of a listing, in columns of so many octets each. */
struct tiles {
    int64_t *firsts, *zooms, *columns, *rows;
    size_t size;
};

/* The columns and rows that the screen shows, ends included. */
struct screen {
    uint32_t contents_row;
    int64_t zoom, first_column, last_column, first_row, last_row;
};

static const char *words_of_code(uint32_t code)
{
    static const struct {
        uint32_t code;
        const char *words;
    } rules[] = {
#define RULE(code, table, words) { code, words },
        DESTERLIN_CODES(RULE)
#undef RULE
    };
    for (size_t i = 0; i < sizeof rules / sizeof rules[0]; i++)
        if (rules[i].code == code)
            return rules[i].words;
    return "a rule of a later edition";
}

static const char *words_of_reason(uint32_t number)
{
    switch (number) {
    case DESTERLIN_REFUSED_SHORT: return "fewer octets than a header has";
    case DESTERLIN_REFUSED_LONG: return "more octets than a listing may have";
    case DESTERLIN_REFUSED_VERSION: return "the version is not 1";
    case DESTERLIN_REFUSED_LENGTH: return "the total length is not that of the file";
    case DESTERLIN_REFUSED_COUNT: return "a table has more rows than it may";
    case DESTERLIN_REFUSED_OFFSET: return "a table does not begin or end where it must";
    case DESTERLIN_REFUSED_TEXT: return "a text lies outside the names, or is NULL where it may not";
    case DESTERLIN_REFUSED_FLAG: return "a contents row's flag, spare or srs_id is not as laid down";
    case DESTERLIN_REFUSED_UNKNOWN_CODE: return "no such code";
    case DESTERLIN_REFUSED_NO_TILES: return "no such contents row, or it is not one of tiles";
    case DESTERLIN_REFUSED_UTF8: return "a text is not well-formed UTF-8, so it cannot be shown";
    case DESTERLIN_REFUSED_COLUMN: return "a column has fewer entries than there are tiles";
    default: return "a reason of a later edition";
    }
}

static void print_refusal(const char *call, uint32_t number, uint32_t table, uint32_t row)
{
    printf("%s refused: reason %" PRIu32 ", table %" PRIu32 ", row %" PRIu32 ": %s\n",
           call, number, table, row, words_of_reason(number));
}

/* "row 5", or "no row". */
static void print_row(const char *before, uint32_t row)
{
    if (row == DESTERLIN_NONE)
        printf("%sno row", before);
    else
        printf("%srow %" PRIu32, before, row);
}

/* The octets of a file. One octet more than the most is enough to have it refused as too long. */
static int read_listing(const char *path, struct lent *lent)
{
    FILE *file = fopen(path, "rb");
    if (file == NULL)
        return 0;
    int is_read = 0;
    long size = fseek(file, 0, SEEK_END) == 0 ? ftell(file) : -1;
    if (size >= 0 && fseek(file, 0, SEEK_SET) == 0) {
        lent->listing_size = size > DESTERLIN_LISTING_MOST ? DESTERLIN_LISTING_MOST + 1 : (size_t)size;
        lent->listing = malloc(lent->listing_size);
        is_read = lent->listing_size == 0
            || (lent->listing != NULL && fread(lent->listing, 1, lent->listing_size, file) == lent->listing_size);
    }
    fclose(file);
    return is_read;
}

/* Two calls: the first, with no room for findings, tells how many there are. */
static int report(const struct lent *lent)
{
    uint8_t answer[DESTERLIN_REPORT_ANSWER];
    desterlin_report(lent->listing, lent->listing_size, NULL, 0, lent->work, lent->work_size, answer, sizeof answer);
    uint32_t number = desterlin_word(answer, DESTERLIN_REPORT_NUMBER);
    if (number != DESTERLIN_ACCEPTED) {
        print_refusal("report", number, desterlin_word(answer, DESTERLIN_REPORT_REFUSED_TABLE),
                      desterlin_word(answer, DESTERLIN_REPORT_REFUSED_ROW));
        return UNUSABLE;
    }
    uint32_t total = desterlin_word(answer, DESTERLIN_REPORT_TOTAL);
    printf("report: %" PRIu32 " finding%s\n", total, total == 1 ? "" : "s");
    if (total == 0)
        return CLEAN;

    size_t findings_size = (size_t)total * DESTERLIN_FINDING;
    uint8_t *findings = malloc(findings_size);
    if (findings == NULL) {
        fprintf(stderr, "no memory for %" PRIu32 " findings\n", total);
        return UNUSABLE;
    }
    desterlin_report(lent->listing, lent->listing_size, findings, findings_size, lent->work, lent->work_size,
                     answer, sizeof answer);
    uint32_t written = desterlin_word(answer, DESTERLIN_REPORT_WRITTEN);
    for (uint32_t i = 0; i < written; i++) {
        struct desterlin_finding finding = desterlin_finding_at(findings, i);
        printf("  %" PRIu32, finding.code);
        print_row(" ", finding.row);
        if (finding.partner != DESTERLIN_NONE)
            print_row(", partner ", finding.partner);
        printf(": %s\n", words_of_code(finding.code));
    }
    free(findings);
    return FINDINGS;
}

static void print_verdict(const struct lent *lent, uint32_t code)
{
    uint8_t answer[DESTERLIN_VERDICT_ANSWER];
    desterlin_verdict(lent->listing, lent->listing_size, code, lent->work, lent->work_size, answer, sizeof answer);
    printf("verdict on %" PRIu32 " (%s): ", code, words_of_code(code));
    switch (desterlin_word(answer, DESTERLIN_VERDICT_RULING)) {
    case DESTERLIN_PASS:
        printf("pass\n");
        break;
    case DESTERLIN_FAIL:
        print_row("fail, first at ", desterlin_word(answer, DESTERLIN_VERDICT_FIRST_ROW));
        printf("\n");
        break;
    case DESTERLIN_NOT_TESTABLE:
        printf("not testable\n");
        break;
    default:
        print_refusal("verdict", desterlin_word(answer, DESTERLIN_VERDICT_NUMBER),
                      desterlin_word(answer, DESTERLIN_VERDICT_REFUSED_TABLE),
                      desterlin_word(answer, DESTERLIN_VERDICT_REFUSED_ROW));
    }
}

/* Columns for the tiles of a listing that is accepted, so that its header can be believed. Returns whether there is
   memory for them. */
static int make_columns(const struct lent *lent, struct tiles *tiles)
{
    tiles->size = DESTERLIN_COLUMN_SIZE(desterlin_word(lent->listing, 2 * DESTERLIN_TILES));
    tiles->firsts = malloc(tiles->size);
    tiles->zooms = malloc(tiles->size);
    tiles->columns = malloc(tiles->size);
    tiles->rows = malloc(tiles->size);
    return tiles->size == 0
        || (tiles->firsts != NULL && tiles->zooms != NULL && tiles->columns != NULL && tiles->rows != NULL);
}

static int fill(const struct lent *lent, struct tiles *tiles)
{
    uint8_t answer[DESTERLIN_FILL_ANSWER];
    desterlin_fill(lent->listing, lent->listing_size, (uint8_t *)tiles->firsts, tiles->size,
                   (uint8_t *)tiles->zooms, tiles->size, (uint8_t *)tiles->columns, tiles->size,
                   (uint8_t *)tiles->rows, tiles->size, answer, sizeof answer);
    uint32_t number = desterlin_word(answer, DESTERLIN_FILL_NUMBER);
    if (number != DESTERLIN_ACCEPTED)
        print_refusal("fill", number, desterlin_word(answer, DESTERLIN_FILL_REFUSED_TABLE),
                      desterlin_word(answer, DESTERLIN_FILL_REFUSED_ROW));
    return number == DESTERLIN_ACCEPTED;
}

/* Prints the tile row that is to be drawn at an address of the screen, or "-". Returns whether there is an answer. */
static int print_tile(const struct lent *lent, const struct tiles *tiles, const struct screen *screen,
                      int64_t column, int64_t row)
{
    uint8_t answer[DESTERLIN_LOOKUP_ANSWER];
    desterlin_lookup_columns(lent->listing, lent->listing_size, (const uint8_t *)tiles->firsts, tiles->size,
                             (const uint8_t *)tiles->zooms, tiles->size, (const uint8_t *)tiles->columns, tiles->size,
                             (const uint8_t *)tiles->rows, tiles->size,
                             screen->contents_row, screen->zoom, column, row, answer, sizeof answer);
    uint32_t number = desterlin_word(answer, DESTERLIN_LOOKUP_NUMBER);
    uint32_t tile = desterlin_word(answer, DESTERLIN_LOOKUP_TILE);
    printf(" ");
    if (number != DESTERLIN_ACCEPTED)
        print_refusal("lookup", number, desterlin_word(answer, DESTERLIN_LOOKUP_REFUSED_TABLE),
                      desterlin_word(answer, DESTERLIN_LOOKUP_REFUSED_ROW));
    else if (tile == DESTERLIN_NONE)
        printf("-");
    else
        printf("%" PRIu32, tile);
    return number == DESTERLIN_ACCEPTED;
}

/* One line for each row of the screen, from the top, with a tile for each column. */
static void print_screen(const struct lent *lent, const struct tiles *tiles, const struct screen *screen)
{
    printf("screen: contents row %" PRIu32 ", zoom %" PRId64 ", columns %" PRId64 " to %" PRId64 "\n",
           screen->contents_row, screen->zoom, screen->first_column, screen->last_column);
    for (int64_t row = screen->first_row; row <= screen->last_row; row++) {
        printf("  row %" PRId64 ":", row);
        for (int64_t column = screen->first_column; column <= screen->last_column; column++)
            if (!print_tile(lent, tiles, screen, column, row))
                return;
        printf("\n");
    }
}

/* Fills the columns once, for all lookups of the screen. Returns whether they could be filled. */
static int draw(const struct lent *lent, const struct screen *screen)
{
    struct tiles tiles;
    int is_filled = 0;
    if (make_columns(lent, &tiles))
        is_filled = fill(lent, &tiles);
    else
        fprintf(stderr, "no memory for the tiles in columns\n");
    if (is_filled)
        print_screen(lent, &tiles, screen);
    free(tiles.firsts);
    free(tiles.zooms);
    free(tiles.columns);
    free(tiles.rows);
    return is_filled;
}

static int whole_number(const char *text, int64_t least, int64_t most, int64_t *number)
{
    char *end;
    errno = 0;
    intmax_t value = strtoimax(text, &end, 10);
    *number = (int64_t)value;
    return errno == 0 && end != text && *end == '\0' && value >= least && value <= most;
}

static int screen_of(char **words, struct screen *screen)
{
    /* A screen holds so many tiles a side at most; this also keeps "<= last" from running past the greatest number. */
    const int64_t side = 64;
    int64_t contents_row;
    if (!whole_number(words[0], 0, UINT32_MAX, &contents_row)
        || !whole_number(words[1], INT64_MIN, INT64_MAX, &screen->zoom)
        || !whole_number(words[2], INT64_MIN, INT64_MAX - side, &screen->first_column)
        || !whole_number(words[3], screen->first_column, screen->first_column + side - 1, &screen->last_column)
        || !whole_number(words[4], INT64_MIN, INT64_MAX - side, &screen->first_row)
        || !whole_number(words[5], screen->first_row, screen->first_row + side - 1, &screen->last_row))
        return 0;
    screen->contents_row = (uint32_t)contents_row;
    return 1;
}

/* There are no more tiles than the listing has room for. Where there is less memory, say so. */
static void lend_work(struct lent *lent)
{
    size_t wanted = DESTERLIN_WORK_FOR(lent->listing_size / DESTERLIN_TILES_ROW);
    lent->work_size = wanted;
    while (lent->work_size > 0 && (lent->work = malloc(lent->work_size)) == NULL)
        lent->work_size /= 2;
    if (lent->work_size < wanted)
        fprintf(stderr, "%zu octets of work memory in place of %zu: the same answers, which may take longer\n",
                lent->work_size, wanted);
}

static int look_at(const char *path, const struct screen *screen)
{
    struct lent lent = { NULL, 0, NULL, 0 };
    if (!read_listing(path, &lent)) {
        fprintf(stderr, "%s cannot be read\n", path);
        free(lent.listing);
        return UNUSABLE;
    }
    lend_work(&lent);

    int status = report(&lent);
    if (status != UNUSABLE) {
        print_verdict(&lent, 541);
        if (screen != NULL && !draw(&lent, screen))
            status = UNUSABLE;
    }
    free(lent.work);
    free(lent.listing);
    return status;
}

int main(int count, char **words)
{
    struct screen screen;
    if (count == 2)
        return look_at(words[1], NULL);
    if (count == 8 && screen_of(words + 2, &screen))
        return look_at(words[1], &screen);
    fprintf(stderr, "usage: viewer LISTING [CONTENTS-ROW ZOOM FIRST-COLUMN LAST-COLUMN FIRST-ROW LAST-ROW]\n"
                    "whole numbers; at most 64 columns and 64 rows, the first not above the last\n");
    return UNUSABLE;
}
