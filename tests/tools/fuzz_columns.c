#include "fuzz_columns.h"

#include <stdio.h>
#include <string.h>

enum { COLUMNS = 4, ENTRY = 8, MOST_TILES = LISTING_ROOM / DESTERLIN_TILES_ROW, MOST_LONGER = 40 };
enum { COLUMN_ROOM = ENTRY * MOST_TILES + MOST_LONGER, FINDINGS_ROOM = 6000, MOST_ALTERED = 3 };

#define LENT(buffer) (buffer).octets, (buffer).size
#define LENT_COLUMNS(column) LENT((column)[0]), LENT((column)[1]), LENT((column)[2]), LENT((column)[3])

/* A listing and columns, as they are lent, and what every call on them must say where it does not read the columns. */
struct asked {
    struct lent listing, column[COLUMNS];
    const uint8_t *octets;
    size_t tiles;
    uint32_t refusal[3];
};

static struct {
    struct room columns[COLUMNS], findings, work, answer;
} rooms;

/* What the columns hold; and a listing that has in table 5 the tile rows that they spell. */
static uint8_t held[COLUMNS][COLUMN_ROOM], spelled[LISTING_ROOM];

/* What the fills came to, and the reports that read their columns, by number. */
static struct {
    unsigned long fills[DESTERLIN_REFUSED_COLUMN + 1], reports[DESTERLIN_REFUSED_COLUMN + 1], tiles_found;
} tally;

void make_rooms_for_columns(void)
{
    for (size_t i = 0; i < COLUMNS; i++)
        rooms.columns[i] = make_room(COLUMN_ROOM);
    rooms.findings = make_room(FINDINGS_ROOM);
    rooms.work = make_room(DESTERLIN_WORK_FULL);
    rooms.answer = make_room(ANSWER_ROOM);
}

static size_t draw_column_size(struct chance *chance, size_t exact)
{
    switch (draw_below(chance, 64)) {
    case 0: return exact == 0 ? 0 : exact - 1;
    case 1: return draw_below(chance, exact + 1);
    case 2: return 0;
    default: return draw_below(chance, 2) == 0 ? exact : exact + draw_below(chance, MOST_LONGER + 1);
    }
}

/* Lends columns that hold nothing yet. Those of a listing that is refused may have any size. */
static struct asked lend_columns(struct chance *chance, struct lent listing, const uint8_t *octets,
                                 const uint32_t report[5])
{
    struct asked asked = { .listing = listing, .octets = octets };
    int is_accepted = report[DESTERLIN_REPORT_NUMBER] == DESTERLIN_ACCEPTED, is_short = 0;
    asked.tiles = is_accepted ? desterlin_word(octets, 2 * DESTERLIN_TILES) : draw_below(chance, 20);
    for (size_t k = 0; k < COLUMNS; k++) {
        size_t size = draw_column_size(chance, ENTRY * asked.tiles);
        asked.column[k] = lend(chance, &rooms.columns[k], size);
        is_short = is_short || size / ENTRY < asked.tiles;
    }
    memcpy(asked.refusal, report, sizeof asked.refusal);
    if (is_accepted && is_short) {
        asked.refusal[0] = DESTERLIN_REFUSED_COLUMN;
        asked.refusal[1] = DESTERLIN_TILES;
    }
    return asked;
}

static int is_read(const struct asked *asked)
{
    return asked->refusal[0] == DESTERLIN_ACCEPTED;
}

static void spell(const struct asked *asked)
{
    memcpy(spelled, asked->octets, asked->listing.size);
    uint8_t *row = spelled + desterlin_word(spelled, 2 * DESTERLIN_TILES + 1);
    for (size_t i = 0; i < asked->tiles; i++, row += DESTERLIN_TILES_ROW) {
        desterlin_put_word(row, 0, desterlin_word(held[0], 2 * i + 1));
        desterlin_put_word(row, 1, desterlin_word(held[0], 2 * i));
        for (size_t k = 1; k < COLUMNS; k++)
            memcpy(row + ENTRY * k, held[k] + ENTRY * i, ENTRY);
    }
}

/* What every call on columns promises of the listing and of its answer. Returns whether there is one. */
static int is_answered(const struct asked *asked, uint32_t returned, struct lent answer, size_t size)
{
    check(keeps_octets(asked->listing, asked->octets), "columns: the listing is never written");
    check(returned == (answer.size >= size), "columns: 1, or 0 for too short an answer buffer");
    check(keeps(answer, returned == 1 ? size : 0), "columns: octets past the answer keep their values");
    return returned == 1;
}

/* Returns whether there is an answer; what the columns then hold is taken from them. */
static int try_fill(struct chance *chance, const struct asked *asked)
{
    struct lent answer = lend(chance, &rooms.answer, draw_answer_size(chance, DESTERLIN_FILL_ANSWER));
    uint32_t returned = desterlin_fill(LENT(asked->listing), LENT_COLUMNS(asked->column), LENT(answer));
    int has_answer = is_answered(asked, returned, answer, DESTERLIN_FILL_ANSWER);
    size_t filled = has_answer && is_read(asked) ? ENTRY * asked->tiles : 0;
    for (size_t k = 0; k < COLUMNS; k++) {
        check(keeps(asked->column[k], filled), "fill: octets past the tiles keep their values, and all if refused");
        if (asked->column[k].size > 0)
            memcpy(held[k], asked->column[k].octets, asked->column[k].size);
    }
    if (!has_answer)
        return 0;
    check_place(answer, DESTERLIN_FILL_NUMBER);
    for (size_t i = 0; i < 3; i++)
        check(desterlin_word(answer.octets, i) == asked->refusal[i], "fill: refused as the listing is, or under 14");
    if (is_read(asked)) {
        spell(asked);
        check(memcmp(spelled, asked->octets, asked->listing.size) == 0, "fill: the columns spell the listing's tiles");
    }
    tally.fills[asked->refusal[0]]++;
    return 1;
}

/* A first entry that most often spells a short text within the names. Where they are not all ASCII it may well start or
   end inside a character. */
static uint64_t draw_first(struct chance *chance, const uint8_t *octets)
{
    size_t count = desterlin_word(octets, 2 * DESTERLIN_NAME_OCTETS), start = draw_below(chance, count + 1);
    const uint8_t *names = octets + desterlin_word(octets, 2 * DESTERLIN_NAME_OCTETS + 1);
    size_t beyond_ascii = start;
    while (beyond_ascii < count && names[beyond_ascii] < 0x80)
        beyond_ascii++;
    if (beyond_ascii < count)
        start = beyond_ascii;
    size_t most = count - start + (draw_below(chance, 8) == 0);
    return (uint64_t)start << 32 | draw_below(chance, (most < 4 ? most : 4) + 1);
}

/* Puts other numbers into a few entries: any, those of other entries, those at which a reader goes wrong. */
static void alter(struct chance *chance, const struct asked *asked)
{
    size_t altered = asked->tiles == 0 ? 0 : draw_below(chance, MOST_ALTERED + 1);
    for (size_t i = 0; i < altered; i++) {
        size_t k = draw_below(chance, COLUMNS);
        uint8_t *entry = held[k] + ENTRY * draw_below(chance, asked->tiles);
        const uint8_t *other = held[k] + ENTRY * draw_below(chance, asked->tiles);
        uint64_t number = (uint64_t)desterlin_word(other, 1) << 32 | desterlin_word(other, 0);
        switch (draw_below(chance, 8)) {
        case 0: number = draw(chance); break;
        case 1: number = telling_number(chance, asked->tiles); break;
        case 2: number++; break;
        case 3:
        case 4: number = k == 0 ? draw_first(chance, asked->octets) : draw_below(chance, 4); break;
        }
        desterlin_put_word(entry, 0, (uint32_t)number);
        desterlin_put_word(entry, 1, (uint32_t)(number >> 32));
    }
}

static void check_columns_are_kept(const struct asked *asked)
{
    for (size_t k = 0; k < COLUMNS; k++)
        check(keeps_octets(asked->column[k], held[k]), "columns: those that are read are never written");
}

/* The report from columns is the report on the listing that they spell. */
static void check_report(struct chance *chance, const struct asked *asked)
{
    static uint8_t own_work[DESTERLIN_WORK_FOR(MOST_TILES)], own_findings[FINDINGS_ROOM];
    struct lent findings = lend(chance, &rooms.findings, draw_below(chance, FINDINGS_ROOM + 1));
    struct lent work = lend(chance, &rooms.work, draw_work_size(chance));
    struct lent answer = lend(chance, &rooms.answer, draw_answer_size(chance, DESTERLIN_REPORT_ANSWER));
    uint32_t returned = desterlin_report_columns(LENT(asked->listing), LENT_COLUMNS(asked->column), LENT(findings),
                                                 LENT(work), LENT(answer));
    check_columns_are_kept(asked);
    if (!is_answered(asked, returned, answer, DESTERLIN_REPORT_ANSWER)) {
        check(keeps(findings, 0) && keeps(work, 0), "report from columns: with 0 nothing is written");
        return;
    }
    uint8_t must[DESTERLIN_REPORT_ANSWER] = { 0 };
    if (is_read(asked))
        desterlin_report(spelled, asked->listing.size, own_findings, findings.size, own_work, sizeof own_work,
                         must, sizeof must);
    else
        for (size_t i = 0; i < 3; i++)
            desterlin_put_word(must, i, asked->refusal[i]);
    uint32_t number = desterlin_word(must, DESTERLIN_REPORT_NUMBER);
    size_t written = DESTERLIN_FINDING * (size_t)desterlin_word(must, DESTERLIN_REPORT_WRITTEN);
    check_place(answer, DESTERLIN_REPORT_NUMBER);
    check(memcmp(answer.octets, must, sizeof must) == 0, "report from columns: as of the tile rows that they spell");
    check(written == 0 || memcmp(findings.octets, own_findings, written) == 0, "report from columns: their findings");
    check(keeps(findings, written), "report from columns: findings past those written keep their values");
    check(keeps(work, number == DESTERLIN_ACCEPTED ? work.size : 0), "report from columns: work stays if refused");
    if (is_read(asked))
        tally.reports[number]++;
}

static int64_t number_at(const uint8_t *column, size_t entry)
{
    return (int64_t)((uint64_t)desterlin_word(column, 2 * entry + 1) << 32 | desterlin_word(column, 2 * entry));
}

/* The lookup from columns, of an entry's address most often, is the lookup in the listing that they spell. */
static void check_lookup(struct chance *chance, const struct asked *asked)
{
    uint32_t contents_row = draw_below(chance, 16) == 0 ? (uint32_t)draw(chance) : (uint32_t)draw_below(chance, 3);
    int64_t address[3] = { 0, (int64_t)draw_below(chance, 4), (int64_t)draw(chance) };
    size_t entry = asked->tiles == 0 ? 0 : draw_below(chance, asked->tiles);
    if (is_read(asked) && asked->tiles > 0 && draw_below(chance, 4) != 0)
        for (size_t i = 0; i < 3; i++)
            address[i] = number_at(held[i + 1], entry);
    struct lent answer = lend(chance, &rooms.answer, draw_answer_size(chance, DESTERLIN_LOOKUP_ANSWER));
    uint32_t returned = desterlin_lookup_columns(LENT(asked->listing), LENT_COLUMNS(asked->column), contents_row,
                                                 address[0], address[1], address[2], LENT(answer));
    check_columns_are_kept(asked);
    if (!is_answered(asked, returned, answer, DESTERLIN_LOOKUP_ANSWER))
        return;
    uint8_t must[DESTERLIN_LOOKUP_ANSWER];
    desterlin_put_word(must, DESTERLIN_LOOKUP_TILE, DESTERLIN_NONE);
    for (size_t i = 0; i < 3; i++)
        desterlin_put_word(must, DESTERLIN_LOOKUP_NUMBER + i, asked->refusal[i]);
    if (is_read(asked))
        desterlin_lookup(spelled, asked->listing.size, contents_row, address[0], address[1], address[2],
                         must, sizeof must);
    check_place(answer, DESTERLIN_LOOKUP_NUMBER);
    check(memcmp(answer.octets, must, sizeof must) == 0, "lookup from columns: as in the tile rows that they spell");
    tally.tiles_found += desterlin_word(must, DESTERLIN_LOOKUP_TILE) != DESTERLIN_NONE;
}

void check_columns(struct chance *chance, struct lent listing, const uint8_t *octets, const uint32_t report[5])
{
    struct asked asked = lend_columns(chance, listing, octets, report);
    while (!try_fill(chance, &asked))
        continue;
    if (is_read(&asked)) {
        alter(chance, &asked);
        spell(&asked);
    }
    for (size_t k = 0; k < COLUMNS; k++)
        asked.column[k] = lend_octets(chance, &rooms.columns[k], held[k], asked.column[k].size);
    check_report(chance, &asked);
    check_lookup(chance, &asked);
}

static void print_refused(const unsigned long tallied[DESTERLIN_REFUSED_COLUMN + 1])
{
    for (size_t i = 1; i <= DESTERLIN_REFUSED_COLUMN; i++)
        if (tallied[i] > 0)
            printf(" %zu: %lu", i, tallied[i]);
}

void print_columns(void)
{
    printf("fuzz: their tiles put into columns %lu times, refused", tally.fills[DESTERLIN_ACCEPTED]);
    print_refused(tally.fills);
    printf("; then altered, and accepted %lu times, refused", tally.reports[DESTERLIN_ACCEPTED]);
    print_refused(tally.reports);
    printf("; lookups that found a tile %lu\n", tally.tiles_found);
}
