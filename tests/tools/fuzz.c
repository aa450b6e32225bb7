/*
 * Damaged listings through report, verdict and lookup, their tiles through the calls on columns (fuzz_columns.h), their
 * parts through write (fuzz_write.h), and damaged metadata listings beside them through the report on metadata
 * (fuzz_metadata.h), to see that each call keeps its promises about the buffers that it is lent (fuzz_lent.h).
 *
 *     fuzz COUNT SEED LISTING .. --metadata METADATA ..
 *
 * Input i is decided by SEED + i alone, so `fuzz 1 NUMBER ..` with the same files repeats the one that a message names.
 * That the answers are right is not tested here (tests/second does that), only that the calls agree with each other.
 *
 * Exit status: 0 every promise kept; 1 one broken; 2 called wrongly.
 */
#include <inttypes.h>
#include <signal.h>
#include <stdio.h>
#include <stdlib.h>
#include <string.h>

#include "damage.h"
#include "desterlin.h"
#include "fuzz_columns.h"
#include "fuzz_lent.h"
#include "fuzz_metadata.h"
#include "fuzz_write.h"
#include "walled.h"

enum { HEADER = 64, FINDINGS_ROOM = 60000 };

/* The codes that a verdict knows, and behind them those of metadata, which it does not. */
static const uint32_t codes[] = {
#define CODE(code, table, words) code,
    DESTERLIN_CODES(CODE)
    DESTERLIN_METADATA_CODES(CODE)
#undef CODE
};

enum { CODES = sizeof codes / sizeof codes[0] };

static struct stock listings, metadata;

static struct {
    struct room listing, findings, work, answer;
} rooms;

/* What the tried inputs came to, by the number of the report; a fuzzer that is always refused tests little. */
static struct {
    unsigned long reasons[DESTERLIN_REFUSED_UTF8 + 1], with_findings, without_findings, tiles_found;
} tally;

static uint8_t original[LISTING_ROOM];

/* A touch of a wall, or a trap of the sanitizer: say which input it was, then fail as one fails without this. */
static void tell_input(int number)
{
    char line[64];
    int size = snprintf(line, sizeof line, "input %" PRIu64 ": signal %d\n", input_number, number);
    if (size > 0)
        fwrite(line, 1, (size_t)size, stderr);
    signal(number, SIG_DFL);
}

/* AddressSanitizer has said what is wrong, and ends the program. */
static void tell_found(void)
{
    fprintf(stderr, "input %" PRIu64 ": the sanitizer's words are above\n", input_number);
}

static struct lent lend_input(struct chance *chance)
{
    return lend_octets(chance, &rooms.listing, original, draw_damaged(chance, &listings, HEADER, original));
}

static int is_of_report(uint32_t number)
{
    return number <= DESTERLIN_REFUSED_FLAG || number == DESTERLIN_REFUSED_UTF8;
}

/* A report; the answer, if there is one, is left in `words`. Returns whether there is one. */
static int try_report(struct chance *chance, struct lent listing, struct lent findings, size_t work_size,
                      uint32_t words[5])
{
    struct lent work = lend(chance, &rooms.work, work_size);
    struct lent answer = lend(chance, &rooms.answer, draw_answer_size(chance, DESTERLIN_REPORT_ANSWER));
    uint32_t returned = desterlin_report(listing.octets, listing.size, findings.octets, findings.size,
                                         work.octets, work.size, answer.octets, answer.size);
    check(keeps_octets(listing, original), "report: the listing is never written");
    check(returned == (answer.size >= DESTERLIN_REPORT_ANSWER), "report: 1, or 0 for too short an answer buffer");
    if (returned == 0) {
        check(keeps(answer, 0) && keeps(findings, 0) && keeps(work, 0), "report: with 0 nothing is written");
        return 0;
    }
    check(keeps(answer, DESTERLIN_REPORT_ANSWER), "report: octets past the answer keep their values");
    check_place(answer, DESTERLIN_REPORT_NUMBER);
    check(is_of_report(desterlin_word(answer.octets, DESTERLIN_REPORT_NUMBER)), "report: no reason but 1 to 8 and 13");
    for (size_t i = 0; i < 5; i++)
        words[i] = desterlin_word(answer.octets, i);
    uint32_t total = words[DESTERLIN_REPORT_TOTAL], written = words[DESTERLIN_REPORT_WRITTEN];
    size_t room = findings.size / DESTERLIN_FINDING;
    check(written == (total < room ? total : room), "report: written is the smaller of the total and the room");
    check(keeps(findings, (size_t)written * DESTERLIN_FINDING),
          "report: findings past those written keep their values");
    check(keeps(work, words[DESTERLIN_REPORT_NUMBER] == DESTERLIN_ACCEPTED ? work.size : 0),
          "report: work stays as it was if refused, and its surroundings always");
    check(words[DESTERLIN_REPORT_NUMBER] == DESTERLIN_ACCEPTED || total == 0, "report: no findings if refused");
    return 1;
}

static int is_code(uint32_t code)
{
    for (size_t i = 0; i < DESTERLIN_CODE_COUNT; i++)
        if (codes[i] == code)
            return 1;
    return 0;
}

static void check_findings(const uint8_t *findings, uint32_t written)
{
    struct desterlin_finding before = { 0, 0, 0 };
    for (uint32_t i = 0; i < written; i++) {
        struct desterlin_finding finding = desterlin_finding_at(findings, i);
        check(is_code(finding.code), "report: a finding has one of the 36 codes");
        check(finding.code > before.code || (finding.code == before.code && finding.row > before.row),
              "report: findings are in order, each once");
        before = finding;
    }
}

static void check_verdict(struct chance *chance, struct lent listing, const uint8_t *findings, const uint32_t report[5])
{
    size_t which = draw_below(chance, CODES + 5);
    uint32_t code = which < CODES ? codes[which] : (uint32_t)draw(chance);
    struct lent work = lend(chance, &rooms.work, draw_work_size(chance));
    struct lent answer = lend(chance, &rooms.answer, draw_answer_size(chance, DESTERLIN_VERDICT_ANSWER));
    uint32_t returned = desterlin_verdict(listing.octets, listing.size, code, work.octets, work.size,
                                          answer.octets, answer.size);
    check(keeps_octets(listing, original), "verdict: the listing is never written");
    check(returned == (answer.size >= DESTERLIN_VERDICT_ANSWER), "verdict: 1, or 0 for too short an answer buffer");
    if (returned == 0) {
        check(keeps(answer, 0) && keeps(work, 0), "verdict: with 0 nothing is written");
        return;
    }
    check(keeps(answer, DESTERLIN_VERDICT_ANSWER), "verdict: octets past the answer keep their values");
    check_place(answer, DESTERLIN_VERDICT_NUMBER);
    uint32_t number = desterlin_word(answer.octets, DESTERLIN_VERDICT_NUMBER);
    uint32_t ruling = desterlin_word(answer.octets, DESTERLIN_VERDICT_RULING);
    check(keeps(work, number == DESTERLIN_ACCEPTED ? work.size : 0),
          "verdict: work stays as it was if refused, and its surroundings always");
    check(number == (is_code(code) ? report[DESTERLIN_REPORT_NUMBER] : (uint32_t)DESTERLIN_REFUSED_UNKNOWN_CODE),
          "verdict: refused as the report is, or for its code");
    check((ruling == DESTERLIN_REFUSED) == (number != DESTERLIN_ACCEPTED) && ruling <= DESTERLIN_REFUSED,
          "verdict: refused with a reason, and only so");
    if (number != DESTERLIN_ACCEPTED || report[DESTERLIN_REPORT_WRITTEN] < report[DESTERLIN_REPORT_TOTAL])
        return;
    uint32_t first = DESTERLIN_NONE, fails = 0;
    for (uint32_t i = report[DESTERLIN_REPORT_WRITTEN]; i > 0; i--) {
        struct desterlin_finding finding = desterlin_finding_at(findings, i - 1);
        if (finding.code == code) {
            first = finding.row;
            fails = 1;
        }
    }
    check((ruling == DESTERLIN_FAIL) == (fails == 1)
              && desterlin_word(answer.octets, DESTERLIN_VERDICT_FIRST_ROW) == first,
          "verdict: fails with the first row that the report has for the code");
}

static uint64_t long_at(const uint8_t *octets)
{
    return (uint64_t)desterlin_word(octets, 0) | (uint64_t)desterlin_word(octets, 1) << 32;
}

/* The address of a tile row, or any numbers. */
static void draw_address(struct chance *chance, struct lent listing, int is_accepted, int64_t address[3])
{
    for (size_t i = 0; i < 3; i++)
        address[i] = draw_below(chance, 8) == 0 ? (int64_t)draw(chance) : (int64_t)draw_below(chance, 4);
    uint32_t tiles = is_accepted ? desterlin_word(listing.octets, 10) : 0;
    if (tiles == 0 || draw_below(chance, 4) == 0)
        return;
    const uint8_t *row = listing.octets + desterlin_word(listing.octets, 11) + 32 * draw_below(chance, tiles);
    for (size_t i = 0; i < 3; i++)
        address[i] = (int64_t)long_at(row + 8 + 8 * i);
}

static void check_lookup(struct chance *chance, struct lent listing, const uint32_t report[5])
{
    int is_accepted = report[DESTERLIN_REPORT_NUMBER] == DESTERLIN_ACCEPTED;
    uint32_t contents_row = draw_below(chance, 16) == 0 ? (uint32_t)draw(chance) : (uint32_t)draw_below(chance, 3);
    int64_t address[3];
    draw_address(chance, listing, is_accepted, address);
    struct lent answer = lend(chance, &rooms.answer, draw_answer_size(chance, DESTERLIN_LOOKUP_ANSWER));
    uint32_t returned = desterlin_lookup(listing.octets, listing.size, contents_row, address[0], address[1], address[2],
                                         answer.octets, answer.size);
    check(keeps_octets(listing, original), "lookup: the listing is never written");
    check(returned == (answer.size >= DESTERLIN_LOOKUP_ANSWER), "lookup: 1, or 0 for too short an answer buffer");
    if (returned == 0) {
        check(keeps(answer, 0), "lookup: with 0 nothing is written");
        return;
    }
    check(keeps(answer, DESTERLIN_LOOKUP_ANSWER), "lookup: octets past the answer keep their values");
    check_place(answer, DESTERLIN_LOOKUP_NUMBER);
    uint32_t number = desterlin_word(answer.octets, DESTERLIN_LOOKUP_NUMBER);
    uint32_t tile = desterlin_word(answer.octets, DESTERLIN_LOOKUP_TILE);
    check(is_accepted ? number == DESTERLIN_ACCEPTED || number == DESTERLIN_REFUSED_NO_TILES
                      : number == report[DESTERLIN_REPORT_NUMBER],
          "lookup: refused as the report is, or for its contents row");
    check(number == DESTERLIN_ACCEPTED || tile == DESTERLIN_NONE, "lookup: no tile if refused");
    if (tile == DESTERLIN_NONE)
        return;
    check(tile < desterlin_word(listing.octets, 10), "lookup: a tile row that is there");
    const uint8_t *row = listing.octets + desterlin_word(listing.octets, 11) + 32 * (size_t)tile;
    for (size_t i = 0; i < 3; i++)
        check((int64_t)long_at(row + 8 + 8 * i) == address[i], "lookup: a tile row with the address");
    tally.tiles_found++;
}

static void try_input(uint64_t number)
{
    struct chance chance = { number };
    input_number = number;
    struct lent listing = lend_input(&chance);

    /* Once with whatever room there is, once with room for all: what both have must be the same. */
    static uint8_t few[FINDINGS_ROOM];
    uint32_t short_report[5] = { 0 }, report[5] = { 0 };
    struct lent findings = lend(&chance, &rooms.findings, draw_below(&chance, 200));
    while (!try_report(&chance, listing, findings, draw_work_size(&chance), short_report))
        continue;
    size_t few_size = (size_t)short_report[DESTERLIN_REPORT_WRITTEN] * DESTERLIN_FINDING;
    if (few_size > 0)
        memcpy(few, findings.octets, few_size);
    size_t whole_size = (size_t)short_report[DESTERLIN_REPORT_TOTAL] * DESTERLIN_FINDING + draw_below(&chance, 20);
    findings = lend(&chance, &rooms.findings, whole_size < FINDINGS_ROOM ? whole_size : FINDINGS_ROOM);
    while (!try_report(&chance, listing, findings, draw_work_size(&chance), report))
        continue;
    check_findings(findings.octets, report[DESTERLIN_REPORT_WRITTEN]);
    check(memcmp(report, short_report, 4 * sizeof report[0]) == 0,
          "report: sizes do not change number, place and total");
    check(few_size == 0 || memcmp(few, findings.octets, few_size) == 0,
          "report: a short buffer has the first findings");
    check_verdict(&chance, listing, findings.octets, report);
    check_lookup(&chance, listing, report);
    check_columns(&chance, listing, original, report);
    check_write(&chance, original, listing.size, report);
    check_metadata(&chance, &metadata, listing, original, report);

    tally.reasons[report[DESTERLIN_REPORT_NUMBER]]++;
    if (report[DESTERLIN_REPORT_NUMBER] == DESTERLIN_ACCEPTED)
        ++*(report[DESTERLIN_REPORT_TOTAL] == 0 ? &tally.without_findings : &tally.with_findings);
}

static void read_listing(struct stock *stock, const char *path)
{
    FILE *file = fopen(path, "rb");
    uint8_t *octets = malloc(LISTING_ROOM);
    if (file == NULL || octets == NULL || stock->count == MOST_LISTINGS) {
        fprintf(stderr, "fuzz: %s cannot be read, or is one too many\n", path);
        exit(2);
    }
    stock->octets[stock->count] = octets;
    stock->size[stock->count++] = fread(octets, 1, LISTING_ROOM, file);
    fclose(file);
}

/* Reads the files that the words name. Returns whether there are some of both kinds. */
static int read_listings(int count, char **words)
{
    struct stock *stock = &listings;
    for (int i = 0; i < count; i++) {
        if (strcmp(words[i], "--metadata") == 0)
            stock = &metadata;
        else
            read_listing(stock, words[i]);
    }
    return listings.count > 0 && metadata.count > 0;
}

static void free_listings(struct stock *stock)
{
    for (size_t i = 0; i < stock->count; i++)
        free(stock->octets[i]);
}

static void print_tally(unsigned long count)
{
    printf("fuzz: %lu inputs, every promise kept; accepted %lu (with findings %lu, without %lu), refused", count,
           tally.reasons[0], tally.with_findings, tally.without_findings);
    for (uint32_t i = 1; i <= DESTERLIN_REFUSED_UTF8; i++)
        if (is_of_report(i))
            printf(" %" PRIu32 ": %lu", i, tally.reasons[i]);
    printf("; lookups that found a tile %lu\n", tally.tiles_found);
}

int main(int count, char **words)
{
    char *end_of_inputs = NULL, *end_of_seed = NULL;
    unsigned long inputs = count > 3 ? strtoul(words[1], &end_of_inputs, 10) : 0;
    uint64_t seed = count > 3 ? strtoull(words[2], &end_of_seed, 10) : 0;
    if (count < 4 || *words[1] == '\0' || *end_of_inputs != '\0' || *words[2] == '\0' || *end_of_seed != '\0'
        || !read_listings(count - 3, words + 3)) {
        fprintf(stderr, "usage: fuzz COUNT SEED LISTING .. --metadata METADATA ..\n");
        return 2;
    }
    rooms.listing = make_room(LISTING_ROOM);
    rooms.findings = make_room(FINDINGS_ROOM);
    rooms.work = make_room(DESTERLIN_WORK_FULL);
    rooms.answer = make_room(ANSWER_ROOM);
    make_rooms_for_columns();
    make_rooms_for_writes();
    make_rooms_for_metadata();
    signal(SIGSEGV, tell_input);
    signal(SIGBUS, tell_input);
    signal(SIGILL, tell_input);
    signal(SIGTRAP, tell_input);
    when_found(tell_found);
    for (unsigned long i = 0; i < inputs; i++)
        try_input(seed + i);
    print_tally(inputs);
    print_columns();
    print_writes();
    print_metadata();
    free_listings(&listings);
    free_listings(&metadata);
    return 0;
}
