#include "fuzz_metadata.h"

#include <inttypes.h>
#include <stdio.h>
#include <string.h>

enum { HEADER = 32, FINDINGS_ROOM = 6000, MOST_WORK = DESTERLIN_METADATA_WORK + 64, WORDS = 5 };

static const struct {
    uint32_t code, table;
} rules[] = {
#define RULE(code, table, words) { code, table },
    DESTERLIN_METADATA_CODES(RULE)
#undef RULE
};

/* Two listings, as they are lent, and what the report on the first alone says. */
struct asked {
    struct lent listing, metadata;
    const uint8_t *octets;
    const uint32_t *report;
};

static struct {
    struct room metadata, findings, work, answer;
} rooms;

static uint8_t original[LISTING_ROOM];

/* What the reports came to, by number; where the listing itself is refused, the metadata listing is never looked at. */
static struct {
    unsigned long reasons[DESTERLIN_REFUSED_UTF8 + 1], by_listing, with_findings;
} tally;

void make_rooms_for_metadata(void)
{
    rooms.metadata = make_room(LISTING_ROOM);
    rooms.findings = make_room(FINDINGS_ROOM);
    rooms.work = make_room(MOST_WORK);
    rooms.answer = make_room(ANSWER_ROOM);
}

/* Whether it is the metadata listing that decides. */
static int is_reached(const struct asked *asked)
{
    return asked->report[DESTERLIN_REPORT_NUMBER] == DESTERLIN_ACCEPTED;
}

static void check_refusal(const struct asked *asked, struct lent answer)
{
    uint32_t number = desterlin_word(answer.octets, DESTERLIN_REPORT_NUMBER);
    if (is_reached(asked)) {
        check_place_in(answer, DESTERLIN_REPORT_NUMBER, DESTERLIN_METADATA_RECORDS, DESTERLIN_METADATA_NAME_OCTETS);
        check(number <= DESTERLIN_REFUSED_FLAG || number == DESTERLIN_REFUSED_UTF8,
              "metadata: no reason but 1 to 8 and 13");
    } else {
        for (size_t i = 0; i < 3; i++)
            check(desterlin_word(answer.octets, i) == asked->report[i], "metadata: refused as the listing is, first");
    }
}

/* A report on metadata; the answer, if there is one, is left in `words`. Returns whether there is one. */
static int try_report(struct chance *chance, const struct asked *asked, struct lent findings, uint32_t words[WORDS])
{
    struct lent work = lend(chance, &rooms.work, draw_below(chance, MOST_WORK + 1));
    struct lent answer = lend(chance, &rooms.answer, draw_answer_size(chance, DESTERLIN_REPORT_ANSWER));
    uint32_t returned = desterlin_report_metadata(asked->listing.octets, asked->listing.size, asked->metadata.octets,
                                                  asked->metadata.size, findings.octets, findings.size,
                                                  work.octets, work.size, answer.octets, answer.size);
    check(keeps_octets(asked->listing, asked->octets), "metadata: the listing is never written");
    check(keeps_octets(asked->metadata, original), "metadata: the metadata listing is never written");
    check(returned == (answer.size >= DESTERLIN_REPORT_ANSWER), "metadata: 1, or 0 for too short an answer buffer");
    if (returned == 0) {
        check(keeps(answer, 0) && keeps(findings, 0) && keeps(work, 0), "metadata: with 0 nothing is written");
        return 0;
    }
    check(keeps(answer, DESTERLIN_REPORT_ANSWER), "metadata: octets past the answer keep their values");
    check_refusal(asked, answer);
    for (size_t i = 0; i < WORDS; i++)
        words[i] = desterlin_word(answer.octets, i);
    uint32_t total = words[DESTERLIN_REPORT_TOTAL], written = words[DESTERLIN_REPORT_WRITTEN];
    size_t room = findings.size / DESTERLIN_FINDING;
    int is_accepted = words[DESTERLIN_REPORT_NUMBER] == DESTERLIN_ACCEPTED;
    check(is_accepted || total == 0, "metadata: no findings if refused");
    check(written == (total < room ? total : room), "metadata: written is the smaller of the total and the room");
    check(keeps(findings, (size_t)written * DESTERLIN_FINDING),
          "metadata: findings past those written keep their values");
    check(keeps(work, is_accepted ? work.size : 0),
          "metadata: work stays as it was if refused, and its surroundings always");
    return 1;
}

/* How many rows the table of a code has; 0 where it is none of the eight. */
static uint32_t rows_of(uint32_t code)
{
    for (size_t i = 0; i < sizeof rules / sizeof rules[0]; i++)
        if (rules[i].code == code)
            return desterlin_word(original, 2 + 2 * (rules[i].table - DESTERLIN_METADATA_RECORDS));
    return 0;
}

static void check_findings(const uint8_t *findings, uint32_t written)
{
    struct desterlin_finding before = { 0, 0, 0 };
    for (uint32_t i = 0; i < written; i++) {
        struct desterlin_finding finding = desterlin_finding_at(findings, i);
        check(finding.row < rows_of(finding.code), "metadata: a finding has one of the eight codes, and a row of it");
        check(finding.partner == DESTERLIN_NONE, "metadata: no finding has a partner");
        check(finding.code > before.code || (finding.code == before.code && finding.row > before.row),
              "metadata: findings are in order, each once");
        before = finding;
    }
}

void check_metadata(struct chance *chance, const struct stock *metadata, struct lent listing, const uint8_t *octets,
                    const uint32_t report[5])
{
    size_t size = draw_damaged(chance, metadata, HEADER, original);
    struct asked asked = { listing, lend_octets(chance, &rooms.metadata, original, size), octets, report };

    /* Once with whatever room there is, once with room for all: what both have must be the same. */
    static uint8_t few[FINDINGS_ROOM];
    uint32_t few_words[WORDS] = { 0 }, words[WORDS] = { 0 };
    struct lent findings = lend(chance, &rooms.findings, draw_below(chance, 100));
    while (!try_report(chance, &asked, findings, few_words))
        continue;
    size_t few_size = (size_t)few_words[DESTERLIN_REPORT_WRITTEN] * DESTERLIN_FINDING;
    if (few_size > 0)
        memcpy(few, findings.octets, few_size);
    findings = lend(chance, &rooms.findings, FINDINGS_ROOM - draw_below(chance, 20));
    while (!try_report(chance, &asked, findings, words))
        continue;
    check_findings(findings.octets, words[DESTERLIN_REPORT_WRITTEN]);
    check(memcmp(words, few_words, 4 * sizeof words[0]) == 0, "metadata: sizes do not change number, place and total");
    check(few_size == 0 || memcmp(few, findings.octets, few_size) == 0,
          "metadata: a short buffer has the first findings");

    if (is_reached(&asked))
        tally.reasons[words[DESTERLIN_REPORT_NUMBER]]++;
    else
        tally.by_listing++;
    tally.with_findings += words[DESTERLIN_REPORT_TOTAL] > 0;
}

void print_metadata(void)
{
    printf("fuzz: metadata listings beside them: accepted %lu (with findings %lu), refused with the listing %lu, alone",
           tally.reasons[DESTERLIN_ACCEPTED], tally.with_findings, tally.by_listing);
    for (uint32_t i = 1; i <= DESTERLIN_REFUSED_UTF8; i++)
        if (tally.reasons[i] > 0)
            printf(" %" PRIu32 ": %lu", i, tally.reasons[i]);
    printf("\n");
}
