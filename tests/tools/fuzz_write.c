#include "fuzz_write.h"

#include <stdio.h>
#include <string.h>

enum { HEADER = 64, TABLES = 7, MOST_LONGER = 200 };

static const size_t row_sizes[TABLES] = { 32, 40, 48, 64, 32, 32, 1 };

static struct {
    struct room parts[TABLES], listing, answer;
} rooms;

/* What the writes came to, by number. */
static unsigned long tally[DESTERLIN_REFUSED_UTF8 + 1];

/* The parts of one write: where their octets stand in what they were cut from, and as they are lent. */
struct parts {
    const uint8_t *octets[TABLES];
    struct lent lent[TABLES];
    size_t listing_size; /* of the listing that they make */
    int is_by_header;    /* cut where the header says, all of it */
};

void make_rooms_for_writes(void)
{
    for (size_t i = 0; i < TABLES; i++)
        rooms.parts[i] = make_room(LISTING_ROOM);
    rooms.listing = make_room(HEADER + LISTING_ROOM + MOST_LONGER);
    rooms.answer = make_room(ANSWER_ROOM);
}

static struct parts lend_parts(struct chance *chance, const uint8_t *octets, size_t size)
{
    struct parts parts = { .listing_size = HEADER, .is_by_header = size >= HEADER };
    size_t left = size < HEADER ? size : size - HEADER;
    const uint8_t *rest = octets + (size - left);
    for (size_t i = 0; i < TABLES; i++) {
        uint64_t asked = size < HEADER ? left : (uint64_t)desterlin_word(octets, 2 + 2 * i) * row_sizes[i];
        uint64_t length = asked;
        /* Seldom anywhere else: parts that are not whole, or whole with rows of other tables. */
        switch (draw_below(chance, 64)) {
        case 0: length = draw_below(chance, left + 1); break;
        case 1: length = draw_below(chance, left / row_sizes[i] + 1) * row_sizes[i]; break;
        }
        size_t taken = length < left ? (size_t)length : left;
        parts.is_by_header = parts.is_by_header && taken == asked;
        parts.octets[i] = rest;
        parts.lent[i] = lend_octets(chance, &rooms.parts[i], rest, taken);
        parts.listing_size += taken;
        rest += taken;
        left -= taken;
    }
    parts.is_by_header = parts.is_by_header && left == 0;
    return parts;
}

static size_t draw_room(struct chance *chance, size_t exact)
{
    switch (draw_below(chance, 8)) {
    case 0: return exact - 1;
    case 1: return draw_below(chance, exact);
    case 2: return 0;
    case 3: return exact + draw_below(chance, MOST_LONGER + 1);
    default: return exact;
    }
}

static uint32_t call_write(const struct lent part[TABLES], struct lent listing, struct lent answer)
{
    return desterlin_write(part[0].octets, part[0].size, part[1].octets, part[1].size, part[2].octets, part[2].size,
                           part[3].octets, part[3].size, part[4].octets, part[4].size, part[5].octets, part[5].size,
                           part[6].octets, part[6].size, listing.octets, listing.size, answer.octets, answer.size);
}

/* What stands in the buffer is the listing of the parts, and is accepted. */
static void check_written(const struct parts *parts, struct lent listing)
{
    uint8_t answer[DESTERLIN_VERDICT_ANSWER];
    const uint8_t *at = listing.octets + HEADER;
    for (size_t i = 0; i < TABLES; i++) {
        size_t size = parts->lent[i].size;
        check(size == 0 || memcmp(at, parts->octets[i], size) == 0, "write: the parts stand behind the header");
        at += size;
    }
    desterlin_verdict(listing.octets, parts->listing_size, 171, NULL, 0, answer, sizeof answer);
    check(desterlin_word(answer, DESTERLIN_VERDICT_NUMBER) == DESTERLIN_ACCEPTED, "write: what is written is accepted");
}

/* Of a listing with a good header, the report says what the write of its parts must say. */
static void check_as_reported(struct lent answer, const uint32_t report[5])
{
    uint32_t number = desterlin_word(answer.octets, DESTERLIN_WRITE_NUMBER);
    uint32_t reported = report[DESTERLIN_REPORT_NUMBER];
    if (reported == DESTERLIN_ACCEPTED)
        check(number == DESTERLIN_ACCEPTED || number == DESTERLIN_REFUSED_ROOM, "write: accepted as the listing is");
    if (reported == DESTERLIN_REFUSED_TEXT || reported == DESTERLIN_REFUSED_FLAG || reported == DESTERLIN_REFUSED_UTF8)
        check(number == reported
                  && desterlin_word(answer.octets, DESTERLIN_WRITE_REFUSED_TABLE) == report[DESTERLIN_REPORT_REFUSED_TABLE]
                  && desterlin_word(answer.octets, DESTERLIN_WRITE_REFUSED_ROW) == report[DESTERLIN_REPORT_REFUSED_ROW],
              "write: refused as the listing is");
}

void check_write(struct chance *chance, const uint8_t *octets, size_t size, const uint32_t report[5])
{
    struct parts parts = lend_parts(chance, octets, size);
    struct lent listing = lend(chance, &rooms.listing, draw_room(chance, parts.listing_size));
    struct lent answer = lend(chance, &rooms.answer, draw_answer_size(chance, DESTERLIN_WRITE_ANSWER));
    uint32_t returned = call_write(parts.lent, listing, answer);
    for (size_t i = 0; i < TABLES; i++)
        check(keeps_octets(parts.lent[i], parts.octets[i]), "write: the parts are never written");
    check(returned == (answer.size >= DESTERLIN_WRITE_ANSWER), "write: 1, or 0 for too short an answer buffer");
    if (returned == 0) {
        check(keeps(answer, 0) && keeps(listing, 0), "write: with 0 nothing is written");
        return;
    }
    check(keeps(answer, DESTERLIN_WRITE_ANSWER), "write: octets past the answer keep their values");
    check_place(answer, DESTERLIN_WRITE_NUMBER);
    uint32_t number = desterlin_word(answer.octets, DESTERLIN_WRITE_NUMBER);
    uint32_t written = desterlin_word(answer.octets, DESTERLIN_WRITE_OCTETS);
    int is_written = number == DESTERLIN_ACCEPTED;
    check(number <= DESTERLIN_REFUSED_UTF8, "write: no reason above its own");
    check(written == (is_written ? parts.listing_size : 0), "write: the octets of the listing, or 0");
    check(keeps(listing, written), "write: octets past the listing keep their values, and all if refused");
    check(number != DESTERLIN_REFUSED_ROOM || listing.size < parts.listing_size, "write: 12 where there is no room alone");
    if (is_written)
        check_written(&parts, listing);
    if (parts.is_by_header)
        check_as_reported(answer, report);
    if (parts.is_by_header && is_written && report[DESTERLIN_REPORT_NUMBER] == DESTERLIN_ACCEPTED)
        check(memcmp(listing.octets, octets, size) == 0, "write: an accepted listing's parts give the same octets");
    tally[number]++;
}

void print_writes(void)
{
    printf("fuzz: their parts written %lu times, refused", tally[DESTERLIN_ACCEPTED]);
    for (size_t i = 1; i <= DESTERLIN_REFUSED_UTF8; i++)
        if (tally[i] > 0)
            printf(" %zu: %lu", i, tally[i]);
    printf("\n");
}
