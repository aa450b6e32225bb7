#include "fuzz_lent.h"

#include <inttypes.h>
#include <stdio.h>
#include <stdlib.h>
#include <string.h>

#include "walled.h"

enum { SENTINELS = 64, FILLINGS = 251, SMALL_LISTING = 4096 };

volatile uint64_t input_number;

/* What buffers hold before a call: octets that differ from their neighbours, and from call to call by the place from
   which they are taken. */
static uint8_t filling[DESTERLIN_WORK_FULL + SENTINELS + FILLINGS];

struct room make_room(size_t most)
{
    uint8_t *start = walled(SENTINELS + most);
    for (size_t i = 0; i < sizeof filling; i++)
        filling[i] = (uint8_t)(37 * i);
    return (struct room){ start + SENTINELS + most, start };
}

struct lent lend(struct chance *chance, struct room *room, size_t size)
{
    struct lent lent = { room->wall - size, size, draw_below(chance, FILLINGS) };
    uint8_t *sentinels = lent.octets - SENTINELS;
    uint8_t *allowed = room->start < sentinels ? room->start : sentinels;
    allow(sentinels, SENTINELS + size);
    memcpy(sentinels, filling + lent.fill, SENTINELS + size);
    forbid(allowed, (size_t)(lent.octets - allowed));
    room->start = lent.octets;
    /* An empty buffer may have any pointer. */
    if (size == 0 && draw_below(chance, 2) == 0)
        lent.octets = NULL;
    return lent;
}

struct lent lend_octets(struct chance *chance, struct room *room, const uint8_t *octets, size_t size)
{
    struct lent lent = lend(chance, room, size);
    if (size > 0)
        memcpy(lent.octets, octets, size);
    return lent;
}

size_t draw_damaged(struct chance *chance, const struct stock *stock, size_t header, uint8_t *octets)
{
    size_t which = draw_below(chance, stock->count);
    /* Long listings take long; they come seldom. */
    for (int tries = 0; tries < 8 && stock->size[which] > SMALL_LISTING; tries++)
        which = draw_below(chance, stock->count);
    memcpy(octets, stock->octets[which], stock->size[which]);
    return damage(chance, header, octets, stock->size[which], LISTING_ROOM);
}

int keeps(struct lent lent, size_t from)
{
    if (lent.octets == NULL)
        return 1;
    allow(lent.octets - SENTINELS, SENTINELS);
    int is_kept = memcmp(lent.octets - SENTINELS, filling + lent.fill, SENTINELS) == 0
        && memcmp(lent.octets + from, filling + lent.fill + SENTINELS + from, lent.size - from) == 0;
    forbid(lent.octets - SENTINELS, SENTINELS);
    return is_kept;
}

int keeps_octets(struct lent lent, const uint8_t *octets)
{
    return (lent.size == 0 || memcmp(lent.octets, octets, lent.size) == 0) && keeps(lent, lent.size);
}

size_t draw_answer_size(struct chance *chance, size_t whole)
{
    return draw_below(chance, 8) == 0 ? draw_below(chance, whole) : whole + draw_below(chance, ANSWER_ROOM - whole + 1);
}

size_t draw_work_size(struct chance *chance)
{
    switch (draw_below(chance, 16)) {
    case 0: return draw_below(chance, 64) == 0 ? DESTERLIN_WORK_FULL : 0;
    case 1: return 32768;
    default: return draw_below(chance, 2000);
    }
}

void check(int is_kept, const char *promise)
{
    if (!is_kept) {
        printf("input %" PRIu64 ": broken promise: %s\n", input_number, promise);
        exit(1);
    }
}

void check_place(struct lent answer, size_t at)
{
    check_place_in(answer, at, DESTERLIN_REFERENCE_SYSTEMS, DESTERLIN_NAME_OCTETS);
}

void check_place_in(struct lent answer, size_t at, uint32_t first, uint32_t last)
{
    uint32_t number = desterlin_word(answer.octets, at);
    uint32_t table = desterlin_word(answer.octets, at + 1), row = desterlin_word(answer.octets, at + 2);
    int has_place = (number >= DESTERLIN_REFUSED_COUNT && number <= DESTERLIN_REFUSED_FLAG)
        || number == DESTERLIN_REFUSED_PART || number == DESTERLIN_REFUSED_UTF8 || number == DESTERLIN_REFUSED_COLUMN;
    check(has_place ? table >= first && table <= last : table == 0 && row == 0,
          "a place for reasons 5 to 8, 11, 13 and 14 alone");
}
