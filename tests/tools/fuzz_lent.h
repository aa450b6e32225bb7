/*
 * Buffers as the fuzzer lends them: each ends at a wall, with sentinels before it, and starts at any alignment; under
 * AddressSanitizer what lies before it is forbidden while it is lent.
 */
#ifndef FUZZ_LENT_H
#define FUZZ_LENT_H

#include <stddef.h>
#include <stdint.h>

#include "damage.h"
#include "desterlin.h"

enum { LISTING_ROOM = 66000, ANSWER_ROOM = 40, MOST_LISTINGS = 64 };

/* Listings of one kind, to be damaged before they are lent. */
struct stock {
    size_t count;
    uint8_t *octets[MOST_LISTINGS];
    size_t size[MOST_LISTINGS];
};

/* A buffer in its room, filled from this place of the filling on. */
struct lent {
    uint8_t *octets;
    size_t size;
    size_t fill;
};

/* What the buffers of one kind are lent from: they end at the wall, and the one that is lent now starts here. */
struct room {
    uint8_t *wall, *start;
};

/* Room for so many octets, at most DESTERLIN_WORK_FULL. */
struct room make_room(size_t most);

struct lent lend(struct chance *chance, struct room *room, size_t size);

/* A buffer that holds these octets. */
struct lent lend_octets(struct chance *chance, struct room *room, const uint8_t *octets, size_t size);

/* Puts one of these listings, which have headers of so many octets, into a buffer of LISTING_ROOM octets, and damages
   it there. Returns its size. */
size_t draw_damaged(struct chance *chance, const struct stock *stock, size_t header, uint8_t *octets);

/* Are the octets from this place on, and the sentinels before the buffer, as they were lent? */
int keeps(struct lent lent, size_t from);

/* Does it still hold these octets, and are its sentinels as they were lent? */
int keeps_octets(struct lent lent, const uint8_t *octets);

/* The size of an answer buffer for so many octets, seldom too short. */
size_t draw_answer_size(struct chance *chance, size_t whole);

/* The size of a workspace, most often a small one. */
size_t draw_work_size(struct chance *chance);

/* The number of the input that is tried: a message names it. */
extern volatile uint64_t input_number;

/* Ends the program with a message where a promise is broken. */
void check(int is_kept, const char *promise);

/* What holds for number and place in every answer, the number being this word of it; the tables are those of a listing,
   or the ones from the first to the last. */
void check_place(struct lent answer, size_t at);
void check_place_in(struct lent answer, size_t at, uint32_t first, uint32_t last);

#endif
