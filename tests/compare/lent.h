/*
 * Buffers as they are lent to a call, so placed that a touch outside of them shows: between sentinels, or with one end at
 * memory that may be neither read nor written.
 */
#ifndef LENT_H
#define LENT_H

#include <stddef.h>
#include <stdint.h>

enum place {
    BETWEEN_SENTINELS,
    BEFORE_A_WALL, /* a touch past its end is a fault; sentinels before it */
    AFTER_A_WALL,  /* a touch before its start is a fault; sentinels after it */
    PLACES
};

/* The part of the memory that the buffers of one kind are lent from, with a wall at both ends. */
struct ground {
    uint8_t *start;
};

struct lent {
    uint8_t *octets;
    size_t size;
    enum place place;
    uint8_t fill;
};

struct ground make_ground(void);

/* Lends a buffer, filled as tests/second/src/cases/stream.rs says. An empty one may have any pointer: some are NULL. */
struct lent lend(struct ground ground, size_t size, enum place place, uint8_t fill);

/* Puts other octets into it, as many as it has room for. */
void put_octets(struct lent lent, const uint8_t *octets);

/* Is it still filled as it was lent? */
int keeps_fill(struct lent lent);

int keeps_sentinels_before(struct lent lent);
int keeps_sentinels_after(struct lent lent);

const char *words_of_place(struct lent lent);

#endif
