/* Damaged listings, each decided by a number alone. */
#ifndef DAMAGE_H
#define DAMAGE_H

#include <stddef.h>
#include <stdint.h>

/* A source of numbers that look like chance; equal seeds give equal numbers (splitmix64). */
struct chance {
    uint64_t state;
};

uint64_t draw(struct chance *chance);

/* A number from 0 to below, which is above 0. */
size_t draw_below(struct chance *chance, size_t below);

/* A number at which a reader that is wrong by one, or that wraps, goes wrong: some of them are next to a size. */
uint64_t telling_number(struct chance *chance, size_t size);

/*
 * Spoils a listing that has a header of so many octets and stands in a buffer of `room` octets, and returns its new
 * size, which is at most that.
 */
size_t damage(struct chance *chance, size_t header, uint8_t *octets, size_t size, size_t room);

#endif
