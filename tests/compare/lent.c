#define _DEFAULT_SOURCE /* MAP_ANONYMOUS */
#include "lent.h"

#include <stdio.h>
#include <stdlib.h>
#include <string.h>
#include <sys/mman.h>

#include "status.h"

/* Room for the longest listing and for all findings of any; pages that are never touched cost nothing. */
#define ROOM ((size_t)64 << 20)
/* The largest page of the machines that an emulator may run on: a wall has whole pages. */
#define WALL ((size_t)64 << 10)
/* More than a finding, an answer or a row of a table. */
#define SENTINELS 128

/* The fill repeats after 256 octets, so a stretch of it, begun at any of them, fills by copies and is compared as fast. */
#define PERIOD 256
/* Below the 2 KiB from which the C library copies by string instructions: those cost an emulator thirty times as much. */
#define STRETCH ((size_t)1 << 10)
static uint8_t filling[STRETCH + PERIOD];

struct ground make_ground(void)
{
    struct ground ground;
    for (size_t i = 0; i < sizeof filling; i++)
        filling[i] = (uint8_t)(37 * i);
    uint8_t *mapped = mmap(NULL, ROOM + 2 * WALL, PROT_NONE, MAP_PRIVATE | MAP_ANONYMOUS | MAP_NORESERVE, -1, 0);
    ground.start = mapped + WALL;
    if (mapped == MAP_FAILED || mprotect(ground.start, ROOM, PROT_READ | PROT_WRITE) != 0) {
        perror("compare: no memory for the buffers");
        exit(NOT_COMPARED);
    }
    return ground;
}

/* The stretch that is next: a whole one, or what is left. */
static size_t next_stretch(size_t left)
{
    return left < STRETCH ? left : STRETCH;
}

static void put_fill(uint8_t *octets, size_t size, uint8_t fill)
{
    for (size_t done = 0; done < size; done += STRETCH)
        memcpy(octets + done, filling + fill, next_stretch(size - done));
}

static int has_fill(const uint8_t *octets, size_t size, uint8_t fill)
{
    for (size_t done = 0; done < size; done += STRETCH)
        if (memcmp(octets + done, filling + fill, next_stretch(size - done)) != 0)
            return 0;
    return 1;
}

/* Sentinels differ from the fill of the buffer that they watch, at every place. */
static uint8_t fill_of_sentinels(struct lent lent)
{
    return lent.fill ^ 0x80;
}

static int is_nowhere(struct lent lent)
{
    return lent.octets == NULL;
}

static uint8_t *placed(struct ground ground, size_t size, enum place place, uint8_t fill)
{
    switch (place) {
    case BEFORE_A_WALL:
        return ground.start + ROOM - size;
    case AFTER_A_WALL:
        return size == 0 ? NULL : ground.start;
    default:
        /* A buffer needs no alignment: the fill varies from call to call, and so does the start. */
        return ground.start + SENTINELS + fill % 16;
    }
}

struct lent lend(struct ground ground, size_t size, enum place place, uint8_t fill)
{
    if (size > ROOM - 2 * SENTINELS - 16) {
        fprintf(stderr, "compare: a buffer of %zu octets is longer than any that a case needs\n", size);
        exit(NOT_COMPARED);
    }
    struct lent lent = { placed(ground, size, place, fill), size, place, fill };
    if (is_nowhere(lent))
        return lent;
    put_fill(lent.octets, size, fill);
    if (place != AFTER_A_WALL)
        put_fill(lent.octets - SENTINELS, SENTINELS, fill_of_sentinels(lent));
    if (place != BEFORE_A_WALL)
        put_fill(lent.octets + size, SENTINELS, fill_of_sentinels(lent));
    return lent;
}

void put_octets(struct lent lent, const uint8_t *octets)
{
    for (size_t done = 0; done < lent.size; done += STRETCH)
        memcpy(lent.octets + done, octets + done, next_stretch(lent.size - done));
}

int keeps_fill(struct lent lent)
{
    return has_fill(lent.octets, lent.size, lent.fill);
}

int keeps_sentinels_before(struct lent lent)
{
    return is_nowhere(lent) || lent.place == AFTER_A_WALL
        || has_fill(lent.octets - SENTINELS, SENTINELS, fill_of_sentinels(lent));
}

int keeps_sentinels_after(struct lent lent)
{
    return is_nowhere(lent) || lent.place == BEFORE_A_WALL
        || has_fill(lent.octets + lent.size, SENTINELS, fill_of_sentinels(lent));
}

const char *words_of_place(struct lent lent)
{
    static const char *const words[PLACES] = { "between sentinels", "before a wall", "after a wall" };
    return is_nowhere(lent) ? "at NULL" : words[lent.place];
}
