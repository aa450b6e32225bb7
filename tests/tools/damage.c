#include "damage.h"

#include <string.h>

enum { TOTAL_LENGTH_AT = 4, MOST_DAMAGES = 4, MOST_ADDED = 96 };

uint64_t draw(struct chance *chance)
{
    uint64_t mixed = chance->state += UINT64_C(0x9e3779b97f4a7c15);
    mixed = (mixed ^ (mixed >> 30)) * UINT64_C(0xbf58476d1ce4e5b9);
    mixed = (mixed ^ (mixed >> 27)) * UINT64_C(0x94d049bb133111eb);
    return mixed ^ (mixed >> 31);
}

size_t draw_below(struct chance *chance, size_t below)
{
    return (size_t)(draw(chance) % below);
}

static void put(uint8_t *octets, uint64_t value, size_t count)
{
    for (size_t i = 0; i < count; i++)
        octets[i] = (uint8_t)(value >> 8 * i);
}

uint64_t telling_number(struct chance *chance, size_t size)
{
    const uint64_t numbers[] = {
        0, 1, 2, 63, 64, 65, 255, 256, 257, 4095, 4096, 4097, size - 1, size, size + 1,
        UINT64_C(0x7fffffff), UINT64_C(0x80000000), UINT64_C(0xfffffffe), UINT64_C(0xffffffff), UINT64_C(0x100000000),
        UINT64_C(0x7fffffffffffffff), UINT64_C(0x8000000000000000), UINT64_C(0xffffffffffffffff),
        UINT64_C(0x0020000000000000), /* 2^53 */
        UINT64_C(0x3ff0000000000000), UINT64_C(0x4000000000000000), UINT64_C(0x4010000000000000), /* 1.0, 2.0, 4.0 */
        UINT64_C(0x7ff0000000000000), UINT64_C(0x7ff8000000000000), UINT64_C(0xfff0000000000000) /* infinity, NaN */
    };
    return numbers[draw_below(chance, sizeof numbers / sizeof numbers[0])];
}

/* The first and the last characters of two, three and four octets, and the last before the surrogates. Damage to
   their octets, or to a text that has them, makes them ill. */
static void put_telling_character(struct chance *chance, uint8_t *octets)
{
    static const char *const characters[] = {
        "\xc2\x80", "\xdf\xbf", "\xe0\xa0\x80", "\xed\x9f\xbf", "\xef\xbf\xbf", "\xf0\x90\x80\x80", "\xf4\x8f\xbf\xbf"
    };
    const char *character = characters[draw_below(chance, sizeof characters / sizeof characters[0])];
    memcpy(octets, character, strlen(character));
}

/* A place for so many octets, most often behind the header: a spoiled header has the rest never read. */
static size_t draw_place(struct chance *chance, size_t header, size_t size, size_t count)
{
    size_t first = size > header + count && draw_below(chance, 8) != 0 ? header : 0;
    size_t place = first + draw_below(chance, size - first - count + 1);
    return count == 1 ? place : place / 4 * 4;
}

static size_t one_damage(struct chance *chance, size_t header, uint8_t *octets, size_t size, size_t room)
{
    if (size < 8)
        return size;
    size_t place = draw_place(chance, header, size, 8);
    switch (draw_below(chance, 10)) {
    case 0:
        octets[draw_place(chance, header, size, 1)] = (uint8_t)draw(chance);
        return size;
    case 1:
        octets[draw_place(chance, header, size, 1)] ^= (uint8_t)(1u << draw_below(chance, 8));
        return size;
    case 2:
    case 3:
        put(octets + place, telling_number(chance, size), 4);
        return size;
    case 4:
    case 5:
        put(octets + place, telling_number(chance, size), 8);
        return size;
    case 6: { /* A row, or a part of one, over another. */
        size_t count = 8 * (1 + draw_below(chance, 8));
        if (count > size)
            return size;
        size_t target = draw_place(chance, header, size, count);
        memmove(octets + target, octets + draw_place(chance, header, size, count), count);
        return size;
    }
    case 7:
        put_telling_character(chance, octets + place + draw_below(chance, 5));
        return size;
    case 8:
        return draw_below(chance, 4) == 0 ? draw_below(chance, size + 1) : size - draw_below(chance, 9);
    default: {
        size_t more = draw_below(chance, MOST_ADDED + 1);
        size_t added = more < room - size ? more : room - size;
        for (size_t i = 0; i < added; i++)
            octets[size + i] = (uint8_t)draw(chance);
        return size + added;
    }
    }
}

size_t damage(struct chance *chance, size_t header, uint8_t *octets, size_t size, size_t room)
{
    size_t damages = draw_below(chance, MOST_DAMAGES + 1);
    for (size_t i = 0; i < damages; i++)
        size = one_damage(chance, header, octets, size, room);
    /* A true length lets the other damages through. */
    if (size >= header && draw_below(chance, 4) != 0)
        put(octets + TOTAL_LENGTH_AT, size, 4);
    return size;
}
