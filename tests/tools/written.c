/*
 * desterlin_write as a C or C++ program calls it, with everything shown that the call may touch: C99 and C++11.
 *
 *     written ROOM ANSWER < PARTS      lends a buffer of ROOM octets and an answer of ANSWER octets
 *
 * PARTS are as for tools/call-library.c. The output is what was returned, as an octet, then the answer and then the
 * buffer, each with GUARD octets before and behind it, which all were MARK before the call. What they should be is for
 * test_write.py to say.
 *
 * Exit status: 0 the call was made; 2 called wrongly.
 */
#include <stdio.h>
#include <stdlib.h>
#include <string.h>

#include "desterlin.h"

enum { PARTS = 7, GUARD = 64, MARK = 0xa5 };

/* A buffer of so many octets between its guards. */
static uint8_t *marked(size_t size)
{
    uint8_t *octets = (uint8_t *)malloc(size + 2 * GUARD);
    if (octets == NULL)
        exit(2);
    memset(octets, MARK, size + 2 * GUARD);
    return octets;
}

int main(int count, char **words)
{
    uint8_t sizes[8 * PARTS];
    uint8_t *parts[PARTS];
    size_t size[PARTS];
    if (count != 3 || fread(sizes, 1, sizeof sizes, stdin) != sizeof sizes)
        return 2;
    for (size_t i = 0; i < PARTS; i++) {
        size[i] = desterlin_word(sizes, 2 * i);
        parts[i] = (uint8_t *)malloc(size[i] + 1);
        if (parts[i] == NULL || fread(parts[i], 1, size[i], stdin) != size[i])
            return 2;
    }
    size_t room = strtoul(words[1], NULL, 10), answer_size = strtoul(words[2], NULL, 10);
    uint8_t *buffer = marked(room), *answer = marked(answer_size);
    uint32_t returned = desterlin_write(
        parts[0], size[0], parts[1], size[1], parts[2], size[2], parts[3], size[3], parts[4], size[4],
        parts[5], size[5], parts[6], size[6], buffer + GUARD, room, answer + GUARD, answer_size);
    putchar((int)returned);
    fwrite(answer, 1, answer_size + 2 * GUARD, stdout);
    fwrite(buffer, 1, room + 2 * GUARD, stdout);
    return fflush(stdout) == 0 ? 0 : 2;
}
