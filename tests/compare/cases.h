/*
 * Reads the stream of cases that `second cases` writes. tests/second/src/cases/stream.rs lays the stream down.
 *
 * A stream that is not as laid down, or that breaks off, ends the program with a message and status NOT_COMPARED.
 */
#ifndef CASES_H
#define CASES_H

#include <stddef.h>
#include <stdint.h>

enum asked {
    REPORT = 1,
    VERDICT = 2,
    LOOKUP = 3,
    WRITE = 4,
    FILL = 5,
    REPORT_COLUMNS = 6,
    LOOKUP_COLUMNS = 7,
    REPORT_METADATA = 8,
    ASKED
};

/* Octets that grow with what is read into them. */
struct octets {
    uint8_t *at;
    size_t size, room;
};

/* What calls are given: a listing, alone, with a metadata listing or with its four columns, or the seven parts of one. */
enum { A_LISTING = 1, WITH_METADATA = 2, WITH_COLUMNS = 5, PARTS = 7 };

struct given {
    struct octets origin; /* the commands that make it, without the first "second", not ended by a 0 */
    uint32_t strings;     /* A_LISTING, WITH_METADATA, WITH_COLUMNS or PARTS */
    struct octets string[PARTS];
    uint32_t calls; /* how many follow */
};

struct call {
    enum asked asked;
    uint32_t number; /* the code of a verdict, the contents row of a lookup */
    int64_t zoom, column, row;
    /* output: the findings of a report, the listing of a write, the columns of a fill one after the other */
    size_t output_size, work_size, answer_size;
    uint8_t fill;
    /* what must come of it */
    uint32_t returned;
    uint32_t keeps_work;
    struct octets output, answer;
};

/* Reads the mark at the start. */
void read_mark(void);

/* Reads what the next calls are given. Returns 0 at the end of the stream, once its counts are checked. */
int read_given(struct given *given);

/* Reads a call on what is given. */
void read_call(const struct given *given, struct call *call);

#endif
