#include "cases.h"

#include <stdio.h>
#include <stdlib.h>
#include <string.h>

#include "status.h"

static uint32_t given_read, calls_read;

static void broken(const char *words)
{
    fprintf(stderr, "compare: the stream of cases is broken: %s\n", words);
    exit(NOT_COMPARED);
}

static void read_octets(struct octets *octets, size_t size)
{
    if (size > octets->room) {
        octets->at = realloc(octets->at, size);
        octets->room = size;
        if (octets->at == NULL)
            broken("too long for the memory");
    }
    octets->size = size;
    if (size > 0 && fread(octets->at, 1, size, stdin) != size)
        broken("it breaks off");
}

static uint64_t read_number(size_t size)
{
    uint8_t octets[8];
    uint64_t number = 0;
    if (fread(octets, 1, size, stdin) != size)
        broken("it breaks off");
    for (size_t i = size; i > 0; i--)
        number = number << 8 | octets[i - 1];
    return number;
}

static uint32_t read_u32(void)
{
    return (uint32_t)read_number(4);
}

static int64_t read_i64(void)
{
    return (int64_t)read_number(8);
}

void read_mark(void)
{
    static const char mark[] = "cases 4\n";
    struct octets read = { 0 };
    read_octets(&read, sizeof mark - 1);
    if (memcmp(read.at, mark, read.size) != 0)
        broken("it does not begin with its mark");
    free(read.at);
}

static void check_end(void)
{
    if (read_u32() != given_read || read_u32() != calls_read)
        broken("its counts are not those of what it has");
    if (getchar() != EOF)
        broken("it goes on after its end");
    if (calls_read == 0)
        broken("it has no calls");
}

int read_given(struct given *given)
{
    given->strings = read_u32();
    if (given->strings == 0) {
        check_end();
        return 0;
    }
    if (given->strings != A_LISTING && given->strings != WITH_METADATA && given->strings != WITH_COLUMNS
        && given->strings != PARTS)
        broken("neither a listing, nor one with metadata or columns, nor parts, nor the end");
    read_octets(&given->origin, read_u32());
    for (uint32_t i = 0; i < given->strings; i++)
        read_octets(&given->string[i], read_u32());
    given->calls = read_u32();
    given_read++;
    return 1;
}

static int may_be_asked(const struct given *given, uint32_t asked)
{
    switch (given->strings) {
    case PARTS:
        return asked == WRITE;
    case WITH_METADATA:
        return asked == REPORT_METADATA;
    case WITH_COLUMNS:
        return asked == FILL || asked == REPORT_COLUMNS || asked == LOOKUP_COLUMNS;
    default:
        return asked == REPORT || asked == VERDICT || asked == LOOKUP;
    }
}

/* The octets of the strings behind the first, all together. */
static size_t size_of_columns(const struct given *given)
{
    size_t size = 0;
    for (uint32_t i = 1; i < given->strings; i++)
        size += given->string[i].size;
    return size;
}

void read_call(const struct given *given, struct call *call)
{
    uint32_t asked = read_u32();
    if (!may_be_asked(given, asked))
        broken("a call of no kind, or of none for what is given");
    call->asked = (enum asked)asked;
    call->number = read_u32();
    call->zoom = read_i64();
    call->column = read_i64();
    call->row = read_i64();
    call->output_size = read_u32();
    if (asked == FILL && call->output_size != size_of_columns(given))
        broken("a fill does not keep the lengths of its columns");
    call->work_size = read_u32();
    call->answer_size = read_u32();
    call->fill = (uint8_t)read_u32();
    call->returned = read_u32();
    call->keeps_work = read_u32();
    read_octets(&call->output, call->output_size);
    read_octets(&call->answer, call->answer_size);
    calls_read++;
}
