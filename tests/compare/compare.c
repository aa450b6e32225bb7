/*
 * Makes the calls of a stream of cases (standard input; cases.h) on the proved library, and holds what each one returns
 * and every octet of every buffer against what the second program says. What was written must also be accepted.
 *
 * Prints each difference, the first MOST_PRINTED of them, and last a line with counts. Exit status: status.h.
 */
#define _POSIX_C_SOURCE 200809L /* SIGBUS, SIGTRAP */
#include <inttypes.h>
#include <signal.h>
#include <stdarg.h>
#include <stdio.h>
#include <stdlib.h>
#include <string.h>

#include "beyond.h"
#include "cases.h"
#include "desterlin.h"
#include "lent.h"
#include "status.h"

enum { MOST_PRINTED = 20 };

/* What is given comes first: the listing, and with it the metadata or the columns, or the parts in their order. */
enum buffer {
    GIVEN,
    METADATA = GIVEN + A_LISTING,
    COLUMNS = GIVEN + A_LISTING,
    OUTPUT = GIVEN + PARTS,
    WORK,
    ANSWER,
    BUFFERS
};

/* The case that is being tried. The handler of a fault tells of it too, so it is the one thing that all can see. */
static struct {
    struct given given;
    struct call call;
    struct lent lent[BUFFERS];
    volatile sig_atomic_t is_calling;
} tried;

static struct {
    unsigned long listings, with_metadata, with_columns, parts, calls[ASKED], written, short_answers, differences;
} counts;

static int has_buffer(enum buffer buffer)
{
    enum asked asked = tried.call.asked;
    switch (buffer) {
    case OUTPUT:
        return asked == REPORT || asked == WRITE || asked == REPORT_COLUMNS || asked == REPORT_METADATA;
    case WORK:
        return asked == REPORT || asked == VERDICT || asked == REPORT_COLUMNS || asked == REPORT_METADATA;
    case ANSWER:
        return 1;
    default:
        return buffer < GIVEN + tried.given.strings;
    }
}

/* Is it a column that the call writes? Those that are read are given with what they hold. */
static int is_to_be_filled(enum buffer buffer)
{
    return tried.call.asked == FILL && buffer >= COLUMNS && buffer < OUTPUT;
}

static const char *name_of_given(enum buffer buffer)
{
    static const char *const parts[PARTS] = { "references", "contents",   "sets", "matrices",
                                              "tiles",      "extensions", "names" };
    static const char *const listing_and_columns[WITH_COLUMNS] = { "listing", "firsts", "zooms", "columns", "rows" };
    if (tried.given.strings == WITH_METADATA && buffer == METADATA)
        return "metadata";
    return (tried.given.strings == PARTS ? parts : listing_and_columns)[buffer - GIVEN];
}

static const char *name_of(enum buffer buffer)
{
    switch (buffer) {
    case OUTPUT:
        return tried.call.asked == WRITE ? "listing" : "findings";
    case WORK:
        return "work";
    case ANSWER:
        return "answer";
    default:
        return name_of_given(buffer);
    }
}

/* The case as commands that repeat it, and then what the commands cannot tell. */
static void print_case(void)
{
    static const char *const commands[ASKED] = {
        "", "judge", "verdict", "lookup", "write", "fill", "judge-columns", "lookup-columns", "judge-metadata"
    };
    const struct call *call = &tried.call;
    printf("second %.*s | second %s", (int)tried.given.origin.size, (const char *)tried.given.origin.at,
           commands[call->asked]);
    if (call->asked == VERDICT)
        printf(" %" PRIu32, call->number);
    else if (call->asked == LOOKUP || call->asked == LOOKUP_COLUMNS)
        printf(" %" PRIu32 " %" PRId64 " %" PRId64 " %" PRId64, call->number, call->zoom, call->column, call->row);
    else if (call->asked == WRITE)
        printf(" %zu", call->output_size);
    printf(" (fill %u", call->fill);
    for (enum buffer buffer = GIVEN; buffer < BUFFERS; buffer++)
        if (has_buffer(buffer))
            printf(", %s of %zu octets %s", name_of(buffer), tried.lent[buffer].size, words_of_place(tried.lent[buffer]));
    printf(")");
}

static void differs(const char *format, ...)
{
    va_list values;
    counts.differences++;
    if (counts.differences > MOST_PRINTED)
        return;
    printf("difference: ");
    print_case();
    printf(": ");
    va_start(values, format);
    vprintf(format, values);
    va_end(values);
    printf("\n");
}

static void print_counts(void)
{
    printf("compared %lu listings in %lu reports, %lu verdicts and %lu lookups, the parts of %lu in %lu writes, of which "
           "%lu wrote a listing that is accepted, the columns of %lu in %lu fills, %lu reports and %lu lookups, and the "
           "metadata of %lu in %lu reports; %lu calls with an answer too short: %lu differences\n",
           counts.listings, counts.calls[REPORT], counts.calls[VERDICT], counts.calls[LOOKUP], counts.parts,
           counts.calls[WRITE], counts.written, counts.with_columns, counts.calls[FILL], counts.calls[REPORT_COLUMNS],
           counts.calls[LOOKUP_COLUMNS], counts.with_metadata, counts.calls[REPORT_METADATA], counts.short_answers,
           counts.differences);
}

/*
 * A touch at a wall, or at no memory at all, or an instruction that stops the program. What was interrupted is the library,
 * which uses nothing of stdio, so printing is safe here. The run ends: what the call would have done next nobody knows.
 */
static void on_fault(int number)
{
    if (!tried.is_calling) {
        signal(number, SIG_DFL);
        raise(number);
        return;
    }
    if (number == SIGSEGV || number == SIGBUS)
        differs("touches memory that was not lent to it");
    else
        differs("is stopped by signal %d", number);
    print_counts();
    fflush(stdout);
    _Exit(SOME_DIFFERENT);
}

/* Tells of the first octet that differs, and of the word that it stands in, if that is whole. */
static void compare_octets(enum buffer buffer, const uint8_t *must)
{
    const struct lent *lent = &tried.lent[buffer];
    size_t at = 0;
    if (lent->size == 0 || memcmp(lent->octets, must, lent->size) == 0)
        return;
    while (lent->octets[at] == must[at])
        at++;
    size_t word = at / 4;
    if (buffer < OUTPUT || 4 * word + 4 > lent->size)
        differs("octet %zu of %s is %u, must be %u", at, name_of(buffer), lent->octets[at], must[at]);
    else
        differs("octet %zu of %s: word %zu is %" PRIu32 ", must be %" PRIu32, at, name_of(buffer), word,
                desterlin_word(lent->octets, word), desterlin_word(must, word));
}

/* What a column must hold after a fill. */
static const uint8_t *column_after(enum buffer buffer)
{
    const uint8_t *column = tried.call.output.at;
    for (enum buffer before = COLUMNS; before < buffer; before++)
        column += tried.lent[before].size;
    return column;
}

/* What a buffer must hold after the call. */
static const uint8_t *octets_after(enum buffer buffer)
{
    switch (buffer) {
    case OUTPUT:
        return tried.call.output.at;
    case ANSWER:
        return tried.call.answer.at;
    default:
        return is_to_be_filled(buffer) ? column_after(buffer) : tried.given.string[buffer - GIVEN].at;
    }
}

static void compare(uint32_t returned)
{
    const struct call *call = &tried.call;
    if (returned != call->returned)
        differs("returns %" PRIu32 ", must return %" PRIu32, returned, call->returned);
    for (enum buffer buffer = GIVEN; buffer < BUFFERS; buffer++) {
        if (!has_buffer(buffer))
            continue;
        if (buffer != WORK)
            compare_octets(buffer, octets_after(buffer));
        else if (call->keeps_work && !keeps_fill(tried.lent[WORK]))
            differs("writes to work, which it must not where it is refused or its answer too short");
        if (!keeps_sentinels_before(tried.lent[buffer]))
            differs("writes before the start of %s", name_of(buffer));
        if (!keeps_sentinels_after(tried.lent[buffer]))
            differs("writes past the end of %s", name_of(buffer));
    }
}

/* Has the call, which is a write, written a listing? */
static int has_written(void)
{
    const struct call *call = &tried.call;
    return call->returned == 1 && desterlin_word(call->answer.at, DESTERLIN_WRITE_NUMBER) == DESTERLIN_ACCEPTED;
}

/* What was written must be accepted as it stands in the buffer. 171 is asked, which looks at the contents alone. */
static void read_back(void)
{
    uint8_t answer[DESTERLIN_VERDICT_ANSWER];
    uint32_t octets = desterlin_word(tried.call.answer.at, DESTERLIN_WRITE_OCTETS);
    desterlin_verdict(tried.lent[OUTPUT].octets, octets, 171, NULL, 0, answer, sizeof answer);
    uint32_t number = desterlin_word(answer, DESTERLIN_VERDICT_NUMBER);
    if (number != DESTERLIN_ACCEPTED)
        differs("writes a listing that is then refused for reason %" PRIu32, number);
    counts.written++;
}

static uint32_t returned_by_write(void)
{
    const struct lent *part = &tried.lent[GIVEN], *listing = &tried.lent[OUTPUT], *answer = &tried.lent[ANSWER];
    return desterlin_write(part[0].octets, part[0].size, part[1].octets, part[1].size, part[2].octets, part[2].size,
                           part[3].octets, part[3].size, part[4].octets, part[4].size, part[5].octets, part[5].size,
                           part[6].octets, part[6].size, listing->octets, listing->size, answer->octets, answer->size);
}

static uint32_t returned_by_fill(void)
{
    const struct lent *listing = &tried.lent[GIVEN], *column = &tried.lent[COLUMNS], *answer = &tried.lent[ANSWER];
    return desterlin_fill(listing->octets, listing->size, column[0].octets, column[0].size, column[1].octets,
                          column[1].size, column[2].octets, column[2].size, column[3].octets, column[3].size,
                          answer->octets, answer->size);
}

static uint32_t returned_by_report_columns(void)
{
    const struct lent *listing = &tried.lent[GIVEN], *column = &tried.lent[COLUMNS];
    const struct lent *findings = &tried.lent[OUTPUT], *work = &tried.lent[WORK], *answer = &tried.lent[ANSWER];
    return desterlin_report_columns(listing->octets, listing->size, column[0].octets, column[0].size, column[1].octets,
                                    column[1].size, column[2].octets, column[2].size, column[3].octets, column[3].size,
                                    findings->octets, findings->size, work->octets, work->size, answer->octets,
                                    answer->size);
}

static uint32_t returned_by_lookup_columns(void)
{
    const struct call *call = &tried.call;
    const struct lent *listing = &tried.lent[GIVEN], *column = &tried.lent[COLUMNS], *answer = &tried.lent[ANSWER];
    return desterlin_lookup_columns(listing->octets, listing->size, column[0].octets, column[0].size, column[1].octets,
                                    column[1].size, column[2].octets, column[2].size, column[3].octets, column[3].size,
                                    call->number, call->zoom, call->column, call->row, answer->octets, answer->size);
}

static uint32_t returned_by_report_metadata(void)
{
    const struct lent *listing = &tried.lent[GIVEN], *metadata = &tried.lent[METADATA];
    const struct lent *findings = &tried.lent[OUTPUT], *work = &tried.lent[WORK], *answer = &tried.lent[ANSWER];
    return desterlin_report_metadata(listing->octets, listing->size, metadata->octets, metadata->size, findings->octets,
                                     findings->size, work->octets, work->size, answer->octets, answer->size);
}

static uint32_t returned_by_call(void)
{
    const struct call *call = &tried.call;
    const struct lent *listing = &tried.lent[GIVEN], *findings = &tried.lent[OUTPUT];
    const struct lent *work = &tried.lent[WORK], *answer = &tried.lent[ANSWER];
    switch (call->asked) {
    case REPORT:
        return desterlin_report(listing->octets, listing->size, findings->octets, findings->size, work->octets,
                                work->size, answer->octets, answer->size);
    case VERDICT:
        return desterlin_verdict(listing->octets, listing->size, call->number, work->octets, work->size, answer->octets,
                                 answer->size);
    case LOOKUP:
        return desterlin_lookup(listing->octets, listing->size, call->number, call->zoom, call->column, call->row,
                                answer->octets, answer->size);
    case FILL:
        return returned_by_fill();
    case REPORT_COLUMNS:
        return returned_by_report_columns();
    case LOOKUP_COLUMNS:
        return returned_by_lookup_columns();
    case REPORT_METADATA:
        return returned_by_report_metadata();
    default:
        return returned_by_write();
    }
}

static size_t size_of(enum buffer buffer)
{
    switch (buffer) {
    case OUTPUT:
        return tried.call.output_size;
    case WORK:
        return tried.call.work_size;
    case ANSWER:
        return tried.call.answer_size;
    default:
        return tried.given.string[buffer - GIVEN].size;
    }
}

/*
 * Lends the buffers. The fill, which is any octet, chooses where they are placed: so a case repeats exactly. Mixed by
 * this factor, the 256 fills have any two buffers in any two places.
 */
static void lend_buffers(const struct ground *grounds)
{
    uint8_t fill = tried.call.fill;
    uint32_t combination = (fill * UINT32_C(0xc2b2ae35)) >> 8;
    for (enum buffer buffer = GIVEN; buffer < BUFFERS; buffer++) {
        if (!has_buffer(buffer))
            continue;
        tried.lent[buffer] = lend(grounds[buffer], size_of(buffer), (enum place)(combination % PLACES), fill);
        combination /= PLACES;
        if (buffer < OUTPUT && !is_to_be_filled(buffer))
            put_octets(tried.lent[buffer], tried.given.string[buffer - GIVEN].at);
    }
}

static void try_call(const struct ground *grounds)
{
    read_call(&tried.given, &tried.call);
    lend_buffers(grounds);
    tried.is_calling = 1;
    uint32_t returned = returned_by_call();
    tried.is_calling = 0;
    unsigned long differences = counts.differences;
    compare(returned);
    counts.calls[tried.call.asked]++;
    counts.short_answers += tried.call.returned == 0;
    if (tried.call.asked == WRITE && counts.differences == differences && has_written())
        read_back();
}

static void count_given(void)
{
    switch (tried.given.strings) {
    case PARTS:
        counts.parts++;
        break;
    case WITH_METADATA:
        counts.with_metadata++;
        break;
    case WITH_COLUMNS:
        counts.with_columns++;
        break;
    default:
        counts.listings++;
    }
}

static void watch_for_faults(void)
{
    static const int faults[] = { SIGSEGV, SIGBUS, SIGFPE, SIGILL, SIGTRAP, SIGABRT };
    for (size_t i = 0; i < sizeof faults / sizeof faults[0]; i++)
        signal(faults[i], on_fault);
}

int main(void)
{
    struct ground grounds[BUFFERS];
    for (enum buffer buffer = GIVEN; buffer < BUFFERS; buffer++)
        grounds[buffer] = make_ground();
    counts.differences = compare_beyond_a_word();
    watch_for_faults();
    read_mark();
    while (read_given(&tried.given)) {
        for (uint32_t i = 0; i < tried.given.calls; i++)
            try_call(grounds);
        count_given();
    }
    print_counts();
    return counts.differences == 0 ? ALL_SAME : SOME_DIFFERENT;
}
