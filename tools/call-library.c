/*
 * The proved library as a program, which the tools build and run. Its one word says what is asked for:
 *
 *     call-library report < LISTING        the listing's findings, in the lines of the desk program ("finding CODE ROW
 *                                          PARTNER" with "-" for none, then "total N"), without that program's limits
 *     call-library report-metadata < BOTH  the findings of a metadata listing beside a listing, in the same lines
 *     call-library write < PARTS           a line "written OCTETS", and then so many octets: the listing of these parts
 *
 * In place of each there may be the line "refused NUMBER TABLE ROW". PARTS are the sizes of the seven parts, each a
 * little-endian number of 64 bits, and then the parts, one after the other. BOTH are a listing and a metadata listing,
 * as two such parts.
 *
 * Exit status: 0 there is an answer, or a refusal; 2 there is none, since something could not be read or written.
 */
#include <inttypes.h>
#include <stdio.h>
#include <stdlib.h>
#include <string.h>

#include "desterlin.h"

enum { ANSWERED = 0, FAILED = 2 };

/* Room for the findings of an ordinary pack; one with more of them is judged a second time. */
enum { ORDINARY = 4096 * DESTERLIN_FINDING };

enum { PARTS = 7, LISTINGS = 2 };

/* What is read: a listing, a metadata listing beside it, or parts of a listing. */
struct part {
    uint8_t *octets;
    size_t size;
};

/* One octet more than the most has a listing refused as too long, however long it is. */
static uint8_t listing[DESTERLIN_LISTING_MOST + 1];
static uint8_t work[DESTERLIN_WORK_FULL];
static uint8_t ordinary[ORDINARY];
static struct part parts[PARTS];

static int failed(const char *words)
{
    fprintf(stderr, "call-library: %s\n", words);
    return FAILED;
}

/* Prints the refusal of an answer that has one: its table and row stand behind its number, whose place is given. */
static int print_if_refused(const uint8_t *answer, size_t place)
{
    uint32_t number = desterlin_word(answer, place);
    if (number == DESTERLIN_ACCEPTED)
        return 0;
    printf("refused %" PRIu32 " %" PRIu32 " %" PRIu32 "\n", number,
           desterlin_word(answer, place + 1), desterlin_word(answer, place + 2));
    return 1;
}

static void print_row(uint32_t row, char after)
{
    if (row == DESTERLIN_NONE)
        printf("-%c", after);
    else
        printf("%" PRIu32 "%c", row, after);
}

static void print_findings(const uint8_t *findings, uint32_t written)
{
    for (uint32_t i = 0; i < written; i++) {
        struct desterlin_finding finding = desterlin_finding_at(findings, i);
        printf("finding %" PRIu32 " ", finding.code);
        print_row(finding.row, ' ');
        print_row(finding.partner, '\n');
    }
}

/* A report on what is read, with this room for its findings. */
typedef void report_call(uint8_t *findings, size_t findings_size, uint8_t answer[DESTERLIN_REPORT_ANSWER]);

static void call_report(uint8_t *findings, size_t findings_size, uint8_t answer[DESTERLIN_REPORT_ANSWER])
{
    desterlin_report(parts[0].octets, parts[0].size, findings, findings_size, work, sizeof work,
                     answer, DESTERLIN_REPORT_ANSWER);
}

static void call_report_metadata(uint8_t *findings, size_t findings_size, uint8_t answer[DESTERLIN_REPORT_ANSWER])
{
    desterlin_report_metadata(parts[0].octets, parts[0].size, parts[1].octets, parts[1].size, findings, findings_size,
                              work, sizeof work, answer, DESTERLIN_REPORT_ANSWER);
}

static int print_report(report_call *call)
{
    uint8_t answer[DESTERLIN_REPORT_ANSWER];
    uint8_t *findings = ordinary;
    call(ordinary, sizeof ordinary, answer);
    if (print_if_refused(answer, DESTERLIN_REPORT_NUMBER))
        return ANSWERED;
    uint32_t total = desterlin_word(answer, DESTERLIN_REPORT_TOTAL);
    if (desterlin_word(answer, DESTERLIN_REPORT_WRITTEN) < total) {
        size_t findings_size = (size_t)total * DESTERLIN_FINDING;
        findings = malloc(findings_size);
        if (findings == NULL)
            return failed("no memory for the findings");
        call(findings, findings_size, answer);
    }
    print_findings(findings, desterlin_word(answer, DESTERLIN_REPORT_WRITTEN));
    printf("total %" PRIu32 "\n", total);
    if (findings != ordinary)
        free(findings);
    return ANSWERED;
}

static int report(void)
{
    parts[0].octets = listing;
    parts[0].size = fread(listing, 1, sizeof listing, stdin);
    if (ferror(stdin))
        return failed("the listing cannot be read");
    return print_report(call_report);
}

/* A part may be of any size: whether a listing can carry it is for the library to say. */
static int read_part(struct part *part, uint64_t size)
{
    if (size == 0)
        return ANSWERED;
    part->size = (size_t)size;
    part->octets = part->size == size ? malloc(part->size) : NULL;
    if (part->octets == NULL)
        return failed("no memory for the parts");
    if (fread(part->octets, 1, part->size, stdin) != part->size)
        return failed("the parts break off, or cannot be read");
    return ANSWERED;
}

static int read_parts(size_t count)
{
    uint8_t sizes[8 * PARTS];
    if (fread(sizes, 8, count, stdin) != count)
        return failed("the sizes of the parts break off, or cannot be read");
    for (size_t i = 0; i < count; i++) {
        uint64_t size = desterlin_word(sizes, 2 * i) | (uint64_t)desterlin_word(sizes, 2 * i + 1) << 32;
        if (read_part(&parts[i], size) != ANSWERED)
            return FAILED;
    }
    return getchar() == EOF ? ANSWERED : failed("there are more octets than the parts have");
}

static int report_metadata(void)
{
    return read_parts(LISTINGS) == ANSWERED ? print_report(call_report_metadata) : FAILED;
}

static int write_listing(void)
{
    if (read_parts(PARTS) != ANSWERED)
        return FAILED;
    uint8_t answer[DESTERLIN_WRITE_ANSWER];
    desterlin_write(parts[0].octets, parts[0].size, parts[1].octets, parts[1].size, parts[2].octets, parts[2].size,
                    parts[3].octets, parts[3].size, parts[4].octets, parts[4].size, parts[5].octets, parts[5].size,
                    parts[6].octets, parts[6].size, listing, sizeof listing, answer, sizeof answer);
    if (print_if_refused(answer, DESTERLIN_WRITE_NUMBER))
        return ANSWERED;
    uint32_t octets = desterlin_word(answer, DESTERLIN_WRITE_OCTETS);
    printf("written %" PRIu32 "\n", octets);
    fwrite(listing, 1, octets, stdout);
    return ANSWERED;
}

int main(int count, char **words)
{
    int status;
    if (count == 2 && strcmp(words[1], "report") == 0)
        status = report();
    else if (count == 2 && strcmp(words[1], "report-metadata") == 0)
        status = report_metadata();
    else if (count == 2 && strcmp(words[1], "write") == 0)
        status = write_listing();
    else
        status = failed("say what is asked for: report, report-metadata or write");
    if (fflush(stdout) != 0 || ferror(stdout))
        return failed("the answer cannot be written");
    return status;
}
