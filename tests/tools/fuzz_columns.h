/* Tiles in columns, filled from damaged listings and then altered, through fill, report and lookup. */
#ifndef FUZZ_COLUMNS_H
#define FUZZ_COLUMNS_H

#include "fuzz_lent.h"

void make_rooms_for_columns(void);

/* Fills columns from a listing that is lent and holds these octets, and reads them back; the report is that on it. */
void check_columns(struct chance *chance, struct lent listing, const uint8_t *octets, const uint32_t report[5]);

/* Prints what the calls came to. */
void print_columns(void);

#endif
