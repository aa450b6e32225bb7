/* Metadata listings, most often damaged, beside listings that are or are not, through the report on metadata. */
#ifndef FUZZ_METADATA_H
#define FUZZ_METADATA_H

#include "fuzz_lent.h"

void make_rooms_for_metadata(void);

/* Judges one of these metadata listings beside a listing that is lent and holds these octets; the report is that on
   it. */
void check_metadata(struct chance *chance, const struct stock *metadata, struct lent listing, const uint8_t *octets,
                    const uint32_t report[5]);

/* Prints what the reports came to. */
void print_metadata(void);

#endif
