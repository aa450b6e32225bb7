/* Damaged parts through desterlin_write. */
#ifndef FUZZ_WRITE_H
#define FUZZ_WRITE_H

#include "fuzz_lent.h"

void make_rooms_for_writes(void);

/* Cuts a damaged listing into parts, most often where its header says, and writes them; the report is that on the listing. */
void check_write(struct chance *chance, const uint8_t *octets, size_t size, const uint32_t report[5]);

/* Prints what the writes came to. */
void print_writes(void);

#endif
