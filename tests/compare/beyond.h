/* Parts, columns and metadata so long that their octets are no number of 32 bits, which no stream of cases can hold. */
#ifndef BEYOND_H
#define BEYOND_H

/* Tries them, prints each difference, and returns how many there are. */
unsigned long compare_beyond_a_word(void);

#endif
