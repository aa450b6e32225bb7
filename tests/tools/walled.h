/* Memory with a wall behind it: the octet after its last one can be neither read nor written. */
#ifndef WALLED_H
#define WALLED_H

#include <stddef.h>

#if defined __SANITIZE_ADDRESS__
#define HAS_ADDRESS_SANITIZER 1
#elif defined __has_feature
#define HAS_ADDRESS_SANITIZER __has_feature(address_sanitizer)
#else
#define HAS_ADDRESS_SANITIZER 0
#endif

/* So many octets, the last of them before the wall. Ends the program where there is no memory. */
void *walled(size_t size);

/*
 * Octets that nobody may touch, not even to read them, until they are allowed again; as AddressSanitizer has it, which
 * knows eight octets by how many of them are allowed from the first one on. Without it, nothing is done.
 */
void forbid(const void *octets, size_t size);
void allow(const void *octets, size_t size);

/* Has this called when AddressSanitizer has found something, before the program ends. */
void when_found(void (*tell)(void));

/*
 * These take the place of malloc and free in a program that is compiled with -Dmalloc=walled_malloc
 * -Dfree=walled_free: whatever it lends to a call then ends at a wall.
 */
void *walled_malloc(size_t size);
void walled_free(void *memory);

/* Takes the place of malloc where memory is scarce: NULL for more than 64 KiB at once. */
void *scarce_malloc(size_t size);

#endif
