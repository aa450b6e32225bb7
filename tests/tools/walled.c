#define _DEFAULT_SOURCE /* MAP_ANONYMOUS */
#include "walled.h"

#include <stdint.h>
#include <stdio.h>
#include <stdlib.h>
#include <sys/mman.h>

#if HAS_ADDRESS_SANITIZER
#include <sanitizer/asan_interface.h>
#endif

/* The largest page of the machines that the tests run on, which may lie below an emulator. */
#define PAGE ((size_t)65536)

void *walled(size_t size)
{
    size_t room = (size + PAGE - 1) / PAGE * PAGE;
    uint8_t *start = mmap(NULL, room + PAGE, PROT_READ | PROT_WRITE, MAP_PRIVATE | MAP_ANONYMOUS, -1, 0);
    if (start == MAP_FAILED || mprotect(start + room, PAGE, PROT_NONE) != 0) {
        perror("walled");
        exit(2);
    }
    return start + room - size;
}

#if HAS_ADDRESS_SANITIZER

void forbid(const void *octets, size_t size)
{
    __asan_poison_memory_region(octets, size);
}

void allow(const void *octets, size_t size)
{
    __asan_unpoison_memory_region(octets, size);
}

void when_found(void (*tell)(void))
{
    __asan_set_death_callback(tell);
}

#else

void forbid(const void *octets, size_t size)
{
    (void)octets;
    (void)size;
}

void allow(const void *octets, size_t size)
{
    (void)octets;
    (void)size;
}

void when_found(void (*tell)(void))
{
    (void)tell;
}

#endif

void *walled_malloc(size_t size)
{
    return walled(size);
}

void *scarce_malloc(size_t size)
{
    /* Not malloc, which may be defined as this. */
    return size > 65536 ? NULL : calloc(size, 1);
}

/* What is freed stays mapped: the program ends soon, and a late touch of it is no matter of the wall. */
void walled_free(void *memory)
{
    (void)memory;
}
