/*
 * Memory that shows faults of code that no sanitizer sees: bytes whose end is the end of what can be read, and allocations that are
 * refused. Linked with -Wl,--wrap=malloc,--wrap=realloc, so that the library's calls come here.
 */
#ifndef MEMORY_H
#define MEMORY_H

#include <stdbool.h>
#include <stddef.h>
#include <stdint.h>

enum { MOST_GUARDED = 1 << 20 };

enum guard { GUARD_BYTES, GUARD_LENGTHS, GUARDS };

/* A copy of the memory, with nothing readable behind. There is one of each: the next call overwrites it. */
const void *guarded(enum guard guard, const void *memory, size_t length);

/* From now on an allocation is refused after so many that are granted, and all behind it where that is said. */
void refuse_after(unsigned granted, bool all);

/* All are granted from now on; answers whether one was refused. */
bool grant_all(void);

#endif
