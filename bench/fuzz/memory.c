#define _GNU_SOURCE

#include "memory.h"

#include <stdlib.h>
#include <string.h>
#include <sys/mman.h>
#include <unistd.h>

void *__real_malloc(size_t length);
void *__real_realloc(void *block, size_t length);
void *__wrap_malloc(size_t length);
void *__wrap_realloc(void *block, size_t length);

static bool is_armed, is_refused, are_all_refused;
static unsigned left;

static bool refuse(void)
{
    if (!is_armed)
        return false;
    if (left > 0) {
        left--;
        return false;
    }
    is_armed = are_all_refused;
    is_refused = true;
    return true;
}

void *__wrap_malloc(size_t length)
{
    return refuse() ? NULL : __real_malloc(length);
}

void *__wrap_realloc(void *block, size_t length)
{
    return refuse() ? NULL : __real_realloc(block, length);
}

void refuse_after(unsigned granted, bool all)
{
    is_armed = true;
    is_refused = false;
    are_all_refused = all;
    left = granted;
}

bool grant_all(void)
{
    bool was_refused = is_refused;

    is_armed = false;
    is_refused = false;
    return was_refused;
}

static uint8_t *new_guarded(void)
{
    size_t page = (size_t)sysconf(_SC_PAGESIZE);
    uint8_t *front = mmap(NULL, MOST_GUARDED + page, PROT_READ | PROT_WRITE, MAP_PRIVATE | MAP_ANONYMOUS, -1, 0);

    if (front == MAP_FAILED || mprotect(front + MOST_GUARDED, page, PROT_NONE) != 0)
        abort();
    return front + MOST_GUARDED;
}

const void *guarded(enum guard guard, const void *memory, size_t length)
{
    static uint8_t *ends[GUARDS];

    if (ends[guard] == NULL)
        ends[guard] = new_guarded();
    if (length > MOST_GUARDED)
        abort();
    if (length > 0)
        memcpy(ends[guard] - length, memory, length);
    return ends[guard] - length;
}
