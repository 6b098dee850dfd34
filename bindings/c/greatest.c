/*
 * A member without a history casts until no number is left, in bursts of 32: some 134 million of them. Where fewer are left, a burst of
 * 32 has no room, one of what is left has, and then nothing has, however much the other member acknowledges. It prints what it saw.
 */
#include <stdio.h>
#include <stdlib.h>

#include "jolunza.h"

enum { GROUP = 7, SIZE = 2, WINDOW = 256, MOST = 32 };

static const uint32_t LAST = 4294967295u;
static const size_t EMPTY[MOST];
static jolunza_handle handle; /* static, so all bytes are 0: it begins closed */

static void answers(uint32_t code, uint32_t expected, const char *call, uint32_t cast)
{
    if (code != expected) {
        fprintf(stderr, "after %u casts %s answers code %u, not %u\n", (unsigned)cast, call, (unsigned)code, (unsigned)expected);
        exit(1);
    }
}

/* A burst of so many messages without bytes is answered so. */
static void bursts(size_t count, uint32_t expected, uint32_t cast)
{
    answers(jolunza_cast_burst(&handle, NULL, 0, EMPTY, count), expected, "cast_burst", cast);
}

/* The other member says that it has delivered so many. */
static void acknowledges(uint32_t count)
{
    uint8_t status[10] = {0x12, GROUP, 1, 1, 0};
    size_t length = 5;
    jolunza_received received;

    for (uint32_t left = count; length < sizeof status; left >>= 7) {
        status[length++] = (uint8_t)(left < 0x80 ? left : (left & 0x7f) | 0x80);
        if (left < 0x80)
            break;
    }
    answers(jolunza_receive(&handle, status, length, &received), JOLUNZA_DONE, "receive", count);
}

int main(void)
{
    uint32_t cast = 0, stable = 0, time[SIZE];

    answers(jolunza_open(&handle, GROUP, SIZE, WINDOW, 0, 0), JOLUNZA_DONE, "open", 0);
    while (LAST - cast >= WINDOW) {
        for (int burst = 0; burst < WINDOW / MOST; burst++)
            bursts(MOST, JOLUNZA_DONE, cast);
        cast += WINDOW;
        acknowledges(cast);
    }
    for (; LAST - cast >= MOST; cast += MOST)
        bursts(MOST, JOLUNZA_DONE, cast);
    printf("%u casts, %u numbers left\n", (unsigned)cast, (unsigned)(LAST - cast));
    /* the window has room for 32 more */
    bursts(MOST, JOLUNZA_WINDOW_FULL, cast);
    bursts(LAST - cast + 1, JOLUNZA_WINDOW_FULL, cast);
    bursts(LAST - cast, JOLUNZA_DONE, cast);
    bursts(1, JOLUNZA_WINDOW_FULL, LAST);
    answers(jolunza_cast(&handle, NULL, 0), JOLUNZA_WINDOW_FULL, "cast", LAST);
    acknowledges(LAST);
    bursts(1, JOLUNZA_WINDOW_FULL, LAST);
    answers(jolunza_time(&handle, time, SIZE), JOLUNZA_DONE, "time", LAST);
    answers(jolunza_stable(&handle, &stable), JOLUNZA_DONE, "stable", LAST);
    printf("%u casts, %u stable, no number left\n", (unsigned)time[0], (unsigned)stable);
    jolunza_close(&handle);
    return time[0] == LAST && stable == LAST ? 0 : 1;
}
