#include "reached.h"

#include <stdio.h>
#include <stdlib.h>

#define CODES(...) codes_of((const uint32_t[]){__VA_ARGS__}, sizeof((const uint32_t[]){__VA_ARGS__}) / sizeof(uint32_t))
#define ARRIVAL \
    JOLUNZA_NO_MEMORY, JOLUNZA_BAD_MEMBER, JOLUNZA_HISTORY_FULL, JOLUNZA_OTHER_GROUP, JOLUNZA_IMPOSSIBLE, JOLUNZA_TOO_FAR, \
        JOLUNZA_MALFORMED, JOLUNZA_OVERLAP

enum { CODE_COUNT = JOLUNZA_NOT_LEGAL + 1, MOST_BITS = 20 };

static const char *const CALL_NAMES[CALLS] = {
    [CALL_OPEN] = "open",
    [CALL_CAST] = "cast",
    [CALL_CAST_BURST] = "cast_burst",
    [CALL_RECEIVE] = "receive",
    [CALL_LOAD] = "load",
    [CALL_RECEIVE_LOADED] = "receive_loaded",
    [CALL_RECEIVE_PARTS] = "receive_parts",
    [CALL_TICK] = "tick",
    [CALL_HELP] = "help",
    [CALL_COUNT] = "count",
    [CALL_FRAME] = "frame",
    [CALL_FRAMES] = "frames",
    [CALL_EVENT] = "event",
    [CALL_EVENTS] = "events",
    [CALL_ENTRY] = "entry",
    [CALL_TIME] = "time",
    [CALL_STABLE] = "stable",
    [CALL_STABLE_OF] = "stable_of",
    [CALL_ACKNOWLEDGED_BY] = "acknowledged_by",
    [CALL_KEEPS_WINDOW_FULL] = "keeps_window_full",
    [CALL_WAITING] = "waiting",
    [CALL_WAITS_FOR] = "waits_for",
    [CALL_MISSING] = "missing",
    [CALL_RESUME] = "resume",
    [CALL_JOURNAL_HEAD] = "journal_head",
    [CALL_JOURNAL_LINE] = "journal_line",
    [CALL_SENDER] = "sender",
};

static const char *const CODE_NAMES[CODE_COUNT] = {
    "DONE",         "CLOSED",      "NO_MEMORY",  "BAD_GROUP", "BAD_MEMBER", "BAD_LIMIT",  "PAYLOAD_TOO_LONG", "WINDOW_FULL",
    "HISTORY_FULL", "OTHER_GROUP", "IMPOSSIBLE", "TOO_FAR",   "MALFORMED",  "NONE_THERE", "OVERLAP",          "EMPTY_BURST",
    "BURST_TOO_LONG", "NO_HEAD",   "BAD_LINE",   "TOO_LONG",  "NOT_LEGAL",
};

static unsigned long counts[CALLS][CODE_COUNT];

/* The library is not instrumented: these stand for its edges. The fuzzer clears them before each input. */
static struct {
    uint8_t answers[CALLS][CODE_COUNT];
    uint8_t amounts[AMOUNTS][MOST_BITS];
} extra __attribute__((section("__libfuzzer_extra_counters")));

void must(bool holds, const char *what, const char *file, int line)
{
    if (!holds) {
        fprintf(stderr, "%s:%d: not so: %s\n", file, line, what);
        abort();
    }
}

static uint32_t codes_of(const uint32_t *codes, size_t count)
{
    uint32_t bits = 0;

    for (size_t i = 0; i < count; i++)
        bits |= (uint32_t)1 << codes[i];
    return bits;
}

/* The codes that the header names for the call, as bits; of each call on a handle but open and resume CLOSED, and DONE of all. */
static uint32_t named(enum call call)
{
    switch (call) {
    case CALL_OPEN:
        return CODES(JOLUNZA_BAD_GROUP, JOLUNZA_BAD_MEMBER, JOLUNZA_BAD_LIMIT, JOLUNZA_NO_MEMORY);
    case CALL_CAST:
        return CODES(JOLUNZA_PAYLOAD_TOO_LONG, JOLUNZA_WINDOW_FULL, JOLUNZA_HISTORY_FULL, JOLUNZA_NO_MEMORY);
    case CALL_CAST_BURST:
        return CODES(JOLUNZA_NONE_THERE, JOLUNZA_EMPTY_BURST, JOLUNZA_BURST_TOO_LONG, JOLUNZA_PAYLOAD_TOO_LONG,
                     JOLUNZA_WINDOW_FULL, JOLUNZA_HISTORY_FULL, JOLUNZA_NO_MEMORY);
    case CALL_RECEIVE:
        return CODES(ARRIVAL);
    case CALL_RECEIVE_LOADED:
    case CALL_RECEIVE_PARTS:
        return CODES(ARRIVAL, JOLUNZA_NONE_THERE);
    case CALL_LOAD:
        return CODES(JOLUNZA_NO_MEMORY);
    case CALL_TICK:
        return CODES(JOLUNZA_HISTORY_FULL, JOLUNZA_NO_MEMORY);
    case CALL_HELP:
    case CALL_MISSING:
        return CODES(JOLUNZA_BAD_MEMBER, JOLUNZA_NO_MEMORY);
    case CALL_RESUME:
        return CODES(JOLUNZA_NO_HEAD, JOLUNZA_BAD_LINE, JOLUNZA_BAD_LIMIT, JOLUNZA_TOO_LONG, JOLUNZA_NOT_LEGAL, JOLUNZA_NO_MEMORY);
    case CALL_JOURNAL_HEAD:
        return CODES(JOLUNZA_NO_MEMORY);
    case CALL_JOURNAL_LINE:
        return CODES(JOLUNZA_NONE_THERE, JOLUNZA_NO_MEMORY);
    case CALL_SENDER:
        return CODES(JOLUNZA_MALFORMED, JOLUNZA_NO_MEMORY);
    case CALL_STABLE_OF:
    case CALL_ACKNOWLEDGED_BY:
    case CALL_KEEPS_WINDOW_FULL:
        return CODES(JOLUNZA_BAD_MEMBER);
    case CALL_WAITS_FOR:
        return CODES(JOLUNZA_BAD_MEMBER, JOLUNZA_NONE_THERE);
    case CALL_FRAME:
    case CALL_EVENT:
    case CALL_ENTRY:
        return CODES(JOLUNZA_NONE_THERE);
    default:
        return 0;
    }
}

static bool is_named(enum call call, uint32_t code)
{
    bool is_never_closed = call == CALL_OPEN || call == CALL_RESUME || call == CALL_SENDER;
    uint32_t all = CODES(JOLUNZA_DONE) | (is_never_closed ? 0 : CODES(JOLUNZA_CLOSED));

    return code < CODE_COUNT && ((named(call) | all) >> code & 1) == 1;
}

static void print_call(enum call call)
{
    fprintf(stderr, "%-17s", CALL_NAMES[call]);
    for (uint32_t code = 0; code < CODE_COUNT; code++)
        if (is_named(call, code))
            fprintf(stderr, " %s %lu", CODE_NAMES[code], counts[call][code]);
    fprintf(stderr, "\n");
}

/* Each call, and how often it gave each code that it can give. */
static void print_reached(void)
{
    fprintf(stderr, "answers of each call:\n");
    for (int call = 0; call < CALLS; call++)
        print_call((enum call)call);
}

uint32_t reached(enum call call, uint32_t code)
{
    static bool is_begun;

    if (!is_begun && getenv("REACHED") != NULL)
        atexit(print_reached);
    is_begun = true;
    MUST(is_named(call, code));
    counts[call][code]++;
    extra.answers[call][code]++;
    return code;
}

void reached_amount(enum amount amount, size_t count)
{
    size_t bits = 0;

    while (count > 0 && bits < MOST_BITS - 1) {
        count >>= 1;
        bits++;
    }
    extra.amounts[amount][bits] = 1;
}
