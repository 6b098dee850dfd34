/*
 * Each allocation of a run refused in turn: it alone, and with it all that its call asks for behind it. The call answers NO_MEMORY or
 * does without; after NO_MEMORY the member is as it was, and the same call then succeeds. Each run ends as the one that had all its
 * memory, and frees what it took.
 * Linked with -Wl,--wrap=malloc,--wrap=realloc,--wrap=free, so that the library's calls come here.
 */
#include <stdio.h>
#include <stdlib.h>
#include <string.h>

#include "jolunza.h"

void *__real_malloc(size_t length);
void *__real_realloc(void *block, size_t length);
void __real_free(void *block);
void *__wrap_malloc(size_t length);
void *__wrap_realloc(void *block, size_t length);
void __wrap_free(void *block);

enum { ALL = -1 };

static long granted = ALL;   /* how many allocations more, before one is refused */
static bool are_all_refused; /* and those behind it, until the call has answered */
static long blocks;          /* how many are not freed */
static bool is_refused;      /* one was */

static bool refuse(void)
{
    if (granted == ALL)
        return false;
    if (granted > 0) {
        granted--;
        return false;
    }
    is_refused = true;
    granted = are_all_refused ? 0 : ALL;
    return true;
}

/* The call has answered: if it was refused an allocation, all are granted from now on. */
static void grant_all(void)
{
    if (is_refused)
        granted = ALL;
}

void *__wrap_malloc(size_t length)
{
    void *block = refuse() ? NULL : __real_malloc(length);

    blocks += block != NULL;
    return block;
}

void *__wrap_realloc(void *block, size_t length)
{
    return refuse() ? NULL : __real_realloc(block, length);
}

void __wrap_free(void *block)
{
    blocks -= block != NULL;
    __real_free(block);
}

static void must(bool holds, const char *what, int line)
{
    if (!holds) {
        printf("refused.c:%d: not so: %s\n", line, what);
        exit(1);
    }
}

#define MUST(holds) must((holds), #holds, __LINE__)

/* How many calls of each kind were out of memory. */
static struct kind {
    const char *call;
    long out_of_memory;
} kinds[] = {
    {"jolunza_open", 0},
    {"jolunza_cast", 0},
    {"jolunza_cast_burst", 0},
    {"jolunza_receive", 0},
    {"jolunza_receive of a request", 0},
    {"jolunza_receive of a help frame", 0},
    {"jolunza_receive of a frame that was handed on", 0},
    {"jolunza_load", 0},
    {"jolunza_receive_loaded", 0},
    {"jolunza_receive_parts", 0},
    {"jolunza_tick", 0},
    {"jolunza_help", 0},
    {"jolunza_help_among", 0},
    {"jolunza_missing", 0},
    {"jolunza_journal_head", 0},
    {"jolunza_journal_line", 0},
    {"jolunza_resume", 0},
    {"jolunza_sender", 0},
};

enum { KINDS = sizeof kinds / sizeof kinds[0] };

/* Counts a call that was out of memory, by its name, or by the text of the call, in which the name stands first. */
static void count_refusal(const char *call)
{
    size_t length = strcspn(call, "("), i = 0;

    while (i < KINDS && (strlen(kinds[i].call) != length || memcmp(kinds[i].call, call, length) != 0))
        i++;
    MUST(i < KINDS);
    kinds[i].out_of_memory++;
}

/* All that can be read of a member, in 64 bits (the hash of Fowler, Noll and Vo). */
static uint64_t digest;

static void add(const void *memory, size_t length)
{
    const unsigned char *bytes = memory;

    for (size_t i = 0; i < length; i++)
        digest = (digest ^ bytes[i]) * 0x100000001b3u;
}

static void add_number(uint64_t number)
{
    add(&number, sizeof number);
}

enum { GROUP = 7, SIZE = 3, WINDOW = 64, LIMIT = 1000, CASTS = 40, MOST_FRAMES = 64 };

struct frame {
    jolunza_frame_head head;
    uint8_t bytes[JOLUNZA_LONGEST_FRAME];
};

/* Reads the frames of the last call. */
static size_t frames_of(jolunza_handle *handle, struct frame *frames)
{
    size_t i = 0;

    while (i < MOST_FRAMES && jolunza_frame(handle, i, &frames[i].head, frames[i].bytes, sizeof frames[i].bytes) == JOLUNZA_DONE)
        i++;
    return i;
}

static void add_frames(jolunza_handle *handle)
{
    static struct frame frames[MOST_FRAMES];
    size_t count = frames_of(handle, frames);

    for (size_t i = 0; i < count; i++) {
        add_number(frames[i].head.to_all ? SIZE : frames[i].head.to);
        add(frames[i].bytes, frames[i].head.length);
    }
}

static void add_events(jolunza_handle *handle)
{
    jolunza_event_head head;
    uint8_t payload[JOLUNZA_LONGEST_PAYLOAD];
    uint32_t time[SIZE];

    for (size_t i = 0; jolunza_event(handle, i, &head, payload, sizeof payload, time, SIZE) == JOLUNZA_DONE; i++) {
        add_number(head.is_own);
        add_number(head.sender);
        add_number(head.number);
        add(payload, head.length);
        add(time, sizeof time);
    }
}

static void add_entries(jolunza_handle *handle)
{
    jolunza_entry_head head;
    uint8_t frame[JOLUNZA_LONGEST_FRAME];
    jolunza_name names[2 * CASTS];

    for (size_t i = 0; jolunza_entry(handle, i, &head, frame, sizeof frame, names, 2 * CASTS) == JOLUNZA_DONE; i++) {
        add_number(head.kind);
        add(frame, head.length);
        add(names, head.delivered * sizeof names[0]);
    }
}

static void add_delayed(jolunza_handle *handle, uint32_t member)
{
    jolunza_delayed delayed = {false, 0, 0, 0, 0};

    add_number(jolunza_waits_for(handle, member, &delayed));
    add_number(delayed.number);
    add_number(delayed.sender);
    add_number(delayed.first);
    add_number(delayed.last);
}

static uint64_t digest_of(jolunza_handle *handle)
{
    uint32_t time[SIZE] = {0, 0, 0}, stable = 0;

    digest = 0xcbf29ce484222325u;
    add_frames(handle);
    add_events(handle);
    add_entries(handle);
    add_number(jolunza_time(handle, time, SIZE));
    add(time, sizeof time);
    add_number(jolunza_stable(handle, &stable));
    add_number(stable);
    add_number(jolunza_waiting(handle, &stable));
    add_number(stable);
    for (uint32_t member = 0; member < SIZE; member++) {
        add_number(jolunza_stable_of(handle, member, &stable));
        add_number(stable);
        add_number(jolunza_acknowledged_by(handle, member, &stable));
        add_number(stable);
        add_delayed(handle, member);
    }
    return digest;
}

/* Makes a call of this kind. Where it is out of memory nothing has changed, and the same call succeeds. */
#define TRY_AS(kind, handle, call)                     \
    do {                                               \
        uint64_t before = digest_of(handle);           \
        uint32_t code = (call);                        \
        grant_all();                                   \
        if (code == JOLUNZA_NO_MEMORY) {               \
            count_refusal(kind);                       \
            MUST(digest_of(handle) == before);         \
            code = (call);                             \
        }                                              \
        MUST(code == JOLUNZA_DONE);                    \
    } while (0)

#define TRY(handle, call) TRY_AS(#call, handle, call)

/* The sender of a frame is told. Out of memory nothing is filled, and the same call succeeds. */
static void look_at_sender(const struct frame *frame)
{
    uint32_t group = UINT32_MAX, member = UINT32_MAX;
    uint32_t code = jolunza_sender(frame->bytes, frame->head.length, &group, &member);

    grant_all();
    if (code == JOLUNZA_NO_MEMORY) {
        count_refusal("jolunza_sender");
        MUST(group == UINT32_MAX && member == UINT32_MAX);
        code = jolunza_sender(frame->bytes, frame->head.length, &group, &member);
    }
    MUST(code == JOLUNZA_DONE && group == GROUP && member < SIZE);
}

static void receive_all(const char *kind, jolunza_handle *handle, const struct frame *frames, size_t count)
{
    jolunza_received received;

    if (count > 0)
        look_at_sender(frames);
    for (size_t i = 0; i < count; i++)
        TRY_AS(kind, handle, jolunza_receive(handle, frames[i].bytes, frames[i].head.length, &received));
}

/* Member 0 casts, every fourth time a burst of two; every fifth frame is lost, the others come in pairs, the later one first. */
static void cast_some(jolunza_handle *of_0, jolunza_handle *of_1)
{
    static const uint8_t payload[20] = "twenty bytes of text";
    static struct frame frames[MOST_FRAMES];
    jolunza_received received;

    for (int i = 0; i < CASTS; i++) {
        if (i % 4 == 3)
            TRY(of_0, jolunza_cast_burst(of_0, payload, sizeof payload, (const size_t[]){6, 14}, 2));
        else
            TRY(of_0, jolunza_cast(of_0, payload, sizeof payload));
        MUST(frames_of(of_0, &frames[i]) == 1);
        if (i % 2 == 0)
            continue;
        TRY(of_1, jolunza_receive(of_1, frames[i].bytes, frames[i].head.length, &received));
        if (i % 5 != 0)
            TRY(of_1, jolunza_receive(of_1, frames[i - 1].bytes, frames[i - 1].head.length, &received));
    }
}

/* All frames lie one after another in one buffer. */
static void load_all(jolunza_handle *handle, const struct frame *frames, size_t count)
{
    static uint8_t bytes[MOST_FRAMES * JOLUNZA_LONGEST_FRAME];
    size_t lengths[MOST_FRAMES], end = 0, taken;

    for (size_t i = 0; i < count; i++) {
        lengths[i] = frames[i].head.length;
        memcpy(bytes + end, frames[i].bytes, lengths[i]);
        end += lengths[i];
    }
    TRY(handle, jolunza_load(handle, bytes, end));
    end = 0;
    /* one by one up to the middle, and what is left in as few calls as will do */
    for (size_t i = 0; i < count / 2; i++) {
        jolunza_received received;

        TRY(handle, jolunza_receive_loaded(handle, end, lengths[i], &received));
        end += lengths[i];
    }
    for (size_t i = count / 2; i < count; i += taken) {
        TRY(handle, jolunza_receive_parts(handle, end, lengths + i, count - i, &taken));
        for (size_t k = 0; k < taken; k++)
            end += lengths[i + k];
    }
}

/* Member 1 tells what it has and asks for what it misses, and member 0 sends it again. What it then tells is left to be sent. */
static void repair(jolunza_handle *of_0, jolunza_handle *of_1)
{
    static struct frame asked[MOST_FRAMES], sent[MOST_FRAMES];
    jolunza_range ranges[WINDOW];
    size_t count;

    TRY(of_1, jolunza_missing(of_1, 0, ranges, WINDOW, &count));
    MUST(count > 1);
    TRY(of_1, jolunza_tick(of_1));
    count = frames_of(of_1, asked);
    for (size_t i = 0; i < count; i++) {
        receive_all(i == 0 ? "jolunza_receive" : "jolunza_receive of a request", of_0, asked + i, 1);
        load_all(of_1, sent, frames_of(of_0, sent));
    }
    TRY(of_1, jolunza_tick(of_1));
    receive_all("jolunza_receive", of_0, sent, frames_of(of_1, sent));
}

/* Member 2 has got nothing. It hears what member 1 has, asks it for that, and tells member 0 when it has it too. */
static void help(jolunza_handle *of_0, jolunza_handle *of_1, jolunza_handle *of_2)
{
    static struct frame sent[MOST_FRAMES];

    receive_all("jolunza_receive", of_2, sent, frames_of(of_1, sent));
    TRY(of_2, jolunza_help(of_2, 0));
    TRY(of_2, jolunza_help_among(of_2, 0, (const uint32_t[]){1}, 1));
    MUST(frames_of(of_2, sent) == 1 && sent[0].head.to == 1);
    receive_all("jolunza_receive of a help frame", of_1, sent, 1);
    MUST(frames_of(of_1, sent) == CASTS);
    receive_all("jolunza_receive of a frame that was handed on", of_2, sent, CASTS);
    TRY(of_2, jolunza_tick(of_2));
    receive_all("jolunza_receive", of_0, sent, frames_of(of_2, sent));
}

/* The journal of member 2. */
static struct {
    uint8_t text[1 << 16];
    size_t length, entries;
} journal;

/* Writes the journal of member 2. Without a history it tells the line of its last call alone, and the journal of the run before stays. */
static void write_journal(jolunza_handle *of_2, size_t limit)
{
    uint8_t text[4096];
    jolunza_counts counts;
    size_t length, end;

    TRY(of_2, jolunza_journal_head(of_2, text, sizeof text, &length));
    memcpy(journal.text, text, length);
    end = length;
    MUST(jolunza_count(of_2, &counts) == JOLUNZA_DONE && counts.entries > 0);
    for (size_t i = 0; i < counts.entries; i++) {
        TRY(of_2, jolunza_journal_line(of_2, i, text, sizeof text, &length));
        if (limit > 0) {
            MUST(length <= sizeof text && length <= sizeof journal.text - end);
            memcpy(journal.text + end, text, length);
            end += length;
            journal.length = end;
            journal.entries = counts.entries;
        }
    }
}

/* Member 2 comes back by its journal, with the same time. A digest of it. */
static uint64_t come_back(jolunza_handle *of_2, size_t limit)
{
    jolunza_handle back = JOLUNZA_CLOSED_HANDLE;
    jolunza_journal told;
    uint32_t time[SIZE], same[SIZE];
    uint64_t ends;

    write_journal(of_2, limit);
    TRY(&back, jolunza_resume(&back, journal.text, journal.length, limit, &told));
    MUST(told.me == 2 && told.entries == journal.entries && told.read == journal.length);
    MUST(jolunza_time(of_2, time, SIZE) == JOLUNZA_DONE && jolunza_time(&back, same, SIZE) == JOLUNZA_DONE);
    MUST(memcmp(time, same, sizeof time) == 0);
    ends = digest_of(&back);
    jolunza_close(&back);
    return ends;
}

/* A run of members with this limit in which this many allocations are granted before the refusal: a digest of how they end. */
static uint64_t run(size_t limit, long before_the_refusal)
{
    jolunza_handle of_0 = JOLUNZA_CLOSED_HANDLE, of_1 = JOLUNZA_CLOSED_HANDLE, of_2 = JOLUNZA_CLOSED_HANDLE;
    uint64_t ends;
    uint32_t stable;

    granted = before_the_refusal;
    is_refused = false;
    TRY(&of_0, jolunza_open(&of_0, GROUP, SIZE, WINDOW, 0, limit));
    TRY(&of_1, jolunza_open(&of_1, GROUP, SIZE, WINDOW, 1, limit));
    TRY(&of_2, jolunza_open(&of_2, GROUP, SIZE, WINDOW, 2, limit));
    cast_some(&of_0, &of_1);
    repair(&of_0, &of_1);
    help(&of_0, &of_1, &of_2);
    MUST(jolunza_stable(&of_0, &stable) == JOLUNZA_DONE && stable == CASTS + CASTS / 4);
    ends = digest_of(&of_0) ^ 3 * digest_of(&of_1) ^ 5 * digest_of(&of_2) ^ 7 * come_back(&of_2, limit);
    jolunza_close(&of_0);
    jolunza_close(&of_1);
    jolunza_close(&of_2);
    MUST(blocks == 0);
    return ends;
}

/* Tells how many calls of each kind were out of memory, and forgets it: at least one of each kind. The number of all. */
static long tell_refusals(void)
{
    long all = 0;

    for (size_t i = 0; i < KINDS; i++) {
        printf("%s: %ld times out of memory\n", kinds[i].call, kinds[i].out_of_memory);
        MUST(kinds[i].out_of_memory > 0);
        all += kinds[i].out_of_memory;
        kinds[i].out_of_memory = 0;
    }
    return all;
}

/* Each allocation of a run is refused, one in each run, alone or with those behind it; the run ends as one in which none is. */
static void refuse_each(size_t limit, bool all)
{
    uint64_t whole = run(limit, ALL);
    long allocations = 0, calls;

    are_all_refused = all;
    do {
        MUST(run(limit, allocations) == whole);
        allocations += is_refused;
    } while (is_refused);
    printf("%ld allocations, each refused in turn%s, %s a history\n", allocations, all ? " with those behind it" : "",
           limit > 0 ? "with" : "without");
    calls = tell_refusals();
    MUST(allocations > CASTS && calls > CASTS);
}

int main(void)
{
    for (int all = 0; all <= 1; all++) {
        refuse_each(LIMIT, all);
        refuse_each(0, all); /* without a history */
    }
    return 0;
}
