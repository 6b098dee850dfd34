/*
 * The run of crates/bench_member through the library for C: a whole group in one thread, each member in its turn takes all that the
 * others sent, and casts. Prints the same: how many messages were delivered, and a digest of their names and times. Words: SIZE WINDOW
 * PAYLOAD CASTS. Nothing is lost. What was sent to a member is one buffer, which it loads at once, and whose parts it takes in one call.
 */
#include <inttypes.h>
#include <stdio.h>
#include <stdlib.h>
#include <string.h>

#include "../bindings/c/jolunza.h"

enum { GROUP = 7, LIMIT = 16777216, AT_ONCE = 64 };

/* Frames that were sent to a member and not yet taken, one after another, and their lengths. */
struct inbox {
    uint8_t *bytes;
    size_t *lengths;
    size_t end, room, count, lengths_room;
};

struct member {
    jolunza_handle handle;
    size_t seen; /* events */
    struct inbox inbox;
};

static struct member members[JOLUNZA_MOST_MEMBERS];
static uint32_t size, window;
static size_t payload_length;
static uint64_t casts, made, deliveries, digest = 0xcbf29ce484222325u;
static uint8_t payload[JOLUNZA_LONGEST_PAYLOAD];

static void must(bool holds)
{
    if (!holds) {
        fprintf(stderr, "bindings: out of memory, or a code that this run never has\n");
        exit(1);
    }
}

/* The items, with room for as many as are needed at least. */
static void *grown(void *items, size_t *room, size_t needed, size_t length)
{
    if (needed <= *room)
        return items;
    *room = 2 * needed;
    items = realloc(items, *room * length);
    must(items != NULL);
    return items;
}

static void put(uint32_t to, const uint8_t *frame, size_t length)
{
    struct inbox *inbox = &members[to].inbox;

    inbox->bytes = grown(inbox->bytes, &inbox->room, inbox->end + length, 1);
    inbox->lengths = grown(inbox->lengths, &inbox->lengths_room, inbox->count + 1, sizeof *inbox->lengths);
    memcpy(inbox->bytes + inbox->end, frame, length);
    inbox->end += length;
    inbox->lengths[inbox->count++] = length;
}

static void post(uint32_t from, const jolunza_frame_head *head, const uint8_t *frame)
{
    for (uint32_t to = 0; to < size; to++)
        if (head->to_all ? to != from : to == head->to)
            put(to, frame, head->length);
}

/* Sends the frames of the member's last call, of which there are so many. */
static void send_frames(uint32_t me, size_t count)
{
    for (size_t i = 0; i < count; i++) {
        jolunza_frame_head head;
        uint8_t frame[JOLUNZA_LONGEST_FRAME];

        must(jolunza_frame(&members[me].handle, i, &head, frame, sizeof frame) == JOLUNZA_DONE);
        post(me, &head, frame);
    }
}

static size_t count_frames(uint32_t me)
{
    jolunza_counts counts;

    must(jolunza_count(&members[me].handle, &counts) == JOLUNZA_DONE);
    return counts.frames;
}

static uint64_t mixed(uint64_t to, uint64_t word)
{
    return (to ^ word) * 0x100000001b3u;
}

static uint64_t word_of(uint32_t low, uint32_t high)
{
    return low | (uint64_t)high << 32;
}

/* Two numbers of the time are one word, which is read at once, as by the other programs. */
static void tally(uint32_t me, const jolunza_event_head *head, const uint32_t *time)
{
    uint64_t to = mixed(mixed(digest, word_of(me, head->sender)), head->number);

    deliveries++;
    for (const uint32_t *end = time + size / 2 * 2; time < end; time += 2) {
        uint64_t pair;

        memcpy(&pair, time, sizeof pair);
        to = mixed(to, pair);
    }
    digest = size % 2 == 1 ? mixed(to, *time) : to;
}

/* Reads the events that are new, all of them deliveries. */
static void read_events(uint32_t me)
{
    static jolunza_event_head heads[AT_ONCE];
    static uint8_t payloads[AT_ONCE * JOLUNZA_LONGEST_PAYLOAD];
    static uint32_t times[AT_ONCE * JOLUNZA_MOST_MEMBERS];
    struct member *member = &members[me];
    size_t count;

    do {
        must(jolunza_events(&member->handle, member->seen, heads, AT_ONCE, payloads, sizeof payloads, times,
                            AT_ONCE * size, &count) == JOLUNZA_DONE);
        for (size_t i = 0; i < count; i++)
            tally(me, &heads[i], times + i * size);
        member->seen += count;
    } while (count == AT_ONCE);
}

/* Takes all parts, from this one on and as far as one call goes, and tells how many. */
static size_t take_some(uint32_t me, size_t part, size_t first)
{
    struct member *member = &members[me];
    const struct inbox *inbox = &member->inbox;
    size_t taken;

    must(jolunza_receive_parts(&member->handle, first, inbox->lengths + part, inbox->count - part, &taken) == JOLUNZA_DONE);
    send_frames(me, count_frames(me));
    return taken;
}

static void take_all(uint32_t me)
{
    struct inbox *inbox = &members[me].inbox;
    size_t part = 0, first = 0;

    if (inbox->count > 0)
        must(jolunza_load(&members[me].handle, inbox->bytes, inbox->end) == JOLUNZA_DONE);
    while (part < inbox->count) {
        size_t end = part + take_some(me, part, first);

        while (part < end)
            first += inbox->lengths[part++];
    }
    read_events(me);
    inbox->end = inbox->count = 0;
}

/* The member casts as often as a fourth of the window, as long as it may. */
static void cast_some(uint32_t me)
{
    for (uint32_t i = 0; i < (window / 4 ? window / 4 : 1) && made < casts; i++) {
        if (jolunza_cast(&members[me].handle, payload, payload_length) != JOLUNZA_DONE)
            return;
        made++;
        members[me].seen++;
        send_frames(me, 1);
    }
}

static void tick_all(void)
{
    for (uint32_t me = 0; me < size; me++) {
        must(jolunza_tick(&members[me].handle) == JOLUNZA_DONE);
        send_frames(me, count_frames(me));
    }
}

static void run_round(void)
{
    for (uint32_t me = 0; me < size; me++) {
        take_all(me);
        cast_some(me);
    }
    tick_all();
}

int main(int count, char **words)
{
    must(count == 5);
    size = (uint32_t)atol(words[1]);
    window = (uint32_t)atol(words[2]);
    payload_length = (size_t)atol(words[3]);
    casts = (uint64_t)atol(words[4]);
    memset(payload, 'a', sizeof payload);
    for (uint32_t me = 0; me < size; me++)
        must(jolunza_open(&members[me].handle, GROUP, size, window, me, LIMIT) == JOLUNZA_DONE);
    while (deliveries < casts * (size - 1))
        run_round();
    for (uint32_t me = 0; me < size; me++)
        jolunza_close(&members[me].handle);
    printf("deliveries %" PRIu64 " digest %016" PRIx64 "\n", deliveries, digest);
    return 0;
}
