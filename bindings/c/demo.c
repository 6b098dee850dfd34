/*
 * Three members in one process, and between them a network that is a list of datagrams for each. Member 0's question is lost on
 * its way to member 2, which therefore gets the answer first: it shows nothing, asks for the question, and then shows both. A
 * stranger's datagram is refused: it is counted and dropped, and nothing else changes.
 */
#include <stdio.h>
#include <stdlib.h>
#include <string.h>

#include "jolunza.h"

enum { GROUP = 7, SIZE = 3, WINDOW = 16, MOST_WAITING = 16 };

struct datagram {
    size_t length;
    uint8_t bytes[JOLUNZA_LONGEST_FRAME];
};

struct member {
    jolunza_handle handle; /* static, so all bytes are 0: it begins closed */
    uint32_t me;
    unsigned dropped; /* how many datagrams were refused */
    struct datagram inbox[MOST_WAITING];
    size_t waiting;
};

static struct member members[SIZE];

static void must(uint32_t code, const char *call)
{
    if (code != JOLUNZA_DONE) {
        fprintf(stderr, "%s: %s\n", call, jolunza_text(code));
        exit(1);
    }
}

static void put(uint32_t to, const uint8_t *bytes, size_t length)
{
    struct member *member = &members[to];

    if (member->waiting < MOST_WAITING) {
        struct datagram *datagram = &member->inbox[member->waiting++];

        datagram->length = length;
        memcpy(datagram->bytes, bytes, length);
    }
}

static void send_frame(const struct member *from, const jolunza_frame_head *head, const uint8_t *bytes)
{
    for (uint32_t to = 0; to < SIZE; to++)
        if (head->to_all ? to != from->me : to == head->to)
            put(to, bytes, head->length);
}

static void show(const struct member *member, const jolunza_event_head *head, const uint8_t *payload, const uint32_t *time)
{
    printf("member %u %s %u.%u [%u,%u,%u] %.*s\n", (unsigned)member->me, head->is_own ? "casts" : "shows", (unsigned)head->sender,
           (unsigned)head->number, (unsigned)time[0], (unsigned)time[1], (unsigned)time[2], (int)head->length, (const char *)payload);
}

// TURN: begin
/* Opens a member without a history: its memory stays bounded, and the events of a call can be read until the next. */
static uint32_t open_member(struct member *member, uint32_t me)
{
    member->me = me;
    return jolunza_open(&member->handle, GROUP, SIZE, WINDOW, me, 0);
}

/* Sends each frame and shows each event of the call that was just done. */
static void send_and_show(struct member *member)
{
    jolunza_handle *handle = &member->handle;
    jolunza_frame_head frame;
    jolunza_event_head event;
    uint8_t bytes[JOLUNZA_LONGEST_FRAME];
    uint32_t time[SIZE];

    for (size_t i = 0; jolunza_frame(handle, i, &frame, bytes, sizeof bytes) == JOLUNZA_DONE; i++)
        send_frame(member, &frame, bytes);
    for (size_t i = 0; jolunza_event(handle, i, &event, bytes, sizeof bytes, time, SIZE) == JOLUNZA_DONE; i++)
        show(member, &event, bytes, time);
}

/* A member's turn: it takes each received datagram, and then reports what it has and asks for what it misses. */
static void turn(struct member *member)
{
    jolunza_received received;
    uint32_t code;

    for (size_t i = 0; i < member->waiting; i++) {
        const struct datagram *datagram = &member->inbox[i];

        code = jolunza_receive(&member->handle, datagram->bytes, datagram->length, &received);
        if (code == JOLUNZA_DONE) {
            send_and_show(member);
        } else {
            member->dropped++; /* anybody can send a datagram: count it, drop it, take the next */
            printf("member %u drops %zu bytes: %s\n", (unsigned)member->me, datagram->length, jolunza_text(code));
        }
    }
    member->waiting = 0;
    code = jolunza_tick(&member->handle);
    if (code == JOLUNZA_DONE)
        send_and_show(member);
    else
        printf("member %u ticks later: %s\n", (unsigned)member->me, jolunza_text(code));
}
// TURN: end

static void cast(struct member *member, const char *text)
{
    must(jolunza_cast(&member->handle, jolunza_bytes(text), strlen(text)), "jolunza_cast");
    send_and_show(member);
}

static void tell_missing(struct member *member, uint32_t of)
{
    jolunza_range ranges[WINDOW];
    size_t count;

    must(jolunza_missing(&member->handle, of, ranges, WINDOW, &count), "jolunza_missing");
    for (size_t i = 0; i < count && i < WINDOW; i++)
        printf("member %u misses %u.%u to %u.%u\n", (unsigned)member->me, (unsigned)of, (unsigned)ranges[i].first, (unsigned)of,
               (unsigned)ranges[i].last);
}

int main(void)
{
    uint32_t stable;

    for (uint32_t me = 0; me < SIZE; me++)
        must(open_member(&members[me], me), "jolunza_open");
    cast(&members[0], "when?");
    members[2].waiting = 0; /* the question is lost on its way to member 2 */
    put(1, (const uint8_t *)"hello", 5);
    turn(&members[1]);
    cast(&members[1], "noon");
    turn(&members[2]); /* it has the answer, and shows nothing */
    tell_missing(&members[2], 0);
    for (int round = 0; round < 2; round++)
        for (uint32_t me = 0; me < SIZE; me++)
            turn(&members[me]);
    must(jolunza_stable(&members[0].handle, &stable), "jolunza_stable");
    printf("all have %u cast of member 0; member 1 has dropped %u datagram\n", (unsigned)stable, members[1].dropped);
    for (uint32_t me = 0; me < SIZE; me++)
        jolunza_close(&members[me].handle);
    return stable == 1 && members[1].dropped == 1 ? 0 : 1;
}
