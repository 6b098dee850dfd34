/*
 * The causal machine, without any time: which messages each member has cast and delivered, by name, and which of them its next
 * message comes after. Nothing here is taken from the protocol.
 */
#ifndef PAST_H
#define PAST_H

#include "jolunza.h"

enum { MOST_IN_GROUP = 5, MOST_NUMBER = 255, NAME_WORDS = MOST_IN_GROUP * 4 };

/* A set of names. */
struct names {
    uint64_t words[NAME_WORDS];
};

struct message {
    bool is_cast;
    uint32_t length;
    struct names past; /* what its sender had cast and delivered before */
};

struct machine {
    uint32_t size;
    struct message messages[MOST_IN_GROUP][MOST_NUMBER + 1]; /* by number, from 1 */
    struct names seen[MOST_IN_GROUP];                        /* cast or delivered by each member */
    struct names arrived[MOST_IN_GROUP];                     /* seen in a frame that each has taken, or cast by it */
};

void machine_begin(struct machine *machine, uint32_t size);

bool names_have(const struct names *names, uint32_t sender, uint32_t number);
void names_add(struct names *names, uint32_t sender, uint32_t number);

/* Whether all of the first are in the second. */
bool names_are_in(const struct names *names, const struct names *others);
uint32_t names_count(const struct names *names, uint32_t sender);

/* How many a member has cast. */
uint32_t machine_cast_count(const struct machine *machine, uint32_t member);

/* A byte of a message's payload, which no other message has at all its places. */
uint8_t payload_byte(uint32_t sender, uint32_t number, size_t at);

/* The member casts its next message. */
void machine_cast(struct machine *machine, uint32_t member, uint32_t number, uint32_t length);

/* The member delivers a message that was cast, once, with its whole past. */
void machine_deliver(struct machine *machine, uint32_t member, uint32_t sender, uint32_t number);

/* Whether each message of the sender that has arrived, and is not delivered, has a past that has not wholly arrived. */
bool machine_waits_for_past(const struct machine *machine, uint32_t member, uint32_t sender);

#endif
