/* Frames as docs/PROTOCOL.md says them, written from that page alone: what bytes say, and the bytes of what is to be said. */
#ifndef FRAME_H
#define FRAME_H

#include "jolunza.h"

enum { MOST_FIELDS = JOLUNZA_MOST_MEMBERS, MOST_PAYLOADS = JOLUNZA_MOST_MESSAGES, MOST_RANGES = 32 };

enum frame_kind { FRAME_CAST = 0x11, FRAME_BURST = 0x21, FRAME_STATUS = 0x12, FRAME_REQUEST = 0x13, FRAME_HELP = 0x23 };

/* A change of a cast or a value of a status. */
struct field {
    uint32_t index;
    uint32_t amount;
};

/* Where a payload lies, in bytes of the frame. */
struct span {
    size_t first;
    size_t length;
};

struct frame {
    uint32_t kind;
    uint32_t group;
    uint32_t sender; /* of a request or a help frame the requester */
    uint32_t asked;  /* of a help frame the helper */
    uint32_t of;     /* whose casts are asked for; of a request the asked member */
    uint32_t number; /* of the first message */
    size_t field_count;
    struct field fields[MOST_FIELDS];
    size_t payload_count;
    struct span payloads[MOST_PAYLOADS];
    size_t range_count;
    jolunza_range ranges[MOST_RANGES];
};

/* Of a number at the front of the bytes: how long it is, and what it says; 0 where there is none yet (Short), or none ever. */
struct number {
    size_t length;
    uint32_t value;
    bool is_short;
};

struct number number_read(const uint8_t *bytes, size_t length);

/* Whether the bytes are one frame. */
bool frame_read(struct frame *frame, const uint8_t *bytes, size_t length);

/* Writes the frame, whose payloads lie in `payloads` where its spans say, and says how long it is. */
size_t frame_write(const struct frame *frame, const uint8_t *payloads, uint8_t *bytes);

#endif
