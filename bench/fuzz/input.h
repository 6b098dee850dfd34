/* An input of the fuzzer, from which what to do is taken byte by byte; behind its end there are zeros. */
#ifndef INPUT_H
#define INPUT_H

#include "frame.h"

struct input {
    const uint8_t *at;
    size_t left;
};

uint8_t take_byte(struct input *input);

/* As many of the next bytes as there are, up to so many. */
struct bytes {
    const uint8_t *at;
    size_t length;
};

struct bytes take_bytes(struct input *input, size_t most);

/* What a new member is made of. Most inputs say what a member can be made of. */
struct settings {
    uint32_t group, size, window, me;
    size_t limit;
};

enum { SETTINGS_LENGTH = 4 };

struct settings settings_of(struct bytes bytes);

/* A number that is small, or at an edge. */
uint32_t take_number(struct input *input);

/* A number of a member that is one of the group, but seldom. */
uint32_t take_member(struct input *input, uint32_t size);

/* A payload's length: one below 64, but seldom. */
size_t take_length(struct input *input);

/* Bytes that payloads are made of. */
extern const uint8_t PAYLOAD[2 * JOLUNZA_LONGEST_PAYLOAD];

/* What a frame is made for. */
struct about {
    uint32_t group, size;
    const uint32_t *time; /* its casts begin near these numbers */
};

/* Writes a frame of any kind, with what the input says of it; most are well formed. */
size_t take_frame(struct input *input, const struct about *about, uint8_t *bytes);

#endif
