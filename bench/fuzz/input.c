#include "input.h"

#include <string.h>

const uint8_t PAYLOAD[2 * JOLUNZA_LONGEST_PAYLOAD];

uint8_t take_byte(struct input *input)
{
    if (input->left == 0)
        return 0;
    input->left--;
    return *input->at++;
}

struct bytes take_bytes(struct input *input, size_t most)
{
    struct bytes bytes = {input->at, most < input->left ? most : input->left};

    input->at += bytes.length;
    input->left -= bytes.length;
    return bytes;
}

static uint32_t window_of(uint8_t byte)
{
    if (byte < 239)
        return 1 + byte % 8;
    return byte == 239 ? 0 : byte == 255 ? 257 : (uint32_t)(byte - 238) * 16;
}

static size_t limit_of(uint8_t byte)
{
    if (byte % 4 == 0)
        return 0;
    if (byte % 4 == 1)
        return byte / 4 % 16;
    return byte == 255 ? 16777217 : 1000;
}

struct settings settings_of(struct bytes bytes)
{
    struct settings settings = {7, 3, 4, 0, 1000};

    if (bytes.length < SETTINGS_LENGTH)
        return settings;
    settings.size = bytes.at[0] < 192 ? 2 + bytes.at[0] % 3 : bytes.at[0] == 254 ? 65 : (uint32_t)bytes.at[0] - 191;
    settings.window = window_of(bytes.at[1]);
    settings.me = bytes.at[2] < 250 ? bytes.at[2] % settings.size : bytes.at[2];
    settings.limit = limit_of(bytes.at[3]);
    settings.group = bytes.at[3] < 224 ? 7 : bytes.at[3] < 240 ? 300 : UINT32_MAX;
    return settings;
}

uint32_t take_number(struct input *input)
{
    static const uint32_t EDGES[] = {127, 128, 255, 256, 257, 16383, 16384, 2097151, 2097152, 268435455, 268435456, UINT32_MAX - 1,
                                     UINT32_MAX};
    uint8_t byte = take_byte(input);

    return byte < 240 ? byte % 48 : EDGES[(size_t)(byte - 240) % (sizeof EDGES / sizeof *EDGES)];
}

uint32_t take_member(struct input *input, uint32_t size)
{
    uint8_t byte = take_byte(input);

    return byte < 248 ? byte % size : byte < 252 ? size + byte - 248 : UINT32_MAX - (uint32_t)(byte - 252);
}

size_t take_length(struct input *input)
{
    static const size_t EDGES[] = {127, 128, 512, 1023, 1024, 1025, 2048};
    uint8_t byte = take_byte(input);

    return byte < 249 ? byte % 64 : EDGES[byte - 249];
}

/* A member as a frame can name it. */
static uint32_t take_named(struct input *input, uint32_t size)
{
    return take_member(input, size) % MOST_FIELDS;
}

static void take_fields(struct input *input, const struct about *about, struct frame *frame)
{
    size_t count = take_byte(input) % 8 < 7 ? take_byte(input) % 4 : about->size - 1;
    uint32_t least = 0;

    for (size_t i = 0; i < count && least < MOST_FIELDS; i++) {
        struct field field = {least + take_byte(input) % 2, take_number(input)};

        field.index += frame->kind != FRAME_STATUS && field.index == frame->sender;
        field.amount += field.amount == 0;
        if (field.index >= MOST_FIELDS)
            return;
        frame->fields[frame->field_count++] = field;
        least = field.index + 1;
    }
}

static void take_payloads(struct input *input, struct frame *frame)
{
    size_t count = frame->kind == FRAME_BURST ? 1 + take_byte(input) % MOST_PAYLOADS : 1, room = JOLUNZA_LONGEST_PAYLOAD;

    for (size_t i = 0; i < count; i++) {
        struct span span = {0, take_length(input) % (room + 1)};

        frame->payloads[frame->payload_count++] = span;
        room -= span.length;
    }
}

/* A cast that is near the next one of its sender. */
static void take_cast(struct input *input, const struct about *about, struct frame *frame)
{
    uint8_t byte = take_byte(input);

    frame->number = frame->sender < about->size && byte < 240 ? about->time[frame->sender] + byte % 12 : take_number(input);
    frame->number += frame->number == 0;
    take_fields(input, about, frame);
    take_payloads(input, frame);
    if (UINT32_MAX - frame->number < frame->payload_count - 1)
        frame->number = 1;
}

static void take_ranges(struct input *input, const struct about *about, struct frame *frame)
{
    size_t count = 1 + take_byte(input) % 4;
    uint64_t least = 1;

    frame->asked = take_named(input, about->size);
    frame->of = frame->kind == FRAME_HELP ? take_named(input, about->size) : frame->asked;
    while (frame->range_count < count && least <= UINT32_MAX) {
        uint64_t first = least + take_number(input) % 4, last = first + take_number(input);

        if (last > UINT32_MAX)
            last = UINT32_MAX;
        if (first > last)
            return;
        frame->ranges[frame->range_count++] = (jolunza_range){(uint32_t)first, (uint32_t)last};
        least = last + 2;
    }
}

size_t take_frame(struct input *input, const struct about *about, uint8_t *bytes)
{
    static const uint32_t KINDS[] = {FRAME_CAST, FRAME_BURST, FRAME_STATUS, FRAME_REQUEST, FRAME_HELP};
    struct frame frame = {.kind = KINDS[take_byte(input) % 5], .group = about->group};

    frame.sender = take_named(input, about->size);
    if (frame.kind == FRAME_STATUS)
        take_fields(input, about, &frame);
    else if (frame.kind == FRAME_REQUEST || frame.kind == FRAME_HELP)
        take_ranges(input, about, &frame);
    else
        take_cast(input, about, &frame);
    return frame_write(&frame, PAYLOAD, bytes);
}
