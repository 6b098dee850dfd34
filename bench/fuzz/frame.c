#include "frame.h"

#include <string.h>

struct reader {
    const uint8_t *bytes;
    size_t length;
    size_t at;
};

struct number number_read(const uint8_t *bytes, size_t length)
{
    struct number number = {0, 0, false};

    for (size_t place = 0; place < 5; place++) {
        if (place == length)
            return (struct number){0, 0, true};
        if (place == 4 && bytes[place] > 0x0f)
            return (struct number){0, 0, false};
        number.value |= (uint32_t)(bytes[place] & 0x7f) << (7 * place);
        if (bytes[place] < 0x80) {
            number.length = bytes[place] == 0 && place > 0 ? 0 : place + 1;
            break;
        }
    }
    return number;
}

/* Reads a number of at most `most`. */
static bool read_up_to(struct reader *reader, uint64_t most, uint32_t *value)
{
    struct number number = number_read(reader->bytes + reader->at, reader->length - reader->at);

    reader->at += number.length;
    *value = number.value;
    return number.length > 0 && number.value <= most;
}

static bool read_number(struct reader *reader, uint32_t *value)
{
    return read_up_to(reader, UINT32_MAX, value);
}

static bool read_member(struct reader *reader, uint32_t *value)
{
    return read_up_to(reader, MOST_FIELDS - 1, value);
}

static bool is_cast_kind(uint32_t kind)
{
    return kind == FRAME_CAST || kind == FRAME_BURST;
}

static bool read_field(struct reader *reader, const struct frame *frame, uint32_t least, struct field *field)
{
    if (least >= MOST_FIELDS || !read_up_to(reader, MOST_FIELDS - 1 - least, &field->index))
        return false;
    field->index += least;
    return !(is_cast_kind(frame->kind) && field->index == frame->sender) && read_number(reader, &field->amount)
        && field->amount > 0;
}

static bool read_fields(struct reader *reader, struct frame *frame)
{
    uint32_t count, least = 0;

    if (!read_number(reader, &count))
        return false;
    for (; frame->field_count < count; frame->field_count++) {
        struct field field;

        if (!read_field(reader, frame, least, &field))
            return false;
        frame->fields[frame->field_count] = field;
        least = field.index + 1;
    }
    return true;
}

/* Reads a payload of at most `room` bytes. */
static bool read_payload(struct reader *reader, struct frame *frame, size_t room)
{
    struct span *span = &frame->payloads[frame->payload_count++];
    uint32_t length;

    if (!read_up_to(reader, room, &length) || length > reader->length - reader->at)
        return false;
    *span = (struct span){reader->at, length};
    reader->at += length;
    return true;
}

static bool read_payloads(struct reader *reader, struct frame *frame)
{
    size_t room = JOLUNZA_LONGEST_PAYLOAD;
    uint32_t count;

    if (!read_up_to(reader, MOST_PAYLOADS, &count) || count == 0 || UINT32_MAX - frame->number < count - 1)
        return false;
    while (frame->payload_count < count) {
        if (!read_payload(reader, frame, room))
            return false;
        room -= frame->payloads[frame->payload_count - 1].length;
    }
    return true;
}

static bool read_ranges(struct reader *reader, struct frame *frame)
{
    uint64_t least = 1;
    uint32_t count;

    if (!read_up_to(reader, MOST_RANGES, &count) || count == 0)
        return false;
    while (frame->range_count < count) {
        jolunza_range *range = &frame->ranges[frame->range_count++];

        if (least > UINT32_MAX || !read_up_to(reader, UINT32_MAX - least, &range->first))
            return false;
        range->first += (uint32_t)least;
        if (!read_up_to(reader, UINT32_MAX - range->first, &range->last))
            return false;
        range->last += range->first;
        least = (uint64_t)range->last + 2;
    }
    return true;
}

static bool read_cast(struct reader *reader, struct frame *frame)
{
    return read_number(reader, &frame->number) && frame->number > 0 && read_fields(reader, frame)
        && (frame->kind == FRAME_BURST ? read_payloads(reader, frame) : read_payload(reader, frame, JOLUNZA_LONGEST_PAYLOAD));
}

static bool read_asked(struct reader *reader, struct frame *frame)
{
    if (!read_member(reader, &frame->asked))
        return false;
    frame->of = frame->asked;
    return (frame->kind == FRAME_REQUEST || read_member(reader, &frame->of)) && read_ranges(reader, frame);
}

static bool read_body(struct reader *reader, struct frame *frame)
{
    switch (frame->kind) {
    case FRAME_CAST:
    case FRAME_BURST:
        return read_cast(reader, frame);
    case FRAME_STATUS:
        return read_fields(reader, frame);
    default:
        return read_asked(reader, frame);
    }
}

static bool is_kind(uint8_t byte)
{
    return byte != 0 && memchr("\x11\x21\x12\x13\x23", byte, 5) != NULL;
}

bool frame_read(struct frame *frame, const uint8_t *bytes, size_t length)
{
    struct reader reader = {bytes, length, 1};

    memset(frame, 0, sizeof *frame);
    if (length == 0 || !is_kind(bytes[0]))
        return false;
    frame->kind = bytes[0];
    return read_number(&reader, &frame->group) && read_member(&reader, &frame->sender) && read_body(&reader, frame)
        && reader.at == length;
}

static uint8_t *put_number(uint8_t *to, uint32_t value)
{
    for (; value >= 0x80; value >>= 7)
        *to++ = (uint8_t)(value | 0x80);
    *to++ = (uint8_t)value;
    return to;
}

static uint8_t *put_fields(uint8_t *to, const struct frame *frame)
{
    uint32_t least = 0;

    to = put_number(to, (uint32_t)frame->field_count);
    for (size_t i = 0; i < frame->field_count; i++) {
        to = put_number(to, frame->fields[i].index - least);
        to = put_number(to, frame->fields[i].amount);
        least = frame->fields[i].index + 1;
    }
    return to;
}

static uint8_t *put_payloads(uint8_t *to, const struct frame *frame, const uint8_t *payloads)
{
    if (frame->kind == FRAME_BURST)
        to = put_number(to, (uint32_t)frame->payload_count);
    for (size_t i = 0; i < frame->payload_count; i++) {
        const struct span *span = &frame->payloads[i];

        to = put_number(to, (uint32_t)span->length);
        memcpy(to, payloads + span->first, span->length);
        to += span->length;
    }
    return to;
}

static uint8_t *put_ranges(uint8_t *to, const struct frame *frame)
{
    uint32_t least = 1;

    to = put_number(to, (uint32_t)frame->range_count);
    for (size_t i = 0; i < frame->range_count; i++) {
        to = put_number(to, frame->ranges[i].first - least);
        to = put_number(to, frame->ranges[i].last - frame->ranges[i].first);
        least = frame->ranges[i].last + 2;
    }
    return to;
}

static uint8_t *put_asked(uint8_t *to, const struct frame *frame)
{
    to = put_number(to, frame->asked);
    if (frame->kind == FRAME_HELP)
        to = put_number(to, frame->of);
    return put_ranges(to, frame);
}

size_t frame_write(const struct frame *frame, const uint8_t *payloads, uint8_t *bytes)
{
    uint8_t *to = bytes;

    *to++ = (uint8_t)frame->kind;
    to = put_number(to, frame->group);
    to = put_number(to, frame->sender);
    if (is_cast_kind(frame->kind)) {
        to = put_fields(put_number(to, frame->number), frame);
        to = put_payloads(to, frame, payloads);
    } else {
        to = frame->kind == FRAME_STATUS ? put_fields(to, frame) : put_asked(to, frame);
    }
    return (size_t)(to - bytes);
}
