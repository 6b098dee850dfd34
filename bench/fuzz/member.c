/*
 * One member: settings, calls and the bytes that arrive are what the input says. Each answer has to be the plain member's
 * (checked.h). At the end the member comes back by its entries and by its journal, and goes on as before.
 */
#include <string.h>

#include "checked.h"
#include "input.h"
#include "reached.h"

enum { MOST_CALLS = 160, POOL = 24, MOST_PARTS = 12 };

/* Frames that came, or that could have come: to come again, changed or not, or with others. */
static struct {
    size_t count;
    size_t lengths[POOL];
    uint8_t bytes[POOL][JOLUNZA_LONGEST_FRAME];
} pool;

/* The parts that were loaded last. */
static struct {
    size_t count;
    size_t firsts[MOST_PARTS];
    size_t lengths[MOST_PARTS];
} parts;

static struct checked member;

static struct about about(void)
{
    return (struct about){member.model.group, member.model.size, member.model.time};
}

static void keep(const uint8_t *bytes, size_t length)
{
    size_t at = pool.count++ % POOL;

    memcpy(pool.bytes[at], bytes, length);
    pool.lengths[at] = length;
}

static size_t pooled(struct input *input)
{
    size_t count = pool.count < POOL ? pool.count : POOL;

    return count == 0 ? POOL : take_byte(input) % count;
}

/* The calls. */

static void call_cast(struct input *input)
{
    size_t length = take_length(input);

    if (checked_cast(&member, PAYLOAD, length) == JOLUNZA_DONE)
        keep(member.model.out.bytes, member.model.out.length);
}

static void call_burst(struct input *input)
{
    size_t lengths[JOLUNZA_MOST_MESSAGES + 2], count = take_byte(input) % (JOLUNZA_MOST_MESSAGES + 2);
    size_t length = take_byte(input) % 16 == 0 ? take_length(input) : sizeof PAYLOAD;

    for (size_t i = 0; i < count; i++)
        lengths[i] = take_length(input);
    if (count > 0 && length < 3)
        lengths[count - 1] = SIZE_MAX;
    checked_burst(&member, PAYLOAD, length, lengths, count);
}

static void call_raw(struct input *input)
{
    struct bytes bytes = take_bytes(input, take_length(input));

    if (bytes.length <= JOLUNZA_LONGEST_FRAME)
        keep(bytes.at, bytes.length);
    checked_receive(&member, bytes.at, bytes.length);
}

/* A well-formed frame arrives. */
static void call_made(struct input *input)
{
    uint8_t bytes[JOLUNZA_LONGEST_FRAME];
    struct about of = about();
    size_t length = take_frame(input, &of, bytes);

    keep(bytes, length);
    checked_receive(&member, bytes, length);
}

/* A well-formed frame is there to arrive later. */
static void make_later(struct input *input)
{
    uint8_t bytes[JOLUNZA_LONGEST_FRAME];
    struct about of = about();

    keep(bytes, take_frame(input, &of, bytes));
}

/* A frame arrives again, or with a byte changed, or cut short. */
static void call_again(struct input *input)
{
    uint8_t bytes[JOLUNZA_LONGEST_FRAME], how = take_byte(input) % 4;
    size_t at = pooled(input), length = at < POOL ? pool.lengths[at] : 0;

    if (at < POOL)
        memcpy(bytes, pool.bytes[at], length);
    if (how == 1 && length > 0)
        bytes[take_byte(input) % length] = take_byte(input);
    if (how == 2 && length > 0)
        length = take_byte(input) % length;
    checked_receive(&member, bytes, length);
}

static void call_load(struct input *input)
{
    static uint8_t bytes[MOST_PARTS * JOLUNZA_LONGEST_FRAME];
    size_t count = take_byte(input) % (MOST_PARTS + 1), length = 0;

    parts.count = 0;
    for (size_t i = 0; i < count; i++) {
        size_t at = pooled(input), part = at < POOL ? pool.lengths[at] : 0;

        if (part > 0)
            memcpy(bytes + length, pool.bytes[at], part);
        parts.firsts[parts.count] = length;
        parts.lengths[parts.count++] = part;
        length += part;
    }
    checked_load(&member, bytes, length);
}

/* All parts are handed over, as a service does: where one is refused the next call begins behind it. */
static void call_all_parts(struct input *input)
{
    (void)input;
    for (size_t i = 0; i < parts.count;) {
        struct parts_taken taken = checked_receive_parts(&member, parts.firsts[i], parts.lengths + i, parts.count - i);

        i += taken.count > 0 ? taken.count : 1;
    }
}

/* Any bytes of those that are loaded. */
static void call_some_parts(struct input *input)
{
    size_t lengths[4], count = take_byte(input) % 5, first = take_number(input);

    if (first == UINT32_MAX)
        first = SIZE_MAX;
    for (size_t i = 0; i < 4; i++)
        lengths[i] = parts.count > 0 ? parts.lengths[take_byte(input) % parts.count] : take_length(input);
    if (parts.count > 0 && take_byte(input) % 2 == 0)
        first = parts.firsts[first % parts.count];
    if (count == 4)
        lengths[0] = take_byte(input) % 2 == 0 ? SIZE_MAX : lengths[0] + 1;
    checked_receive_parts(&member, first, lengths, count);
}

static void call_one_part(struct input *input)
{
    size_t at = take_byte(input);

    if (at < parts.count)
        checked_receive_loaded(&member, parts.firsts[at], parts.lengths[at]);
    else
        checked_receive_loaded(&member, take_number(input), take_length(input));
}

static void call_reading(struct input *input)
{
    struct room room;

    room.first = take_number(input);
    room.heads = take_byte(input);
    room.bytes = take_number(input);
    room.others = take_number(input);
    checked_read(&member, room);
    checked_read_none(&member, take_member(input, member.model.size));
}

static void come_back(struct input *input)
{
    uint8_t how = take_byte(input);
    size_t before = member.text.length;

    parts.count = 0;
    if (how % 4 == 0) {
        checked_restart(&member);
    } else if (how % 4 == 1) {
        checked_return(&member, how / 4);
    } else if (how % 4 == 2) {
        checked_beginning(&member, take_number(input));
    } else {
        call_made(input);
        checked_lose(&member, before, how / 4);
    }
}

static void call_seldom(struct input *input)
{
    switch (take_byte(input) % 4) {
    case 0:
        checked_closed();
        break;
    case 1:
        come_back(input);
        break;
    default:
        member.refuse = 1 + take_byte(input) % 32;
    }
}

static void call_tick(struct input *input)
{
    (void)input;
    checked_tick(&member);
}

static void call_help(struct input *input)
{
    checked_help(&member, take_member(input, member.model.size));
}

static void call(struct input *input)
{
    static void (*const BY_BYTE[16])(struct input *) = {
        call_cast,     call_burst,   call_tick,   call_help,  call_raw,  call_load, call_all_parts, call_some_parts,
        call_one_part, call_reading, call_seldom, make_later, call_again, call_made, call_made,     call_made,
    };

    BY_BYTE[take_byte(input) % 16](input);
}

/* The member that it was goes on as it would have. */
static void end(void)
{
    checked_all(&member);
    checked_restart(&member);
    checked_return(&member, member.model.me);
    for (uint32_t i = 0; i < member.model.size && i < 4; i++)
        checked_help(&member, i);
    checked_tick(&member);
    checked_cast(&member, PAYLOAD, 1);
    checked_all(&member);
}

int LLVMFuzzerTestOneInput(const uint8_t *data, size_t size);

int LLVMFuzzerTestOneInput(const uint8_t *data, size_t size)
{
    struct input input = {data, size};
    struct settings settings = settings_of(take_bytes(&input, SETTINGS_LENGTH));

    pool.count = 0;
    parts.count = 0;
    if (settings.size > 3 && take_byte(&input) % 8 == 0)
        member.refuse = 1 + take_byte(&input) % 32;
    if (checked_open(&member, settings) == JOLUNZA_DONE) {
        for (int calls = 0; calls < MOST_CALLS && input.left > 0; calls++)
            call(&input);
        end();
    }
    checked_close(&member);
    return 0;
}
