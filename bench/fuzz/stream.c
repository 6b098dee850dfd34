/*
 * A stream of frames, each behind its length (docs/PROTOCOL.md, "Streams"), cut into pieces. The library for C has no reader of
 * streams: one that is written from that page cuts the pieces into frames here. What each piece brings whole is loaded at once and
 * taken in parts, by one member; another of the same settings takes the same frames one by one. Both have to answer as the plain
 * member does, and to be alike at the end. Behind a fault the rest of the piece is dropped, and the next one begins a new stream.
 */
#include <string.h>

#include "checked.h"
#include "reached.h"

enum { MOST_PARTS = 64, MOST_STREAM = 1 << 14 };

/* What came and was not taken yet. */
static struct {
    size_t length;
    uint8_t bytes[MOST_STREAM];
} kept;

/* The frames that are whole, one behind the other. */
static struct {
    size_t count;
    size_t lengths[MOST_PARTS];
    size_t length;
    uint8_t bytes[MOST_STREAM];
} whole;

static struct checked loader, receiver;

enum found { FOUND_NONE, FOUND_FRAME, FOUND_FAULT };

/* What stands at the front of these bytes; `number` is the length that is said there. */
static enum found look(const uint8_t *bytes, size_t length, struct number *number)
{
    *number = number_read(bytes, length);
    if (number->is_short)
        return FOUND_NONE;
    if (number->length == 0 || number->value == 0 || number->value > JOLUNZA_LONGEST_FRAME)
        return FOUND_FAULT;
    return number->value <= length - number->length ? FOUND_FRAME : FOUND_NONE;
}

/* Moves whole frames out of what is kept, as far as they go. */
static void cut(void)
{
    enum found found = FOUND_FRAME;
    struct number number;
    size_t at = 0;

    whole.count = 0;
    whole.length = 0;
    while (whole.count < MOST_PARTS && (found = look(kept.bytes + at, kept.length - at, &number)) == FOUND_FRAME) {
        memcpy(whole.bytes + whole.length, kept.bytes + at + number.length, number.value);
        whole.length += number.value;
        whole.lengths[whole.count++] = number.value;
        at += number.length + number.value;
    }
    kept.length = found == FOUND_FAULT ? 0 : kept.length - at;
    memmove(kept.bytes, kept.bytes + at, kept.length);
}

/* One call takes several parts, or one; a part that is refused is behind too. Answers how many are. */
static size_t take_parts(bool at_once, size_t first, size_t part)
{
    size_t taken = 0;

    if (at_once)
        taken = checked_receive_parts(&loader, first, whole.lengths + part, whole.count - part).count;
    else
        checked_receive_loaded(&loader, first, whole.lengths[part]);
    return taken > 0 ? taken : 1;
}

/* One member takes them as parts of what is loaded. */
static void take_loaded(bool at_once)
{
    size_t first = 0, behind = 0;

    checked_load(&loader, whole.bytes, whole.length);
    for (size_t part = 0; part < whole.count; part++) {
        if (part == behind)
            behind += take_parts(at_once, first, part);
        first += whole.lengths[part];
    }
}

/* Frames that both members answer alike; the other one copies each. */
static void take_one_by_one(void)
{
    size_t first = 0;

    for (size_t i = 0; i < whole.count; i++) {
        checked_receive(&receiver, whole.bytes + first, whole.lengths[i]);
        first += whole.lengths[i];
    }
}

static void come(const uint8_t *bytes, size_t length, bool at_once)
{
    memcpy(kept.bytes + kept.length, bytes, length);
    kept.length += length;
    do {
        cut();
        take_loaded(at_once);
        take_one_by_one();
    } while (whole.count == MOST_PARTS);
}

/* One comes back by its calls, or by its journal with a torn line. */
static void come_back(uint8_t torn)
{
    if (torn % 2 == 0)
        checked_restart(&loader);
    else
        checked_return(&loader, torn);
}

/* What the members do between two pieces: both the same. */
static void both(uint8_t byte)
{
    uint32_t member = byte / 8 % loader.model.size;

    switch (byte % 8) {
    case 0:
        MUST(checked_cast(&loader, PAYLOAD, byte) == checked_cast(&receiver, PAYLOAD, byte));
        break;
    case 1:
        MUST(checked_tick(&loader) == checked_tick(&receiver));
        break;
    case 2:
        MUST(checked_help(&loader, member) == checked_help(&receiver, member));
        break;
    case 3:
        come_back(byte / 8);
        break;
    case 4:
        loader.refuse = 1 + byte / 8;
        break;
    default:
        break;
    }
}

static void are_alike(void)
{
    checked_all(&loader);
    checked_all(&receiver);
    MUST(loader.journal.length == receiver.journal.length);
    MUST(loader.journal.length == 0 || memcmp(loader.journal.at, receiver.journal.at, loader.journal.length) == 0);
    MUST(memcmp(loader.model.time, receiver.model.time, sizeof loader.model.time) == 0);
}

/* The stream is at the front of the input and what the members do between its pieces at the end. */
static void run(struct input *input)
{
    size_t piece = 1 + (size_t)take_byte(input), calls = take_byte(input) % 16;
    bool at_once = piece % 4 != 0;

    calls = calls < input->left ? calls : input->left;
    input->left -= calls;
    kept.length = 0;
    for (size_t i = 0; input->left > 0; i++) {
        struct bytes bytes = take_bytes(input, piece);

        if (i < calls)
            both(bytes.at[bytes.length + input->left + i]);
        come(bytes.at, bytes.length, at_once);
    }
}

int LLVMFuzzerTestOneInput(const uint8_t *data, size_t size);

int LLVMFuzzerTestOneInput(const uint8_t *data, size_t size)
{
    struct input input = {data, size < MOST_STREAM / 2 ? size : MOST_STREAM / 2};
    struct settings settings = settings_of(take_bytes(&input, SETTINGS_LENGTH));

    if (checked_open(&loader, settings) == JOLUNZA_DONE && checked_open(&receiver, settings) == JOLUNZA_DONE) {
        run(&input);
        are_alike();
    }
    checked_close(&loader);
    checked_close(&receiver);
    return 0;
}
