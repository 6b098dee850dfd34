/*
 * A group of members, and between them every frame that was sent: the input says who casts, ticks and asks for help, which frame
 * arrives where, how often or never, who ends and comes back, and what is forged. Forged frames reach one member, the victim. What
 * holds of the others rests on what they get of the victim's frames once it has taken a forged one (docs/FUZZING.md):
 *
 *   HONEST     nothing is forged, and the group is a run of the causal machine (past.h);
 *   CUT_OFF    they get none, and are a run of the causal machine;
 *   OWN_WORDS  they get all but what it hands on of others, and deliver what was cast, once, after all that its sender had;
 *   ALL        they get all.
 *
 * Each member is compared with a plain one at each call, whatever it gets (checked.h).
 */
#include <stdlib.h>
#include <string.h>

#include "checked.h"
#include "past.h"
#include "reached.h"

enum { MOST_STEPS = 192, MOST_SENT = 4096, MOST_PARTS = 16, MOST_CASTS = 180 };

enum trust { HONEST, CUT_OFF, OWN_WORDS, ALL };

/* A frame that was sent, and who can get it. */
struct sent {
    uint32_t from, to;
    bool to_all, is_tainted;
    size_t at, length;
};

static struct {
    uint32_t size, window, victim;
    enum trust trust;
    bool is_tainted; /* the victim has taken a forged frame */
    bool has_room;   /* no history can be full */
    struct checked members[MOST_IN_GROUP];
    uint32_t cast[MOST_IN_GROUP];
    size_t next[MOST_IN_GROUP]; /* which sent frame comes next in order */
} group;

static struct machine machine;

static struct {
    size_t count, length, room;
    struct sent frames[MOST_SENT];
    uint8_t *bytes;
} sent;

/* Frames. */

static const uint8_t *bytes_of(const struct sent *frame)
{
    return sent.bytes + frame->at;
}

static void keep_bytes(const uint8_t *bytes, size_t length)
{
    if (sent.room - sent.length < length) {
        sent.room = 2 * sent.room + length;
        sent.bytes = realloc(sent.bytes, sent.room);
        MUST(sent.bytes != NULL);
    }
    memcpy(sent.bytes + sent.length, bytes, length);
    sent.length += length;
}

static bool is_of_another(uint32_t from, const uint8_t *bytes, size_t length)
{
    struct frame frame;

    return !frame_read(&frame, bytes, length) || frame.sender != from;
}

/* A frame that the rule of trust keeps from the others. */
static bool is_kept_back(uint32_t from, const uint8_t *bytes, size_t length)
{
    if (!group.is_tainted || from != group.victim)
        return false;
    return group.trust == CUT_OFF || (group.trust == OWN_WORDS && is_of_another(from, bytes, length));
}

/* Sends what the member's last call has left. */
static void send(uint32_t from)
{
    const struct out *out = &group.members[from].model.out;
    size_t at = 0;

    for (size_t i = 0; i < out->count; i++) {
        const jolunza_frame_head *head = &out->heads[i];
        bool is_tainted = group.is_tainted && from == group.victim;

        if (sent.count < MOST_SENT && !is_kept_back(from, out->bytes + at, head->length)) {
            sent.frames[sent.count++] = (struct sent){from, head->to, head->to_all, is_tainted, sent.length, head->length};
            keep_bytes(out->bytes + at, head->length);
        }
        at += head->length;
    }
}

/* Whether the member is one of those who are to be a run of the causal machine. */
static bool is_trusted(uint32_t member)
{
    return group.trust == HONEST || (group.trust != ALL && !(group.is_tainted && member == group.victim));
}

static bool knows_truth(uint32_t member)
{
    return is_trusted(member) && (group.trust == HONEST || group.trust == CUT_OFF || !group.is_tainted);
}

/* Events. */

static bool is_payload(const uint8_t *payload, size_t length, uint32_t sender, uint32_t number)
{
    for (size_t i = 0; i < length; i++)
        if (payload[i] != payload_byte(sender, number, i))
            return false;
    return length == machine.messages[sender][number].length;
}

static bool is_time(const uint32_t *time, uint32_t sender, uint32_t number)
{
    for (uint32_t i = 0; i < group.size; i++)
        if (time[i] != (i == sender ? number : names_count(&machine.messages[sender][number].past, i)))
            return false;
    return true;
}

/* An event of a member, read from the library: it is one that the causal machine allows. */
static void see(uint32_t member, size_t index)
{
    jolunza_event_head head;
    uint8_t payload[JOLUNZA_LONGEST_PAYLOAD];
    uint32_t time[MOST_IN_GROUP];

    MUST(jolunza_event(&group.members[member].handle, index, &head, payload, sizeof payload, time, MOST_IN_GROUP) == JOLUNZA_DONE);
    if (!is_trusted(member)) {
        if (head.number <= MOST_NUMBER)
            names_add(&machine.seen[member], head.sender, head.number);
        else
            group.trust = ALL; /* more than are noted here */
        return;
    }
    MUST(head.sender < group.size && head.number >= 1 && head.number <= MOST_NUMBER && !head.is_own);
    machine_deliver(&machine, member, head.sender, head.number);
    MUST(is_payload(payload, head.length, head.sender, head.number));
    MUST(is_time(time, head.sender, head.number));
}

/* How many events there were before the call whose events come next. */
static size_t events_before(uint32_t member)
{
    return group.members[member].model.limit > 0 ? group.members[member].model.log.events : 0;
}

static void see_from(uint32_t member, size_t index)
{
    for (; index < group.members[member].model.log.events; index++)
        see(member, index);
}

/* What is known of others is so: nothing counts as delivered that is not, and nothing as missing that was not cast. */
static void check_knowledge(uint32_t member, uint32_t of)
{
    const struct model *model = &group.members[member].model;
    jolunza_range ranges[256];
    size_t count = of == member ? 0 : model_missing(model, of, ranges);

    for (uint32_t i = 0; i < group.size; i++)
        if (i != of && (is_trusted(i) || group.trust == CUT_OFF))
            MUST(model_stable(model, of) <= names_count(&machine.seen[i], of));
    if (count > 0)
        MUST(ranges[count - 1].last <= machine_cast_count(&machine, of));
}

static void check_member(uint32_t member)
{
    for (uint32_t sender = 0; sender < group.size; sender++)
        if (is_trusted(member) && (is_trusted(sender) || group.trust == CUT_OFF))
            MUST(machine_waits_for_past(&machine, member, sender));
    if (knows_truth(member))
        for (uint32_t of = 0; of < group.size; of++)
            check_knowledge(member, of);
}

/* Casts. */

static const uint8_t *payload_of(uint32_t member, uint32_t number, size_t length)
{
    static uint8_t payload[JOLUNZA_LONGEST_PAYLOAD];

    for (size_t i = 0; i < length; i++)
        payload[i] = payload_byte(member, number, i);
    return payload;
}

/* The window is the only reason not to cast, but for a history that is full. */
static void check_cast(uint32_t member, uint32_t code, uint32_t count)
{
    const struct model *model = &group.members[member].model;
    bool has_room = group.cast[member] + count - model_stable(model, member) <= group.window;

    if (code == JOLUNZA_DONE)
        return;
    MUST(code == JOLUNZA_WINDOW_FULL || code == JOLUNZA_HISTORY_FULL);
    MUST(code != JOLUNZA_WINDOW_FULL || !has_room);
    MUST(code != JOLUNZA_HISTORY_FULL || !group.has_room);
}

static void step_cast(uint32_t member, uint32_t length)
{
    uint32_t number = group.cast[member] + 1, code;

    if (number > MOST_CASTS)
        return;
    code = checked_cast(&group.members[member], payload_of(member, number, length), length);
    check_cast(member, code, 1);
    if (code != JOLUNZA_DONE)
        return;
    group.cast[member] = number;
    machine_cast(&machine, member, number, length);
    send(member);
}

static void step_burst(uint32_t member, uint32_t count, uint32_t length)
{
    uint8_t payloads[JOLUNZA_MOST_MESSAGES * 32];
    size_t lengths[JOLUNZA_MOST_MESSAGES];
    uint32_t first = group.cast[member] + 1, code;

    if (first + count > MOST_CASTS)
        return;
    for (uint32_t i = 0; i < count; i++) {
        lengths[i] = length;
        memcpy(payloads + i * length, payload_of(member, first + i, length), length);
    }
    code = checked_burst(&group.members[member], payloads, count * length, lengths, count);
    check_cast(member, code, count);
    for (uint32_t i = 0; code == JOLUNZA_DONE && i < count; i++)
        machine_cast(&machine, member, ++group.cast[member], length);
    if (code == JOLUNZA_DONE)
        send(member);
}

/* Arrivals. */

/* The names in a cast that was taken are there now. */
static void note_arrival(uint32_t member, const uint8_t *bytes, size_t length)
{
    struct frame frame;

    MUST(frame_read(&frame, bytes, length));
    if (frame.kind != FRAME_CAST && frame.kind != FRAME_BURST)
        return;
    for (size_t i = 0; i < frame.payload_count && frame.number + i <= MOST_NUMBER; i++)
        names_add(&machine.arrived[member], frame.sender % MOST_IN_GROUP, (uint32_t)(frame.number + i));
}

/* Frames of the group are taken, but for a full history and for what the victim says of others once it is tainted. */
static void check_arrival(uint32_t member, const struct sent *frame, uint32_t code)
{
    if (!is_trusted(member) || code == JOLUNZA_DONE)
        return;
    if (group.trust == OWN_WORDS && frame->is_tainted)
        MUST(code == JOLUNZA_HISTORY_FULL || code == JOLUNZA_IMPOSSIBLE || code == JOLUNZA_TOO_FAR);
    else
        MUST(code == JOLUNZA_HISTORY_FULL && !group.has_room);
}

static void step_arrive(uint32_t member, size_t index)
{
    const struct sent frame = sent.frames[index];
    size_t before = events_before(member);
    struct taken taken = checked_receive(&group.members[member], bytes_of(&frame), frame.length);

    check_arrival(member, &frame, taken.code);
    if (taken.code != JOLUNZA_DONE)
        return;
    if (is_trusted(member))
        note_arrival(member, bytes_of(&frame), frame.length);
    see_from(member, before);
    check_member(member);
    send(member);
}

static bool is_for(const struct sent *frame, uint32_t member)
{
    return frame->to_all ? frame->from != member : frame->to == member;
}

/* Frames that are for one member, one behind the other. */
static struct {
    size_t count, length;
    size_t indexes[MOST_PARTS], lengths[MOST_PARTS];
    uint8_t bytes[MOST_PARTS * JOLUNZA_LONGEST_FRAME];
} parts;

/* Gathers frames from this one on, as many as are loaded at once; answers behind which. */
static size_t gather(uint32_t member, size_t first)
{
    parts.count = 0;
    parts.length = 0;
    for (; first < sent.count && parts.count < MOST_PARTS; first++) {
        const struct sent *frame = &sent.frames[first];

        if (!is_for(frame, member))
            continue;
        memcpy(parts.bytes + parts.length, bytes_of(frame), frame->length);
        parts.indexes[parts.count] = first;
        parts.lengths[parts.count++] = frame->length;
        parts.length += frame->length;
    }
    return first;
}

/* Parts were taken in one call, from one that begins here on. Answers where they end. */
static size_t took(uint32_t member, size_t first, size_t part, size_t count)
{
    for (; count > 0; count--) {
        if (is_trusted(member))
            note_arrival(member, parts.bytes + first, parts.lengths[part]);
        first += parts.lengths[part++];
    }
    return first;
}

/* One call takes parts, as many as it can, from one that begins here on; or the first is refused. Answers how many are behind. */
static size_t step_parts(uint32_t member, size_t *first, size_t part)
{
    size_t before = events_before(member);
    struct parts_taken taken = checked_receive_parts(&group.members[member], *first, parts.lengths + part, parts.count - part);

    check_arrival(member, &sent.frames[parts.indexes[part]], taken.code);
    if (taken.count == 0) {
        *first += parts.lengths[part];
        return 1;
    }
    *first = took(member, *first, part, taken.count);
    see_from(member, before);
    check_member(member);
    send(member);
    return taken.count;
}

static void step_load(uint32_t member)
{
    size_t first = 0;

    if (parts.count > 0)
        checked_load(&group.members[member], parts.bytes, parts.length);
    for (size_t part = 0; part < parts.count;)
        part += step_parts(member, &first, part);
}

/* Ticks, help, forgeries. */

static void step_tick(uint32_t member)
{
    uint32_t code = checked_tick(&group.members[member]);

    MUST(code == JOLUNZA_DONE || !group.has_room);
    if (code == JOLUNZA_DONE)
        send(member);
}

static void step_help(uint32_t member, uint32_t of)
{
    MUST((checked_help(&group.members[member], of) == JOLUNZA_DONE) == (of != member));
    if (of != member)
        send(member);
}

/* Coming back. */

/* A call of the member that nobody hears of: nothing is sent, and nobody sees its events. */
static void call_unheard(uint32_t member, uint8_t how)
{
    struct checked *checked = &group.members[member];
    const struct sent *frame = sent.count > 0 ? &sent.frames[how % sent.count] : NULL;

    if (how % 4 == 0)
        checked_tick(checked);
    else if (how % 4 == 1 || frame == NULL)
        checked_cast(checked, payload_of(member, group.cast[member] + 1, how), how);
    else
        checked_receive(checked, bytes_of(frame), frame->length);
}

/* The member ends in the midst of a call, before its line was whole. It is back as if the call was never made. */
static void step_lose(uint32_t member, uint8_t how, size_t kept)
{
    size_t before = group.members[member].text.length;

    call_unheard(member, how);
    checked_lose(&group.members[member], before, kept);
}

/* The member comes back by its calls, or by its journal, at whose end a line may be torn, or without its last call. */
static void step_back(uint32_t member, uint8_t how, struct input *input)
{
    size_t high = take_byte(input), place = 256 * high + take_byte(input);

    if (how % 4 == 0)
        checked_restart(&group.members[member]);
    else if (how % 4 == 1)
        checked_return(&group.members[member], how / 4);
    else if (how % 4 == 2)
        checked_beginning(&group.members[member], place);
    else
        step_lose(member, how / 4, place);
}

/* A frame that nobody sent, or that was changed on its way. */
static size_t forge(struct input *input, uint8_t *bytes)
{
    struct about about = {7, group.size, group.members[group.victim].model.time};
    const struct sent *frame;
    size_t length;

    if (sent.count == 0 || take_byte(input) % 2 == 0)
        return take_frame(input, &about, bytes);
    frame = &sent.frames[take_byte(input) % sent.count];
    length = frame->length;
    memcpy(bytes, bytes_of(frame), length);
    bytes[take_byte(input) % length] = take_byte(input);
    return length;
}

static void step_forge(struct input *input)
{
    uint8_t bytes[JOLUNZA_LONGEST_FRAME];
    size_t length, before = events_before(group.victim);

    if (group.trust == HONEST)
        return;
    length = forge(input, bytes);
    group.is_tainted = true;
    if (checked_receive(&group.members[group.victim], bytes, length).code != JOLUNZA_DONE)
        return;
    see_from(group.victim, before);
    send(group.victim);
}

/* Rounds. */

/* Who takes part in the quiet rounds: all, or all but the victim. */
static bool is_in(uint32_t member)
{
    return !(group.is_tainted && member == group.victim);
}

/* All frames sent from this one on arrive at each of those who they were sent to; so do the answers. */
static void arrive_from(size_t first)
{
    for (; first < sent.count; first++)
        for (uint32_t member = 0; member < group.size; member++)
            if (is_in(member) && is_for(&sent.frames[first], member))
                step_arrive(member, first);
}

static void help_all(uint32_t member)
{
    for (uint32_t of = 0; of < group.size; of++)
        if (of != member)
            step_help(member, of);
}

static void round_of(bool helps)
{
    size_t first = sent.count;

    for (uint32_t member = 0; member < group.size; member++)
        if (is_in(member))
            step_tick(member);
    arrive_from(first);
    first = sent.count;
    for (uint32_t member = 0; helps && member < group.size; member++)
        if (is_in(member))
            help_all(member);
    arrive_from(first);
}

/* All that anybody has who takes part, each of them has. */
static void check_same(void)
{
    uint32_t one = is_in(0) ? 0 : 1;

    for (uint32_t member = 0; member < group.size; member++)
        if (is_in(member))
            MUST(names_are_in(&machine.seen[member], &machine.seen[one])
                 && names_are_in(&machine.seen[one], &machine.seen[member]));
}

static void check_stable(void)
{
    for (uint32_t member = 0; member < group.size; member++)
        for (uint32_t of = 0; of < group.size; of++)
            MUST(model_stable(&group.members[member].model, of) == machine_cast_count(&machine, of));
}

/* How much the members have entered. */
static size_t entered(void)
{
    size_t length = 0;

    for (uint32_t i = 0; i < group.size; i++)
        length += group.members[i].journal.length;
    return length;
}

/* Rounds until one changes nothing, but no more than so many. */
static void rounds_of(uint32_t most, bool helps)
{
    size_t before = SIZE_MAX;

    for (uint32_t i = 0; i < most && entered() != before; i++) {
        before = entered();
        round_of(helps);
    }
}

/* As many rounds as are proved to be enough: then all have the same, and in an honest group a round later know it. */
static void rounds(void)
{
    uint32_t count = (group.window + 63) / 64 + (group.is_tainted ? group.window : 1);

    if (!group.has_room || !(group.trust == HONEST || group.trust == CUT_OFF || !group.is_tainted))
        return;
    rounds_of(count, group.is_tainted);
    if (sent.count == MOST_SENT)
        return;
    check_same();
    if (group.is_tainted)
        return;
    round_of(false);
    if (sent.count < MOST_SENT)
        check_stable();
}

/* The input. */

static void open_group(struct input *input)
{
    static const uint32_t WINDOWS[] = {65, 64, 32, 16};
    static const size_t LIMITS[] = {100000, 0, 100000, 0};
    uint8_t size = take_byte(input), window = take_byte(input), limit = take_byte(input), trust = take_byte(input);

    group.size = size % 4 == 3 ? 2 + size / 4 % 4 : 4;
    group.trust = (enum trust)(trust % 4);
    group.window = window < 236 || group.trust == CUT_OFF ? 1 + window % 8 : WINDOWS[window % 4];
    group.has_room = limit < 192;
    group.victim = trust / 4 % group.size;
    group.is_tainted = false;
    sent.count = 0;
    sent.length = 0;
    machine_begin(&machine, group.size);
    for (uint32_t i = 0; i < group.size; i++) {
        struct settings settings = {7, group.size, group.window, i, group.has_room ? LIMITS[(limit >> i) & 3] : limit % 24};

        MUST(checked_open(&group.members[i], settings) == JOLUNZA_DONE);
        group.cast[i] = 0;
        group.next[i] = 0;
    }
}

/* The next frame for the member comes, or all that are on their way, or these are lost. */
static void step_next(uint32_t member, uint8_t how)
{
    while (group.next[member] < sent.count && !is_for(&sent.frames[group.next[member]], member))
        group.next[member]++;
    if (how % 4 == 0)
        group.next[member] = sent.count;
    else if (how % 4 == 1) {
        group.next[member] = gather(member, group.next[member]);
        step_load(member);
    } else if (group.next[member] < sent.count)
        step_arrive(member, group.next[member]++);
}

/* Any frame comes. */
static void step_any(uint32_t member, uint8_t how)
{
    if (sent.count > 0)
        step_arrive(member, how % sent.count);
}

static void step_burst_of(uint32_t member, uint8_t how)
{
    step_burst(member, 1 + how % 8 * (how % 8 == 7 ? 4 : 1), how / 8);
}

static void step(struct input *input)
{
    uint8_t what = take_byte(input), how = take_byte(input);
    uint32_t member = what / 16 % group.size;

    switch (what % 16) {
    case 0:
    case 1:
        step_cast(member, how % 64);
        break;
    case 2:
        step_burst_of(member, how);
        break;
    case 3:
    case 4:
    case 5:
        step_any(member, how);
        break;
    case 6:
    case 7:
    case 8:
    case 9:
        step_next(member, how);
        break;
    case 10:
    case 11:
        step_tick(member);
        break;
    case 12:
        step_help(member, how % group.size);
        break;
    case 13:
        group.members[member].refuse = 1 + how % 48;
        break;
    case 14:
        step_back(member, how, input);
        break;
    default:
        step_forge(input);
    }
}

static void end(void)
{
    for (uint32_t i = 0; i < group.size; i++) {
        checked_all(&group.members[i]);
        checked_restart(&group.members[i]);
        checked_return(&group.members[i], i);
        checked_close(&group.members[i]);
    }
}

int LLVMFuzzerTestOneInput(const uint8_t *data, size_t size);

int LLVMFuzzerTestOneInput(const uint8_t *data, size_t size)
{
    struct input input = {data, size};

    open_group(&input);
    for (int steps = 0; steps < MOST_STEPS && input.left > 0; steps++)
        step(&input);
    rounds();
    end();
    return 0;
}
