/*
 * Wrong bodies of the library's calls: those of checks/wrong-bodies/cb_handle and of checks/wrong-bodies/jolunza, each done in front of the
 * call that shows it. checks/wrong-calls.sh builds the cases of bindings/c/calls.c over each, with -DNAME and -Wl,--wrap.
 */
#include <string.h>

#include "jolunza.h"

typedef jolunza_handle *handle_at;
typedef const uint8_t *bytes_at;
typedef const size_t *lengths_at;

#define BURST (handle_at h, bytes_at payloads, size_t length, lengths_at lengths, size_t count)
#define CAST (handle_at h, bytes_at payload, size_t length)
#define COUNT (handle_at h, jolunza_counts *counts)
#define ENTRY (handle_at h, size_t i, jolunza_entry_head *head, uint8_t *frame, size_t room, jolunza_name *names, size_t most)
#define EVENT (handle_at h, size_t i, jolunza_event_head *head, uint8_t *payload, size_t room, uint32_t *time, size_t most)
#define EVENTS (handle_at h, size_t i, jolunza_event_head *all, size_t n, uint8_t *to, size_t room, uint32_t *at, size_t most, size_t *got)
#define FRAME (handle_at h, size_t i, jolunza_frame_head *head, uint8_t *bytes, size_t room)
#define FRAMES (handle_at h, size_t i, jolunza_frame_head *heads, size_t n, uint8_t *bytes, size_t room, size_t *count)
#define HELP (handle_at h, uint32_t member)
#define HELP_AMONG (handle_at h, uint32_t member, const uint32_t *members, size_t count)
#define KEEPS_FULL (handle_at h, uint32_t member, bool *full)
#define LOAD (handle_at h, bytes_at bytes, size_t length)
#define LOADED (handle_at h, size_t first, size_t length, jolunza_received *received)
#define MISSING (handle_at h, uint32_t member, jolunza_range *ranges, size_t room, size_t *count)
#define OPEN (handle_at h, uint32_t group, uint32_t size, uint32_t window, uint32_t me, size_t limit)
#define PARTS (handle_at h, size_t first, lengths_at lengths, size_t count, size_t *taken)
#define RECEIVE (handle_at h, bytes_at bytes, size_t length, jolunza_received *received)
#define SENDER (bytes_at bytes, size_t length, uint32_t *group, uint32_t *member)
#define STABLE (handle_at h, uint32_t *count)
#define TICK (handle_at h)
#define WAITS_FOR (handle_at h, uint32_t member, jolunza_delayed *delayed)

/* The call as it is, and a call in its place. */
#define REAL(name) __real_jolunza_##name
#define CALL(name, parameters, ...) \
    uint32_t REAL(name) parameters; \
    uint32_t __wrap_jolunza_##name parameters; \
    uint32_t __wrap_jolunza_##name parameters { return __VA_ARGS__; }

/* The code of the call, after which this is done where it is DONE. */
#define THEN(call, ...) ((code = (call)) == JOLUNZA_DONE ? (void)(__VA_ARGS__) : (void)0, code)
static uint32_t code;

/* The code of a call, another in the place of one. */
#define AS(call, one, other) ((code = (call)) == JOLUNZA_##one ? JOLUNZA_##other : code)

/* What a call before has left. */
static bool is_now;
static size_t left;

static bool was_now(void)
{
    bool was = is_now;

    is_now = false;
    return was;
}

#if defined calls_a_tick_a_cast
CALL(entry, ENTRY, THEN(REAL(entry)(h, i, head, frame, room, names, most), head->kind = head->kind == JOLUNZA_ARRIVE))
#elif defined copies_one_place_less
CALL(frame, FRAME, REAL(frame)(h, i, head, bytes, room / 2))
#elif defined forgets_the_frames_of_a_tick
CALL(tick, TICK, THEN(REAL(tick)(h), is_now = true))
CALL(count, COUNT, THEN(REAL(count)(h, counts), was_now() ? counts->frames = 0 : 0))
#elif defined forgets_the_parts_before
uint32_t REAL(receive_parts) PARTS;
static uint32_t one_by_one PARTS
{
    jolunza_counts counts = {0, 0, 0};
    uint32_t of_first = JOLUNZA_NONE_THERE;

    for (left = 0; left < count && counts.frames == 0; first += lengths[left++]) {
        code = REAL(receive_parts)(h, first, lengths + left, 1, &(size_t){0});
        of_first = left == 0 ? code : of_first;
        if (code != JOLUNZA_DONE)
            break;
        jolunza_count(h, &counts);
    }
    return THEN(of_first, *taken = left);
}
CALL(receive_parts, PARTS, one_by_one(h, first, lengths, count, taken))
#elif defined keeps_the_frames_of_the_last_arrival
static jolunza_counts before;
CALL(count, COUNT, THEN(REAL(count)(h, counts), was_now() ? counts->frames = before.frames : 0))
CALL(receive, RECEIVE, THEN((REAL(count)(h, &before), REAL(receive)(h, bytes, length, received)), is_now = true))
#elif defined says_that_a_delivery_is_its_own
CALL(event, EVENT, THEN(REAL(event)(h, i, head, payload, room, time, most), head->is_own = true))
#elif defined says_that_what_waits_is_ready
CALL(waits_for, WAITS_FOR, THEN(REAL(waits_for)(h, member, delayed), delayed->is_ready = true))
#elif defined sends_a_cast_to_member_0
CALL(cast, CAST, THEN(REAL(cast)(h, payload, length), is_now = true))
CALL(frame, FRAME, THEN(REAL(frame)(h, i, head, bytes, room), was_now() ? head->to_all = false : false))
#elif defined sends_the_help_frame_to_the_silent_member
CALL(frame, FRAME, THEN(REAL(frame)(h, i, head, bytes, room), room > 4 && bytes[0] == 0x23 ? head->to = bytes[4] : 0))
#elif defined shows_one_frame_less
CALL(frames, FRAMES, REAL(frames)(h, i, heads, n, bytes, room > 0 ? room - 1 : 0, count))
#elif defined shows_the_events_from_the_first_on
CALL(events, EVENTS, REAL(events)(h, i / 2, all, n, to, room, at, most, got))
#elif defined takes_all_that_is_loaded
CALL(load, LOAD, (left = length, REAL(load)(h, bytes, length)))
CALL(receive_loaded, LOADED, ((void)first, (void)length, REAL(receive_loaded)(h, 0, left, received)))
#elif defined takes_each_payload_from_the_front
static const uint8_t *from_the_front(bytes_at payloads, size_t length, lengths_at lengths, size_t count)
{
    static uint8_t again[JOLUNZA_MOST_MESSAGES * JOLUNZA_LONGEST_PAYLOAD];
    size_t at = 0;

    for (size_t i = 0; i < count && i < JOLUNZA_MOST_MESSAGES && lengths[i] <= length - at; at += lengths[i++])
        memcpy(again + at, payloads, lengths[i]);
    return again;
}
CALL(cast_burst, BURST, REAL(cast_burst)(h, from_the_front(payloads, length, lengths, count), length, lengths, count))
#elif defined takes_half_of_the_bytes
CALL(receive, RECEIVE, REAL(receive)(h, bytes, length / 2, received))
#elif defined takes_parts_behind_an_answer
uint32_t REAL(receive_parts) PARTS;
static size_t rest PARTS
{
    for (size_t i = 0; i < *taken; i++)
        first += lengths[i];
    return *taken < count && REAL(receive_parts)(h, first, lengths + *taken, count - *taken, &left) == JOLUNZA_DONE ? left : 0;
}
CALL(receive_parts, PARTS, THEN(REAL(receive_parts)(h, first, lengths, count, taken), *taken += rest(h, first, lengths, count, taken)))
#elif defined tells_a_repeat_as_new
CALL(receive, RECEIVE, THEN(REAL(receive)(h, bytes, length, received), received->is_repeat = false))
#elif defined tells_every_arrival_as_entered
CALL(receive, RECEIVE, THEN(REAL(receive)(h, bytes, length, received), received->is_entered = true))
#elif defined wants_a_byte_behind_the_payloads
CALL(cast_burst, BURST, REAL(cast_burst)(h, payloads, length > 0 ? length - 1 : 0, lengths, count))
#elif defined asks_for_help_with_the_next_member
CALL(help, HELP, REAL(help)(h, member + 1))
#elif defined asks_members_that_are_not_given
CALL(help_among, HELP_AMONG, ((void)members, (void)count, jolunza_help(h, member)))
#elif defined calls_a_bad_member_done
CALL(help, HELP, AS(REAL(help)(h, member), BAD_MEMBER, DONE))
CALL(help_among, HELP_AMONG, AS(REAL(help_among)(h, member, members, count), BAD_MEMBER, DONE))
#elif defined calls_a_frame_of_another_group_malformed
CALL(receive, RECEIVE, AS(REAL(receive)(h, bytes, length, received), OTHER_GROUP, MALFORMED))
#elif defined calls_a_full_window_a_full_history
CALL(cast, CAST, AS(REAL(cast)(h, payload, length), WINDOW_FULL, HISTORY_FULL))
#elif defined calls_an_overlap_too_far
CALL(receive, RECEIVE, AS(REAL(receive)(h, bytes, length, received), OVERLAP, TOO_FAR))
#elif defined calls_bytes_that_are_no_frame_out_of_memory
CALL(sender, SENDER, AS(REAL(sender)(bytes, length, group, member), MALFORMED, NO_MEMORY))
#elif defined casts_half_of_a_burst
CALL(cast_burst, BURST, REAL(cast_burst)(h, payloads, length, lengths, (count + 1) / 2))
#elif defined casts_half_the_payload
CALL(cast, CAST, REAL(cast)(h, payload, length / 2))
#elif defined counts_no_frames
CALL(count, COUNT, THEN(REAL(count)(h, counts), counts->frames = 0))
#elif defined counts_no_stable_cast
CALL(stable, STABLE, THEN(REAL(stable)(h, count), *count > 0 ? --*count : 0))
#elif defined counts_one_member_more
CALL(waits_for, WAITS_FOR, member == 3 ? JOLUNZA_NONE_THERE : REAL(waits_for)(h, member, delayed))
CALL(keeps_window_full, KEEPS_FULL, member == 3 ? *full = false, JOLUNZA_DONE : REAL(keeps_window_full)(h, member, full))
#elif defined exchanges_group_and_sender
CALL(sender, SENDER, REAL(sender)(bytes, length, member, group))
#elif defined loads_half_of_the_bytes
CALL(load, LOAD, REAL(load)(h, bytes, length / 2))
#elif defined opens_member_0_always
CALL(open, OPEN, ((void)me, REAL(open)(h, group, size, window, 0, limit)))
#elif defined shows_the_events_behind_the_first
CALL(events, EVENTS, REAL(events)(h, i < SIZE_MAX ? i + 1 : i, all, n, to, room, at, most, got))
#elif defined shows_the_next_frame
CALL(frame, FRAME, REAL(frame)(h, i < SIZE_MAX ? i + 1 : i, head, bytes, room))
#elif defined takes_half_of_the_parts
CALL(receive_parts, PARTS, REAL(receive_parts)(h, first, lengths, (count + 1) / 2, taken))
#elif defined takes_the_part_one_byte_later
CALL(receive_loaded, LOADED, REAL(receive_loaded)(h, first < SIZE_MAX ? first + 1 : first, length, received))
#elif defined tells_one_range_more
CALL(missing, MISSING, THEN(REAL(missing)(h, member, ranges, room, count), ++*count))
#elif defined tells_that_nothing_was_entered
CALL(receive, RECEIVE, THEN(REAL(receive)(h, bytes, length, received), received->is_entered = false))
#elif defined tells_the_asked_member_as_the_sender
CALL(sender, SENDER, THEN(REAL(sender)(bytes, length, group, member), bytes[0] == 0x13 ? *member = bytes[3] : 0))
#elif defined tells_the_group_of_a_cast_as_its_sender
CALL(sender, SENDER, THEN(REAL(sender)(bytes, length, group, member), bytes[0] == 0x11 ? *member = *group : 0))
#elif defined tells_the_sender_of_the_missing_casts
CALL(sender, SENDER, THEN(REAL(sender)(bytes, length, group, member), bytes[0] == 0x23 ? *member = bytes[4] : 0))
#elif defined tells_what_waits_of_the_member_beside
CALL(waits_for, WAITS_FOR, REAL(waits_for)(h, member ^ 1, delayed))
#elif defined tells_who_is_no_member_that_nothing_waits
CALL(waits_for, WAITS_FOR, AS(REAL(waits_for)(h, member, delayed), BAD_MEMBER, NONE_THERE))
#elif defined tells_who_is_no_member_that_the_window_is_open
CALL(keeps_window_full, KEEPS_FULL, AS(REAL(keeps_window_full)(h, member, full), BAD_MEMBER, DONE))
#endif
