/*
 * Faults that the fuzzers have to find: calls of the library that answer something else now and then. Linked with
 * -Wl,--wrap=jolunza_receive,--wrap=jolunza_receive_parts,--wrap=jolunza_event,--wrap=jolunza_resume, one of which is changed: PLANTED is
 * its number.
 */
#include "jolunza.h"

enum { IN_RECEIVE = 1, IN_RECEIVE_PARTS = 2, IN_EVENT = 3, IN_RESUME = 4 };

uint32_t __real_jolunza_receive(jolunza_handle *handle, const uint8_t *bytes, size_t length, jolunza_received *received);
uint32_t __real_jolunza_receive_parts(jolunza_handle *handle, size_t first, const size_t *lengths, size_t count, size_t *taken);
uint32_t __real_jolunza_event(jolunza_handle *handle, size_t index, jolunza_event_head *head, uint8_t *payload, size_t capacity,
                              uint32_t *time, size_t time_capacity);
uint32_t __real_jolunza_resume(jolunza_handle *handle, const uint8_t *bytes, size_t length, size_t history_max,
                               jolunza_journal *journal);
uint32_t __wrap_jolunza_receive(jolunza_handle *handle, const uint8_t *bytes, size_t length, jolunza_received *received);
uint32_t __wrap_jolunza_receive_parts(jolunza_handle *handle, size_t first, const size_t *lengths, size_t count, size_t *taken);
uint32_t __wrap_jolunza_event(jolunza_handle *handle, size_t index, jolunza_event_head *head, uint8_t *payload, size_t capacity,
                              uint32_t *time, size_t time_capacity);
uint32_t __wrap_jolunza_resume(jolunza_handle *handle, const uint8_t *bytes, size_t length, size_t history_max,
                               jolunza_journal *journal);

/* A frame that is too far ahead is said to be no frame. */
uint32_t __wrap_jolunza_receive(jolunza_handle *handle, const uint8_t *bytes, size_t length, jolunza_received *received)
{
    uint32_t code = __real_jolunza_receive(handle, bytes, length, received);

    return PLANTED == IN_RECEIVE && code == JOLUNZA_TOO_FAR ? JOLUNZA_MALFORMED : code;
}

/* Of three parts and more one is taken that is not told. */
uint32_t __wrap_jolunza_receive_parts(jolunza_handle *handle, size_t first, const size_t *lengths, size_t count, size_t *taken)
{
    uint32_t code = __real_jolunza_receive_parts(handle, first, lengths, count, taken);

    if (PLANTED == IN_RECEIVE_PARTS && code == JOLUNZA_DONE && *taken >= 3)
        --*taken;
    return code;
}

/* A message that comes after two of one member is said to come after one. */
uint32_t __wrap_jolunza_event(jolunza_handle *handle, size_t index, jolunza_event_head *head, uint8_t *payload, size_t capacity,
                              uint32_t *time, size_t time_capacity)
{
    uint32_t code = __real_jolunza_event(handle, index, head, payload, capacity, time, time_capacity);

    for (size_t i = 0; PLANTED == IN_EVENT && code == JOLUNZA_DONE && i < time_capacity && i < 2; i++)
        if (i != head->sender && time[i] == 2)
            time[i] = 1;
    return code;
}

/* Behind three entries and more a line that is torn is said to be read. */
uint32_t __wrap_jolunza_resume(jolunza_handle *handle, const uint8_t *bytes, size_t length, size_t history_max,
                               jolunza_journal *journal)
{
    uint32_t code = __real_jolunza_resume(handle, bytes, length, history_max, journal);

    if (PLANTED == IN_RESUME && code == JOLUNZA_DONE && journal->entries >= 3)
        journal->read = length;
    return code;
}
