#include "past.h"

#include <string.h>

#include "reached.h"

enum { WORDS_OF_ONE = 4 };

void machine_begin(struct machine *machine, uint32_t size)
{
    memset(machine, 0, sizeof *machine);
    machine->size = size;
}

static uint64_t bit_of(uint32_t number)
{
    return (uint64_t)1 << number % 64;
}

bool names_have(const struct names *names, uint32_t sender, uint32_t number)
{
    return (names->words[sender * WORDS_OF_ONE + number / 64] & bit_of(number)) != 0;
}

void names_add(struct names *names, uint32_t sender, uint32_t number)
{
    names->words[sender * WORDS_OF_ONE + number / 64] |= bit_of(number);
}

bool names_are_in(const struct names *names, const struct names *others)
{
    for (size_t i = 0; i < NAME_WORDS; i++)
        if ((names->words[i] & ~others->words[i]) != 0)
            return false;
    return true;
}

uint32_t names_count(const struct names *names, uint32_t sender)
{
    uint32_t count = 0;

    for (size_t i = 0; i < WORDS_OF_ONE; i++)
        count += (uint32_t)__builtin_popcountll(names->words[sender * WORDS_OF_ONE + i]);
    return count;
}

uint32_t machine_cast_count(const struct machine *machine, uint32_t member)
{
    uint32_t count = 0;

    while (count < MOST_NUMBER && machine->messages[member][count + 1].is_cast)
        count++;
    return count;
}

uint8_t payload_byte(uint32_t sender, uint32_t number, size_t at)
{
    return (uint8_t)(at % 2 == 0 ? number : 16 * sender + at / 2);
}

void machine_cast(struct machine *machine, uint32_t member, uint32_t number, uint32_t length)
{
    struct message *message = &machine->messages[member][number];

    MUST(number == machine_cast_count(machine, member) + 1);
    *message = (struct message){true, length, machine->seen[member]};
    names_add(&machine->seen[member], member, number);
    names_add(&machine->arrived[member], member, number);
}

void machine_deliver(struct machine *machine, uint32_t member, uint32_t sender, uint32_t number)
{
    const struct message *message = &machine->messages[sender][number];

    MUST(sender != member && message->is_cast);
    MUST(!names_have(&machine->seen[member], sender, number));
    MUST(names_are_in(&message->past, &machine->seen[member]));
    names_add(&machine->seen[member], sender, number);
}

static bool lacks_past(const struct machine *machine, uint32_t member, uint32_t sender, uint32_t number)
{
    return !names_are_in(&machine->messages[sender][number].past, &machine->arrived[member]);
}

bool machine_waits_for_past(const struct machine *machine, uint32_t member, uint32_t sender)
{
    for (uint32_t word = 0; word < WORDS_OF_ONE; word++) {
        size_t at = sender * WORDS_OF_ONE + word;
        uint64_t waiting = machine->arrived[member].words[at] & ~machine->seen[member].words[at];

        for (; waiting != 0; waiting &= waiting - 1)
            if (!lacks_past(machine, member, sender, word * 64 + (uint32_t)__builtin_ctzll(waiting)))
                return false;
    }
    return true;
}
