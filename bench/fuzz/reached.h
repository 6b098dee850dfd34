/* Which calls were made and what they answered: each code has to be one that the header names for the call. */
#ifndef REACHED_H
#define REACHED_H

#include "jolunza.h"

enum call {
    CALL_OPEN,
    CALL_CAST,
    CALL_CAST_BURST,
    CALL_RECEIVE,
    CALL_LOAD,
    CALL_RECEIVE_LOADED,
    CALL_RECEIVE_PARTS,
    CALL_TICK,
    CALL_HELP,
    CALL_COUNT,
    CALL_FRAME,
    CALL_FRAMES,
    CALL_EVENT,
    CALL_EVENTS,
    CALL_ENTRY,
    CALL_TIME,
    CALL_STABLE,
    CALL_STABLE_OF,
    CALL_ACKNOWLEDGED_BY,
    CALL_KEEPS_WINDOW_FULL,
    CALL_WAITING,
    CALL_WAITS_FOR,
    CALL_MISSING,
    CALL_RESUME,
    CALL_JOURNAL_HEAD,
    CALL_JOURNAL_LINE,
    CALL_SENDER,
    CALLS
};

/* Counts it, and answers the code. */
uint32_t reached(enum call call, uint32_t code);

/* Tells the fuzzer how much of something there is: so many that it is another state. */
enum amount { AMOUNT_FRAMES, AMOUNT_EVENTS, AMOUNT_DELIVERED, AMOUNT_MISSING, AMOUNT_WAITING, AMOUNT_STABLE, AMOUNT_ROOM, AMOUNTS };

void reached_amount(enum amount amount, size_t count);

/* Ends the run where it does not hold: the input is a finding. */
void must(bool holds, const char *what, const char *file, int line);

#define MUST(holds) must((holds), #holds, __FILE__, __LINE__)

#endif
