/*
 * A member of the library beside the plain one of model.h. Each call is made of both, and all that can be read of the library's is
 * compared with the plain one: so after a refusal nothing has changed, as the plain one has not been touched. The first difference
 * ends the run.
 */
#ifndef CHECKED_H
#define CHECKED_H

#include "input.h"
#include "text.h"

struct checked {
    jolunza_handle handle;
    struct model model;
    size_t loaded;
    uint8_t load[1 << 15];
    size_t events_read, payloads_read, entries_read; /* of what a history keeps: what was compared already */
    struct buffer journal;                           /* all entries: a length, a kind and the frame of each */
    struct buffer text;                              /* its journal's text, as the library told it line by line */
    bool skips_frames, skips_log;                    /* after a restart those are of the last entry, not of the last call */
    uint32_t turn;                                   /* whose readings are compared first */
    unsigned refuse; /* of the next call: 1 its first allocation, 2 all of them, 3 its second, 4 all from that on; 0 is none */
};

/* Opens it; another code than DONE leaves it closed. */
uint32_t checked_open(struct checked *checked, struct settings settings);

void checked_close(struct checked *checked);

/* Each makes the call and answers its code. */
uint32_t checked_cast(struct checked *checked, const uint8_t *payload, size_t length);
uint32_t checked_burst(struct checked *checked, const uint8_t *payloads, size_t length, const size_t *lengths, size_t count);
struct taken checked_receive(struct checked *checked, const uint8_t *bytes, size_t length);
void checked_load(struct checked *checked, const uint8_t *bytes, size_t length);
struct taken checked_receive_loaded(struct checked *checked, size_t first, size_t length);

/* How many parts were taken, or why the first was not. */
struct parts_taken {
    uint32_t code;
    size_t count;
};

struct parts_taken checked_receive_parts(struct checked *checked, size_t first, const size_t *lengths, size_t count);
uint32_t checked_tick(struct checked *checked);
uint32_t checked_help(struct checked *checked, uint32_t member);

/* How much room a reading has, and from where on. */
struct room {
    size_t first, heads, bytes, others;
};

/* Reads into so much room: as much as fits is filled, and nothing behind it. */
void checked_read(struct checked *checked, struct room room);

/* Reads what the group does not have. */
void checked_read_none(struct checked *checked, uint32_t member);

/* A closed handle has nothing to say. */
void checked_closed(void);

/* The member ends, and comes back by what its entries say that it did; its settings are those that it had. */
void checked_restart(struct checked *checked);

/*
 * The member ends, and comes back by the text of its journal, behind which stand at most so many bytes of one more line, torn. It reads
 * as the one that it was.
 */
void checked_return(struct checked *checked, size_t torn);

/* Beside it a member comes back by that text cut at a byte: with the entries of the lines that are whole. It goes no further. */
void checked_beginning(const struct checked *checked, size_t cut);

/*
 * The member ends before the lines of its last call were whole: the text had so many bytes before that call, and `kept` counts how many
 * more are there. It comes back as the one that it was before the call, or before the last of its entries.
 */
void checked_lose(struct checked *checked, size_t before, size_t kept);

/* A member comes back by any bytes, or tells why not. The one that was there is gone in either case. */
uint32_t checked_resume(struct checked *checked, const uint8_t *bytes, size_t length, size_t limit);

/* Compares all events and entries since the member was opened. */
void checked_all(struct checked *checked);

#endif
