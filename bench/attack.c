/*
 * What one received frame costs a member of a group of 64 whose windows are full. The member's state is made by casts of its own and by
 * forged frames of the others; then it receives one frame in `counted`, whose instructions callgrind counts (bench/attack.sh). It prints
 * the attack, the window, the frame's bytes, the code that is answered, the messages that are delivered, the frames that are to be sent
 * and their bytes, how many frames were forged before and their bytes, and the microseconds of the call. Words: ATTACK WINDOW
 * [HISTORY_MAX]. The attack `mask` reads from the input who waits for whom; behind `ranges WINDOW 0` stand the skips and extras of a
 * request.
 */
#include <stdio.h>
#include <stdlib.h>
#include <string.h>
#include <time.h>

#include "../bindings/c/jolunza.h"

/* The member that is attacked is the last one; member 0 holds back the cast that all others wait for. */
enum { GROUP = 7, SIZE = JOLUNZA_MOST_MEMBERS, ME = SIZE - 1, OTHERS = SIZE - 1, LAST_OTHER = OTHERS - 1 };
enum { CAST = 0x11, BURST = 0x21, STATUS = 0x12, REQUEST = 0x13, HELP = 0x23 };
/* So many own casts are stable, so that a request can ask for them in vain. */
enum { STABLE = 64, MOST_RANGES = 32, MOST_ANSWERS = 64 };

struct text {
    uint8_t bytes[JOLUNZA_LONGEST_FRAME + 1];
    size_t length;
};

/* Who waits for whom: whether the casts of a member tell how many casts of another it has delivered. */
struct pattern {
    uint8_t order[OTHERS]; /* in which the members cast, once each in a round */
    bool sees[OTHERS][OTHERS];
    uint32_t in_a_frame; /* messages; of a burst, the first alone tells */
};

static jolunza_handle target; /* static, so all bytes are 0: it begins closed */
static struct pattern pattern;
static uint32_t window, made[SIZE], said[SIZE][SIZE];
static size_t forged_frames, forged_bytes;
static jolunza_received received;
static const uint8_t payload[JOLUNZA_LONGEST_PAYLOAD];

static void must(bool holds, const char *what)
{
    if (!holds) {
        fprintf(stderr, "attack: %s\n", what);
        exit(1);
    }
}

static void put(struct text *to, uint32_t number)
{
    for (; number >= 0x80; number >>= 7)
        to->bytes[to->length++] = (uint8_t)(number | 0x80);
    to->bytes[to->length++] = (uint8_t)number;
}

static void begin(struct text *to, uint8_t kind, uint32_t member)
{
    to->length = 0;
    to->bytes[to->length++] = kind;
    put(to, GROUP);
    put(to, member);
}

/* Each field of the time that is above that of before, but for the one left out, by how much; their count stands in front. */
static void put_grown(struct text *to, const uint32_t *time, const uint32_t *before, uint32_t left_out)
{
    uint32_t count = 0, next = 0;

    for (uint32_t k = 0; k < SIZE; k++)
        count += k != left_out && time[k] > before[k];
    put(to, count);
    for (uint32_t k = 0; k < SIZE; k++)
        if (k != left_out && time[k] > before[k]) {
            put(to, k - next);
            put(to, time[k] - before[k]);
            next = k + 1;
        }
}

/* The next messages of this sender: a cast of one, or a burst of several. They tell this time, and have payloads of this length. */
static void make_unit(struct text *to, uint32_t sender, const uint32_t *time, uint32_t count, uint32_t length)
{
    begin(to, count == 1 ? CAST : BURST, sender);
    put(to, made[sender] + 1);
    put_grown(to, time, said[sender], sender);
    memmove(said[sender], time, sizeof said[sender]); /* it may be the same */
    made[sender] += count;
    if (count > 1)
        put(to, count);
    for (uint32_t i = 0; i < count; i++) {
        put(to, length);
        memcpy(to->bytes + to->length, payload, length);
        to->length += length;
    }
}

static void make_status(struct text *to, uint32_t sender, const uint32_t *time)
{
    static const uint32_t zero[SIZE];

    begin(to, STATUS, sender);
    put_grown(to, time, zero, SIZE);
}

/* Ranges of which none but the last has a number that is kept; that one has the last numbers up to this one, as many as are answered. */
static void put_ranges(struct text *to, uint32_t count, uint32_t last)
{
    uint32_t first = last - MOST_ANSWERS + 1;

    put(to, count);
    for (uint32_t i = 1; i < count; i++) {
        put(to, 0);
        put(to, 0);
    }
    put(to, first - 2 * count + 1);
    put(to, last - first);
}

/* The one range from 1 up to this number. */
static void put_range(struct text *to, uint32_t last)
{
    put(to, 1);
    put(to, 0);
    put(to, last - 1);
}

static void forge(const struct text *frame)
{
    must(jolunza_receive(&target, frame->bytes, frame->length, &received) == JOLUNZA_DONE, "a frame of the set-up is refused");
    forged_frames++;
    forged_bytes += frame->length;
}

/* What callgrind counts. */
__attribute__((noinline)) static uint32_t counted(const struct text *frame)
{
    return jolunza_receive(&target, frame->bytes, frame->length, &received);
}

static void cast_own(uint32_t count, size_t length)
{
    for (uint32_t i = 0; i < count; i++)
        must(jolunza_cast(&target, payload, length) == JOLUNZA_DONE, "an own cast is refused");
    made[ME] += count;
}

/* Each other member but this one says that it has delivered so many casts of that sender. */
static void acknowledge_all(uint32_t sender, uint32_t count, uint32_t but)
{
    for (uint32_t k = 0; k < OTHERS; k++) {
        uint32_t time[SIZE] = {0};
        struct text frame;

        if (k == sender || k == but)
            continue;
        time[sender] = count;
        make_status(&frame, k, time);
        forge(&frame);
    }
}

/* Own casts that all others have delivered. */
static void cast_stable(void)
{
    while (made[ME] < STABLE) {
        cast_own(window < STABLE ? window : STABLE, 0);
        acknowledge_all(ME, made[ME], SIZE);
    }
}

/* As many casts of this sender as the window, all delivered at once. */
static void cast_window(uint32_t sender, uint32_t length)
{
    for (uint32_t i = 0; i < window; i++) {
        struct text frame;

        make_unit(&frame, sender, said[sender], 1, length);
        forge(&frame);
    }
}

/* The sent window is full, and of each other member a window of frames is kept to be handed on. */
static void fill(void)
{
    cast_stable();
    cast_own(window, JOLUNZA_LONGEST_PAYLOAD);
    for (uint32_t k = 0; k < OTHERS; k++)
        cast_window(k, 0);
}

/* The frame of this sender in this round, by the pattern. In the first round all see the first message of member 0, which sees none. */
static void make_waiting(struct text *to, uint32_t sender, uint32_t round)
{
    uint32_t time[SIZE];

    memcpy(time, said[sender], sizeof time);
    for (uint32_t k = 0; k < OTHERS; k++)
        if (k != sender && pattern.sees[sender][k] && (sender > 0 || round > 0))
            time[k] = made[k];
    if (sender > 0 && round == 0)
        time[0] = window + 1;
    time[ME] = STABLE + (round + 1) * pattern.in_a_frame;
    make_unit(to, sender, time, pattern.in_a_frame, 0);
}

/* A window of messages of each other member but the last `spared`, in frames of which all wait for one that is held back. */
static struct text held_back(uint32_t spared)
{
    struct text key = {.length = 0}, frame;

    for (uint32_t round = 0; round < window / pattern.in_a_frame; round++)
        for (uint32_t i = 0; i < OTHERS; i++) {
            if (pattern.order[i] >= OTHERS - spared)
                continue;
            make_waiting(&frame, pattern.order[i], round);
            if (pattern.order[i] == 0 && round == 0)
                key = frame;
            else
                forge(&frame);
        }
    return key;
}

static void set_pattern(bool (*sees)(uint32_t, uint32_t), uint32_t in_a_frame)
{
    pattern.in_a_frame = in_a_frame;
    for (uint32_t j = 0; j < OTHERS; j++) {
        pattern.order[j] = (uint8_t)j;
        for (uint32_t k = 0; k < OTHERS; k++)
            pattern.sees[j][k] = sees(j, k);
    }
}

static bool sees_none(uint32_t j, uint32_t k)
{
    (void)j, (void)k;
    return false;
}

static bool sees_all(uint32_t j, uint32_t k)
{
    (void)j, (void)k;
    return true;
}

/* The greater half of those around it, so that it waits for one after the other. */
static bool sees_ladder(uint32_t j, uint32_t k)
{
    return j < OTHERS / 2 ? k > j : k < j;
}

static void read_pattern(void)
{
    unsigned number;
    char row[OTHERS + 1];

    pattern.in_a_frame = 1;
    for (uint32_t i = 0; i < OTHERS; i++) {
        must(scanf("%u", &number) == 1 && number < OTHERS, "no order in the input");
        pattern.order[i] = (uint8_t)number;
    }
    for (uint32_t j = 0; j < OTHERS; j++) {
        must(scanf("%63s", row) == 1 && strlen(row) == OTHERS, "no row in the input");
        for (uint32_t k = 0; k < OTHERS; k++)
            pattern.sees[j][k] = row[k] == '1';
    }
}

/* All windows are full, and of the last other member twice a window is delivered, the second with the longest payloads. */
static void fill_all(void)
{
    struct text key;

    fill();
    cast_window(LAST_OTHER, JOLUNZA_LONGEST_PAYLOAD);
    set_pattern(sees_ladder, 1);
    key = held_back(1);
    must(key.length > 0, "nothing is held back");
}

static struct text released(bool (*sees)(uint32_t, uint32_t), uint32_t in_a_frame)
{
    fill();
    set_pattern(sees, in_a_frame);
    return held_back(0);
}

static struct text star(void)
{
    return released(sees_none, 1);
}

static struct text star_of_bursts(void)
{
    return released(sees_none, JOLUNZA_MOST_MESSAGES);
}

static struct text chain(void)
{
    return released(sees_all, 1);
}

static struct text ladder(void)
{
    return released(sees_ladder, 1);
}

static struct text ladder_of_bursts(void)
{
    return released(sees_ladder, JOLUNZA_MOST_MESSAGES);
}

static struct text mask(void)
{
    fill();
    read_pattern();
    return held_back(0);
}

/* Of one member alone a window waits, and each cast of it tells a new count of all others. */
static struct text window_of_one(void)
{
    struct text key, frame;
    uint32_t time[SIZE] = {0};

    fill();
    for (uint32_t i = 0; i < window; i++) {
        for (uint32_t k = 1; k < OTHERS; k++)
            time[k] = i + 1;
        time[0] = made[0];
        make_unit(i == 0 ? &key : &frame, 0, time, 1, 0);
        if (i > 0)
            forge(&frame);
    }
    return key;
}

/* A status without news behind the frame that releases all: without a history the events go now. */
static struct text behind(void)
{
    struct text key = ladder(), frame;
    uint32_t time[SIZE] = {0};

    forge(&key);
    make_status(&frame, 0, time);
    return frame;
}

/* The cast of the next member in turn is delivered, and all that wait are looked at, but none goes. */
static struct text looked_at(void)
{
    struct text frame, key;
    uint32_t time[SIZE] = {0};

    fill();
    for (uint32_t k = 2; k < OTHERS; k++) {
        memcpy(time, said[k], sizeof time);
        time[0] = time[1] = window + 1;
        make_unit(&frame, k, time, 1, 0);
        forge(&frame);
    }
    make_unit(&key, 0, said[0], 1, 0);
    return key;
}

/* The last acknowledgement of all own casts, of those of its sender, and numbers that were not heard of. */
static struct text status(void)
{
    struct text frame;
    uint32_t time[SIZE];

    fill_all();
    acknowledge_all(ME, made[ME], LAST_OTHER);
    acknowledge_all(LAST_OTHER, made[LAST_OTHER], SIZE);
    for (uint32_t k = 0; k < SIZE; k++)
        time[k] = UINT32_MAX;
    time[ME] = made[ME];
    make_status(&frame, LAST_OTHER, time);
    return frame;
}

/* What an honest member sends: a cast that is delivered alone, while all else waits. */
static struct text in_order(void)
{
    struct text frame;

    fill_all();
    make_unit(&frame, LAST_OTHER, said[LAST_OTHER], 1, 32);
    return frame;
}

static struct text asking(uint8_t kind)
{
    struct text frame;

    fill_all();
    begin(&frame, kind, 0);
    put(&frame, ME);
    if (kind == HELP)
        put(&frame, LAST_OTHER);
    return frame;
}

static struct text request(void)
{
    struct text frame = asking(REQUEST);

    put_ranges(&frame, MOST_RANGES, made[ME]);
    return frame;
}

static struct text short_request(void)
{
    struct text frame = asking(REQUEST);

    put_range(&frame, STABLE + MOST_ANSWERS);
    return frame;
}

static struct text help(void)
{
    struct text frame = asking(HELP);

    put_ranges(&frame, MOST_RANGES, made[LAST_OTHER]);
    return frame;
}

static struct text short_help(void)
{
    struct text frame = asking(HELP);

    put_range(&frame, window + MOST_ANSWERS);
    return frame;
}

/* The longest burst of this sender from this number on, whose changes grow each field by so much. */
static struct text longest_burst(uint32_t sender, uint32_t number, uint32_t by)
{
    struct text frame;
    uint32_t time[SIZE];

    made[sender] = number - 1;
    for (uint32_t k = 0; k < SIZE; k++)
        time[k] = said[sender][k] + by;
    make_unit(&frame, sender, time, JOLUNZA_MOST_MESSAGES, JOLUNZA_LONGEST_PAYLOAD / JOLUNZA_MOST_MESSAGES);
    return frame;
}

/* A burst that is kept, behind a gap: it stands in front of half of the sender's messages that wait. */
static struct text early(void)
{
    struct text frame;
    uint32_t half = window / 2, time[SIZE];

    fill();
    cast_window(LAST_OTHER, JOLUNZA_LONGEST_PAYLOAD);
    set_pattern(sees_ladder, 1);
    held_back(1);
    memcpy(time, said[LAST_OTHER], sizeof time);
    for (uint32_t i = 0; i < window; i++) {
        if (i == 0 || (half <= i && i < half + JOLUNZA_MOST_MESSAGES)) {
            made[LAST_OTHER]++;
            continue;
        }
        make_unit(&frame, LAST_OTHER, time, 1, 0);
        forge(&frame);
    }
    return longest_burst(LAST_OTHER, 2 * window + half + 1, 0x10000000);
}

/* Some of its messages are kept, and the last one not. */
static struct text overlap(void)
{
    fill_all();
    return longest_burst(0, 2 * window - JOLUNZA_MOST_MESSAGES + 2, 0x10000000);
}

static struct text repeat(void)
{
    fill_all();
    return longest_burst(0, 2 * window - JOLUNZA_MOST_MESSAGES + 1, 0x10000000);
}

static struct text too_far(void)
{
    fill_all();
    return longest_burst(0, 4 * window, 0x10000000);
}

static struct text with_a_byte_more(struct text frame)
{
    frame.bytes[frame.length++] = 0;
    return frame;
}

static struct text malformed_burst(void)
{
    return with_a_byte_more(too_far());
}

static struct text malformed_status(void)
{
    return with_a_byte_more(status());
}

/* Its ranges are spelled as long as they can be. */
static struct text malformed_help(void)
{
    struct text frame = asking(HELP);

    put(&frame, MOST_RANGES);
    put(&frame, 0x80000000);
    for (uint32_t i = 1; i < 2 * MOST_RANGES; i++)
        put(&frame, 0x1000000);
    return with_a_byte_more(frame);
}

/* A request of these skips and extras. */
static struct text ranges(int count, char **words)
{
    struct text frame;

    cast_stable();
    cast_own(window, JOLUNZA_LONGEST_PAYLOAD);
    begin(&frame, REQUEST, 0);
    put(&frame, ME);
    put(&frame, (uint32_t)count / 2);
    for (int i = 0; i < count; i++)
        put(&frame, (uint32_t)atol(words[i]));
    return frame;
}

static const struct attack {
    const char *name;
    struct text (*frame)(void);
} attacks[] = {
    {"in-order", in_order}, {"star", star}, {"star-of-bursts", star_of_bursts}, {"chain", chain}, {"ladder", ladder},
    {"ladder-of-bursts", ladder_of_bursts}, {"mask", mask}, {"behind", behind}, {"window-of-one", window_of_one},
    {"looked-at", looked_at}, {"early", early}, {"status", status}, {"request", request},
    {"short-request", short_request}, {"help", help}, {"short-help", short_help}, {"overlap", overlap},
    {"repeat", repeat}, {"too-far", too_far}, {"malformed-burst", malformed_burst},
    {"malformed-status", malformed_status}, {"malformed-help", malformed_help},
};

/* Sets the member up, and makes the frame. */
static struct text made_ready(int count, char **words)
{
    size_t i = 0;

    if (strcmp(words[1], "ranges") == 0)
        return ranges(count - 4, words + 4);
    while (strcmp(words[1], attacks[i].name) != 0) {
        i++;
        must(i < sizeof attacks / sizeof attacks[0], "no such attack");
    }
    return attacks[i].frame();
}

static size_t bytes_to_send(size_t frames)
{
    size_t bytes = 0;

    for (size_t i = 0; i < frames; i++) {
        jolunza_frame_head head;

        must(jolunza_frame(&target, i, &head, NULL, 0) == JOLUNZA_DONE, "no frame");
        bytes += head.length;
    }
    return bytes;
}

int main(int count, char **words)
{
    struct text frame;
    jolunza_counts counts;
    clock_t began;
    uint32_t code;

    must(count >= 3, "words: ATTACK WINDOW [HISTORY_MAX]");
    window = (uint32_t)atol(words[2]);
    must(jolunza_open(&target, GROUP, SIZE, window, ME, count > 3 ? (size_t)atol(words[3]) : 0) == JOLUNZA_DONE, "no member");
    frame = made_ready(count, words);
    began = clock();
    code = counted(&frame);
    began = clock() - began;
    must(jolunza_count(&target, &counts) == JOLUNZA_DONE, "no counts");
    printf("%s %u %zu code %u delivered %zu sends %zu of %zu behind %zu of %zu in %ld\n", words[1], (unsigned)window,
           frame.length, (unsigned)code, code == JOLUNZA_DONE ? received.delivered : 0, code == JOLUNZA_DONE ? counts.frames : 0,
           code == JOLUNZA_DONE ? bytes_to_send(counts.frames) : 0, forged_frames, forged_bytes, (long)began);
    jolunza_close(&target);
    return 0;
}
