/* Juopmorin: a proved alarm wheel, for C on Linux x86-64. Link libjuopmorin.a (`tools/prove juopmorin` proves it and
 * writes it to target/staticlib/); this header is all that a program includes.
 *
 * When an alarm rings. A time is a number of nanoseconds since an origin that the host chooses; a tick is 2^30 of
 * them, about 1.07 s. The first advance that is read to its end, goes to the deadline or later and enters a later tick
 * than the one that it started in hands the timer out, once, and none does before the deadline. So an advance to just
 * the deadline hands it out if the deadline lies in a later tick than the reading; if both lie in one tick, it rings
 * when the next tick is entered. A timer armed with a deadline in an EARLIER tick than the reading may wait up to a
 * lap of 64 ticks, about 69 s.
 *
 * Memory is the host's. The wheel keeps nothing between calls but what it is lent: node records, the clock, heads and
 * tails of the buckets, and the entries. Any contents are answered: records that are not sound are refused with 4, and
 * a refused call changes nothing. What a host must keep to is what C's types say: addresses are valid and aligned,
 * with as many values behind them as their lengths say, what is lent to one call does not overlap, and each `bool` is
 * 0 or 1. No function allocates, blocks or keeps state of its own; two threads may call on different records at the
 * same time.
 *
 * Cost. Every call but juop_create, juop_place and juop_word_index goes over every record: it is linear, about 6
 * us at 166 records and 50 us at 4,096 on the slowest machine measured, and takes up to 224 KiB of stack. Reading an
 * advance of k events is k + 1 calls.
 */
#ifndef JUOPMORIN_H
#define JUOPMORIN_H

#include <stdbool.h>
#include <stddef.h>
#include <stdint.h>

#ifdef __cplusplus
extern "C" {
#endif

enum {
    JUOP_BUCKETS = 165,      /* buckets, and so heads, tails and sentinel records */
    JUOP_NODES_MIN = 166,    /* node records that may be lent: one for each bucket, and one for each timer */
    JUOP_NODES_MAX = 4096,
    JUOP_ENTRIES_MAX = 4096, /* entries that may be lent: from 1 */
    JUOP_NONE = 4096         /* no slot */
};

#define JUOP_TICK ((uint64_t)1 << 30) /* nanoseconds */

/* A slot: links, bucket (JUOP_NONE: free), and the timer armed there. */
typedef struct juop_node {
    size_t next;
    size_t prev;
    size_t bucket;
    size_t entry;
    uint32_t generation;
    uint64_t serial;
} juop_node;

/* The clock record: reading, next serial, the open advance, the first free slot, the lengths at enabling. */
typedef struct juop_clock {
    bool enabled;
    uint64_t reading;
    uint64_t serial;
    bool open;
    uint64_t previous;
    size_t level;
    size_t step;
    size_t free;
    size_t nodes;
    size_t entries;
} juop_clock;

/* What juop_create answers. */
typedef struct juop_created {
    juop_clock clock;
    size_t heads[JUOP_BUCKETS];
    size_t tails[JUOP_BUCKETS];
} juop_created;

/* What every other call answers. `refused` is the refusal's number, or 0; it is the call's result too. */
typedef struct juop_answer {
    uint64_t refused;
    uint64_t kind;     /* one of enum juop_kind */
    uint64_t value[3]; /* by kind; what is left is 0 */
} juop_answer;

enum juop_kind {
    JUOP_DONE = 0,    /* done; of reschedule: the timer was moved */
    JUOP_ARMED = 1,   /* slot, serial: the timer's handle */
    JUOP_REMOVED = 2, /* reschedule: the entry has no deadline, the timer is gone */
    JUOP_END = 3,     /* pull: the advance is closed */
    JUOP_EXPIRED = 4, /* entry, serial, deadline: the alarm rings, the timer is gone */
    JUOP_PLACED = 5,  /* entry, serial, place: the timer was placed anew */
    JUOP_COUNT = 6,   /* how many timers are armed */
    JUOP_DUE = 7,     /* the smallest deadline */
    JUOP_NEVER = 8    /* no armed timer has a deadline */
};

enum juop_refusal {
    JUOP_NOT_ENABLED = 1,
    JUOP_ENABLED_ALREADY = 2,
    JUOP_LENGTHS_OUT_OF_RANGE = 3,
    JUOP_NOT_SOUND = 4,
    JUOP_ADVANCE_OPEN = 5,
    JUOP_NO_ADVANCE_OPEN = 6,
    JUOP_NO_SUCH_ENTRY = 7,
    JUOP_OTHER_GENERATION = 8,
    JUOP_NO_DEADLINE = 9,
    JUOP_NO_FREE_SLOT = 10,
    JUOP_SERIALS_USED_UP = 11,
    JUOP_STALE_HANDLE = 12,
    JUOP_NOT_THE_GENERATION_AT_ARMING = 13
};

/* ---- the exported functions. A lent array is an address and a length; `e` is an entry, `h` a generation. */

/* Begins a wheel with this first serial: reading 0, not enabled. Never refused. */
juop_created juop_create(uint64_t first);

/* Lays the records out as a wheel with no timer; no entry has a deadline. Refuses (2, 3). */
uint64_t juop_enable(juop_node *nodes, size_t nodes_len, juop_clock *clock, size_t *heads, size_t heads_len,
                     size_t *tails, size_t tails_len, bool *dated, size_t dated_len, uint64_t *deadline,
                     size_t deadline_len, uint32_t *generation, size_t generation_len, juop_answer *answer);

/* Sets the entry e: whether it has a deadline, which, and its generation. Refuses (1, 4, 5, 7). */
uint64_t juop_set_entry(const juop_node *nodes, size_t nodes_len, juop_clock clock, const size_t *heads,
                        size_t heads_len, const size_t *tails, size_t tails_len, bool *dated, size_t dated_len,
                        uint64_t *deadline, size_t deadline_len, uint32_t *generation, size_t generation_len, size_t e,
                        bool has, uint64_t due, uint32_t h, juop_answer *answer);

/* Arms a timer for the entry e, whose generation is h: JUOP_ARMED. Refuses (1, 4, 5, 7 to 11). */
uint64_t juop_schedule(juop_node *nodes, size_t nodes_len, juop_clock *clock, size_t *heads, size_t heads_len,
                       size_t *tails, size_t tails_len, const bool *dated, size_t dated_len, const uint64_t *deadline,
                       size_t deadline_len, const uint32_t *generation, size_t generation_len, size_t e, uint32_t h,
                       juop_answer *answer);

/* Places the timer by the deadline that its entry has now: JUOP_DONE; or JUOP_REMOVED. Refuses (1, 4, 5, 12, 13). */
uint64_t juop_reschedule(juop_node *nodes, size_t nodes_len, juop_clock *clock, size_t *heads, size_t heads_len,
                         size_t *tails, size_t tails_len, const bool *dated, size_t dated_len,
                         const uint64_t *deadline, size_t deadline_len, const uint32_t *generation,
                         size_t generation_len, size_t slot, uint64_t serial, uint32_t h, juop_answer *answer);

/* Removes the timer. Refuses (1, 4, 5, 12, 13). */
uint64_t juop_deschedule(juop_node *nodes, size_t nodes_len, juop_clock *clock, size_t *heads, size_t heads_len,
                         size_t *tails, size_t tails_len, const bool *dated, size_t dated_len,
                         const uint64_t *deadline, size_t deadline_len, const uint32_t *generation,
                         size_t generation_len, size_t slot, uint64_t serial, uint32_t h, juop_answer *answer);

/* Opens an advance to this reading. Refuses (1, 4, 5). */
uint64_t juop_start(const juop_node *nodes, size_t nodes_len, juop_clock *clock, const size_t *heads, size_t heads_len,
                    const size_t *tails, size_t tails_len, const bool *dated, size_t dated_len,
                    const uint64_t *deadline, size_t deadline_len, const uint32_t *generation, size_t generation_len,
                    uint64_t reading, juop_answer *answer);

/* The next event of the open advance: JUOP_EXPIRED, JUOP_PLACED, or JUOP_END, which closes it. Refuses (1, 4, 6). */
uint64_t juop_pull(juop_node *nodes, size_t nodes_len, juop_clock *clock, size_t *heads, size_t heads_len,
                   size_t *tails, size_t tails_len, const bool *dated, size_t dated_len, const uint64_t *deadline,
                   size_t deadline_len, const uint32_t *generation, size_t generation_len, juop_answer *answer);

/* Closes the open advance and restores the reading that it started from; what was pulled stays pulled. Refuses (1, 4,
 * 6). */
uint64_t juop_abandon(const juop_node *nodes, size_t nodes_len, juop_clock *clock, const size_t *heads,
                      size_t heads_len, const size_t *tails, size_t tails_len, const bool *dated, size_t dated_len,
                      const uint64_t *deadline, size_t deadline_len, const uint32_t *generation, size_t generation_len,
                      juop_answer *answer);

/* How many timers are armed: JUOP_COUNT. It answers while an advance is open too. Refuses (1, 4). */
uint64_t juop_armed_count(const juop_node *nodes, size_t nodes_len, juop_clock clock, const size_t *heads,
                          size_t heads_len, const size_t *tails, size_t tails_len, const bool *dated, size_t dated_len,
                          const uint64_t *deadline, size_t deadline_len, const uint32_t *generation,
                          size_t generation_len, juop_answer *answer);

/* The smallest deadline among armed timers: JUOP_DUE, or JUOP_NEVER. Refuses (1, 4, 5). To sleep until an advance hands
 * something out: until the later of it and the start of the tick after the reading's. */
uint64_t juop_next_due(const juop_node *nodes, size_t nodes_len, juop_clock clock, const size_t *heads,
                       size_t heads_len, const size_t *tails, size_t tails_len, const bool *dated, size_t dated_len,
                       const uint64_t *deadline, size_t deadline_len, const uint32_t *generation,
                       size_t generation_len, juop_answer *answer);

/* Where a deadline goes at a reading: level x 64 + index. */
uint64_t juop_place(uint64_t reading, uint64_t deadline);

/* The word of a hash at a depth in a frequency sketch of `mask` + 1 words; 65,536 where the depth is above 3 or
 * `mask` + 1 is not a power of two up to 65,536. */
uint64_t juop_word_index(uint64_t hash, uint64_t depth, uint64_t mask);

/* ---- the same calls on one struct that holds what is lent */

/* A wheel: arrays of the host, and what juop_create answers. juop_wheel_lend sets the first, juop_wheel_create the
 * others. */
typedef struct juop_wheel {
    juop_node *nodes;
    size_t nodes_len;
    bool *dated; /* these three have entries_len values each */
    uint64_t *deadline;
    uint32_t *generation;
    size_t entries_len;
    juop_clock clock;
    size_t heads[JUOP_BUCKETS];
    size_t tails[JUOP_BUCKETS];
} juop_wheel;

/* What a call is lent of a wheel, with its clock as the call takes it. */
#define JUOP_LENT(wheel, clock)                                                                                       \
    (wheel)->nodes, (wheel)->nodes_len, (clock), (wheel)->heads, JUOP_BUCKETS, (wheel)->tails, JUOP_BUCKETS,          \
        (wheel)->dated, (wheel)->entries_len, (wheel)->deadline, (wheel)->entries_len, (wheel)->generation,           \
        (wheel)->entries_len

static inline void juop_wheel_lend(juop_wheel *wheel, juop_node *nodes, size_t nodes_len, bool *dated,
                                   uint64_t *deadline, uint32_t *generation, size_t entries_len) {
    wheel->nodes = nodes;
    wheel->nodes_len = nodes_len;
    wheel->dated = dated;
    wheel->deadline = deadline;
    wheel->generation = generation;
    wheel->entries_len = entries_len;
}

static inline void juop_wheel_create(juop_wheel *wheel, uint64_t first) {
    const juop_created created = juop_create(first);
    wheel->clock = created.clock;
    for (size_t bucket = 0; bucket < JUOP_BUCKETS; bucket++) {
        wheel->heads[bucket] = created.heads[bucket];
        wheel->tails[bucket] = created.tails[bucket];
    }
}

static inline juop_answer juop_wheel_enable(juop_wheel *wheel) {
    juop_answer answer;
    juop_enable(JUOP_LENT(wheel, &wheel->clock), &answer);
    return answer;
}

static inline juop_answer juop_wheel_set_entry(juop_wheel *wheel, size_t e, uint64_t due, uint32_t h) {
    juop_answer answer;
    juop_set_entry(JUOP_LENT(wheel, wheel->clock), e, true, due, h, &answer);
    return answer;
}

static inline juop_answer juop_wheel_clear_entry(juop_wheel *wheel, size_t e, uint32_t h) {
    juop_answer answer;
    juop_set_entry(JUOP_LENT(wheel, wheel->clock), e, false, 0, h, &answer);
    return answer;
}

static inline juop_answer juop_wheel_schedule(juop_wheel *wheel, size_t e, uint32_t h) {
    juop_answer answer;
    juop_schedule(JUOP_LENT(wheel, &wheel->clock), e, h, &answer);
    return answer;
}

static inline juop_answer juop_wheel_reschedule(juop_wheel *wheel, size_t slot, uint64_t serial, uint32_t h) {
    juop_answer answer;
    juop_reschedule(JUOP_LENT(wheel, &wheel->clock), slot, serial, h, &answer);
    return answer;
}

static inline juop_answer juop_wheel_deschedule(juop_wheel *wheel, size_t slot, uint64_t serial, uint32_t h) {
    juop_answer answer;
    juop_deschedule(JUOP_LENT(wheel, &wheel->clock), slot, serial, h, &answer);
    return answer;
}

static inline juop_answer juop_wheel_start(juop_wheel *wheel, uint64_t reading) {
    juop_answer answer;
    juop_start(JUOP_LENT(wheel, &wheel->clock), reading, &answer);
    return answer;
}

static inline juop_answer juop_wheel_pull(juop_wheel *wheel) {
    juop_answer answer;
    juop_pull(JUOP_LENT(wheel, &wheel->clock), &answer);
    return answer;
}

static inline juop_answer juop_wheel_abandon(juop_wheel *wheel) {
    juop_answer answer;
    juop_abandon(JUOP_LENT(wheel, &wheel->clock), &answer);
    return answer;
}

static inline juop_answer juop_wheel_armed_count(const juop_wheel *wheel) {
    juop_answer answer;
    juop_armed_count(JUOP_LENT(wheel, wheel->clock), &answer);
    return answer;
}

static inline juop_answer juop_wheel_next_due(const juop_wheel *wheel) {
    juop_answer answer;
    juop_next_due(JUOP_LENT(wheel, wheel->clock), &answer);
    return answer;
}

#ifdef __cplusplus
}
#endif

#endif
