/* Lists submitted to one tracker, and done by several threads. */
#ifndef FLIGHT_H
#define FLIGHT_H

#include <pthread.h>
#include <stdatomic.h>

#include "dsa_planner.h"
#include "lists.h"

enum { STEP = 16, MOST_ENGINES = 8, SLOTS = 64, NOWHERE = SLOTS };
enum { LOG2_ROWS = 6, SPANS = 3 * OPERATIONS + 1, WORDS = DSA_TRACKER_WORDS(SLOTS, SPANS, LOG2_ROWS) };

/* A wait that is left out: `freed` does not wait for `first`, which begins late. */
struct drop {
    bool is_dropped;
    size_t first, freed, delay;
};

/* The lists of one case, its tracker, and what the threads know of it under the mutex. */
struct flight {
    pthread_mutex_t mutex;
    pthread_cond_t changed;
    const struct list *lists;
    struct drop drop;
    uint64_t words[WORDS];
    uint64_t outstanding, ready, rung; /* sets of slots; what is rung is no longer ready */
    size_t list_at[SLOTS], slot_of[LISTS];
    bool is_withdrawn[LISTS], is_submitted_all;
    atomic_bool is_freed_ended;
    size_t waited, withdrawn, together;
    _Atomic uint8_t memory[BYTES];
};

/* Begins a flight of these lists over a copy of this memory. */
void begin(struct flight *f, const struct list *lists, const uint8_t *memory, uint32_t slots, uint32_t log2_unit);

/* Runs a flight with so many engines; answers whether the memory is that of its lists one after another. */
bool is_run_right(struct flight *f, const uint8_t *before, size_t engines, uint64_t *state);

#endif
