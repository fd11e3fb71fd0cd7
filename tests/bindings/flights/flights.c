/* Random lists of moves and fills, submitted to one tracker and done by several threads: flights CASES DROPS SEED. A
 * thread does what is ready, in steps of a few bytes, and then completes it, which makes others ready. The memory has
 * to be that of the lists one after another, without those that were withdrawn before they were rung. Then DROPS times
 * one wait is left out whose order shows in memory; nine of ten of these have to be seen within 100 schedules. */
#include <inttypes.h>
#include <stdio.h>
#include <stdlib.h>
#include <string.h>

#include "flight.h"

enum { SCHEDULES = 100 };

static void any_memory(uint8_t *memory, uint64_t *state)
{
    for (size_t b = 0; b < BYTES; b++)
        memory[b] = (uint8_t)below(state, 256);
}

static void run_cases(struct flight *f, size_t cases, uint64_t *state)
{
    static struct list lists[LISTS];
    static uint8_t memory[BYTES];
    size_t waited = 0, withdrawn = 0, together = 0;
    for (size_t n = 0; n < cases; n++) {
        any_lists(lists, state);
        any_memory(memory, state);
        begin(f, lists, memory, 1 + (uint32_t)below(state, SLOTS), 1 + (uint32_t)below(state, 10));
        if (!is_run_right(f, memory, 2 + below(state, MOST_ENGINES - 1), state)) {
            printf("case %zu leaves other memory than its lists in order\n", n);
            exit(EXIT_FAILURE);
        }
        waited += f->waited;
        withdrawn += f->withdrawn;
        together = f->together > together ? f->together : together;
    }
    printf("%zu cases: %zu of %zu submissions waited, %zu were withdrawn, at most %zu were done at once\n", cases,
           waited, LISTS * cases, withdrawn, together);
    need(cases < 20 || (waited && withdrawn && together > 1), "nothing waited, was withdrawn or was done at once");
}

/* Whether a later list may be done before an earlier one once it need not wait for that, and memory shows it. */
static bool shows(const struct list *lists, size_t first, size_t freed, const uint8_t *before)
{
    static uint8_t in_order[BYTES], other[BYTES];
    bool follows[LISTS] = {false}; /* what waits for the first one, also over others */
    follows[first] = true;
    for (size_t k = first + 1; k < freed; k++)
        for (size_t i = first; i < k; i++)
            follows[k] |= follows[i] && conflict(&lists[i], &lists[k]);
    for (size_t k = first + 1; k < freed; k++)
        if (follows[k] && conflict(&lists[k], &lists[freed]))
            return false;
    memcpy(in_order, before, BYTES);
    memcpy(other, before, BYTES);
    for (size_t k = 0; k <= freed; k++) {
        do_in_order(in_order, &lists[k]);
        if (!follows[k])
            do_in_order(other, &lists[k]);
    }
    for (size_t k = first; k < freed; k++)
        if (follows[k])
            do_in_order(other, &lists[k]);
    for (size_t k = freed + 1; k < LISTS; k++) {
        do_in_order(in_order, &lists[k]);
        do_in_order(other, &lists[k]);
    }
    return memcmp(in_order, other, BYTES) != 0;
}

/* Random lists, and a wait among them whose order shows. */
static struct drop any_drop(struct list *lists, uint8_t *memory, uint64_t *state)
{
    struct drop d = {.is_dropped = true};
    do {
        any_lists(lists, state);
        any_memory(memory, state);
        d.first = below(state, LISTS - 1);
        d.freed = d.first + 1 + below(state, LISTS - 1 - d.first);
    } while (!conflict(&lists[d.first], &lists[d.freed]) || !shows(lists, d.first, d.freed, memory));
    return d;
}

/* The first schedule in which the dropped wait shows, from 1 on; one more than there are if none does. */
static size_t schedules_until_seen(struct flight *f, uint64_t *state)
{
    static struct list lists[LISTS];
    static uint8_t memory[BYTES];
    struct drop d = any_drop(lists, memory, state);
    for (size_t n = 0; n <= SCHEDULES; n++) {
        begin(f, lists, memory, SLOTS, 6);
        f->drop = d;
        f->drop.is_dropped = n > 0; /* first with the wait, as late */
        f->drop.delay = 1 + below(state, n ? 1000 : 50);
        const bool is_right = is_run_right(f, memory, 2 + below(state, MOST_ENGINES - 1), state);
        need(n > 0 || is_right, "other memory is left although no wait is left out");
        if (!is_right)
            return n;
    }
    return SCHEDULES + 1;
}

static void drop_waits(struct flight *f, size_t drops, uint64_t *state)
{
    size_t seen = 0, most = 0, sum = 0;
    for (size_t n = 0; n < drops; n++) {
        const size_t schedules = schedules_until_seen(f, state);
        if (schedules > SCHEDULES)
            continue;
        seen++;
        sum += schedules;
        most = schedules > most ? schedules : most;
    }
    printf("%zu of %zu dropped waits were seen, after %zu schedules in all and at most %zu\n", seen, drops, sum, most);
    need(10 * seen >= 9 * drops, "too few dropped waits were seen");
}

int main(int argc, char **argv)
{
    static struct flight flight;
    if (argc != 4)
        return EXIT_FAILURE;
    uint64_t state = strtoull(argv[3], NULL, 10);
    run_cases(&flight, strtoull(argv[1], NULL, 10), &state);
    drop_waits(&flight, strtoull(argv[2], NULL, 10), &state);
    return EXIT_SUCCESS;
}
