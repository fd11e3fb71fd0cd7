/* Measures a tracker, beside planning the same lists and comparing all spans of what is in flight: track_speed
 * [ROUNDS]. For each length of a list, number of lists in flight and kind of lists it prints nanoseconds for each
 * operation, of one submission and one completion together, best of the rounds. Waiting for everything costs no such
 * time. It judges nothing. */
#include <inttypes.h>
#include <stdbool.h>
#include <stdio.h>
#include <stdlib.h>
#include <string.h>
#include <time.h>

#include "dsa_planner.h"

enum { MOST_MOVES = 64, IN_FLIGHT = 64, LISTS = 128, PAGE = 4096, LOG2_PAGE = 12, LOG2_ROWS = 13 };
enum { SPANS = 3 * MOST_MOVES + 1 };

/* Nothing conflicts; each list reads a page of the one before it; all write one page. */
enum kind { APART, AFTER_ONE, RING, KINDS };

/* A list of moves of a page, with its staging area; and its spans, for the comparison of all. */
struct list {
    uint8_t bytes[64 * MOST_MOVES];
    uint64_t staging;
    struct dsa_span spans[3 * MOST_MOVES + 1]; /* what is written first: it has `written` */
    size_t count, written;
};

static struct list lists[LISTS];
enum { WORDS = DSA_TRACKER_WORDS(IN_FLIGHT, SPANS, LOG2_ROWS) };
static uint64_t words[WORDS];

static double now(void)
{
    struct timespec t;
    clock_gettime(CLOCK_MONOTONIC, &t);
    return (double)t.tv_sec * 1e9 + (double)t.tv_nsec;
}

static uint64_t source_of(enum kind kind, uint64_t list, uint64_t move)
{
    const uint64_t own = UINT64_C(0x100000000) + (list * MOST_MOVES + move) * PAGE;
    if (kind != AFTER_ONE || move)
        return own;
    return UINT64_C(0x200000000) + (list + LISTS - 1) % LISTS * MOST_MOVES * PAGE;
}

static uint64_t target_of(enum kind kind, uint64_t list, uint64_t move)
{
    return UINT64_C(0x200000000) + (kind == RING && !move ? 0 : (list * MOST_MOVES + move) * PAGE);
}

static void make_lists(enum kind kind, size_t moves)
{
    for (uint64_t i = 0; i < LISTS; i++) {
        struct list *l = &lists[i];
        memset(l, 0, sizeof *l);
        l->staging = UINT64_C(0x300000000) + i * 96 * MOST_MOVES;
        l->spans[l->written++] = (struct dsa_span){l->staging, 96 * moves};
        const uint64_t records = UINT64_C(0x400000000) + i * 32 * MOST_MOVES;
        l->spans[l->written++] = (struct dsa_span){records, 32 * moves};
        for (uint64_t k = 0; k < moves; k++)
            l->spans[l->written++] = (struct dsa_span){target_of(kind, i, k), PAGE};
        l->count = l->written;
        for (uint64_t k = 0; k < moves; k++) {
            const uint64_t fields[3] = {records + 32 * k, source_of(kind, i, k), target_of(kind, i, k)};
            uint8_t *d = l->bytes + 64 * k;
            d[4] = 0x0c;
            d[7] = 0x03;
            memcpy(d + 8, fields, sizeof fields);
            d[33] = PAGE >> 8;
            l->spans[l->count++] = (struct dsa_span){fields[1], PAGE};
        }
    }
}

static bool meet(struct dsa_span a, struct dsa_span b)
{
    return a.first < b.first + b.len && b.first < a.first + a.len;
}

/* Whether one writes what the other reads or writes, by all pairs of spans. */
static bool conflict(const struct list *a, const struct list *b)
{
    bool is_found = false;
    for (size_t i = 0; i < a->count; i++)
        for (size_t k = 0; k < (i < a->written ? b->count : b->written); k++)
            is_found |= meet(a->spans[i], b->spans[k]);
    return is_found;
}

static double best_of(double best, double start, size_t operations)
{
    const double each = (now() - start) / (double)operations;
    return each < best ? each : best;
}

/* Submits each list in turn, and takes the oldest off once so many are in flight, which is ready by then. */
static bool track(size_t moves, size_t flight)
{
    const struct dsa_settings settings = {1, MOST_MOVES, PAGE, 10, 14, 3, 0};
    uint32_t slots[LISTS];
    uint64_t waits, waited, ready;
    struct dsa_refusal r;
    if (dsa_track_begin(words, WORDS, IN_FLIGHT, SPANS, LOG2_ROWS, LOG2_PAGE, &r))
        return false;
    for (size_t i = 0; i < LISTS + flight; i++) {
        if (i >= flight && dsa_track_complete(words, WORDS, slots[i - flight], &waited, &ready, &r))
            return false;
        if (i >= LISTS)
            continue;
        const struct list *l = &lists[i];
        if (dsa_track_list(words, WORDS, &settings, &settings.batch, 0, l->bytes, 64 * moves, l->staging, 96 * moves, 0,
                           &slots[i], &waits, &r))
            return false;
    }
    return true;
}

static bool plan(size_t moves)
{
    static uint8_t portal[64 * MOST_MOVES], staging[80 * MOST_MOVES];
    struct dsa_planned p;
    struct dsa_refusal r;
    for (size_t i = 0; i < LISTS; i++) {
        const struct list *l = &lists[i];
        const struct dsa_settings s = {1, MOST_MOVES, PAGE, 10, 14, 3, l->staging};
        if (dsa_plan_list(&s, &s.batch, 0, l->bytes, 64 * moves, portal, sizeof portal, staging, sizeof staging,
                          &p, &r))
            return false;
    }
    return true;
}

/* What comparing with all in flight takes, for the first few lists. */
static size_t compare(size_t flight, size_t few)
{
    size_t found = 0;
    for (size_t i = flight; i < flight + few; i++)
        for (size_t k = 1; k <= flight; k++)
            found += conflict(&lists[i % LISTS], &lists[(i - k) % LISTS]);
    return found;
}

int main(int argc, char **argv)
{
    static const size_t lengths[] = {8, 32, 64}, flights[] = {4, 32, 64};
    static const char *const kinds[KINDS] = {"apart", "after one", "one page"};
    const int rounds = argc > 1 ? atoi(argv[1]) : 50;
    for (int kind = 0; kind < KINDS; kind++)
        for (int c = 0; c < 9; c++) {
            const size_t moves = lengths[c / 3], flight = flights[c % 3], few = 4;
            double tracked = 1e18, planned = 1e18, compared = 1e18;
            size_t found = 0;
            make_lists((enum kind)kind, moves);
            for (int round = 0; round < rounds; round++) {
                double start = now();
                if (!track(moves, flight))
                    return EXIT_FAILURE;
                tracked = best_of(tracked, start, LISTS * moves);
                start = now();
                if (!plan(moves))
                    return EXIT_FAILURE;
                planned = best_of(planned, start, LISTS * moves);
                if (round % 10)
                    continue;
                start = now();
                found = compare(flight, few);
                compared = best_of(compared, start, few * moves);
            }
            printf("%-9s %2zu moves, %2zu in flight: track %6.1f ns an operation, plan %6.1f, compare all %8.1f, %zu "
                   "conflicts\n", kinds[kind], moves, flight, tracked, planned, compared, found);
        }
    return EXIT_SUCCESS;
}
