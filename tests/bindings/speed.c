/* Measures planning in process, beside a loop that only copies the descriptors: speed [ROUNDS [KIND [COUNT [plain]]]].
 * For each kind of list and each number of moves, or for one alone, it prints nanoseconds for each move, best of the
 * rounds: of dsa_plan_list without barriers, and, unless plain lists alone are wanted, with one at each fourth move. It
 * judges nothing. */
#include <inttypes.h>
#include <stdio.h>
#include <stdlib.h>
#include <string.h>
#include <time.h>

#include "dsa_planner.h"

enum { MOST = 65536 };
static uint8_t list[64 * MOST], portal[64 * MOST], staging[80 * MOST];

static void put_move(uint64_t i, uint64_t src, uint64_t dst)
{
    uint8_t *d = list + 64 * i;
    uint32_t first = 0x0300000c, size = 4096;
    uint64_t fields[3] = {UINT64_C(0x800000000) + 32 * i, src, dst};
    memset(d, 0, 64);
    memcpy(d + 4, &first, 4);
    memcpy(d + 8, fields, 24);
    memcpy(d + 32, &size, 4);
}

/* The page of this number: moves are between whole pages. */
static uint64_t page(uint64_t number)
{
    return 0x10000000 + 4096 * number;
}

/* A number below `limit`. */
static uint64_t drawn(uint64_t *seed, uint64_t limit)
{
    *seed = *seed * UINT64_C(6364136223846793005) + 1;
    return (*seed >> 33) % limit;
}

/* Moves from page to page. apart: from each page to the next; two areas: all sources lie before all destinations;
 * shuffled: distinct pages in any order; chained: each move reads what the one before writes; random: any of four pages for
 * each move, so that some conflict. */
static void fill_list(const char *kind, uint64_t n)
{
    static uint64_t pages[2 * MOST];
    uint64_t seed = 7;
    for (uint64_t i = 0; i < 2 * n; i++) {
        uint64_t other = drawn(&seed, i + 1);
        pages[i] = pages[other];
        pages[other] = i;
    }
    for (uint64_t i = 0; i < n; i++) {
        if (strcmp(kind, "apart") == 0)
            put_move(i, page(2 * i), page(2 * i + 1));
        else if (strcmp(kind, "two areas") == 0)
            put_move(i, page(i), page(n + i));
        else if (strcmp(kind, "shuffled") == 0)
            put_move(i, page(pages[2 * i]), page(pages[2 * i + 1]));
        else if (strcmp(kind, "chained") == 0)
            put_move(i, page(i), page(i + 1));
        else {
            uint64_t source = page(drawn(&seed, 4 * n));
            put_move(i, source, page(drawn(&seed, 4 * n)));
        }
    }
}

static double now(void)
{
    struct timespec t;
    clock_gettime(CLOCK_MONOTONIC, &t);
    return (double)t.tv_sec * 1e9 + (double)t.tv_nsec;
}

static void copy_list(uint64_t n)
{
    for (uint64_t i = 0; i < n; i++)
        memcpy(staging + 64 * i, list + 64 * i, 64);
    __asm__ volatile("" : : "r"(staging) : "memory");
}

/* Plans the list `repeat` times: nanoseconds for each move. */
static double planned_in(uint64_t n, uint64_t repeat, struct dsa_planned *planned)
{
    static const struct dsa_settings s = {1, 32, 4096, 10, 14, 3, UINT64_C(1) << 40};
    struct dsa_refusal r;
    const double start = now();
    for (uint64_t i = 0; i < repeat; i++)
        if (dsa_plan_list(&s, &s.batch, 0, list, 64 * n, portal, sizeof portal, staging, sizeof staging, planned, &r))
            exit(EXIT_FAILURE);
    return (now() - start) / (double)(repeat * n);
}

/* Sets or clears the barrier at each fourth move. */
static void turn_barriers(uint64_t n)
{
    for (uint64_t i = 0; i < n; i += 4)
        list[64 * i + 4] ^= 1;
}

static double least(double a, double b)
{
    return a < b ? a : b;
}

static void measure(const char *kind, uint64_t n, int rounds, int is_plain)
{
    const uint64_t repeat = n < 4096 ? 4096 / n : 1;
    double plan = 1e18, fenced = 1e18, copy = 1e18;
    struct dsa_planned p = {0}, other = {0};
    fill_list(kind, n);
    for (int round = 0; round < rounds; round++) {
        plan = least(plan, planned_in(n, repeat, &p));
        turn_barriers(n);
        fenced = is_plain ? 0 : least(fenced, planned_in(n, repeat, &other));
        turn_barriers(n);
        const double start = now();
        for (uint64_t i = 0; i < repeat; i++)
            copy_list(n);
        copy = least(copy, (now() - start) / (double)(repeat * n));
    }
    printf("%-9s %6" PRIu64 " moves: plan %6.1f ns an operation, with a barrier at each fourth %6.1f, copy %5.1f;"
           " cost %" PRIu64 ", one by one %" PRIu64 "\n",
           kind, n, plan, fenced, copy, p.cost, 10 * n);
}

int main(int argc, char **argv)
{
    static const char *const kinds[] = {"apart", "two areas", "shuffled", "chained", "random"};
    static const uint64_t lengths[] = {8, 32, 64, 1024, MOST};
    int rounds = argc > 1 ? atoi(argv[1]) : 20;
    for (size_t kind = 0; kind < 5; kind++)
        for (size_t k = 0; k < 5; k++) {
            if (argc > 2 && strcmp(argv[2], kinds[kind]) != 0)
                continue;
            if (argc > 3 && strtoull(argv[3], NULL, 10) != lengths[k])
                continue;
            measure(kinds[kind], lengths[k], rounds, argc > 4);
        }
    return EXIT_SUCCESS;
}
