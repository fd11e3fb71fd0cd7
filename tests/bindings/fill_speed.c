/* Measures filling a prepared list, beside planning it anew and a loop that only copies as many bytes: fill_speed
 * [ROUNDS]. For each number of regions it prints nanoseconds for each operation, best of the rounds. It judges nothing. */
#include <inttypes.h>
#include <stdio.h>
#include <stdlib.h>
#include <string.h>
#include <time.h>

#include "dsa_planner.h"

enum { MOVES = 32, MOST_REGIONS = 65, REPEAT = 2000, ROWS = 1 + MOST_REGIONS + 3 * MOVES };

static uint8_t list[64 * MOVES], portal[64 * MOVES], staging[80 * MOVES], from[144 * MOVES], to[144 * MOVES];
static struct dsa_region regions[MOST_REGIONS];
static uint64_t bases[MOST_REGIONS];
static struct dsa_prepared_row rows[ROWS];

static double now(void)
{
    struct timespec t;
    clock_gettime(CLOCK_MONOTONIC, &t);
    return (double)t.tv_sec * 1e9 + (double)t.tv_nsec;
}

/* Moves of 4,096 bytes, with all records in the last region: from pages of one region to pages of another, over three
 * regions; over more, each source and each destination has a region of its own, or eight of them share one. */
static void make_list(size_t n)
{
    uint64_t page = 4096, share = n == 3 ? MOVES : n == 9 ? 8 : 1;
    for (size_t i = 0; i + 1 < n; i++)
        regions[i] = (struct dsa_region){0x10000000 + 0x100000 * i, share * page};
    regions[n - 1] = (struct dsa_region){0x800000000, 32 * MOVES};
    memset(list, 0, sizeof list);
    for (uint64_t i = 0; i < MOVES; i++) {
        uint64_t source = i / share, target = (n - 1) / 2 + i / share;
        uint64_t fields[3] = {0x800000000 + 32 * i, regions[source].first + page * (i % share),
                              regions[target].first + page * (i % share)};
        uint8_t *d = list + 64 * i;
        d[4] = 0x0c;
        d[7] = 0x03;
        memcpy(d + 8, fields, sizeof fields);
        d[33] = 0x10;
    }
}

/* New bases: in the old order, in the opposite one, or shuffled. */
static void make_bases(size_t n, const char *order)
{
    uint64_t seed = 7;
    for (size_t i = 0; i < n; i++)
        bases[i] = 0x2000000000 + 0x100000 * (order[0] == 'o' ? n - i : i);
    for (size_t i = n - 1; order[0] == 's' && i > 0; i--) {
        seed = seed * UINT64_C(6364136223846793005) + 1;
        size_t j = (seed >> 33) % (i + 1);
        uint64_t one = bases[i];
        bases[i] = bases[j];
        bases[j] = one;
    }
}

int main(int argc, char **argv)
{
    static const size_t counts[] = {3, 9, 65};
    static const char *const orders[] = {"in order", "opposite", "shuffled"};
    const struct dsa_settings s = {1, MOVES, 4096, 10, 14, 3, UINT64_C(1) << 40};
    int rounds = argc > 1 ? atoi(argv[1]) : 200;
    for (size_t c = 0; c < 9; c++) {
        size_t n = counts[c / 3], bytes;
        struct dsa_prepared_info info;
        struct dsa_planned p;
        struct dsa_refusal r;
        double plan = 1e18, fill = 1e18, copy = 1e18, whole = 1e18;
        make_list(n);
        make_bases(n, orders[c % 3]);
        if (dsa_prepare(&s, &s.batch, 0, list, sizeof list, regions, n, rows, ROWS, &info, &r))
            return EXIT_FAILURE;
        bytes = info.portal_len + info.staging_len;
        for (int round = 0; round < rounds; round++) {
            double times[5];
            times[0] = now();
            for (int i = 0; i < REPEAT / 20; i++)
                if (dsa_plan_list(&s, &s.batch, 0, list, sizeof list, portal, sizeof portal, staging, sizeof staging, &p, &r))
                    return EXIT_FAILURE;
            times[1] = now();
            for (int i = 0; i < REPEAT; i++)
                if (dsa_fill(rows, info.rows, bases, n, s.staging, portal, sizeof portal, staging, sizeof staging, &r))
                    return EXIT_FAILURE;
            times[2] = now();
            for (int i = 0; i < REPEAT; i++) {
                for (size_t k = 0; k < bytes / 32; k++)
                    memcpy(to + 32 * k, from + 32 * k, 32);
                __asm__ volatile("" : : "r"(to), "r"(from) : "memory");
            }
            times[3] = now();
            for (int i = 0; i < REPEAT; i++) {
                for (size_t k = 0; k < bytes / 8; k++) {
                    ((volatile uint64_t *)to)[k] = ((volatile uint64_t *)from)[k];
                }
            }
            times[4] = now();
            const double each[] = {REPEAT / 20 * MOVES, REPEAT * MOVES, REPEAT * MOVES, REPEAT * MOVES};
            double *const best[] = {&plan, &fill, &copy, &whole};
            for (int i = 0; i < 4; i++)
                if ((times[i + 1] - times[i]) / each[i] < *best[i])
                    *best[i] = (times[i + 1] - times[i]) / each[i];
        }
        printf("%2zu regions, bases %s: plan %6.1f ns an operation, fill %5.2f, copy by 32 bytes %4.2f, by words %4.2f\n", n,
               orders[c % 3], plan, fill, copy, whole);
    }
    return EXIT_SUCCESS;
}
