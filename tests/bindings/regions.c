/* Fills one prepared move over many regions whose bases are in any order, some of which meet, and compares each answer
 * with a plain look at each two: regions FILLS SEED. */
#include <inttypes.h>
#include <stdio.h>
#include <stdlib.h>
#include <string.h>

#include "drawn.h"
#include "dsa_planner.h"

enum { MOST = 1100, ROWS = MOST + 3 };
static const uint64_t STAGING = UINT64_C(1) << 40;

static struct dsa_region regions[MOST];
static struct dsa_prepared_row rows[ROWS];
static uint64_t bases[MOST];
static uint8_t list[64], portal[64], staging[160];

/* Regions of up to 4,096 bytes, some of them empty, and bases in old order, in the opposite one or shuffled; at times
 * two of them meet, or one lies in the staging area. */
static void make(uint64_t n)
{
    uint64_t order = below(4);
    for (uint64_t i = 0; i < n; i++) {
        regions[i].first = 0x100000 + 8192 * i;
        regions[i].len = i > 1 && below(40) == 0 ? 0 : i > 1 ? 1 + below(4096) : 4096;
        bases[i] = 0x40000000 + 4096 * (order == 1 ? n - i : i);
    }
    for (uint64_t i = n - 1; order > 1 && i > 0; i--) {
        uint64_t j = below(i + 1), one = bases[i];
        bases[i] = bases[j];
        bases[j] = one;
    }
    if (below(2) == 0)
        bases[below(n)] = bases[below(n)] + 32 * below(140);
    if (below(8) == 0)
        bases[below(n)] = STAGING + 32 * below(5) - 64;
}

static int meet(uint64_t a, uint64_t a_len, uint64_t b, uint64_t b_len)
{
    return a_len > 0 && b_len > 0 && a < b + b_len && b < a + a_len;
}

/* The first cause, by a look at each two: its number and indices. Only the first region, which has the record, has a
 * unit. */
static struct dsa_refusal wanted(uint64_t n)
{
    struct dsa_refusal r = {0};
    if (bases[0] % 32 != 0) {
        r.number = DSA_MISALIGNED;
        return r;
    }
    for (uint64_t i = 0; i < n; i++)
        for (uint64_t j = 0; j < i; j++)
            if (meet(bases[i], regions[i].len, bases[j], regions[j].len))
                return (struct dsa_refusal){DSA_REGIONS_MEET, 0, i, j};
    for (uint64_t i = 0; i < n; i++)
        if (meet(bases[i], regions[i].len, STAGING, 96))
            return (struct dsa_refusal){DSA_BASE_STAGING_MEETS, 0, i, 0};
    return r;
}

static void one_fill(void)
{
    static const uint64_t counts[] = {2, 3, 15, 16, 17, 18, 65, 300, 1023, 1024, 1025, MOST};
    const struct dsa_settings s = {1, 32, 4096, 10, 14, 3, STAGING};
    const uint64_t n = counts[below(12)];
    struct dsa_prepared_info info;
    struct dsa_refusal r = {0};
    make(n);
    memset(list, 0, sizeof list);
    list[4] = 0x0c;
    list[7] = 0x03;
    put(list + 8, regions[0].first);
    put(list + 16, regions[1].first);
    put(list + 24, regions[1].first + 64);
    list[32] = 64;
    uint32_t code = dsa_prepare(&s, &s.batch, 0, list, sizeof list, regions, n, rows, ROWS, &info, &r);
    if (code == 0)
        code = dsa_fill(rows, info.rows, bases, n, STAGING, portal, sizeof portal, staging, sizeof staging, &r);
    const struct dsa_refusal w = wanted(n);
    if (code != w.number || (code != 0 && (r.first != w.first || r.second != w.second))) {
        printf("%" PRIu64 " regions: %u %" PRIu64 " %" PRIu64 ", not %u %" PRIu64 " %" PRIu64 "\n", n, code, r.first,
               r.second, w.number, w.first, w.second);
        exit(EXIT_FAILURE);
    }
}

int main(int argc, char **argv)
{
    if (argc != 3)
        return EXIT_FAILURE;
    seed = strtoull(argv[2], NULL, 10);
    for (uint64_t i = strtoull(argv[1], NULL, 10); i > 0; i--)
        one_fill();
    return EXIT_SUCCESS;
}
