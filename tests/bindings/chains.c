/* Plans random lists of moves in which each may read what an earlier one writes, long enough that the search counts by
 * rows, and compares each cost with a plain model: chains LISTS SEED. Each group has the fewest fences, set one after
 * another where a move conflicts with one since the last fence. */
#include <inttypes.h>
#include <stdio.h>
#include <stdlib.h>
#include <string.h>

#include "drawn.h"
#include "dsa_planner.h"

enum { MOST = 400, MOST_BATCH = 128 };

static uint8_t list[64 * MOST], portal[64 * MOST], staging[80 * MOST];
static uint8_t other_portal[64 * MOST], other_staging[80 * MOST];
static uint64_t target[MOST], source[MOST], table[MOST_BATCH], costs[MOST + 1];

/* How far back a move reads, by the shape of the list; 0 reads what no move writes. */
static uint64_t back(uint64_t shape, uint64_t i)
{
    switch (shape) {
    case 0: return 1;
    case 1: return 2;
    case 2: return i % 2;
    case 3: return i / 100 % 2;
    case 4: return below(2);
    case 5: return below(4);
    case 6: return 1 + below(3);
    case 7: return below(20) == 0 ? 90 : 1;
    case 8: return i % 8 == 0 ? 1 : 0;
    default: return below(12);
    }
}

/* Moves of 64 bytes to places of their own; some write a place anew. */
static void make_list(uint64_t n, uint64_t shape)
{
    memset(list, 0, sizeof list);
    for (uint64_t i = 0; i < n; i++) {
        uint64_t step = back(shape, i);
        target[i] = 0x100000 + 64 * (i > 0 && below(50) == 0 ? below(i) : i);
        source[i] = step > 0 && step <= i ? target[i - step] : 0x900000 + 64 * i;
        if (source[i] == target[i])
            source[i] = 0x900000 + 64 * i;
        uint8_t *d = list + 64 * i;
        d[4] = 0x0c;
        d[7] = 0x03;
        put(d + 8, 0x2000000 + 32 * i);
        put(d + 16, source[i]);
        put(d + 24, target[i]);
        d[32] = 64;
    }
}

static int conflict(uint64_t a, uint64_t b)
{
    return target[a] == target[b] || target[a] == source[b] || source[a] == target[b];
}

/* The least cost of the list: for each start the groups from it on, with the fences that each needs. */
static uint64_t least_cost(uint64_t n, const struct dsa_settings *s)
{
    for (uint64_t j = 1; j <= n; j++)
        costs[j] = UINT64_MAX;
    for (uint64_t i = 0; i < n; i++) {
        uint64_t fence = i, fences = 0;
        for (uint64_t j = i + 1; j <= n && j - i <= s->greatest_batch; j++) {
            for (uint64_t a = fence; a < j - 1; a++)
                if (conflict(a, j - 1)) {
                    fence = j - 1;
                    fences++;
                    break;
                }
            uint64_t price = j - i == 1 ? s->lone : s->batch + s->fence * fences;
            if (costs[i] + price < costs[j])
                costs[j] = costs[i] + price;
        }
    }
    return costs[n];
}

static void fail(const char *what, uint64_t shape, uint64_t n, const struct dsa_settings *s, uint64_t got,
                 uint64_t wanted)
{
    printf("%s: shape %" PRIu64 ", %" PRIu64 " moves, batch %" PRIu64 ", prices %" PRIu64 " %" PRIu64 " %" PRIu64
           ": %" PRIu64 ", not %" PRIu64 "\n",
           what, shape, n, s->greatest_batch, s->lone, s->batch, s->fence, got, wanted);
    exit(EXIT_FAILURE);
}

static void one_list(void)
{
    static const uint64_t batches[] = {8, 16, 24, 31, 32, 33, 48, 64, 100, MOST_BATCH};
    static const uint64_t fences[] = {0, 1, 2, 3, 10, 50};
    const uint64_t n = 2 + below(MOST - 1), shape = below(10);
    struct dsa_settings s = {1, batches[below(10)], 4096, below(12), below(16), fences[below(6)], UINT64_C(1) << 40};
    struct dsa_settings sized = s;
    struct dsa_planned one, other;
    struct dsa_refusal r;
    make_list(n, shape);
    sized.version = 2;
    sized.batch = 0;
    for (uint64_t k = 0; k + 1 < s.greatest_batch; k++)
        table[k] = s.batch;
    if (dsa_plan_list(&s, table, 0, list, 64 * n, portal, sizeof portal, staging, sizeof staging, &one, &r))
        fail("refused", shape, n, &s, r.number, 0);
    if (dsa_plan_list(&sized, table, s.greatest_batch - 1, list, 64 * n, other_portal, sizeof other_portal,
                      other_staging, sizeof other_staging, &other, &r))
        fail("refused with a table", shape, n, &s, r.number, 0);
    costs[0] = 0;
    if (one.cost != least_cost(n, &s))
        fail("cost", shape, n, &s, one.cost, costs[n]);
    if (other.cost != one.cost || other.staging_len != one.staging_len || other.portal_len != one.portal_len)
        fail("cost with a table", shape, n, &s, other.cost, one.cost);
    if (memcmp(portal, other_portal, one.portal_len) != 0 || memcmp(staging, other_staging, one.staging_len) != 0)
        fail("plan with a table", shape, n, &s, 1, 0);
}

int main(int argc, char **argv)
{
    if (argc != 3)
        return EXIT_FAILURE;
    seed = strtoull(argv[2], NULL, 10);
    for (uint64_t i = strtoull(argv[1], NULL, 10); i > 0; i--)
        one_list();
    return EXIT_SUCCESS;
}
