/* Prepares random lists, some with checksums, and fills them for other buffers: prepared LISTS SEED THREADS. The bytes
 * have to be those that planning the list at its new addresses answers, and a refusal has to be the first cause that a
 * model in this file finds, with its places, and nothing written. The model knows the rows from docs/FORMATS.md alone. */
#include <inttypes.h>
#include <pthread.h>
#include <stdio.h>
#include <stdlib.h>
#include <string.h>

#include "dsa_planner.h"

enum { OPERATIONS = 6, PIECES = 64, REGIONS = 14, ROWS = 1 + REGIONS + 3 * PIECES, MOST_THREADS = 16 };
enum { CRC = 0x10, SEED_IN_MEMORY = 1, OPERANDS = 3 };

struct buffers {
    uint8_t portal[64 * PIECES], staging[80 * PIECES];
};

static struct buffers planned_bytes, filled_bytes, untouched;
static struct dsa_prepared_row rows[ROWS], damaged[ROWS], spoiled[ROWS];
static uint64_t state;

static uint64_t next(void)
{
    uint64_t z = state += UINT64_C(0x9e3779b97f4a7c15);
    z = (z ^ (z >> 30)) * UINT64_C(0xbf58476d1ce4e5b9);
    z = (z ^ (z >> 27)) * UINT64_C(0x94d049bb133111eb);
    return z ^ (z >> 31);
}

static uint64_t below(uint64_t n)
{
    return n ? next() % n : 0;
}

static int one_in(uint64_t n)
{
    return below(n) == 0;
}

static uint64_t get(const uint8_t *at, int bytes)
{
    uint64_t value = 0;
    for (int i = bytes; i > 0; i--)
        value = value << 8 | at[i - 1];
    return value;
}

static void put(uint8_t *at, uint64_t value, int bytes)
{
    for (int i = 0; i < bytes; i++)
        at[i] = (uint8_t)(value >> (8 * i));
}

static void fail(const char *what, uint64_t at)
{
    printf("list %" PRIu64 ": %s\n", at, what);
    exit(EXIT_FAILURE);
}

/* ---- random lists, over regions that often touch */

static size_t any_regions(struct dsa_region *r, uint64_t *bases)
{
    size_t n = 1 + below(one_in(10) ? 12 : 4);
    int high = one_in(12), wide = !high && one_in(3), back = one_in(3);
    uint64_t at = high ? UINT64_C(0xfffffffffffff000) : 0x10000 + 32 * below(4);
    for (size_t i = 0; i < n; i++) {
        uint64_t len = one_in(40) ? 0 : one_in(8) ? 8 * (1 + below(64)) : 32 * (1 + below(12));
        if (wide) {
            at = 0x10000 + 16384 * i;
            len = one_in(2) ? 12288 : len;
        }
        at += one_in(2) ? 8 * below(wide ? 2 : 9) : 0;
        at -= one_in(60) ? 8 * below(30) : 0;
        if (high && i + 1 == n && one_in(3))
            at = 0 - len + 8 * one_in(6);
        r[i] = (struct dsa_region){at, len};
        at += len;
    }
    const uint64_t units[] = {4096, 1, 8, 64, 32}, unit = units[below(5)];
    const uint64_t starts[] = {0, UINT64_C(0xffffffffffff0000), 0x10000 + 8 * below(20), 0x90000, 0x90000, 0x90000};
    uint64_t to = starts[below(6)];
    size_t from = below(n);
    for (size_t k = 0; k < n; k++) {
        size_t i = back ? (from + n - k) % n : (from + k) % n;
        bases[i] = one_in(3) ? to : to + (unit - (to - r[i].first) % unit) % unit;
        bases[i] -= one_in(60) ? 16 * below(20) : 0;
        bases[i] = one_in(25) ? 0 - r[i].len : bases[i];
        to = bases[i] + r[i].len + (one_in(3) ? below(70) : 0);
    }
    return n;
}

static uint64_t any_address(const struct dsa_region *r, size_t n, uint64_t len, uint64_t unit)
{
    struct dsa_region g = r[below(n)];
    if (one_in(40))
        return (g.first + below(g.len + 40)) / unit * unit;
    uint64_t room = g.len >= len ? g.len - len : 0, which = below(4);
    uint64_t at = g.first + (which == 0 ? 0 : which == 1 ? room : below(room + 1));
    return one_in(3) ? at : (at + unit - 1) / unit * unit;
}

/* A checksum, half of them with a copy, and with a seed that is given or read. */
static void any_checksum(uint8_t *d, const struct dsa_region *r, size_t n)
{
    const uint64_t size = get(d + 32, 4);
    d[7] = (uint8_t)(CRC + below(2));
    d[6] = (uint8_t)(2 * below(4));
    put(d + 16, any_address(r, n, size, 8), 8);
    put(d + 24, d[7] == CRC ? 0 : any_address(r, n, size, 4), 8);
    put(d + 40, next(), 4);
    if (one_in(2)) {
        d[6] |= SEED_IN_MEMORY;
        put(d + 40, 0, 4);
        put(d + 48, any_address(r, n, 4, 4), 8);
    }
}

/* An operation, of at most so many bytes if `most` is not 0; then it may be a checksum. */
static void any_operation(uint8_t *d, const struct dsa_region *r, size_t n, uint64_t most)
{
    static const uint8_t codes[] = {3, 3, 3, 3, 4, 4, 5, 6, 8, 8, 9, 9};
    uint8_t code = codes[below(12)];
    uint64_t size = code == 8 ? 8 * (1 + below(one_in(4) ? 6 : 4)) : 1 + below(one_in(3) ? 120 : 40);
    size = most && size > most ? most : size;
    uint64_t delta = 10 * below(4), record = any_address(r, n, 32 * ((size + 31) / 32), 32);
    memset(d, 0, 64);
    d[0] = 7;
    d[4] = 0x0c;
    d[7] = code;
    put(d + 32, size, 4);
    put(d + 8, one_in(30) ? record : record / 32 * 32, 8);
    if (most && one_in(2)) {
        any_checksum(d, r, n);
        return;
    }
    uint64_t first = code == 4 ? next() : code == 8 ? any_address(r, n, delta, 1) : any_address(r, n, size, 8);
    uint64_t second = code == 6 ? next() : any_address(r, n, size, code == 8 ? 8 : 4);
    if (code == 3 && one_in(3))
        second = first + below(24) - 8;
    put(d + 16, first, 8);
    put(d + 24, second, 8);
    if (code == 5 || code == 6) {
        d[40] = one_in(2);
        d[4] |= one_in(4) ? 0x80 : 0;
    }
    if (code == 8)
        d[40] = (uint8_t)delta;
    if (code == 9) {
        uint64_t third = any_address(r, n, size, 8);
        third = one_in(8) ? third : third / 4096 * 4096 + second % 4096;
        put(d + 40, one_in(4) ? second + 4096 : third, 8);
    }
}

/* ---- the model */

/* The number of the region where so many bytes lie, from their first one on; else how many regions there are. */
static size_t lies(const struct dsa_region *r, size_t n, uint64_t first, uint64_t len)
{
    size_t i = 0;
    while (i < n && !(first >= r[i].first && first - r[i].first < r[i].len && len <= r[i].len - (first - r[i].first)))
        i++;
    return i;
}

static uint64_t moved(const struct dsa_region *r, const uint64_t *bases, size_t n, uint64_t address)
{
    size_t i = lies(r, n, address, 0);
    return i < n ? bases[i] + (address - r[i].first) : address;
}

/* Where an operation has an address of data, and how many bytes are there. */
struct operand {
    size_t at;
    uint64_t len;
};

static size_t operands_of(const uint8_t *d, struct operand *o)
{
    const uint64_t size = get(d + 32, 4);
    size_t n = 0;
    if (d[7] != 4)
        o[n++] = (struct operand){16, d[7] == 8 ? get(d + 40, 4) : size};
    if (d[7] != 6 && d[7] != CRC)
        o[n++] = (struct operand){24, size};
    if (d[7] == 9)
        o[n++] = (struct operand){40, size};
    if (d[7] >= CRC && d[6] & SEED_IN_MEMORY)
        o[n++] = (struct operand){48, 4};
    return n;
}

static void move_list(uint8_t *list, size_t count, const struct dsa_region *r, const uint64_t *bases, size_t n)
{
    for (uint8_t *d = list; d < list + 64 * count; d += 64) {
        struct operand o[OPERANDS];
        put(d + 8, moved(r, bases, n, get(d + 8, 8)), 8);
        for (size_t k = operands_of(d, o); k > 0; k--)
            put(d + o[k - 1].at, moved(r, bases, n, get(d + o[k - 1].at, 8)), 8);
    }
}

static int wraps(uint64_t first, uint64_t len)
{
    return (unsigned __int128)first + len > (unsigned __int128)1 << 64;
}

static int meet(uint64_t a, uint64_t len_a, uint64_t b, uint64_t len_b)
{
    return len_a && len_b && (a >= b ? a - b < len_b : b - a < len_a);
}

/* Why a list that can be planned is not prepared, or 0. */
static struct dsa_refusal why_unprepared(const uint8_t *list, size_t count, const struct dsa_region *r, size_t n,
                                         uint64_t greatest)
{
    for (size_t i = 0; i < n; i++) {
        if (wraps(r[i].first, r[i].len))
            return (struct dsa_refusal){DSA_REGION_WRAP, 0, i, 0};
        if (i && (unsigned __int128)r[i - 1].first + r[i - 1].len > r[i].first)
            return (struct dsa_refusal){DSA_REGION_ORDER, 0, i, 0};
    }
    for (size_t i = 0; i < count; i++) {
        const uint8_t *d = list + 64 * i;
        uint64_t size = get(d + 32, 4), records = 32 * ((size + greatest - 1) / greatest);
        struct operand o[OPERANDS];
        int is_outside = lies(r, n, get(d + 8, 8), records) == n;
        for (size_t k = operands_of(d, o); k > 0; k--)
            is_outside |= lies(r, n, get(d + o[k - 1].at, 8), o[k - 1].len) == n;
        if (is_outside)
            return (struct dsa_refusal){DSA_OUTSIDE, 0, i, 0};
    }
    return (struct dsa_refusal){0, 0, 0, 0};
}

static uint64_t asked(const uint8_t *list, size_t count, const struct dsa_region *r, size_t n, size_t region)
{
    uint64_t unit = 1;
    for (const uint8_t *d = list; d < list + 64 * count; d += 64) {
        if (lies(r, n, get(d + 8, 8), 0) == region)
            unit = 32;
        if (d[7] == 8 && lies(r, n, get(d + 24, 8), 0) == region && unit < 8)
            unit = 8;
    }
    return unit;
}

/* Why a prepared list is not filled, where there are bases and room, or 0. */
static struct dsa_refusal why_unfilled(const uint8_t *list, size_t count, const struct dsa_region *r, const uint64_t *bases,
                                       size_t n, uint64_t staging, uint64_t area)
{
    for (size_t i = 0; i < n; i++)
        if (wraps(bases[i], r[i].len))
            return (struct dsa_refusal){DSA_BASE_WRAP, 0, i, 0};
    for (size_t i = 0; i < n; i++) {
        uint64_t unit = asked(list, count, r, n, i);
        if (bases[i] % unit != r[i].first % unit)
            return (struct dsa_refusal){DSA_MISALIGNED, 0, i, 0};
    }
    for (const uint8_t *d = list; d < list + 64 * count; d += 64)
        if (d[7] == 9) {
            uint64_t a = get(d + 24, 8), b = get(d + 40, 8);
            if (moved(r, bases, n, a) % 4096 != moved(r, bases, n, b) % 4096)
                return (struct dsa_refusal){DSA_BASE_DUALCAST_BITS, 0, lies(r, n, a, 0), lies(r, n, b, 0)};
        }
    for (size_t i = 0; i < n; i++)
        for (size_t j = 0; j < i; j++)
            if (meet(bases[i], r[i].len, bases[j], r[j].len))
                return (struct dsa_refusal){DSA_REGIONS_MEET, 0, i, j};
    for (size_t i = 0; i < n; i++)
        if (meet(bases[i], r[i].len, staging, area))
            return (struct dsa_refusal){DSA_BASE_STAGING_MEETS, 0, i, 0};
    if (staging % 64 || staging > UINT64_C(1) << 63)
        return (struct dsa_refusal){DSA_STAGING, 0, 0, 0};
    return (struct dsa_refusal){0, 0, 0, 0};
}

/* Whether rows are a prepared list, by their layout. */
static int are_prepared(const struct dsa_prepared_row *q, uint64_t count)
{
    if (count == 0)
        return 0;
    const uint64_t *h = q[0].words;
    unsigned __int128 all = (unsigned __int128)1 + h[1] + h[2] + h[3] + h[4];
    if (memcmp(h, "DSAPREP1", 8) != 0 || all != count || h[3] > 65536 || h[4] > 65536 || h[5] > 65536 || h[6] > 65536)
        return 0;
    const struct dsa_prepared_row *regions = q + 1, *row = regions;
    for (; row < regions + h[1]; row++)
        if (row->words[2] != 1 && row->words[2] != 8 && row->words[2] != 32)
            return 0;
    for (; row < regions + h[1] + h[2]; row++)
        for (int k = 0; k < 4; k += 2)
            if (row->words[k] >= h[1] || row->words[k + 1] >= regions[row->words[k]].words[1])
                return 0;
    for (; row < q + count; row++)
        for (int k = 2; k < 10; k += 2) {
            uint64_t kind = row->words[k], value = row->words[k + 1];
            if (kind == 1 ? value >= 1 << 23 : kind > 1 && (kind - 2 >= h[1] || value >= regions[kind - 2].words[1]))
                return 0;
        }
    return 1;
}

static int is_same(struct dsa_refusal a, struct dsa_refusal b)
{
    return a.number == b.number && a.inner == b.inner && a.first == b.first && a.second == b.second;
}

static int is_unchanged(const struct buffers *b)
{
    return memcmp(b, &untouched, sizeof untouched) == 0;
}

/* ---- one list */

static uint64_t tried, planned, filled, refused[112], split, batched, with_dualcast, with_empty_delta, ends_high, damages, sound;
static uint64_t with_checksum, with_seed;

/* Rows of which some words were changed are refused exactly where the model says so. */
static void damage(uint64_t count, const uint64_t *bases, size_t n, uint64_t staging)
{
    struct dsa_refusal r = {0, 0, 0, 0};
    memcpy(damaged, rows, count * sizeof *rows);
    for (uint64_t k = 1 + below(3); k > 0; k--) {
        uint64_t *word = &damaged[one_in(3) ? 0 : below(count)].words[below(10)];
        *word = one_in(3) ? next() : one_in(2) ? *word + below(3) - 1 : *word ^ UINT64_C(1) << below(64);
    }
    uint64_t len = one_in(20) ? count - 1 : count;
    filled_bytes = untouched;
    uint32_t code = dsa_fill(damaged, len, bases, n, staging, filled_bytes.portal, sizeof filled_bytes.portal,
                             filled_bytes.staging, sizeof filled_bytes.staging, &r);
    if ((code == DSA_NOT_PREPARED) == are_prepared(damaged, len))
        fail("damaged rows", tried);
    if (code == DSA_OK && (wraps(bases[0], damaged[1].words[1]) && n))
        fail("filled past 2^64", tried);
    if (code != DSA_OK && (!is_unchanged(&filled_bytes) || r.number != code))
        fail("damaged rows, and something was written", tried);
    damages++;
    sound += code != DSA_NOT_PREPARED;
}

static void fill_once(const uint8_t *list, size_t count, struct dsa_settings s, const struct dsa_region *r,
                      const uint64_t *bases, size_t n, const struct dsa_prepared_info *info, uint64_t staging)
{
    struct dsa_refusal got = {0, 0, 0, 0}, want = why_unfilled(list, count, r, bases, n, staging, 96 * info->pieces);
    struct dsa_planned p;
    uint8_t again[64 * OPERATIONS];
    /* too few bases, and too little room, come first */
    filled_bytes = untouched;
    if (dsa_fill(rows, info->rows, bases, n - 1, staging, filled_bytes.portal, 0, filled_bytes.staging, 0, &got) != DSA_BASES)
        fail("too few bases", tried);
    if (dsa_fill(rows, info->rows, bases, n, staging, filled_bytes.portal, info->portal_len - 1, filled_bytes.staging,
                 info->staging_len, &got) != DSA_ROOM ||
        (info->staging_len && dsa_fill(rows, info->rows, bases, n, staging, filled_bytes.portal, info->portal_len,
                                       filled_bytes.staging, info->staging_len - 1, &got) != DSA_ROOM))
        fail("too little room", tried);
    uint32_t code = dsa_fill(rows, info->rows, bases, n, staging, filled_bytes.portal, info->portal_len,
                             filled_bytes.staging, info->staging_len, &got);
    if (code != want.number || (code && !is_same(got, want)))
        fail("another cause of filling", tried);
    refused[code]++;
    if (code) {
        if (!is_unchanged(&filled_bytes))
            fail("refused, and something was written", tried);
        return;
    }
    memcpy(again, list, 64 * count);
    move_list(again, count, r, bases, n);
    s.staging = staging;
    planned_bytes = untouched;
    if (dsa_plan_list(&s, &s.batch, 0, again, 64 * count, planned_bytes.portal, sizeof planned_bytes.portal,
                      planned_bytes.staging, sizeof planned_bytes.staging, &p, &got) ||
        p.cost != info->cost || p.portal_len != info->portal_len || p.staging_len != info->staging_len)
        fail("planning the moved list answers something else", tried);
    if (memcmp(&planned_bytes, &filled_bytes, sizeof filled_bytes) != 0)
        fail("other bytes than planning the moved list", tried);
    filled++;
}

static void one_list(void)
{
    struct dsa_region r[REGIONS];
    uint64_t bases[REGIONS];
    uint8_t list[64 * OPERATIONS];
    size_t n = any_regions(r, bases), count = 1 + below(OPERATIONS);
    uint64_t old = one_in(20) ? 0x10000 + 64 * below(20) : 0x40000, greatest = UINT64_C(16) << below(3);
    const uint64_t most = one_in(3) ? greatest + one_in(20) : 0;
    for (size_t i = 0; i < count; i++)
        any_operation(list + 64 * i, r, n, most);
    const uint64_t areas[] = {old, bases[0] / 64 * 64, (bases[0] + r[0].len + 63) / 64 * 64, 0x200000 + one_in(40)};
    uint64_t which = below(8), staging = areas[which < 3 ? which : 3];
    const struct dsa_settings s = {1, 2 + below(5), greatest, 10, 11 + below(12), below(6), old};
    struct dsa_planned p;
    struct dsa_prepared_info info;
    struct dsa_refusal plan_refusal = {0, 0, 0, 0}, got = {0, 0, 0, 0};
    uint32_t code = dsa_plan_list(&s, &s.batch, 0, list, 64 * count, planned_bytes.portal, sizeof planned_bytes.portal,
                                  planned_bytes.staging, sizeof planned_bytes.staging, &p, &plan_refusal);
    struct dsa_refusal want = code ? plan_refusal : why_unprepared(list, count, r, n, greatest);
    memset(rows, 0xee, 64 * sizeof *rows);
    memset(&info, 0xee, sizeof info);
    uint64_t pieces = dsa_count_pieces(&s, &s.batch, 0, list, 64 * count), room = DSA_PREPARED_ROOM(n, pieces);
    tried++;
    uint32_t prepared = dsa_prepare(&s, &s.batch, 0, list, 64 * count, r, n, rows, room < ROWS ? room : ROWS, &info, &got);
    planned += code == 0;
    if (prepared != want.number || (prepared && !is_same(got, want)))
        fail("another cause of preparing", tried);
    if (prepared) {
        refused[prepared]++;
        if (memcmp(rows, spoiled, 64 * sizeof *rows) != 0 || memcmp(&info, spoiled, sizeof info) != 0)
            fail("not prepared, and something was written", tried);
        return;
    }
    if (info.rows > room || !are_prepared(rows, info.rows) || info.cost != p.cost || info.pieces != p.pieces ||
        info.portal_len != p.portal_len || info.staging_len != p.staging_len)
        fail("other lengths than planning", tried);
    struct dsa_prepared_info none = info;
    if (dsa_prepare(&s, &s.batch, 0, list, 64 * count, r, n, damaged, info.rows - 1, &none, &got) != DSA_NO_ROOM_FOR_ROWS ||
        got.first != info.rows || got.second || got.inner)
        fail("too small an array", tried);
    fill_once(list, count, s, r, bases, n, &info, staging);
    damage(info.rows, bases, n, staging);
    split += p.pieces > count;
    batched += p.staging_len > 0;
    int dualcast = 0, empty = 0, high = 0, checksum = 0, seed = 0;
    for (size_t i = 0; i < count; i++) {
        dualcast |= list[64 * i + 7] == 9;
        empty |= list[64 * i + 7] == 8 && !list[64 * i + 40];
        checksum |= list[64 * i + 7] >= CRC;
        seed |= list[64 * i + 7] >= CRC && list[64 * i + 6] & SEED_IN_MEMORY;
    }
    for (size_t i = 0; i < n; i++)
        high |= r[i].len && bases[i] + r[i].len == 0;
    with_dualcast += dualcast;
    with_empty_delta += empty;
    with_checksum += checksum;
    with_seed += seed;
    ends_high += high;
}

/* ---- threads that fill from one prepared list */

struct work {
    pthread_t thread;
    uint64_t rows, seed, wrong;
};

static void *fill_often(void *of)
{
    struct work *w = of;
    uint8_t portal[64], staging[160], want[64];
    for (uint64_t i = 0; i < 20000; i++) {
        const uint64_t bases[] = {0x100000 * (w->seed + i), UINT64_C(0x800000000000) + 32 * i};
        struct dsa_refusal r;
        uint32_t code = dsa_fill(rows, w->rows, bases, 2, 0x40000, portal, sizeof portal, staging, sizeof staging, &r);
        memset(want, 0, sizeof want); /* a fill of 64 bytes, with its record in the second region */
        want[4] = 0x0c;
        want[7] = 4;
        put(want + 8, bases[1] + 32, 8);
        put(want + 16, 0x1122334455667788, 8);
        put(want + 24, bases[0] + 16, 8);
        want[32] = 64;
        w->wrong += code != DSA_OK || memcmp(portal, want, 64) != 0;
    }
    return NULL;
}

static void threads(size_t count)
{
    static struct work works[MOST_THREADS];
    const struct dsa_settings s = {1, 4, 4096, 10, 14, 3, 0x10000};
    const struct dsa_region regions[] = {{0x1000, 0x1000}, {0x8000, 64}};
    struct dsa_prepared_info info;
    struct dsa_refusal r;
    uint8_t list[64] = {0};
    list[4] = 0x0c;
    list[7] = 4;
    put(list + 8, 0x8020, 8);
    put(list + 16, 0x1122334455667788, 8);
    put(list + 24, 0x1010, 8);
    list[32] = 64;
    if (dsa_prepare(&s, &s.batch, 0, list, 64, regions, 2, rows, ROWS, &info, &r) || info.rows != 4 || info.cost != 10)
        fail("one fill", 0);
    for (size_t i = 0; i < count && i < MOST_THREADS; i++) {
        works[i] = (struct work){.rows = info.rows, .seed = 1 + 100 * i};
        if (pthread_create(&works[i].thread, NULL, fill_often, &works[i]) != 0)
            fail("no thread", i);
    }
    for (size_t i = 0; i < count && i < MOST_THREADS; i++) {
        pthread_join(works[i].thread, NULL);
        if (works[i].wrong)
            fail("wrong bytes on a thread", works[i].wrong);
    }
}

/* ---- limits */

/* A move of 8 bytes, with its record. */
static void put_move(uint8_t *d, uint64_t record, uint64_t src, uint64_t dst)
{
    memset(d, 0, 64);
    d[4] = 0x0c;
    d[7] = 3;
    put(d + 8, record, 8);
    put(d + 16, src, 8);
    put(d + 24, dst, 8);
    d[32] = 8;
}

static void *room(size_t size)
{
    void *at = malloc(size);
    if (!at)
        fail("no memory", 0);
    return at;
}

static void limits(void)
{
    enum { MOST = DSA_MOST_PIECES };
    const struct dsa_settings s = {1, 1024, 4096, 10, 14, 3, UINT64_C(1) << 63};
    const struct dsa_region none = {0, 0}, three[] = {{0, 8 * MOST}, {8 * MOST, 8 * MOST}, {0x10000000, 32 * MOST}};
    const uint64_t bases[] = {0x400000000, 0x300000000, 0 - (uint64_t)32 * MOST};
    struct dsa_prepared_info info;
    struct dsa_planned p;
    struct dsa_refusal r;
    uint8_t *list = room(64 * MOST), *portal = room(64 * MOST), *staging = room(80 * MOST), *want = room(64 * MOST),
            *want_staging = room(80 * MOST), byte = 0;
    struct dsa_prepared_row *all = room(DSA_PREPARED_ROOM(3, MOST) * sizeof *all);
    /* an empty list over no regions is a header */
    if (dsa_prepare(&s, &s.batch, 0, &byte, 0, &none, 0, all, 1, &info, &r) || info.rows != 1 || info.cost || info.pieces ||
        info.portal_len || info.staging_len || dsa_fill(all, 1, &s.batch, 0, 0, &byte, 0, &byte, 0, &r))
        fail("the empty list", 0);
    if (dsa_prepare(&s, &s.batch, 0, &byte, 0, &none, 0, all, 0, &info, &r) != DSA_NO_ROOM_FOR_ROWS || r.first != 1)
        fail("the empty list without room", 0);
    if (dsa_fill(all, 0, &s.batch, 0, 0, &byte, 0, &byte, 0, &r) != DSA_NOT_PREPARED)
        fail("no rows", 0);
    /* the most pieces, at the greatest staging address and with the last base that fits */
    for (uint64_t i = 0; i < MOST; i++)
        put_move(list + 64 * i, three[2].first + 32 * i, 8 * i, three[1].first + 8 * (MOST - 1 - i));
    if (dsa_prepare(&s, &s.batch, 0, list, 64 * MOST, three, 3, all, DSA_PREPARED_ROOM(3, MOST), &info, &r) ||
        info.pieces != MOST)
        fail("the most pieces", 0);
    if (dsa_fill(all, info.rows, bases, 3, s.staging, portal, info.portal_len, staging, info.staging_len, &r))
        fail("filling the most pieces", 0);
    for (uint64_t i = 0; i < MOST; i++)
        put_move(list + 64 * i, bases[2] + 32 * i, bases[0] + 8 * i, bases[1] + 8 * (MOST - 1 - i));
    if (dsa_plan_list(&s, &s.batch, 0, list, 64 * MOST, want, 64 * MOST, want_staging, 80 * MOST, &p, &r) ||
        p.portal_len != info.portal_len || p.staging_len != info.staging_len || p.cost != info.cost ||
        memcmp(portal, want, p.portal_len) || memcmp(staging, want_staging, p.staging_len))
        fail("the most pieces differ", 0);
    const uint64_t past[] = {bases[0], bases[1], bases[2] + 32};
    if (dsa_fill(all, info.rows, past, 3, s.staging, portal, info.portal_len, staging, info.staging_len, &r) != DSA_BASE_WRAP ||
        r.first != 2)
        fail("past the last base", 0);
    free(list);
    free(portal);
    free(staging);
    free(want);
    free(want_staging);
    free(all);
}

int main(int argc, char **argv)
{
    if (argc != 4)
        return EXIT_FAILURE;
    state = strtoull(argv[2], NULL, 10);
    memset(&untouched, 0xee, sizeof untouched);
    memset(spoiled, 0xee, sizeof spoiled);
    for (uint64_t want = strtoull(argv[1], NULL, 10); filled < want;)
        one_list();
    limits();
    threads(strtoull(argv[3], NULL, 10));
    printf("%" PRIu64 " lists, %" PRIu64 " planned, %" PRIu64 " filled as planned; of the prepared, split %" PRIu64
           ", in batches %" PRIu64 ", with a dualcast %" PRIu64 ", an empty delta %" PRIu64 ", a checksum %" PRIu64
           ", a seed in memory %" PRIu64 ", a base that just fits %" PRIu64 "\n",
           tried, planned, filled, split, batched, with_dualcast, with_empty_delta, with_checksum, with_seed,
           ends_high);
    printf("damaged %" PRIu64 ", of which still prepared %" PRIu64 "; refused", damages, sound);
    for (int number = 1; number < 112; number++)
        if (refused[number])
            printf(" %d: %" PRIu64, number, refused[number]);
    printf("\n");
    return EXIT_SUCCESS;
}
