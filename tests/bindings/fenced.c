/* Lists in which a fence is a barrier, beside every plan of them: fenced [COUNT [SEED]].
 *
 * Random lists of up to seven moves over a few pages, with random barriers; of each third list some operations make
 * checksums, with seeds that they are given or read, also in records of earlier ones. Of all plans those are legal that
 * separate each conflict, as told here by what operations read and write, and that begin a group or set a fence at each
 * barrier; the least cost of these is the answer, and what is submitted keeps each barrier. A flag that is no barrier
 * changes no byte, and what is refused of the list without flags is refused. Of each plan dsa_judge says what it costs,
 * or which barrier it does not keep. What is filled of a prepared list is what planning it on the new buffers answers,
 * and a seed outside of all regions is refused; of a list that has not begun, resuming answers all.
 * With the certificate of these costs dsa_check_list accepts the bytes of those plans alone that are legal, keep the
 * barriers and cost the least, and no bytes of other pieces; and with its own certificate what dsa_plan_list_certified
 * writes, which is what dsa_plan_list does. With the certificate of the same pieces without barriers dsa_check accepts
 * the bytes of those plans alone that are legal and cost the least, and of no checksum that a list may not have. */
#include <inttypes.h>
#include <stdio.h>
#include <stdlib.h>
#include <string.h>

#include "dsa_descriptors.h"
#include "dsa_planner.h"

enum { MOST = 7, ROOM = 64 * MOST, STAGED = 80 * MOST };

static uint64_t seed = 20261127;

static uint32_t drawn(uint32_t limit)
{
    seed = seed * UINT64_C(6364136223846793005) + 1442695040888963407;
    return (uint32_t)(seed >> 33) % limit;
}

struct list {
    struct dsa_settings settings;
    uint64_t table[MOST];
    size_t count, entries;
    uint8_t bytes[64 * MOST], plain[64 * MOST];
    int is_barrier[MOST], has_checksums;
};

static void fail(const struct list *l, const char *what, uint64_t first, uint64_t second)
{
    printf("%s: %" PRIu64 ", not %" PRIu64 "; %zu operations\n", what, first, second, l->count);
    for (size_t k = 0; k < l->count; k++) {
        for (int i = 0; i < 36; i++)
            printf("%02x", l->bytes[64 * k + i]);
        printf("\n");
    }
    exit(EXIT_FAILURE);
}

/* One of twelve pages. */
static uint64_t page(uint32_t number) { return 0x10000 + 0x1000 * number; }

/* A checksum, with a copy or without: its seed is given, or read in a page that is not copied to, or in a record. */
static void draw_checksum(uint8_t *d, size_t k)
{
    const uint32_t source = drawn(12), target = (source + 1 + drawn(10)) % 12;
    const uint64_t record = 0x800000 + 32 * k;
    if (drawn(2))
        dsa_put_crc(d, page(source), 1 + drawn(4096), drawn(1000), record);
    else
        dsa_put_copy_crc(d, page(source), page(target), 1 + drawn(4096), drawn(1000), record);
    const uint32_t place = drawn(3);
    if (place == 1)
        dsa_seed_from(d, page((target + 1 + drawn(11)) % 12) + drawn(4093));
    if (place == 2 && k)
        dsa_seed_from(d, 0x800000 + 32 * drawn((uint32_t)k) + 16);
}

/* Each barrier is the flag 0x0001; one on the first move says nothing. */
static void draw(struct list *l)
{
    memset(l, 0, sizeof *l);
    l->settings = (struct dsa_settings){1, 2 + drawn(4), 4096, drawn(12), drawn(20), drawn(6), UINT64_C(1) << 40};
    if (drawn(2)) { /* a price for each size */
        l->settings.version = 2;
        l->settings.batch = 0;
        l->entries = l->settings.greatest_batch - 1;
        for (size_t k = 0; k < l->entries; k++)
            l->table[k] = drawn(25);
    }
    l->count = 1 + drawn(MOST);
    l->has_checksums = drawn(3) == 0;
    for (size_t k = 0; k < l->count; k++) {
        uint8_t *d = l->bytes + 64 * k;
        if (l->has_checksums && (k == l->count - 1 || drawn(2)))
            draw_checksum(d, k);
        else
            dsa_put_move(d, page(drawn(12)), page(drawn(12)), 1 + drawn(4096), 0x800000 + 32 * k);
        memcpy(l->plain + 64 * k, d, 64);
        l->is_barrier[k] = drawn(3) == 0;
        if (l->is_barrier[k])
            dsa_set_flags(d, DSA_BARRIER);
    }
}

/* Whether two spans share an address. */
static int meet(uint64_t a, uint64_t a_len, uint64_t b, uint64_t b_len)
{
    return a < b + b_len && b < a + a_len;
}

/* What an operation reads, its source and its seed, and what it writes, its target and its record. */
struct touched { uint64_t at[4], len[4]; };

static struct touched touched_of(const uint8_t *d)
{
    struct touched t = {{0}, {0, 0, 0, 32}};
    uint32_t size;
    memcpy(&size, d + 32, 4);
    memcpy(&t.at[0], d + 16, 8);
    memcpy(&t.at[1], d + 48, 8);
    memcpy(&t.at[2], d + 24, 8);
    memcpy(&t.at[3], d + 8, 8);
    t.len[0] = size;
    t.len[1] = d[6] & 1 ? 4 : 0;
    t.len[2] = d[7] == 0x10 ? 0 : size;
    return t;
}

/* Whether one of two operations writes what the other reads or writes. */
static int conflict(const struct list *l, size_t a, size_t b)
{
    const struct touched one = touched_of(l->bytes + 64 * a), other = touched_of(l->bytes + 64 * b);
    for (int p = 0; p < 4; p++)
        for (int q = 0; q < 4; q++)
            if ((p > 1 || q > 1) && meet(one.at[p], one.len[p], other.at[q], other.len[q]))
                return 1;
    return 0;
}

/* What a group of this size with so many fences costs. */
static uint64_t price(const struct list *l, size_t size, size_t fences)
{
    const struct dsa_settings *s = &l->settings;
    if (size == 1)
        return s->lone;
    return (l->entries ? l->table[size - 2] : s->batch) + s->fence * fences;
}

/* The cost of the plan that the marks spell, if it is legal, whatever the barriers are. */
static uint64_t judged(const struct list *l, const uint8_t *marks)
{
    uint64_t cost = 0;
    for (size_t first = 0, past = 0; first < l->count; first = past) {
        size_t fences = 0, since = first;
        for (past = first; past < l->count && (past == first || !(marks[past] & DSA_BEGINS)); past++) {
            if (marks[past] & DSA_FENCED) {
                fences++;
                since = past;
            }
            for (size_t k = since; k < past; k++)
                if (conflict(l, k, past))
                    return UINT64_MAX;
        }
        if (past - first > l->settings.greatest_batch)
            return UINT64_MAX;
        cost += price(l, past - first, fences);
    }
    return cost;
}

/* The least cost of a plan with these marks for pieces before `next`, whatever the others are. */
static uint64_t least(const struct list *l, uint8_t *marks, size_t next)
{
    uint64_t best = UINT64_MAX;
    if (next == l->count)
        return judged(l, marks);
    for (uint8_t mark = next ? 0 : DSA_BEGINS; mark <= DSA_FENCED; mark++) {
        if (next && l->is_barrier[next] && mark == 0)
            continue;
        if (!next && mark != DSA_BEGINS)
            continue;
        marks[next] = mark;
        const uint64_t cost = least(l, marks, next + 1);
        best = cost < best ? cost : best;
    }
    return best;
}

/* The first barrier that what is submitted does not keep, or -1. */
static int passed(const struct list *l, const uint8_t *portal, uint64_t portal_len, const uint8_t *staging)
{
    size_t piece = 0, batched = 0;
    for (uint64_t at = 0; at < portal_len; at += 64) {
        uint32_t size = 1;
        const int is_batch = portal[at + 7] == 1;
        if (is_batch)
            memcpy(&size, portal + at + 32, 4);
        for (uint32_t k = 0; k < size; k++, piece++)
            if (k && l->is_barrier[piece] && !(staging[64 * (batched + k) + 4] & 1))
                return (int)piece;
        batched += is_batch ? size : 0;
    }
    return piece == l->count ? -1 : (int)piece;
}

static void try_list(const struct list *l)
{
    uint8_t portal[ROOM], staging[STAGED], plain_portal[ROOM], plain_staging[STAGED], marks[MOST];
    struct dsa_planned planned, plain;
    struct dsa_refusal r;
    int any = 0;
    const uint32_t code = dsa_plan_list(&l->settings, l->table, l->entries, l->bytes, 64 * l->count, portal,
                                        sizeof portal, staging, sizeof staging, &planned, &r);
    if (code)
        fail(l, "refused", code, 0);
    const uint64_t best = least(l, marks, 0);
    if (planned.cost != best)
        fail(l, "the cost", planned.cost, best);
    const int barrier = passed(l, portal, planned.portal_len, staging);
    if (barrier != -1)
        fail(l, "a barrier is not kept", (uint64_t)barrier, 0);
    for (size_t k = 1; k < l->count; k++)
        any |= l->is_barrier[k];
    if (dsa_plan_list(&l->settings, l->table, l->entries, l->plain, 64 * l->count, plain_portal, sizeof plain_portal,
                      plain_staging, sizeof plain_staging, &plain, &r))
        fail(l, "the list without barriers is refused", r.number, 0);
    if (!any && (plain.portal_len != planned.portal_len || plain.staging_len != planned.staging_len
                 || memcmp(portal, plain_portal, plain.portal_len)
                 || memcmp(staging, plain_staging, plain.staging_len)))
        fail(l, "a list without barriers is planned otherwise", planned.cost, plain.cost);
}

struct certificate {
    uint64_t prices[MOST + 1];
    struct dsa_pair pairs[MOST];
};

/* The least cost of the first 0, 1, .. moves, and for each move the first pair that a batch from it on can hold. */
static struct certificate certificate_of(const struct list *l)
{
    struct certificate c = {{0}, {{0}}};
    struct list front = *l;
    uint8_t marks[MOST];
    for (front.count = 1; front.count <= l->count; front.count++)
        c.prices[front.count] = least(&front, marks, 0);
    for (size_t i = 0; i < l->count; i++) {
        c.pairs[i] = (struct dsa_pair){UINT32_MAX, UINT32_MAX};
        for (size_t b = i + 1; b < l->count && b < i + l->settings.greatest_batch; b++)
            for (size_t a = b; a-- > i && c.pairs[i].second == UINT32_MAX;)
                if (conflict(l, a, b) || (b == a + 1 && l->is_barrier[b]))
                    c.pairs[i] = (struct dsa_pair){(uint32_t)a, (uint32_t)b};
    }
    return c;
}

struct bytes {
    uint8_t portal[ROOM], staging[STAGED];
    size_t portal_len, staging_len;
};

/* A batch of the descriptors that are staged from `from` on, with the record of this number. */
static void put_batch(const struct list *l, uint8_t *d, size_t from, size_t count, size_t batched, size_t number)
{
    static const uint8_t flags[4] = {0x0c, 0, 0, 1};
    const uint64_t record = l->settings.staging + 64 * batched + 32 * number, at = l->settings.staging + 64 * from;
    const uint32_t size = (uint32_t)count;
    memset(d, 0, 64);
    memcpy(d + 4, flags, 4);
    memcpy(d + 8, &record, 8);
    memcpy(d + 16, &at, 8);
    memcpy(d + 32, &size, 4);
}

/* The bytes that submit the plan that the marks spell. */
static struct bytes emitted(const struct list *l, const uint8_t *marks)
{
    struct bytes b = {{0}, {0}, 0, 0};
    size_t sizes[MOST] = {0}, groups = 0, batched = 0, staged = 0, batches = 0;
    for (size_t k = 0; k < l->count; k++) {
        groups += k == 0 || (marks[k] & DSA_BEGINS);
        sizes[groups - 1]++;
    }
    for (size_t g = 0; g < groups; g++)
        batched += sizes[g] > 1 ? sizes[g] : 0;
    for (size_t g = 0, piece = 0; g < groups; piece += sizes[g], g++) {
        if (sizes[g] == 1) {
            memcpy(b.portal + 64 * g, l->plain + 64 * piece, 64);
            continue;
        }
        put_batch(l, b.portal + 64 * g, staged, sizes[g], batched, batches++);
        for (size_t k = piece; k < piece + sizes[g]; k++, staged++) {
            memcpy(b.staging + 64 * staged, l->plain + 64 * k, 64);
            b.staging[64 * staged + 4] |= marks[k] & DSA_FENCED ? 1 : 0;
        }
    }
    b.portal_len = 64 * groups;
    b.staging_len = 64 * batched + 32 * batches;
    return b;
}

/* The number of the refusal of these bytes for the list, or 0 and their cost. */
static uint32_t checked(const struct list *l, const struct bytes *b, const struct certificate *c, uint64_t *cost,
                        struct dsa_refusal *r)
{
    return dsa_check_list(&l->settings, l->table, l->entries, l->bytes, 64 * l->count, b->portal, b->portal_len,
                          b->staging, b->staging_len, l->settings.version, c->prices, l->count + 1, c->pairs, l->count,
                          cost, r);
}

/* A plan that is legal without barriers, and costs this, is judged so exactly if it keeps them; else the first that it
 * does not keep is named, by the pieces around it. A plan that is not legal is refused. */
static void try_judging(const struct list *l, const uint8_t *marks, uint64_t own)
{
    struct dsa_refusal r = {0};
    uint64_t cost = 7;
    size_t passed_at = 0;
    for (size_t k = l->count; k-- > 1;)
        passed_at = l->is_barrier[k] && !marks[k] ? k : passed_at;
    const uint32_t code = dsa_judge(&l->settings, l->table, l->entries, l->bytes, 64 * l->count, marks, l->count,
                                    &cost, &r);
    if (own == UINT64_MAX ? code == DSA_OK : code != (passed_at ? DSA_UNFENCED : DSA_OK))
        fail(l, "judging a plan", code, passed_at);
    if (code ? cost != 7 : cost != own)
        fail(l, "the cost of a plan", cost, own);
    if (own != UINT64_MAX && passed_at && (r.first != passed_at - 1 || r.second != passed_at))
        fail(l, "the barrier that a plan does not keep", r.second, passed_at);
}

/* The number of the refusal of these bytes by themselves, or 0 and their cost. */
static uint32_t checked_alone(const struct list *l, const struct bytes *b, const struct certificate *c,
                              uint64_t *cost, struct dsa_refusal *r)
{
    return dsa_check(&l->settings, l->table, l->entries, b->portal, b->portal_len, b->staging, b->staging_len,
                     l->settings.version, c->prices, l->count + 1, c->pairs, l->count, cost, r);
}

/* The bytes of a plan are accepted by themselves exactly if it is legal and none costs less, whatever the barriers. */
static void try_alone(const struct list *l, const struct bytes *b, const struct certificate *alone, uint64_t own)
{
    struct dsa_refusal r = {0};
    uint64_t cost = 7;
    const uint32_t code = checked_alone(l, b, alone, &cost, &r);
    uint32_t want = own == alone->prices[l->count] ? DSA_OK : DSA_TOTAL;
    want = own == UINT64_MAX ? DSA_PLAN : want;
    if (code == DSA_BATCH_FIELDS && want == DSA_PLAN) /* a batch is too large */
        return;
    if (code != want || (code ? cost != 7 : cost != own))
        fail(l, "checking the bytes of a plan", code, want);
}

/* Each plan is accepted for the list exactly if it is legal, keeps the barriers and costs the least. */
static void try_plans(const struct list *l, const struct certificate *c, const struct certificate *alone,
                      uint8_t *marks, size_t next)
{
    if (next < l->count) {
        for (uint8_t mark = next ? 0 : DSA_BEGINS; mark <= (next ? DSA_FENCED : DSA_BEGINS); mark++) {
            marks[next] = mark;
            try_plans(l, c, alone, marks, next + 1);
        }
        return;
    }
    const struct bytes b = emitted(l, marks);
    struct dsa_refusal r = {0};
    uint64_t cost = 7;
    uint32_t want = DSA_OK;
    for (size_t k = 1; k < l->count; k++)
        want = l->is_barrier[k] && !marks[k] ? DSA_PLAN : want;
    const uint64_t own = judged(l, marks);
    try_judging(l, marks, own);
    try_alone(l, &b, alone, own);
    if (own == UINT64_MAX)
        want = DSA_PLAN;
    else if (want == DSA_OK && own != c->prices[l->count])
        want = DSA_TOTAL;
    const uint32_t code = checked(l, &b, c, &cost, &r);
    if (code == DSA_BATCH_FIELDS && want == DSA_PLAN) /* a batch is too large */
        return;
    if (code != want || (code && cost != 7) || (!code && cost != own))
        fail(l, "checking a plan", code, want);
}

/* Bytes of other pieces are refused: of the first move that is another, and of the first that is missing. */
static void try_others(struct list *l, const struct certificate *c)
{
    uint8_t marks[MOST];
    memset(marks, DSA_BEGINS, sizeof marks);
    struct bytes b = emitted(l, marks);
    struct dsa_refusal r = {0};
    uint64_t cost = 7;
    const size_t k = drawn((uint32_t)l->count);
    uint8_t *size = l->bytes + 64 * k + 32;
    size[0] ^= size[0] == 1 && size[1] == 0 ? 2 : 1;
    size[1] &= 0x0f;
    const uint32_t other = checked(l, &b, c, &cost, &r);
    if (l->bytes[64 * k + 33] == l->plain[64 * k + 33] && (other != DSA_OTHER_PIECE || r.first != k))
        fail(l, "another piece", other, k);
    memcpy(size, l->plain + 64 * k + 32, 4);
    b.portal_len -= 64;
    const uint32_t fewer = checked(l, &b, c, &cost, &r);
    if (fewer != DSA_OTHER_PIECE || r.first != l->count - 1 || cost != 7)
        fail(l, "a piece fewer", fewer, l->count - 1);
}

/* Planning with a certificate writes the same bytes, the marks of their plan, and a certificate that is accepted. */
static void try_certified(const struct list *l, const struct bytes *b, const struct dsa_planned *planned)
{
    struct certificate c;
    struct bytes own = {{0}, {0}, planned->portal_len, planned->staging_len};
    struct dsa_planned summary = {0};
    struct dsa_refusal r = {0};
    uint8_t marks[MOST] = {0};
    uint64_t cost = 0;
    const size_t n = l->count;
    const uint32_t narrow = dsa_plan_list_certified(
        &l->settings, l->table, l->entries, l->bytes, 64 * n, own.portal, ROOM, own.staging, STAGED, c.prices, n + 1,
        c.pairs, n, marks, n - 1, &summary, &r);
    if (narrow != DSA_NO_ROOM_FOR_CERTIFICATE || r.first != n || summary.pieces)
        fail(l, "a certificate without room", narrow, n);
    const uint32_t code = dsa_plan_list_certified(
        &l->settings, l->table, l->entries, l->bytes, 64 * n, own.portal, ROOM, own.staging, STAGED, c.prices, n + 1,
        c.pairs, n, marks, n, &summary, &r);
    const struct bytes spelled = emitted(l, marks);
    if (code || memcmp(&summary, planned, sizeof summary) || memcmp(own.portal, b->portal, own.portal_len)
        || memcmp(own.staging, b->staging, own.staging_len))
        fail(l, "planned with a certificate", code, 0);
    if (spelled.portal_len != own.portal_len || memcmp(spelled.portal, own.portal, own.portal_len)
        || memcmp(spelled.staging, own.staging, own.staging_len))
        fail(l, "the marks are of another plan", 0, 0);
    if (checked(l, &own, &c, &cost, &r) || cost != planned->cost)
        fail(l, "its own certificate is not accepted", r.number, cost);
}

/* What is checked of the list: its plans, other pieces, and what planning answers. */
static void try_checks(struct list *l)
{
    struct list plain = *l;
    memset(plain.is_barrier, 0, sizeof plain.is_barrier);
    const struct certificate c = certificate_of(l), alone = certificate_of(&plain);
    uint8_t marks[MOST];
    try_plans(l, &c, &alone, marks, 0);
    try_others(l, &c);
    struct bytes b;
    struct dsa_planned planned;
    struct dsa_refusal r;
    uint64_t cost = 0;
    if (dsa_plan_list(&l->settings, l->table, l->entries, l->bytes, 64 * l->count, b.portal, sizeof b.portal, b.staging,
                      sizeof b.staging, &planned, &r))
        fail(l, "refused", r.number, 0);
    b.portal_len = planned.portal_len;
    b.staging_len = planned.staging_len;
    if (checked(l, &b, &c, &cost, &r) || cost != planned.cost)
        fail(l, "what is planned is not accepted", r.number, cost);
    try_certified(l, &b, &planned);
}

/* Before a list has begun all of it is left, unless two of its operations share a record. */
static void try_resumed(const struct list *l)
{
    const uint8_t records[32 * MOST] = {0};
    const size_t len = 64 * l->count;
    struct dsa_resumed resumed = {7, 7, 7};
    struct dsa_refusal r = {0};
    uint8_t rest[ROOM], all[ROOM];
    const uint32_t code = dsa_resume(&l->settings, l->table, l->entries, l->bytes, len, records, 32 * l->count, records,
                                     0, 0, rest, sizeof rest, &resumed, &r);
    memcpy(all, l->bytes, len);
    all[4] &= 0xfe;
    if (code != DSA_SHARED_RECORD && (code || resumed.rest_len != len || memcmp(rest, all, len) != 0))
        fail(l, "something else is left", code, resumed.rest_len);
}

/* A checksum as a list may not have it, and the cause. */
static uint32_t spoil(const struct list *l, uint8_t *d)
{
    switch (drawn(6)) {
    case 0: /* a code of data integrity fields */
        d[7] = 0x12;
        return DSA_OPCODE;
    case 1: /* a flag that no checksum has */
        d[6] |= 0x08;
        return DSA_FLAG_BITS;
    case 2: /* a byte that none uses */
        d[44 + drawn(4)] = 1;
        return DSA_RESERVED;
    case 3: /* its seed is the checksum that it makes */
        dsa_seed_from(d, 0);
        memcpy(d + 48, d + 8, 8);
        return DSA_RECORD_MEETS_DATA;
    case 4: /* it is longer than the greatest transfer */
        dsa_put_crc(d, 0x40000, l->settings.greatest_transfer + 1, 0, 0x900000);
        return DSA_OVER_TRANSFER;
    default: /* its seed is in the staging area */
        dsa_seed_from(d, l->settings.staging + drawn((uint32_t)(96 * l->count)));
        return DSA_STAGING_MEETS;
    }
}

/* A checksum that no list may have is refused for its own cause, submitted by itself or in a batch; and so is its list
 * when a plan is judged, for which the staging area does not count. */
static void try_spoilt(const struct list *l)
{
    const struct certificate none = {{0}, {{0}}};
    uint8_t marks[MOST] = {DSA_BEGINS};
    struct list spoilt = *l;
    struct dsa_refusal r = {0};
    uint64_t cost = 7;
    const size_t last = l->count - 1;
    for (size_t k = 1; k < l->count; k++)
        marks[k] = k % l->settings.greatest_batch ? DSA_FENCED : DSA_BEGINS;
    const uint32_t want = spoil(l, spoilt.plain + 64 * last);
    const struct bytes b = emitted(&spoilt, marks);
    const uint32_t code = checked_alone(l, &b, &none, &cost, &r);
    if (code != DSA_ENTRY || r.inner != want || r.first != last || cost != 7)
        fail(&spoilt, "a submitted checksum that no list may have", r.inner, want);
    const uint32_t judged_as = dsa_judge(&l->settings, l->table, l->entries, spoilt.plain, 64 * l->count, marks,
                                         l->count, &cost, &r);
    if (want != DSA_STAGING_MEETS && (judged_as != want || r.first != last || cost != 7))
        fail(&spoilt, "judging a checksum that no list may have", judged_as, want);
}

/* Where the data and the records of a list are. */
static const struct dsa_region regions[2] = {{0x10000, 0xc000}, {0x800000, 32 * MOST}};

/* Puts an address of a list to its new place. */
static void move(uint8_t *at, const uint64_t *bases)
{
    uint64_t address;
    memcpy(&address, at, 8);
    const int region = address >= regions[1].first;
    address += bases[region] - regions[region].first;
    memcpy(at, &address, 8);
}

/* A seed that lies in no region is refused, with its operation. */
static void try_outside(const struct list *l)
{
    struct dsa_prepared_row rows[DSA_PREPARED_ROOM(2, MOST)];
    struct dsa_prepared_info info;
    struct dsa_refusal r = {0};
    struct list other = *l;
    const size_t last = l->count - 1;
    dsa_seed_from(other.bytes + 64 * last, regions[0].first - 4);
    const uint32_t code = dsa_prepare(&l->settings, l->table, l->entries, other.bytes, 64 * l->count, regions, 2, rows,
                                      sizeof rows / sizeof *rows, &info, &r);
    if (code != DSA_OUTSIDE || r.first != last)
        fail(l, "preparing takes a seed outside of all regions", code, DSA_OUTSIDE);
}

/* What is filled of the prepared list is what planning it at its new addresses answers. */
static void try_prepared(const struct list *l)
{
    const uint64_t bases[2] = {0x40000 + 0x1000 * drawn(64), 0xa00000 + 32 * drawn(64)}, area = UINT64_C(3) << 40;
    struct dsa_prepared_row rows[DSA_PREPARED_ROOM(2, MOST)];
    struct dsa_prepared_info info;
    struct dsa_planned planned;
    struct dsa_refusal r;
    struct list moved = *l;
    uint8_t portal[ROOM], staging[STAGED], want_portal[ROOM], want_staging[STAGED];
    moved.settings.staging = area;
    for (size_t k = 0; k < l->count; k++) {
        uint8_t *d = moved.bytes + 64 * k;
        move(d + 8, bases);
        move(d + 16, bases);
        if (d[7] != 0x10)
            move(d + 24, bases);
        if (d[6] & 1)
            move(d + 48, bases);
    }
    if (dsa_prepare(&l->settings, l->table, l->entries, l->bytes, 64 * l->count, regions, 2, rows,
                    sizeof rows / sizeof *rows, &info, &r)
        || dsa_fill(rows, info.rows, bases, 2, area, portal, sizeof portal, staging, sizeof staging, &r))
        fail(l, "preparing is refused", r.number, r.first);
    if (dsa_plan_list(&moved.settings, l->table, l->entries, moved.bytes, 64 * l->count, want_portal,
                      sizeof want_portal, want_staging, sizeof want_staging, &planned, &r))
        fail(l, "the list on the new buffers is refused", r.number, r.first);
    if (info.cost != planned.cost || info.portal_len != planned.portal_len || info.staging_len != planned.staging_len
        || memcmp(portal, want_portal, planned.portal_len) || memcmp(staging, want_staging, planned.staging_len))
        fail(l, "what is filled is not what is planned", info.cost, planned.cost);
}

/* Damaged lists are refused as without fences, and nothing is written. */
static void try_refusal(struct list *l)
{
    uint8_t portal[ROOM], staging[STAGED], old[ROOM];
    struct dsa_planned planned = {1, 2, 3, 4};
    struct dsa_refusal one = {0}, other = {0};
    const size_t len = 64 * l->count - drawn(2), at = drawn((uint32_t)(64 * l->count));
    memset(portal, 0xa5, sizeof portal);
    memcpy(old, portal, sizeof old);
    l->bytes[at] ^= (uint8_t)(2 << drawn(7));
    memcpy(l->plain, l->bytes, sizeof l->plain);
    for (size_t k = 0; k < l->count; k++)
        l->plain[64 * k + 4] &= 0xfe;
    const uint32_t code = dsa_plan_list(&l->settings, l->table, l->entries, l->bytes, len, portal, sizeof portal,
                                        staging, sizeof staging, &planned, &one);
    if (code && (memcmp(portal, old, sizeof old) || planned.cost != 1))
        fail(l, "something is written", code, 0);
    const uint32_t plain = dsa_plan_list(&l->settings, l->table, l->entries, l->plain, len, portal, sizeof portal,
                                         staging, sizeof staging, &planned, &other);
    if (code == DSA_NO_ROOM || plain == DSA_NO_ROOM) /* with barriers other bytes are needed */
        return;
    if (code != plain || memcmp(&one, &other, sizeof one))
        fail(l, "the refusal", code, plain);
}

int main(int argc, char **argv)
{
    const int count = argc > 1 ? atoi(argv[1]) : 200;
    if (argc > 2)
        seed = strtoull(argv[2], NULL, 10);
    for (int i = 0; i < count; i++) {
        struct list l;
        draw(&l);
        try_list(&l);
        try_checks(&l);
        if (l.has_checksums) {
            try_resumed(&l);
            try_spoilt(&l);
            try_outside(&l);
        }
        try_prepared(&l);
        try_refusal(&l);
    }
    printf("%d lists with barriers\n", count);
    return EXIT_SUCCESS;
}
