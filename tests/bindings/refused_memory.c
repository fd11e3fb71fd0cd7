/* Refuses each allocation of each call in turn, by memory functions of its own, and of a list with barriers or with
 * checksums all after it, too, since such a list is first read as one without: the answer has to be 73, no output but
 * the refusal may have changed, and nothing may be kept. Then a call needs no more than it took with ample memory. */
#include <inttypes.h>
#include <stdio.h>
#include <stdlib.h>
#include <string.h>

#include "dsa_planner.h"

static uint64_t asked, live, refused_at;
static int are_more_refused;

struct rattle_block rattle_alloc(size_t size, size_t align)
{
    static uint8_t none[16];
    if (++asked == refused_at || (are_more_refused && refused_at && asked > refused_at))
        return (struct rattle_block){0, none};
    void *at = aligned_alloc(16, (size + align + 15) / 16 * 16);
    if (!at)
        return (struct rattle_block){0, none};
    live++;
    return (struct rattle_block){1, at};
}

void rattle_dealloc(void *at)
{
    live--;
    free(at);
}

struct rattle_block rattle_realloc(void *at, size_t old_size, size_t size, size_t align)
{
    struct rattle_block block = rattle_alloc(size, align);
    if (block.ok) {
        memcpy(block.at, at, old_size < size ? old_size : size);
        rattle_dealloc(at);
    }
    return block;
}

enum { N = 24, ROWS = 1 + 2 + 3 * N, CALLS = 12, WORDS = 4096 };
static const struct dsa_settings settings = {1, 5, 4096, 10, 14, 3, UINT64_C(1) << 40};
static uint8_t list[64 * N], fenced[64 * N], records[32 * N], marks_in[N], portal_in[64 * N], staging_in[80 * N];
static uint64_t prices_in[N + 1];
static struct dsa_pair pairs_in[N];
static struct dsa_planned planned_in;
static const struct dsa_region regions[] = {{0, 0x100000}, {0x800000, 32 * N}};
static struct dsa_prepared_row rows_in[ROWS];
static struct dsa_prepared_info info_in;

/* All that calls write, in one block, so that one comparison sees any change. */
static struct outputs {
    uint8_t portal[64 * N], staging[80 * N], marks[N];
    uint64_t prices[N + 1], cost;
    struct dsa_pair pairs[N];
    struct dsa_planned planned;
    struct dsa_resumed resumed;
    struct dsa_prepared_row rows[ROWS];
    struct dsa_prepared_info info;
    uint32_t slot, slots[N];
    uint64_t waits, count;
    struct dsa_reason reasons[N];
    struct dsa_warning warnings[3 * N];
} outputs, before;

static const struct dsa_span spans[] = {{0x1000, 64}, {0x2000, 64}};

/* A list, or a plan's groups, for a tracker, whose words a refusal leaves as they were. Spans take no memory. */
static uint32_t track(int which, struct dsa_refusal *r)
{
    static uint64_t words[WORDS], old[WORDS];
    struct outputs *o = &outputs;
    uint32_t code;
    if (dsa_track_begin(words, WORDS, 8, DSA_TRACKER_SPANS(N) + 1, 4, 12, r) != DSA_OK)
        return DSA_NOT_A_TRACKER;
    const uint64_t before_spans = asked;
    if (dsa_track_ask(words, WORDS, spans, 2, spans, 1, &o->waits, r) != DSA_OK
        || dsa_track_spans(words, WORDS, spans, 2, spans, 1, 0, &o->slot, &o->waits, r) != DSA_OK
        || asked != before_spans)
        return DSA_NOT_A_TRACKER;
    memcpy(old, words, sizeof old);
    memset(&outputs, 0xa5, sizeof outputs);
    if (which == 5)
        code = dsa_track_list(words, WORDS, &settings, &settings.batch, 0, list, sizeof list, settings.staging, 0, 0,
                              &o->slot, &o->waits, r);
    else
        code = dsa_track_groups(words, WORDS, &settings, &settings.batch, 0, portal_in, planned_in.portal_len,
                                staging_in, planned_in.staging_len, 0, o->slots, N, r);
    return code == DSA_MEMORY && memcmp(words, old, sizeof old) != 0 ? DSA_NOT_A_TRACKER : code;
}

static uint32_t call(int which, struct dsa_refusal *r)
{
    struct outputs *o = &outputs;
    switch (which) {
    case 0:
        return dsa_plan_list(&settings, &settings.batch, 0, list, sizeof list, o->portal, sizeof o->portal, o->staging,
                             sizeof o->staging, &o->planned, r);
    case 1:
        return dsa_plan_list_certified(&settings, &settings.batch, 0, list, sizeof list, o->portal, sizeof o->portal,
                                       o->staging, sizeof o->staging, o->prices, N + 1, o->pairs, N, o->marks, N,
                                       &o->planned, r);
    case 2:
        return dsa_check(&settings, &settings.batch, 0, portal_in, planned_in.portal_len, staging_in,
                         planned_in.staging_len, 1, prices_in, N + 1, pairs_in, N, &o->cost, r);
    case 3:
        return dsa_judge(&settings, &settings.batch, 0, list, sizeof list, marks_in, N, &o->cost, r);
    case 4:
        return dsa_prepare(&settings, &settings.batch, 0, list, sizeof list, regions, 2, o->rows, ROWS, &o->info, r);
    case 7:
        return dsa_check_list(&settings, &settings.batch, 0, list, sizeof list, portal_in, planned_in.portal_len,
                              staging_in, planned_in.staging_len, 1, prices_in, N + 1, pairs_in, N, &o->cost, r);
    case 8:
        return dsa_resume(&settings, &settings.batch, 0, list, sizeof list, records, sizeof records, records, 0, 1,
                          o->portal, sizeof o->portal, &o->resumed, r);
    case 9: /* with a barrier before each third move */
        return dsa_plan_list(&settings, &settings.batch, 0, fenced, sizeof fenced, o->portal, sizeof o->portal,
                             o->staging, sizeof o->staging, &o->planned, r);
    case 10:
        return dsa_explain_list(&settings, &settings.batch, 0, fenced, sizeof fenced, o->reasons, N, &o->count, r);
    case 11:
        return dsa_warn_list(&settings, &settings.batch, 0, fenced, sizeof fenced, o->warnings, 3 * N, &o->count, r);
    default:
        return track(which, r);
    }
}

static void fail(const char *what, int which, uint64_t at)
{
    printf("call %d, allocation %" PRIu64 ": %s\n", which, at, what);
    exit(EXIT_FAILURE);
}

/* The text of a reason, or of a warning. */
static uint64_t text_of(int is_warning, char *text, size_t room)
{
    static const struct dsa_reason reason = {7, 1, 5, 7, 16, 2, DSA_FENCED, 1, DSA_WRITE_AFTER_READ, 2};
    static const struct dsa_warning warning = {DSA_SHARED_RECORD_WARNING, 7, 5};
    return is_warning ? dsa_warning_text(&warning, text, room) : dsa_reason_text(&reason, text, room);
}

/* It is written whole, or not at all. */
static void tell(int is_warning, const char *said)
{
    char text[DSA_REASON_TEXT_ROOM], spoiled[DSA_REASON_TEXT_ROOM];
    refused_at = asked = 0;
    if (text_of(is_warning, text, sizeof text) != strlen(said) || memcmp(text, said, strlen(said)) != 0)
        fail("another text", CALLS, 0);
    const uint64_t growths = asked;
    memset(spoiled, 0xa5, sizeof spoiled);
    for (refused_at = 1; refused_at <= growths; refused_at++) {
        asked = 0;
        memset(text, 0xa5, sizeof text);
        if (text_of(is_warning, text, sizeof text) != 0 || memcmp(text, spoiled, sizeof text) != 0 || live != 0)
            fail("a text without memory", CALLS, refused_at);
    }
}

/* Moves of 64 bytes, each third of which reads what the one before writes, or every other one a copy with CRC; and
 * what planning them answers. */
static void put_inputs(int has_checksums)
{
    struct dsa_refusal r;
    memset(list, 0, sizeof list);
    for (uint64_t i = 0; i < N; i++) {
        uint8_t *d = list + 64 * i;
        uint64_t fields[3] = {0x800000 + 32 * i, 0x1000 * (i % 3 == 2 ? i - 1 : i + 100), 0x1000 * i};
        d[4] = 0x0c;
        d[7] = has_checksums && i % 2 ? 0x11 : 0x03;
        memcpy(d + 8, fields, 24);
        d[32] = 64;
    }
    memcpy(fenced, list, sizeof fenced);
    for (uint64_t i = 0; i < N; i += 3)
        fenced[64 * i + 4] |= 1;
    refused_at = 0;
    if (call(1, &r) != DSA_OK)
        fail("refused with ample memory", 1, 0);
    memcpy(portal_in, outputs.portal, sizeof portal_in);
    memcpy(staging_in, outputs.staging, sizeof staging_in);
    memcpy(marks_in, outputs.marks, sizeof marks_in);
    memcpy(prices_in, outputs.prices, sizeof prices_in);
    memcpy(pairs_in, outputs.pairs, sizeof pairs_in);
    planned_in = outputs.planned;
}

/* Refuses each allocation of a call, perhaps with all after it. */
static void refuse_each(int which, int are_more)
{
    struct dsa_refusal r;
    refused_at = asked = 0;
    are_more_refused = are_more;
    if (call(which, &r) != DSA_OK || live != 0 || asked == 0)
        fail("refused with ample memory, or kept some", which, 0);
    uint64_t growths = asked;
    memset(&before, 0xa5, sizeof before);
    for (refused_at = 1; refused_at <= growths; refused_at++) {
        const struct dsa_refusal want = {DSA_MEMORY, 0, 0, 0};
        asked = 0;
        memset(&outputs, 0xa5, sizeof outputs);
        memset(&r, 0xa5, sizeof r);
        if (call(which, &r) != DSA_MEMORY || memcmp(&r, &want, sizeof r) != 0)
            fail("not refused 73", which, refused_at);
        if (memcmp(&outputs, &before, sizeof before) != 0)
            fail("an output has changed", which, refused_at);
        if (live != 0)
            fail("a block was kept", which, refused_at);
    }
    asked = refused_at = 0;
    if (call(which, &r) != DSA_OK || asked != growths)
        fail("refused afterwards", which, growths + 1);
    printf("call %d: %" PRIu64 " allocations refused in turn\n", which, growths);
}

int main(void)
{
    struct dsa_refusal r;
    put_inputs(1);
    for (int which = 0; which < CALLS; which++)
        refuse_each(which, 1);
    put_inputs(0);
    for (int which = 0; which < CALLS; which++)
        refuse_each(which, which >= 9);
    tell(0, "a barrier, and 7 after 5, write after read at 0x10 (record of 7), and 2 more");
    tell(1, "piece 7: it or piece 5 writes into the completion record of the other");
    refused_at = 1;
    asked = 0;
    if (dsa_count_pieces(&settings, &settings.batch, 0, list, sizeof list) != N || asked != 0)
        fail("counting allocates", CALLS, asked);
    const uint64_t bases[] = {0x40000000, 0x20000000};
    refused_at = 0;
    if (dsa_prepare(&settings, &settings.batch, 0, list, sizeof list, regions, 2, rows_in, ROWS, &info_in, &r) != DSA_OK)
        fail("not prepared", 4, 0);
    refused_at = 1;
    asked = 0;
    if (dsa_fill(rows_in, info_in.rows, bases, 2, settings.staging, outputs.portal, sizeof outputs.portal, outputs.staging,
                 sizeof outputs.staging, &r) != DSA_OK || asked != 0)
        fail("filling allocates", CALLS, asked);
    return EXIT_SUCCESS;
}
