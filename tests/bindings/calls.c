/* Rows worked by hand, of two moves: what each call answers, buffers that just hold or just do not, and that a refusal
 * changes nothing but itself; and which submissions wait for the pieces of a long move. */
#include <inttypes.h>
#include <stdio.h>
#include <stdlib.h>
#include <string.h>

#include "dsa_planner.h"

static const struct dsa_settings settings = {1, 4, 4096, 10, 14, 3, 0x10000};
static uint8_t list[128], portal[64], staging[160], marks[2];
static uint64_t prices[3], cost;
static struct dsa_pair pairs[2];
static struct dsa_planned planned;
static struct dsa_refusal refusal;
static int row;

/* Ends the program where the row is not as it should be. */
static void expect(int holds)
{
    row++;
    if (!holds) {
        printf("row %d\n", row);
        exit(EXIT_FAILURE);
    }
}

static void put(uint8_t *at, uint64_t value, int bytes)
{
    for (int i = 0; i < bytes; i++)
        at[i] = (uint8_t)(value >> (8 * i));
}

static void put_move(uint8_t *d, uint64_t src, uint64_t dst, uint64_t record_at, uint32_t size)
{
    memset(d, 0, 64);
    put(d + 4, 0x0c, 3);
    d[7] = 0x03;
    put(d + 8, record_at, 8);
    put(d + 16, src, 8);
    put(d + 24, dst, 8);
    put(d + 32, size, 4);
}

/* Moves of so many bytes from 0x1000 to 0x2000 and from there to 0x4000. */
static void put_moves(uint32_t first, uint32_t second)
{
    put_move(list, 0x1000, 0x2000, 0x8000, first);
    put_move(list + 64, 0x2000, 0x4000, 0x8020, second);
}

/* Fills each output with bytes that no call writes. */
static void spoil(void)
{
    memset(portal, 0xee, sizeof portal);
    memset(staging, 0xee, sizeof staging);
    memset(marks, 0xee, sizeof marks);
    memset(prices, 0xee, sizeof prices);
    memset(pairs, 0xee, sizeof pairs);
    memset(&planned, 0xee, sizeof planned);
    memset(&refusal, 0xee, sizeof refusal);
    cost = 0xee;
}

static int is_spoiled(const void *at, size_t len)
{
    const uint8_t *bytes = at;
    for (size_t i = 0; i < len; i++)
        if (bytes[i] != 0xee)
            return 0;
    return 1;
}

/* No output but the refusal has changed. */
static int outputs_stay(void)
{
    return is_spoiled(portal, sizeof portal) && is_spoiled(staging, sizeof staging) && is_spoiled(marks, sizeof marks) &&
           is_spoiled(prices, sizeof prices) && is_spoiled(pairs, sizeof pairs) && is_spoiled(&planned, sizeof planned) &&
           cost == 0xee;
}

static uint32_t plan(const struct dsa_settings *s, const uint64_t *table, size_t table_len, size_t staging_capacity)
{
    spoil();
    return dsa_plan_list(s, table, table_len, list, sizeof list, portal, sizeof portal, staging, staging_capacity, &planned,
                         &refusal);
}

static uint32_t certify(size_t staging_capacity, size_t prices_capacity, size_t pairs_capacity, size_t marks_capacity)
{
    spoil();
    return dsa_plan_list_certified(&settings, &settings.batch, 0, list, sizeof list, portal, sizeof portal, staging,
                                   staging_capacity, prices, prices_capacity, pairs, pairs_capacity, marks, marks_capacity,
                                   &planned, &refusal);
}

static uint64_t count(const struct dsa_settings *s, uint32_t first, uint32_t second)
{
    put_moves(first, second);
    return dsa_count_pieces(s, &s->batch, 0, list, sizeof list);
}

/* By pieces of 4,096 bytes; more than 65,536 count as 65,537, and what is no list or no settings as none. */
static void pieces_are_counted(void)
{
    struct dsa_settings of_one = settings;
    of_one.greatest_batch = 1;
    expect(count(&settings, 64, 64) == 2);
    expect(count(&settings, 4097, 4096) == 3);
    expect(count(&settings, 4097, 268427264) == 65536);
    expect(count(&settings, 4097, 268427265) == 65537);
    expect(count(&settings, UINT32_MAX, UINT32_MAX) == 65537);
    expect(dsa_count_pieces(&settings, &settings.batch, 0, list, 0) == 0);
    expect(count(&of_one, 64, 64) == 0);
}

/* The second move reads what the first writes: a batch of two with a fence, of 14 and 3. */
static void two_moves_are_planned_and_checked(void)
{
    put_moves(64, 64);
    expect(certify(sizeof staging, 3, 2, 2) == DSA_OK);
    expect(planned.cost == 17 && planned.pieces == 2 && planned.portal_len == 64 && planned.staging_len == 160);
    expect(portal[18] == 1 && staging[68] == 0x0d);
    expect(prices[0] == 0 && prices[1] == 10 && prices[2] == 17);
    expect(marks[0] == DSA_BEGINS && marks[1] == DSA_FENCED);
    expect(pairs[0].first == 0 && pairs[0].second == 1 && pairs[1].first == DSA_NONE && pairs[1].second == DSA_NONE);
    expect(is_spoiled(&refusal, sizeof refusal));
    expect(dsa_check(&settings, &settings.batch, 0, portal, 64, staging, 160, 1, prices, 3, pairs, 2, &cost, &refusal) == DSA_OK);
    expect(cost == 17 && is_spoiled(&refusal, sizeof refusal));
}

static void plans_are_judged(void)
{
    const uint8_t alone[] = {DSA_BEGINS, DSA_BEGINS}, unfenced[] = {DSA_BEGINS, 0};
    put_moves(64, 64);
    spoil();
    expect(dsa_judge(&settings, &settings.batch, 0, list, sizeof list, alone, 2, &cost, &refusal) == DSA_OK && cost == 20);
    spoil();
    expect(dsa_judge(&settings, &settings.batch, 0, list, sizeof list, unfenced, 2, &cost, &refusal) == DSA_UNFENCED);
    expect(refusal.number == DSA_UNFENCED && refusal.inner == 0 && refusal.first == 0 && refusal.second == 1 && outputs_stay());
}

/* The first mark begins a group though its bit is 0, and bits 2 and up count for nothing. */
static void other_bits_of_marks_do_not_count(void)
{
    const uint8_t fenced[] = {0, 0xfc | DSA_FENCED}, alone[] = {8, 4 | DSA_BEGINS};
    put_moves(64, 64);
    expect(dsa_judge(&settings, &settings.batch, 0, list, sizeof list, fenced, 2, &cost, &refusal) == DSA_OK && cost == 17);
    expect(dsa_judge(&settings, &settings.batch, 0, list, sizeof list, alone, 2, &cost, &refusal) == DSA_OK && cost == 20);
}

/* The call answers this one reason of the two moves, in an array with room for so many, and nothing more. */
static void expect_reason(const struct dsa_settings *s, const struct dsa_reason *right)
{
    struct dsa_reason reasons[2];
    uint64_t found = 0;
    spoil();
    memset(reasons, 0xee, sizeof reasons);
    expect(dsa_explain_list(s, &s->batch, 0, list, sizeof list, reasons, 2, &found, &refusal) == DSA_OK && found == 1);
    expect(memcmp(reasons, right, sizeof *right) == 0 && is_spoiled(&reasons[1], sizeof reasons[1]));
    expect(is_spoiled(&refusal, sizeof refusal));
    found = 0xee;
    const uint32_t code = dsa_explain_list(s, &s->batch, 0, list, sizeof list, reasons + 1, 0, &found, &refusal);
    expect(code == DSA_NO_ROOM_FOR_REASONS && refusal.number == code && refusal.inner == 0);
    expect(refusal.first == 1 && refusal.second == 0);
    expect(found == 0xee && is_spoiled(&reasons[1], sizeof reasons[1]));
}

static void expect_text(const struct dsa_reason *reason, const char *right)
{
    char text[DSA_REASON_TEXT_ROOM + 1];
    const size_t len = strlen(right), rooms[] = {0, 1, len - 1, len, DSA_REASON_TEXT_ROOM};
    for (size_t k = 0; k < sizeof rooms / sizeof rooms[0]; k++) {
        const size_t front = rooms[k] < len ? rooms[k] : len;
        memset(text, 0xee, sizeof text);
        expect(dsa_reason_text(reason, text, rooms[k]) == len && memcmp(text, right, front) == 0);
        expect(is_spoiled(text + front, sizeof text - front));
    }
}

/* The second move reads what the first writes: so the fence of a batch, or a group of its own where batches are dear; a
 * barrier beside it, and one alone; the record of one move among the data of the other. */
static void reasons_are_told(void)
{
    struct dsa_settings dear = settings;
    struct dsa_reason right = {1, 0, 0, 1, 0x2000, 0, DSA_FENCED, 0, DSA_READ_AFTER_WRITE, 0};
    dear.batch = 30;
    put_moves(64, 64);
    expect_reason(&settings, &right);
    expect_text(&right, "1 after 0, read after write at 0x2000");
    right.group = 1;
    right.mark = DSA_BEGINS;
    expect_reason(&dear, &right);
    expect_text(&right, "1 after 0, read after write at 0x2000");
    list[64 + 4] |= 1;
    right.barrier = 1;
    expect_reason(&dear, &right);
    expect_text(&right, "a barrier, and 1 after 0, read after write at 0x2000");
    put_move(list + 64, 0x5000, 0x4000, 0x8020, 64);
    list[64 + 4] |= 1;
    right = (struct dsa_reason){1, 0, 0, 0, 0, 0, DSA_FENCED, 1, 0, 0};
    expect_reason(&settings, &right);
    expect_text(&right, "a barrier");
    put_move(list + 64, 0x5000, 0x1000, 0x8020, 64);
    right = (struct dsa_reason){1, 0, 0, 1, 0x1000, 0, DSA_FENCED, 0, DSA_WRITE_AFTER_READ, 0};
    expect_reason(&settings, &right);
    expect_text(&right, "1 after 0, write after read at 0x1000");
    put_move(list + 64, 0x5000, 0x4000, 0x8000, 64);
    right = (struct dsa_reason){1, 0, 0, 1, 0x8000, 0, DSA_FENCED, 0, DSA_WRITE_AFTER_WRITE, 1};
    expect_reason(&settings, &right);
    expect_text(&right, "1 after 0, write after write at 0x8000 (record of 0)");
    put_move(list, 0x1000, 0x8020, 0x9000, 32);
    put_move(list + 64, 0x5000, 0x4000, 0x8020, 64);
    right = (struct dsa_reason){1, 0, 0, 1, 0x8020, 0, DSA_FENCED, 0, DSA_WRITE_AFTER_WRITE, 2};
    expect_reason(&settings, &right);
    expect_text(&right, "1 after 0, write after write at 0x8020 (record of 1)");
    right = (struct dsa_reason){0, 0, 0, 0, 0, 0, DSA_BEGINS, 0, 0, 0};
    expect_text(&right, "no conflict needs it alone");
    right = (struct dsa_reason){1, 1, 2, UINT64_MAX, UINT64_MAX, UINT64_MAX, 3, 7, DSA_WRITE_AFTER_WRITE, 2};
    expect_text(&right, "a barrier, and 18446744073709551615 after 2, write after write at 0xffffffffffffffff "
                        "(record of 18446744073709551615), and 18446744073709551615 more");
}

/* The call answers these warnings about the two moves, in an array with room for so many, and nothing more. */
static void expect_warnings(uint64_t found, const struct dsa_warning *right)
{
    struct dsa_warning warnings[6];
    uint64_t number = 0;
    spoil();
    memset(warnings, 0xee, sizeof warnings);
    expect(dsa_warn_list(&settings, &settings.batch, 0, list, sizeof list, warnings, 6, &number, &refusal) == DSA_OK);
    expect(number == found && memcmp(warnings, right, found * sizeof *right) == 0);
    expect(is_spoiled(warnings + found, sizeof warnings - found * sizeof *right));
    expect(is_spoiled(&refusal, sizeof refusal));
    if (found == 0)
        return;
    number = 0xee;
    memset(warnings, 0xee, sizeof warnings);
    const uint32_t code =
        dsa_warn_list(&settings, &settings.batch, 0, list, sizeof list, warnings, found - 1, &number, &refusal);
    expect(code == DSA_NO_ROOM_FOR_WARNINGS && refusal.number == code && refusal.first == found && refusal.second == 0);
    expect(number == 0xee && is_spoiled(warnings, sizeof warnings));
}

/* Moves with records of their own; a move onto its own source; one record for both, and one among the data; and a kind
 * that there is not. */
static void warnings_are_told(void)
{
    const struct dsa_warning shared[] = {{DSA_SHARED_RECORD_WARNING, 1, 0}, {DSA_OVERLAP_WARNING, 1, 0}};
    const struct dsa_warning none = {9, 1, 0};
    char text[DSA_REASON_TEXT_ROOM];
    put_moves(64, 64);
    expect_warnings(0, shared);
    put_move(list + 64, 0x5000, 0x503f, 0x8020, 64);
    expect_warnings(1, shared + 1);
    put_move(list + 64, 0x5000, 0x5040, 0x8020, 64);
    expect_warnings(0, shared);
    put_move(list + 64, 0x5000, 0x5001, 0x8000, 64);
    expect_warnings(2, shared);
    put_move(list, 0x1000, 0x8020, 0x9000, 32);
    put_move(list + 64, 0x5000, 0x4000, 0x8020, 64);
    expect_warnings(1, shared);
    memset(text, 0xee, sizeof text);
    expect(dsa_warning_text(&none, text, sizeof text) == 0 && is_spoiled(text, sizeof text));
}

/* Another version is no settings, nor are too few prices by size; a buffer is a byte too small; each array of the
 * certificate is one too short; where neither fits, the refusal names the bytes. */
static void refusals_leave_the_outputs(void)
{
    const uint64_t table[] = {14, 14, 14};
    struct dsa_settings other = settings;
    put_moves(64, 64);
    other.version = 3;
    expect(plan(&other, table, 3, sizeof staging) == DSA_SETTINGS && refusal.first == 1 && outputs_stay());
    other.version = 2;
    expect(plan(&other, table, 2, sizeof staging) == DSA_SETTINGS && outputs_stay());
    expect(refusal.number == DSA_SETTINGS && refusal.inner == 0 && refusal.first == 8 && refusal.second == 0);
    expect(plan(&settings, &settings.batch, 0, 159) == DSA_NO_ROOM && outputs_stay());
    expect(refusal.first == 64 && refusal.second == 160);
    expect(certify(160, 2, 2, 2) == DSA_NO_ROOM_FOR_CERTIFICATE && refusal.first == 2 && outputs_stay());
    expect(certify(160, 3, 1, 2) == DSA_NO_ROOM_FOR_CERTIFICATE && outputs_stay());
    expect(certify(160, 3, 2, 1) == DSA_NO_ROOM_FOR_CERTIFICATE && outputs_stay());
    expect(certify(159, 2, 1, 1) == DSA_NO_ROOM && refusal.first == 64 && refusal.second == 160 && outputs_stay());
}

/* The call refused the settings, named this one and wrote nothing. */
static void expect_setting(uint32_t number, uint64_t setting)
{
    expect(number == DSA_SETTINGS && refusal.number == DSA_SETTINGS && refusal.inner == 0 && refusal.first == setting
           && refusal.second == 0 && outputs_stay());
}

/* The refusal names a setting that is outside its limits by its place in the struct, and the table as 8; of several the
 * first, but the price of a batch after all others. */
static void settings_are_named(void)
{
    const uint64_t dear = 1000000001, short_table[] = {14, 14}, dear_table[] = {14, dear, 14};
    const struct {
        struct dsa_settings of;
        uint64_t setting;
    } wrong[] = {
        {{0, 4, 4096, 10, 14, 3, 0x10000}, 1},
        {{3, 4, 4096, 10, 14, 3, 0x10000}, 1},
        {{1, 1, 4096, 10, 14, 3, 0x10000}, 2},
        {{1, 1025, 4096, 10, 14, 3, 0x10000}, 2},
        {{1, 4, 0, 10, 14, 3, 0x10000}, 3},
        {{1, 4, 4100, 10, 14, 3, 0x10000}, 3},
        {{1, 4, UINT64_C(0x80000008), 10, 14, 3, 0x10000}, 3},
        {{1, 4, 4096, dear, 14, 3, 0x10000}, 4},
        {{1, 4, 4096, 10, dear, 3, 0x10000}, 5},
        {{1, 4, 4096, 10, 14, dear, 0x10000}, 6},
        {{1, 4, 4096, 10, 14, 3, 0x10020}, 7},
        {{1, 4, 4096, 10, 14, 3, UINT64_C(0x8000000000000040)}, 7},
        {{1, 1025, 4100, dear, dear, dear, 0x10020}, 2},
        {{1, 4, 4096, 10, dear, dear, 0x10000}, 6},
    };
    struct dsa_settings by_size = settings;
    put_moves(64, 64);
    for (size_t k = 0; k < sizeof wrong / sizeof wrong[0]; k++) {
        const struct dsa_settings *of = &wrong[k].of;
        expect_setting(plan(of, &of->batch, 0, sizeof staging), wrong[k].setting);
        expect_setting(dsa_judge(of, &of->batch, 0, list, sizeof list, marks, 2, &cost, &refusal), wrong[k].setting);
        expect_setting(dsa_check(of, &of->batch, 0, portal, 64, staging, 160, 1, prices, 3, pairs, 2, &cost, &refusal),
                       wrong[k].setting);
    }
    by_size.version = 2;
    expect_setting(plan(&by_size, short_table, 2, sizeof staging), 8);
    expect_setting(plan(&by_size, dear_table, 3, sizeof staging), 8);
    by_size.batch = dear; /* which does not count */
    by_size.lone = dear;
    expect_setting(plan(&by_size, short_table, 2, sizeof staging), 4);
}

/* A batch of two costs 5 in the table, and its fence 3. */
static void prices_go_by_size(void)
{
    const uint64_t table[] = {5, 16, 30};
    struct dsa_settings by_size = settings;
    by_size.version = 2;
    put_moves(64, 64);
    expect(plan(&by_size, table, 3, sizeof staging) == DSA_OK && planned.cost == 8 && planned.pieces == 2);
}

/* A tracked move of 64 bytes with its record here, whose staging area is empty. */
static uint32_t track_small_move(uint64_t *words, size_t len, uint64_t record_at, uint32_t *slot, uint64_t *waits)
{
    put_move(list, 0x20000, 0x21000 + 2 * record_at, record_at, 64);
    return dsa_track_list(words, len, &settings, &settings.batch, 0, list, 64, 0x40000, 0, 0, slot, waits, &refusal);
}

/* A move of 8,192 bytes is two pieces, whose records are at 0x8000 and 0x8020: who has one of these waits for it. */
static void pieces_are_tracked(void)
{
    enum { SLOTS = 4, SPANS = DSA_TRACKER_SPANS(2), WORDS = DSA_TRACKER_WORDS(SLOTS, SPANS, 1) };
    uint64_t words[WORDS], waits = 0xee;
    uint32_t slot = 0xee;
    expect(dsa_track_begin(words, WORDS, SLOTS, SPANS, 1, 12, &refusal) == DSA_OK);
    put_move(list, 0x1000, 0x3000, 0x8000, 8192);
    expect(dsa_track_list(words, WORDS, &settings, &settings.batch, 0, list, 64, 0x10000, 160, 0, &slot, &waits,
                          &refusal) == DSA_OK && slot == 0 && waits == 0);
    expect(track_small_move(words, WORDS, 0x8020, &slot, &waits) == DSA_OK && slot == 1 && waits == 1);
    expect(track_small_move(words, WORDS, 0x8040, &slot, &waits) == DSA_OK && slot == 2 && waits == 0);
    expect(track_small_move(words, WORDS, 0x8000, &slot, &waits) == DSA_OK && slot == 3 && waits == 1);
}

/* As many moves as may be, apart from one another, in 64 batches of 1,024 that cost 14 each. */
static void the_most_pieces_are_planned_checked_and_judged(void)
{
    enum { COUNT = 65536, BATCH = 1024, BATCHES = COUNT / BATCH };
    const struct dsa_settings most = {1, BATCH, 4096, 10, 14, 3, 0x40000000};
    static uint8_t moves[COUNT][64], to_portal[BATCHES * 64], to_staging[COUNT * 64 + BATCHES * 32], ends[COUNT];
    static uint64_t costs[COUNT + 1];
    static struct dsa_pair none[COUNT];
    for (uint64_t i = 0; i < COUNT; i++)
        put_move(moves[i], 8 * i, 0x100000 + 8 * i, 0x200000 + 32 * i, 8);
    expect(dsa_count_pieces(&most, &most.batch, 0, moves[0], sizeof moves) == COUNT);
    expect(dsa_plan_list_certified(&most, &most.batch, 0, moves[0], sizeof moves, to_portal, sizeof to_portal, to_staging,
                                   sizeof to_staging, costs, COUNT + 1, none, COUNT, ends, COUNT, &planned, &refusal) == DSA_OK);
    expect(planned.cost == 14 * BATCHES && planned.pieces == COUNT && costs[COUNT] == 14 * BATCHES);
    expect(planned.portal_len == sizeof to_portal && planned.staging_len == sizeof to_staging);
    for (uint64_t i = 0; i < COUNT; i++)
        if (none[i].first != DSA_NONE || ends[i] != (i % BATCH == 0 ? DSA_BEGINS : 0))
            expect(0);
    cost = 0;
    expect(dsa_check(&most, &most.batch, 0, to_portal, sizeof to_portal, to_staging, sizeof to_staging, 1, costs, COUNT + 1, none,
                     COUNT, &cost, &refusal) == DSA_OK && cost == 14 * BATCHES);
    cost = 0;
    expect(dsa_judge(&most, &most.batch, 0, moves[0], sizeof moves, ends, COUNT, &cost, &refusal) == DSA_OK && cost == 14 * BATCHES);
}

int main(void)
{
    pieces_are_counted();
    two_moves_are_planned_and_checked();
    plans_are_judged();
    other_bits_of_marks_do_not_count();
    reasons_are_told();
    warnings_are_told();
    refusals_leave_the_outputs();
    settings_are_named();
    prices_go_by_size();
    pieces_are_tracked();
    the_most_pieces_are_planned_checked_and_judged();
    return 0;
}
