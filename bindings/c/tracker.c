/* Three moves of which the third reads what the first writes, and what each waits for: docs/USING.md, "Many submissions
 * in flight". Each slot has a staging area of its own. */
#include <stdio.h>
#include <string.h>
#include <linux/idxd.h>
#include <dsa_planner.h>

enum { SLOTS = 64, SPANS = DSA_TRACKER_SPANS(1), LOG2_ROWS = 13, LOG2_PAGE = 12 };
enum { WORDS = DSA_TRACKER_WORDS(SLOTS, SPANS, LOG2_ROWS), AREAS = 0x100000, APART = 128 /* a multiple of 64 */ };
static uint64_t tracker[WORDS], used; /* a bit for each slot in use */
static const struct dsa_settings settings = {
    .version = 1, .greatest_batch = 4, .greatest_transfer = 4096, .lone = 10, .batch = 14, .fence = 3};

/* A move of a page. Prints what it waits for. Its slot is the first that is not in use, so its staging area is known
 * before the call. */
static uint32_t submit(uint64_t source, uint64_t target, uint64_t record)
{
    const struct dsa_hw_desc move = {
        .opcode = DSA_OPCODE_MEMMOVE, .flags = IDXD_OP_FLAG_CRAV | IDXD_OP_FLAG_RCR, .completion_addr = record,
        .src_addr = source, .dst_addr = target, .xfer_size = 4096};
    struct dsa_refusal refusal;
    uint32_t slot = 0;
    uint64_t waits = 0;
    if (used == UINT64_MAX)
        return SLOTS;
    const uint64_t staging = AREAS + APART * (uint64_t)__builtin_ctzll(~used);
    if (dsa_track_list(tracker, WORDS, &settings, &settings.batch, 0, (const uint8_t *)&move, sizeof move, staging,
                       DSA_STAGING_AREA(1), 0, &slot, &waits, &refusal))
        return SLOTS;
    used |= UINT64_C(1) << slot;
    printf("slot %u waits for %#llx\n", (unsigned)slot, (unsigned long long)waits);
    return slot;
}

int main(void)
{
    struct dsa_refusal refusal;
    uint64_t waited = 0, ready = 0;
    if (dsa_track_begin(tracker, WORDS, SLOTS, SPANS, LOG2_ROWS, LOG2_PAGE, &refusal))
        return 1;
    const uint32_t first = submit(0x10000, 0x20000, 0x8000); /* waits for none: ring it */
    submit(0x30000, 0x40000, 0x8020);                        /* nor does this one */
    submit(0x20000, 0x50000, 0x8040);                        /* reads what the first writes: not yet */
    /* here: poll the completion record of the first, and then */
    if (dsa_track_complete(tracker, WORDS, first, &waited, &ready, &refusal))
        return 1;
    used &= ~(UINT64_C(1) << first);
    printf("ready now: %#llx\n", (unsigned long long)ready); /* ring these */
}
