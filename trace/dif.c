/* The four operations on data integrity fields: blocks of data with 8 bytes each of guard, application tag and
 * reference tag. Flags as in Intel's specification 341204: of the source in byte 40 (of an update and a check), of the
 * destination in byte 41, of both in byte 42. Not done: the mask of the destination's application tag, and errors for
 * fields of ones alone. */
#include <stdatomic.h>
#include <string.h>

#include "operations.h"

enum { FIELD = 8 };
/* byte 42 */
enum { BLOCK_SIZE = 3, SEED_IS_ONES = 4, INVERTED = 8 };
/* of the source: an all-ones tag means that the block is not checked; which checks are off; which tags stay the same */
enum {
    APP_IS_F = 4,
    BOTH_ARE_F = 8,
    APP_COUNTS = 0x10,
    NO_GUARD = 0x20,
    NO_REFERENCE = 0x40,
    REFERENCE_IS_FIXED = 0x80
};
/* of the destination of an update: which parts of the field are those of the source; others as of the source */
enum { APP_PASSES = 8, GUARD_PASSES = 0x20, REFERENCE_PASSES = 0x40 };
/* what a check found */
enum { WRONG_GUARD = 1, WRONG_APP = 2, WRONG_REFERENCE = 4 };

struct tags { uint16_t app, mask; uint32_t reference; uint8_t flags; };

static uint16_t get_16(const uint8_t *at) { return (uint16_t)(at[0] << 8 | at[1]); }
static uint32_t get_32(const uint8_t *at) { return (uint32_t)get_16(at) << 16 | get_16(at + 2); }

/// Writes the field after a block. An update takes those parts from the source's field that pass through it.
static void put_field(uint8_t *to, uint16_t guard_tag, const struct tags *t, const uint8_t *passed)
{
    uint8_t bytes[FIELD] = {guard_tag >> 8, guard_tag, t->app >> 8, t->app,
                            t->reference >> 24, t->reference >> 16, t->reference >> 8, t->reference};
    if (passed && t->flags & GUARD_PASSES)
        memcpy(bytes, passed, 2);
    if (passed && t->flags & APP_PASSES)
        memcpy(bytes + 2, passed + 2, 2);
    if (passed && t->flags & REFERENCE_PASSES)
        memcpy(bytes + 4, passed + 4, 4);
    memcpy(to, bytes, sizeof bytes);
}

static void next_block(struct tags *t)
{
    t->reference += !(t->flags & REFERENCE_IS_FIXED);
    t->app += (t->flags & APP_COUNTS) != 0;
}

static uint16_t guard_of(const uint8_t *data, unsigned block, uint8_t flags)
{
    const uint16_t crc = crc_t10(flags & SEED_IS_ONES ? 0xffff : 0, data, block);
    return flags & INVERTED ? (uint16_t)~crc : crc;
}

/// What is wrong with the field of one block: a sum of the three above.
static uint8_t check(const uint8_t *data, unsigned block, uint8_t flags, const struct tags *t)
{
    const uint8_t *field = data + block;
    const uint16_t app = get_16(field + 2);
    const uint32_t reference = get_32(field + 4);
    const bool app_is_f = app == 0xffff;
    if ((t->flags & APP_IS_F && app_is_f) || (t->flags & BOTH_ARE_F && app_is_f && reference == UINT32_MAX))
        return 0;
    uint8_t wrong = 0;
    if (!(t->flags & NO_GUARD) && get_16(field) != guard_of(data, block, flags))
        wrong |= WRONG_GUARD;
    if ((app ^ t->app) & (uint16_t)~t->mask)
        wrong |= WRONG_APP;
    if (!(t->flags & NO_REFERENCE) && reference != t->reference)
        wrong |= WRONG_REFERENCE;
    return wrong;
}

static struct tags source_tags(const descriptor *d)
{
    return (struct tags){d->src_app_tag_seed, d->src_app_tag_mask, d->src_ref_tag_seed, d->src_upd_flags};
}

static struct tags destination_tags(const descriptor *d)
{
    if (d->opcode == DSA_OPCODE_DIF_INS)
        return (struct tags){d->ins_app_tag_seed, d->ins_app_tag_mask, d->ins_ref_tag_seed, d->dest_dif_flag};
    return (struct tags){d->dest_app_tag_seed, d->dest_app_tag_mask, d->dest_ref_tag_seed, d->upd_dest_flags};
}

/// Puts the tags of the next block into the record: with them a program goes on after a page fault.
static void note_tags(completion *r, unsigned operation, const struct tags *source, const struct tags *destination)
{
    if (operation != DSA_OPCODE_DIF_INS) {
        r->dif_upd_src_ref_tag = source->reference;
        r->dif_upd_src_app_tag_mask = source->mask;
        r->dif_upd_src_app_tag = source->app;
    }
    if (operation == DSA_OPCODE_DIF_INS || operation == DSA_OPCODE_DIF_UPDT) {
        r->dif_upd_dest_ref_tag = destination->reference;
        r->dif_upd_dest_app_tag_mask = destination->mask;
        r->dif_upd_dest_app_tag = destination->app;
    }
    atomic_signal_fence(memory_order_seq_cst); /* the next access may end the operation */
}

/// Check, insert, strip or update, block by block.
uint8_t dif_run(const descriptor *d, completion *r, volatile uint32_t *done)
{
    static const unsigned blocks[4] = {512, 520, 4096, 4104};
    const uint8_t flags = d->dif_upd_flags;
    const unsigned block = blocks[flags & BLOCK_SIZE];
    const bool is_insert = d->opcode == DSA_OPCODE_DIF_INS, is_update = d->opcode == DSA_OPCODE_DIF_UPDT;
    const unsigned from = is_insert ? block : block + FIELD;
    const unsigned to = d->opcode == DSA_OPCODE_DIF_STRP ? block : block + FIELD;
    struct tags old = source_tags(d), new = destination_tags(d);
    const uint8_t *source = (const uint8_t *)d->src_addr;
    uint8_t *target = (uint8_t *)d->dst_addr;
    if (d->xfer_size % from)
        return DSA_COMP_XFER_ERANGE;
    note_tags(r, d->opcode, &old, &new);
    for (; *done < d->xfer_size; source += from, target += to, *done += from) {
        r->dif_status = is_insert ? 0 : check(source, block, flags, &old);
        if (r->dif_status) {
            r->bytes_completed = *done;
            return DSA_COMP_DIF_ERR;
        }
        if (d->opcode != DSA_OPCODE_DIF_CHECK)
            memmove(target, source, block); /* they may overlap */
        if (d->opcode != DSA_OPCODE_DIF_CHECK && to > block)
            put_field(target + block, guard_of(source, block, flags), &new, is_update ? source + block : NULL);
        next_block(&old);
        next_block(&new);
        note_tags(r, d->opcode, &old, &new);
    }
    return DSA_COMP_SUCCESS;
}
