/* What the device does with one descriptor, in software. It touches memory by memcpy and memmove, so that valgrind and
 * sanitizers see what the device does to memory that is freed. */
#include <string.h>

#include "operations.h"

enum { PAGE = 4096, DELTA_ENTRY = 10, WORD = 8 };
enum { TIMES = 64 }; /* so often is a pattern written down, and no more, since there may be little stack */
/* Flags of a checksum, as in Intel's specification 341204: the seed is read from memory; the checksum is neither
 * inverted nor reflected; the data is not reflected. */
enum { SEED_IS_READ = 0x10000, PLAIN_CHECKSUM = 0x20000, PLAIN_DATA = 0x40000 };

static size_t least(size_t one, size_t other) { return one < other ? one : other; }

/// How many bytes the two addresses have in common before one of them gets to the next page; of negative ones those
/// before them, as far as the page before.
static size_t within_pages(uint64_t one, uint64_t other, size_t left)
{
    return least(least(PAGE - one % PAGE, PAGE - other % PAGE), left);
}

/// Reads a byte of a page, and writes it again, so that a page that is missing is found where the C library would touch
/// nothing: in a move onto itself, and in a flush.
static void touch(const uint8_t *at, bool writes)
{
    const volatile uint8_t byte = *(const volatile uint8_t *)at;
    if (writes)
        *(volatile uint8_t *)at = byte;
}

/// Whether a move goes from its end, as one to a higher address within its own range, which else overwrites what it has
/// to read. If it stops, the result is 1, and the last bytes are done.
bool device_is_from_end(const descriptor *d)
{
    return d->opcode == DSA_OPCODE_MEMMOVE && d->dst_addr > d->src_addr && d->dst_addr - d->src_addr < d->xfer_size;
}

static uint8_t move(struct work *w)
{
    const descriptor *d = w->d;
    uint8_t *to = (uint8_t *)d->dst_addr, *second = (uint8_t *)d->dest2;
    const uint8_t *from = (const uint8_t *)d->src_addr;
    const bool is_backward = device_is_from_end(d);
    for (size_t n; w->done < w->size; w->done += n) {
        size_t at = is_backward ? d->xfer_size - w->done : w->done;
        const uint64_t source = d->src_addr + at, target = d->dst_addr + at;
        n = within_pages(is_backward ? -source : source, is_backward ? -target : target, w->size - w->done);
        at -= is_backward ? n : 0;
        touch(from + at, to == from);
        memmove(to + at, from + at, n);
        if (d->opcode == DSA_OPCODE_DUALCAST)
            memcpy(second + at, from + at, n);
    }
    return DSA_COMP_SUCCESS;
}

static uint8_t fill(struct work *w)
{
    uint64_t pattern[TIMES];
    uint8_t *to = (uint8_t *)w->d->dst_addr;
    for (int i = 0; i < TIMES; i++)
        pattern[i] = w->d->pattern;
    for (size_t n; w->done < w->size; w->done += n) {
        n = least(within_pages(w->d->dst_addr + w->done, 0, w->size - w->done), sizeof pattern - WORD);
        memcpy(to + w->done, (const uint8_t *)pattern + w->done % WORD, n);
    }
    return DSA_COMP_SUCCESS;
}

/// Caches are as if they were always flushed.
static uint8_t flush(struct work *w)
{
    const uint64_t start = w->d->dst_addr;
    for (; w->done < w->size; w->done += within_pages(start + w->done, 0, w->size - w->done))
        touch((const uint8_t *)start + w->done, false);
    return DSA_COMP_SUCCESS;
}

/// The offset of the first byte at which `one` differs from what is compared with it; else the size. `other` is a
/// region, or, for a pattern, so many of it over and over.
static uint32_t first_difference(struct work *w, const uint8_t *one, const uint8_t *other, bool is_pattern)
{
    for (size_t n; w->done < w->size; w->done += n) {
        const uint8_t *second = is_pattern ? other + w->done % WORD : other + w->done;
        n = within_pages((uint64_t)one + w->done, is_pattern ? 0 : (uint64_t)second, w->size - w->done);
        n = least(n, (TIMES - 1) * WORD);
        if (memcmp(one + w->done, second, n) == 0)
            continue;
        for (; n-- && one[w->done] == *second; second++) /* the program may write there meanwhile */
            w->done++;
        break;
    }
    return w->done;
}

static uint8_t compare(struct work *w)
{
    const descriptor *d = w->d;
    const bool is_pattern = d->opcode == DSA_OPCODE_COMPVAL;
    uint64_t pattern[TIMES];
    for (int i = 0; i < TIMES; i++)
        pattern[i] = d->comp_pattern;
    const uint8_t *other = is_pattern ? (const uint8_t *)pattern : (const uint8_t *)d->src2_addr;
    const uint32_t at = first_difference(w, (const uint8_t *)d->src_addr, other, is_pattern);
    w->r->result = at < w->size;
    w->r->bytes_completed = at < w->size ? at : 0;
    return d->flags & IDXD_OP_FLAG_CR && d->expected_res != w->r->result ? DSA_COMP_SUCCESS_PRED : DSA_COMP_SUCCESS;
}

static uint8_t create_delta(struct work *w)
{
    enum { EQUAL, DIFFERENT, TOO_LONG };
    const descriptor *d = w->d;
    const uint8_t *one = (const uint8_t *)d->src_addr, *other = (const uint8_t *)d->src2_addr;
    uint8_t *to = (uint8_t *)d->delta_addr;
    uint32_t used = 0;
    for (; w->done < w->size && w->r->result != TOO_LONG; w->done += WORD) {
        const uint16_t at = w->done / WORD;
        if (memcmp(one + w->done, other + w->done, WORD) == 0)
            continue;
        w->r->result = used + DELTA_ENTRY > d->max_delta_size ? TOO_LONG : DIFFERENT;
        if (w->r->result == TOO_LONG)
            break;
        memcpy(to + used, &at, sizeof at);
        memmove(to + used + sizeof at, other + w->done, WORD); /* the record may lie over the data */
        used += DELTA_ENTRY;
        w->r->delta_rec_size = used;
    }
    w->r->bytes_completed = w->r->result == TOO_LONG ? w->done : 0;
    const bool is_expected = d->expected_res_mask >> w->r->result & 1;
    return d->flags & IDXD_OP_FLAG_CR && !is_expected ? DSA_COMP_SUCCESS_PRED : DSA_COMP_SUCCESS;
}

/// All offsets are looked at before a byte is written, so a record with a wrong one changes nothing; and once more as
/// they are used, since the program may write there meanwhile.
static uint8_t apply_delta(struct work *w)
{
    const descriptor *d = w->d;
    const uint8_t *start = (const uint8_t *)d->src_addr;
    uint8_t *to = (uint8_t *)d->dst_addr;
    uint16_t at;
    for (int is_used = 0; is_used < 2; is_used++) {
        int last = -1;
        for (const uint8_t *entry = start; entry < start + d->delta_rec_size; entry += DELTA_ENTRY, last = at) {
            memcpy(&at, entry, sizeof at);
            if (at <= last)
                return DSA_COMP_DR_OFFSET_NOINC;
            if ((uint32_t)WORD * at + WORD > w->size)
                return DSA_COMP_DR_OFFSET_ERANGE;
            if (is_used)
                memmove(to + WORD * at, entry + sizeof at, WORD);
        }
    }
    return DSA_COMP_SUCCESS;
}

/// The checksum, and the copy of what it is of. The record has that of the bytes that are done: the seed of those that
/// are left, if a page is missing.
static uint8_t checksum(struct work *w)
{
    const descriptor *d = w->d;
    const uint8_t *from = (const uint8_t *)d->src_addr;
    uint8_t *to = (uint8_t *)d->dst_addr;
    const bool is_plain = d->flags & PLAIN_CHECKSUM, is_copy = d->opcode == DSA_OPCODE_COPY_CRC;
    uint32_t seed = d->crc_seed;
    if (d->flags & SEED_IS_READ)
        memcpy(&seed, (const void *)d->seed_addr, sizeof seed);
    uint32_t crc = is_plain ? bits_reversed(seed) : ~seed;
    w->r->crc_val = seed;
    for (size_t n; w->done < w->size; w->done += n) {
        n = within_pages(d->src_addr + w->done, is_copy ? d->dst_addr + w->done : 0, w->size - w->done);
        if (is_copy)
            memcpy(to + w->done, from + w->done, n);
        crc = crc32c(crc, from + w->done, n, d->flags & PLAIN_DATA);
        w->r->crc_val = is_plain ? bits_reversed(crc) : ~crc;
    }
    return DSA_COMP_SUCCESS;
}

uint8_t device_do(struct work *w)
{
    switch (w->d->opcode) {
    case DSA_OPCODE_MEMMOVE:
    case DSA_OPCODE_DUALCAST: return move(w);
    case DSA_OPCODE_COPY_CRC:
    case DSA_OPCODE_CRCGEN: return checksum(w);
    case DSA_OPCODE_MEMFILL: return fill(w);
    case DSA_OPCODE_CFLUSH: return flush(w);
    case DSA_OPCODE_COMPARE:
    case DSA_OPCODE_COMPVAL: return compare(w);
    case DSA_OPCODE_CR_DELTA: return create_delta(w);
    case DSA_OPCODE_AP_DELTA: return apply_delta(w);
    case DSA_OPCODE_DIF_CHECK:
    case DSA_OPCODE_DIF_INS:
    case DSA_OPCODE_DIF_STRP:
    case DSA_OPCODE_DIF_UPDT: return dif_run(w->d, w->r, &w->done);
    default: return DSA_COMP_SUCCESS; /* a no-op, a drain */
    }
}
