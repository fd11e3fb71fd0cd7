/* What the device refuses before it does anything, with the statuses of linux/idxd.h. Only what is certain is refused:
 * a flag or a byte whose meaning depends on the device's version is let pass. */
#include <string.h>

#include "operations.h"

enum { RESERVED_FLAG = 0x40, CRC_FLAGS = 0x070000, SPECIFIC_FLAGS = 0xff0000, DELTA_MOST = 0x80000 };

static bool has_size(const descriptor *d)
{
    return d->opcode != DSA_OPCODE_NOOP && d->opcode != DSA_OPCODE_DRAIN && d->opcode != DSA_OPCODE_BATCH;
}

static bool is_crc(const descriptor *d) { return d->opcode == DSA_OPCODE_CRCGEN || d->opcode == DSA_OPCODE_COPY_CRC; }

static bool may_check(const descriptor *d)
{
    return d->opcode == DSA_OPCODE_COMPARE || d->opcode == DSA_OPCODE_COMPVAL || d->opcode == DSA_OPCODE_CR_DELTA;
}

static bool is_known(const descriptor *d)
{
    return d->opcode <= DSA_OPCODE_DUALCAST || d->opcode == DSA_OPCODE_CFLUSH ||
           (d->opcode >= DSA_OPCODE_CRCGEN && d->opcode <= DSA_OPCODE_DIF_UPDT);
}

/// The flags that may not be set: reserved ones, check result of what has no result, block-on-fault if the queue has it
/// off, and a record that is requested but has no valid address.
static uint32_t invalid_flags(const descriptor *d, const struct limits *limits)
{
    uint32_t bad = d->flags & (RESERVED_FLAG | SPECIFIC_FLAGS);
    if (is_crc(d))
        bad &= ~CRC_FLAGS;
    if (!may_check(d))
        bad |= d->flags & IDXD_OP_FLAG_CR;
    if (!limits->may_block)
        bad |= d->flags & IDXD_OP_FLAG_BOF;
    if (!(d->flags & IDXD_OP_FLAG_CRAV))
        bad |= d->flags & IDXD_OP_FLAG_RCR;
    return bad;
}

/// Whether bytes that the operation does not use are zero: 38 and 39, and those after the last of its own from 40 on.
static bool reserved_is_zero(const descriptor *d)
{
    static const uint8_t zero[24];
    size_t used = sizeof zero;
    if (d->opcode == DSA_OPCODE_MEMMOVE || d->opcode == DSA_OPCODE_MEMFILL || d->opcode == DSA_OPCODE_BATCH)
        used = 0;
    else if (d->opcode == DSA_OPCODE_AP_DELTA)
        used = 4;
    else if (d->opcode == DSA_OPCODE_DUALCAST)
        used = 8;
    return d->rsvd == 0 && d->rsvd1 == 0 && memcmp(d->op_specific + used, zero, sizeof zero - used) == 0;
}

static bool overlap(uint64_t one, uint64_t other, uint64_t size) { return one - other < size || other - one < size; }

/// Sizes and places of deltas, whose words have 8 bytes and whose entries have 10.
static uint8_t valid_delta(const descriptor *d)
{
    const uint64_t aligned = d->opcode == DSA_OPCODE_CR_DELTA ? d->src_addr | d->dst_addr | d->delta_addr : d->dst_addr;
    if (aligned % 8)
        return DSA_COMP_ADDR_ALIGN;
    if (d->xfer_size % 8 || d->xfer_size > DELTA_MOST)
        return DSA_COMP_XFER_ERANGE;
    if (d->opcode == DSA_OPCODE_CR_DELTA)
        return d->max_delta_size % 10 || d->max_delta_size < 80 ? DSA_COMP_DR_ERANGE : DSA_COMP_SUCCESS;
    return d->delta_rec_size % 10 ? DSA_COMP_DR_ERANGE : DSA_COMP_SUCCESS;
}

/// What single operations ask of their addresses.
static uint8_t valid_operation(const descriptor *d)
{
    const uint64_t size = d->xfer_size;
    switch (d->opcode) {
    case DSA_OPCODE_DUALCAST:
        if ((d->dst_addr ^ d->dest2) & 0xfff)
            return DSA_COMP_DCAST_ERR;
        return overlap(d->dst_addr, d->dest2, size) || overlap(d->src_addr, d->dst_addr, size) ||
                       overlap(d->src_addr, d->dest2, size)
                   ? DSA_COMP_OVERLAP_BUFFERS
                   : DSA_COMP_SUCCESS;
    case DSA_OPCODE_COPY_CRC:
        return overlap(d->src_addr, d->dst_addr, size) ? DSA_COMP_OVERLAP_BUFFERS : DSA_COMP_SUCCESS;
    case DSA_OPCODE_CR_DELTA:
    case DSA_OPCODE_AP_DELTA:
        return valid_delta(d);
    default:
        return DSA_COMP_SUCCESS;
    }
}

/// Whether the record of a descriptor is at a place where none can be written.
bool valid_is_misplaced(const descriptor *d)
{
    return d->flags & IDXD_OP_FLAG_CRAV && d->completion_addr % sizeof(completion);
}

/// Whether the device writes a record with this status: one that is not requested is written on failures alone.
bool valid_has_record(const descriptor *d, uint8_t status)
{
    return d->flags & IDXD_OP_FLAG_CRAV && (d->flags & IDXD_OP_FLAG_RCR || status != DSA_COMP_SUCCESS);
}

/// The first of the causes for which the device refuses a descriptor, or success.
uint8_t valid_descriptor(const descriptor *d, const struct limits *limits, bool is_member, uint32_t *bad)
{
    const bool is_batch = d->opcode == DSA_OPCODE_BATCH;
    if (valid_is_misplaced(d))
        return DSA_COMP_CRA_ALIGN;
    if (!is_known(d) || (is_member && (is_batch || d->opcode == DSA_OPCODE_DRAIN)))
        return DSA_COMP_BAD_OPCODE;
    *bad = invalid_flags(d, limits);
    if (*bad)
        return DSA_COMP_INVALID_FLAGS;
    if (!reserved_is_zero(d))
        return DSA_COMP_NOZERO_RESERVE;
    if (d->flags & IDXD_OP_FLAG_RCI) /* the driver lets interrupts be asked for by the kernel's own queues alone */
        return DSA_COMP_INT_HANDLE_INVAL;
    if (is_batch && (d->desc_count < 2 || d->desc_count > limits->greatest_batch))
        return DSA_COMP_DESC_CNT_ERANGE;
    if (is_batch && d->desc_list_addr % sizeof *d)
        return DSA_COMP_DESCLIST_ALIGN;
    if (has_size(d) && (d->xfer_size == 0 || d->xfer_size > limits->greatest_transfer))
        return DSA_COMP_XFER_ERANGE;
    return valid_operation(d);
}

/// What a status means for which a descriptor is refused.
const char *valid_name(uint8_t status)
{
    static const char *const names[] = {
        "operation code", "invalid flags", "reserved bits or bytes", "transfer size", "number of descriptors",
        "size of the delta record", "overlapping buffers", "bits 0 to 11 of a dualcast differ", "address of the list",
        "interrupt handle", "record can't be reached", "address of the record", "alignment of an address",
    };
    const unsigned at = status - DSA_COMP_BAD_OPCODE;
    if (status == DSA_COMP_BATCH_PAGE_FAULT)
        return "its list can't be read";
    return at < sizeof names / sizeof *names ? names[at] : "unknown";
}
