/* The device in software: does one entry as that of dsa_trace does with --order fifo, by the same files of trace
 * (device.c, valid.c, crc.c, dif.c). A page that is missing is the program's fault, as it is of memcpy. */
#include "operations.h"
#include "queue.h"

/// Writes a record as the device does, the status last.
static void put_record(const descriptor *d, const completion *record)
{
    uint8_t *to = (uint8_t *)(uintptr_t)d->completion_addr;
    if (!valid_has_record(d, record->status) || valid_is_misplaced(d))
        return;
    memcpy(to + 1, (const uint8_t *)record + 1, sizeof *record - 1);
    __atomic_store_n(to, record->status, __ATOMIC_RELEASE);
}

/// Does a lone descriptor, or a member of a batch; answers its status.
static uint8_t do_one(const descriptor *d, const struct limits *limits, bool is_member)
{
    completion record;
    struct work work = {d, &record, d->xfer_size, 0};
    uint32_t bad = 0;
    memset(&record, 0, sizeof record);
    record.status = valid_descriptor(d, limits, is_member, &bad);
    if (record.status == DSA_COMP_SUCCESS)
        record.status = device_do(&work);
    else
        record.invalid_flags = bad & 0xffffff;
    put_record(d, &record);
    return record.status;
}

/// Does the members of a batch in order, up to a fence after one that has failed; answers how many.
static uint32_t do_members(const descriptor *batch, const struct limits *limits, bool *has_failed)
{
    const descriptor *members = (const descriptor *)(uintptr_t)batch->desc_list_addr;
    for (uint32_t i = 0; i < batch->desc_count; i++) {
        if (*has_failed && members[i].flags & IDXD_OP_FLAG_FENCE)
            return i;
        if (do_one(&members[i], limits, true) != DSA_COMP_SUCCESS)
            *has_failed = true;
    }
    return batch->desc_count;
}

void software_do(const uint8_t *entry, const struct dsa_settings *settings)
{
    const struct limits limits = {true, (uint32_t)settings->greatest_batch, settings->greatest_transfer};
    const descriptor *d = (const descriptor *)(const void *)entry;
    completion record;
    uint32_t bad = 0;
    bool has_failed = false;
    if (d->opcode != DSA_OPCODE_BATCH) {
        do_one(d, &limits, false);
        return;
    }
    memset(&record, 0, sizeof record);
    record.status = valid_descriptor(d, &limits, false, &bad);
    record.invalid_flags = bad & 0xffffff;
    if (record.status == DSA_COMP_SUCCESS) {
        record.bytes_completed = do_members(d, &limits, &has_failed);
        record.status = has_failed ? DSA_COMP_BATCH_FAIL : DSA_COMP_SUCCESS;
    }
    put_record(d, &record);
}
