/* One descriptor, from what the device refuses of it to its completion record; and the members of a batch. */
#include <stdio.h>
#include <string.h>

#include "order.h"

enum { PAGE = 4096 };

/// Copies the members of a batch as they are now; answers the status of the batch.
uint8_t execute_take(struct submission *s, completion *r)
{
    uint32_t bad = 0;
    struct fault fault;
    memset(r, 0, sizeof *r);
    r->status = valid_descriptor(&s->entry, &s->queue->limits, false, &bad);
    r->invalid_flags = bad;
    if (r->status != DSA_COMP_SUCCESS)
        return r->status;
    if (!memory_copy(s->members, (const void *)s->entry.desc_list_addr, sizeof(descriptor) * s->entry.desc_count,
                     &fault)) {
        r->fault_addr = fault.address & -4096ull;
        return r->status = DSA_COMP_BATCH_PAGE_FAULT;
    }
    s->count = s->entry.desc_count;
    return DSA_COMP_SUCCESS;
}

/// Reads a member of a batch once more, as the device does when it comes to it: what is there now is done. False, with
/// the record of the batch, if it can't be read any more.
bool execute_fetch(struct submission *s, unsigned index, completion *r)
{
    descriptor now, *member = &s->members[index];
    struct fault fault;
    const bool is_read = memory_copy(&now, (const descriptor *)s->entry.desc_list_addr + index, sizeof now, &fault);
    if (is_read && memcmp(&now, member, sizeof now) == 0)
        return true;
    record_error(is_read ? 'L' : 'U', s->number, index, s->entry.desc_list_addr + sizeof now * index);
    if (is_read) {
        records_leave(member);
        *member = now;
        records_enter(s, index, member);
        return true;
    }
    *r = (completion){.status = DSA_COMP_BATCH_PAGE_FAULT, .fault_addr = fault.address & -4096ull};
    return false;
}

/// Says why a descriptor is refused, the first times.
static void say_refused(const struct submission *s, unsigned index, uint8_t status, uint32_t flags)
{
    enum { MOST = 20 };
    static unsigned said;
    char which[32] = "", what[32] = "";
    if (said++ >= MOST)
        return;
    if (s->is_batch)
        snprintf(which, sizeof which, "member %u of ", index);
    if (flags)
        snprintf(what, sizeof what, ", flags %#x", flags);
    say("%ssubmission %lu, operation %#x, is refused with status %#x (%s%s)%s", which, s->number,
        s->members[index].opcode, status, valid_name(status), what, said == MOST ? "; more are not said" : "");
}

/// For --fault: how much of a move without block-on-fault is done before a page of its source is missing.
static uint32_t size_to_do(const descriptor *d, uint64_t draw)
{
    const uint64_t start = device_is_from_end(d) ? -(d->src_addr + d->xfer_size) : d->src_addr;
    const uint32_t first = PAGE - start % PAGE;
    const bool may_stop = d->opcode == DSA_OPCODE_MEMMOVE && !(d->flags & IDXD_OP_FLAG_BOF) && d->xfer_size > first;
    if (!settings.fault || !may_stop || draw % settings.fault)
        return d->xfer_size;
    const uint32_t pages = (d->xfer_size - first - 1) / PAGE + 1;
    return first + PAGE * (draw / settings.fault % pages);
}

/// Does one operation and fills its record; a page that is missing ends it as a page fault. `draw` is for --fault.
void execute_operation(const descriptor *d, completion *r, uint64_t draw)
{
    struct work w = {d, r, size_to_do(d, draw), 0};
    memset(r, 0, sizeof *r);
    const uint8_t page_fault = d->flags & IDXD_OP_FLAG_BOF ? DSA_COMP_PAGE_FAULT_IR : DSA_COMP_PAGE_FAULT_NOBOF;
    if (sigsetjmp(guard.escape, 0)) {
        r->fault_addr = guard.fault.address & -(uint64_t)PAGE;
        r->bytes_completed = w.done;
        r->result = device_is_from_end(d);
        r->status = page_fault | (guard.fault.is_write ? DSA_COMP_STATUS_WRITE : 0);
        return;
    }
    guard.is_set = 1;
    r->status = device_do(&w);
    guard.is_set = 0;
    if (w.size < d->xfer_size && r->status == DSA_COMP_SUCCESS) {
        r->fault_addr = device_is_from_end(d) ? d->src_addr + d->xfer_size - w.size - PAGE : d->src_addr + w.size;
        r->bytes_completed = w.size;
        r->result = device_is_from_end(d);
        r->status = page_fault;
    }
}

/// Does a member of a batch, or the lone descriptor, and fills its record.
void execute(const struct submission *s, unsigned index, completion *r)
{
    const descriptor *d = &s->members[index];
    uint32_t bad = 0;
    memset(r, 0, sizeof *r);
    r->status = valid_descriptor(d, &s->queue->limits, s->is_batch, &bad);
    if (r->status == DSA_COMP_SUCCESS) {
        execute_operation(d, r, random_at(settings.seed, s->number << 11 | index));
        return;
    }
    r->invalid_flags = bad;
    say_refused(s, index, r->status, bad);
}

/// Writes a record as the device does, the status last; answers whether it was written.
static bool publish(uint64_t address, const completion *r)
{
    uint8_t *to = (uint8_t *)address;
    if (memory_copy(to + 1, (const uint8_t *)r + 1, sizeof *r - 1, NULL) && memory_copy(to, r, 1, NULL))
        return true;
    say("the completion record at %#lx can't be written, so the completion is lost", (unsigned long)address);
    return false;
}

/// Writes the record of a submission or of a member, if it has one. Answers whether it was written.
bool execute_record(const struct submission *s, int member, const completion *r)
{
    const descriptor *d = member < 0 ? &s->entry : &s->members[member];
    if (!valid_has_record(d, r->status))
        return false;
    if (!valid_is_misplaced(d)) {
        records_check(s, member, d);
        records_write(d, r);
        return publish(d->completion_addr, r);
    }
    say("the completion record at %#lx is at no multiple of 32, so the device does nothing and writes none",
        (unsigned long)d->completion_addr);
    return false;
}
