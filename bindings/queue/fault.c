/* What a list does after an entry that has failed: pages that are absent are made present, and what is left is planned
 * again, without what a failed check stops. */
#include <sys/mman.h>

#include "queue.h"

#ifndef MADV_POPULATE_READ
enum { MADV_POPULATE_READ = 22, MADV_POPULATE_WRITE = 23 };
#endif

/// Makes the pages of a range present; the kernel says if that can't be, and the program does not die.
static bool populate(uint64_t first, uint64_t end, bool is_write)
{
    void *at = (void *)(uintptr_t)first;
    return madvise(at, end - first, is_write ? MADV_POPULATE_WRITE : MADV_POPULATE_READ) == 0;
}

/// The end of the operand in which an operation has met a page fault; the end of the page if it is in none.
static uint64_t end_of_operand(const uint8_t *d, uint64_t page)
{
    struct operand operands[3];
    uint64_t end = page + PAGE;
    for (uint32_t k = operands_of(d, operands); k > 0; k--) {
        const uint64_t first = operands[k - 1].first, after = first + operands[k - 1].len;
        if (first < page + PAGE && page < after && end < after)
            end = after;
    }
    return end;
}

/// Makes what is left of the operand present, or at least the page that was absent: there may be a gap after it.
static bool mend(const uint8_t *d, const uint8_t *record)
{
    const uint64_t page = number_at(record + 8, 8) / PAGE * PAGE;
    const bool is_write = record[0] & IS_WRITE;
    return populate(page, end_of_operand(d, page), is_write) || populate(page, page + PAGE, is_write);
}

/// Whether the list can go on after what this record says.
static bool can_go_on(struct dsa_list *list, const uint8_t *d, const uint8_t *record)
{
    const uint8_t status = status_of(record);
    if (status == STATUS_CHECK)
        list->has_failed_check = true;
    if (status <= STATUS_CHECK)
        return true;
    const bool is_page_fault = status == STATUS_FAULT || status == STATUS_FAULT_BLOCKED;
    return is_page_fault && !(list->queue->flags & DSA_QUEUE_KEEP_FAULTS) && mend(d, record);
}

/// Whether the pieces of a move run from its end, as those of one to a higher address within its own range do.
static bool is_from_end(const uint8_t *d)
{
    const uint64_t source = number_at(d + 16, 8), target = number_at(d + 24, 8);
    return d[7] == OPCODE_MOVE && target > source && target - source < number_at(d + 32, 4);
}

/// Looks at the record of each piece that was left, and gathers them in the order in which the pieces run. All are
/// looked at, so that a check that has failed is known.
static bool can_all_go_on(struct dsa_list *list, uint64_t *len)
{
    list->stopped_at = NULL;
    *len = 0;
    for (uint64_t at = 0; at < list->left_len; at += ENTRY) {
        const uint8_t *d = list->left + at;
        const uint64_t count = pieces_of(list->queue, d);
        for (uint64_t k = 0; k < count; k++, *len += RECORD) {
            const uint8_t *record = record_of(d) + RECORD * (is_from_end(d) ? count - 1 - k : k);
            memcpy(list->gathered + *len, record, RECORD);
            if (!can_go_on(list, d, record) && !list->stopped_at)
                list->stopped_at = record;
        }
    }
    return !list->stopped_at;
}

/// A move goes on where it has stopped. One within its own range has to: it has overwritten a part of its source.
static void shorten(uint8_t *d, const uint8_t *record)
{
    const uint64_t size = number_at(d + 32, 4), done = number_at(record + 4, 4);
    if (d[7] != OPCODE_MOVE || record[0] <= STATUS_CHECK || done >= size)
        return;
    dsa_put_number(d + 32, size - done, 4);
    if (record[1] == 0) { /* else it goes from its end */
        dsa_put_number(d + 16, number_at(d + 16, 8) + done, 8);
        dsa_put_number(d + 24, number_at(d + 24, 8) + done, 8);
    }
}

/// Whether the batch that has failed says no more than that a member has, or that its list was absent.
static bool is_batch_well(struct dsa_list *list)
{
    const uint8_t *entry = list->portal + ENTRY * list->entry, status = status_of(record_of(entry));
    const uint64_t first = address_of(list->staging), end = first + DSA_STAGING_AREA(list->queue->most);
    if (entry[7] != OPCODE_BATCH || status == STATUS_BATCH)
        return true;
    if (status == STATUS_BATCH_FAULT && populate(first / PAGE * PAGE, end, true))
        return true;
    list->reason = BATCH;
    return false;
}

/// Shortens what is left, and answers whether there is less of it than before, or was not only a few times.
static bool has_progress(struct dsa_list *list, uint64_t len)
{
    enum { MOST = 64 };
    uint64_t bytes = 0;
    for (uint64_t at = 0; at < len; at += ENTRY) {
        shorten(list->rest + at, record_of(list->rest + at));
        bytes += number_at(list->rest + at + 32, 4);
    }
    list->fruitless = bytes < list->left_bytes ? 0 : list->fruitless + 1;
    list->left_bytes = bytes;
    return list->fruitless < MOST;
}

/// Before the first failure all operations are left.
static void begin(struct dsa_list *list)
{
    list->left_len = ENTRY * (uint64_t)list->operations;
    memcpy(list->left, list->list, list->left_len);
    list->left_bytes = UINT64_MAX;
    list->fruitless = 0;
    list->is_resumed = true;
}

bool fault_resume(struct dsa_list *list)
{
    const struct dsa_queue *queue = list->queue;
    struct dsa_settings settings = queue->settings;
    struct dsa_resumed resumed;
    uint64_t len;
    if (!list->is_resumed)
        begin(list);
    list->is_planned = false;
    if (!is_batch_well(list) || !can_all_go_on(list, &len))
        return false;
    settings.staging = address_of(list->staging);
    list->reason = NOT_RESUMED;
    if (dsa_resume(&settings, &settings.batch, 0, list->left, list->left_len, list->gathered, len, list->gathered, 0, 0,
                   list->rest, DSA_PORTAL_ROOM(queue->most), &resumed, &list->refusal))
        return false;
    if (!has_progress(list, resumed.rest_len)) {
        list->reason = NO_PROGRESS;
        return false;
    }
    list->left_len = resumed.rest_len;
    memcpy(list->left, list->rest, list->left_len);
    for (uint64_t at = 0; at < list->left_len; at += ENTRY)
        memset(record_of(list->left + at), 0, RECORD);
    list->entries = list->entry = 0;
    return list->left_len == 0 || run_plan(list, list->left, list->left_len);
}
