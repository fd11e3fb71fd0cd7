/* Runs a list: plans it, and submits the entries of its plan one after another. */
#include "queue.h"

bool run_plan(struct dsa_list *list, const uint8_t *operations, uint64_t len)
{
    const struct dsa_queue *queue = list->queue;
    struct dsa_settings settings = queue->settings;
    struct dsa_planned planned;
    settings.staging = address_of(list->staging);
    if (dsa_plan_list(&settings, &settings.batch, 0, operations, len, list->portal, DSA_PORTAL_ROOM(queue->most),
                      list->staging, DSA_STAGING_AREA(queue->most), &planned, &list->refusal))
        return false;
    list->entries = (uint32_t)(planned.portal_len / ENTRY);
    list->entry = 0;
    return true;
}

/// Makes the list ready for its first entry. A plan is used again if nothing was added since: then the records of its
/// batches are cleared, as planning clears them else.
static bool prepare(struct dsa_list *list)
{
    memset(list->records, 0, RECORD * (size_t)list->pieces);
    list->has_failed_check = list->is_resumed = false;
    list->stopped_at = NULL;
    list->entry = 0;
    list->port = NULL;
    if (!list->is_planned)
        return list->is_planned =
                   prepared_fill(list) || run_plan(list, list->list, ENTRY * (uint64_t)list->operations);
    for (uint32_t i = 0; i < list->entries; i++)
        if (list->portal[ENTRY * i + 7] == OPCODE_BATCH)
            memset(record_of(list->portal + ENTRY * i), 0, RECORD);
    return true;
}

/// Why the list can't be run now.
static enum reason hindrance(struct dsa_list *list)
{
    if (!room_is_own(list->queue))
        return FORKED;
    if (room_is_lost(list))
        return WITH_DEVICE;
    if (list->trouble)
        return list->trouble;
    if (list->misplaced)
        return list->misplaced;
    return list->operations ? NO_REASON : EMPTY;
}

enum reason run_hindered(enum answer answer) { return answer == UNWRITTEN ? NOT_WRITTEN : NOT_ACCEPTED; }

/// Submits the entries that are left, as long as each ends with status 1. False, with the reason, if one does not.
static bool submit(struct dsa_list *list)
{
    for (; list->entry < list->entries; list->entry++) {
        uint8_t status = 0;
        const enum answer answer = portal_do(list, list->portal + ENTRY * list->entry, &status);
        if (answer == ANSWERED && status == STATUS_SUCCESS)
            continue;
        list->reason = answer == ANSWERED ? OPERATION : answer == SILENT ? NOT_ANSWERED : run_hindered(answer);
        list->is_lost = answer == SILENT;
        return false;
    }
    return true;
}

enum reason run_begin(struct dsa_list *list)
{
    const enum reason why = hindrance(list);
    return !why && !prepare(list) ? UNPLANNED : why;
}

/// Lists that may be in flight together are ordered, so this one is, too.
enum dsa_end dsa_list_run(struct dsa_list *list)
{
    if (list->queue->tracker) {
        const enum dsa_end how = dsa_list_start(list);
        return how == DSA_LIST_RUNNING ? dsa_list_wait(list) : how;
    }
    list->reason = run_begin(list);
    if (list->reason)
        return list->end = DSA_LIST_REFUSED;
    while (!submit(list)) {
        if (list->is_lost)
            return list->end = DSA_LIST_LOST;
        if (list->reason != OPERATION || !fault_resume(list))
            return list->end = DSA_LIST_FAILED;
    }
    list->reason = list->has_failed_check ? OPERATION : NO_REASON;
    return list->end = list->has_failed_check ? DSA_LIST_FAILED : DSA_LIST_DONE;
}
