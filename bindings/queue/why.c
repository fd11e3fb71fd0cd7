/* How a list has ended: the result of each operation, and a sentence that says what happened and what to do. The
 * sentences name no call: they are also those of the crate and the Python module. */
#include <errno.h>
#include <stdarg.h>
#include <stdio.h>

#include "queue.h"

bool why_not(char why[DSA_WHY_ROOM], const char *format, ...)
{
    va_list values;
    va_start(values, format);
    vsnprintf(why, DSA_WHY_ROOM, format, values);
    va_end(values);
    return false;
}

static bool is_page_fault(uint8_t status) { return status == STATUS_FAULT || status == STATUS_FAULT_BLOCKED; }

/// How much a status says of an operation of several pieces: most if a piece has failed for good.
static int weight(uint8_t status)
{
    if (status == STATUS_SUCCESS)
        return 0;
    if (status == 0)
        return 1;
    return is_page_fault(status) ? 2 : 3;
}

/// The same of a record; of page faults that most after which the list could not go on, since others were mended.
static int weight_of(const struct dsa_list *list, const uint8_t *record)
{
    return 2 * weight(status_of(record)) + (record == list->stopped_at);
}

struct dsa_result dsa_list_result(const struct dsa_list *list, int operation)
{
    struct dsa_result result = {0};
    if (operation < 0 || (uint32_t)operation >= list->operations || list->end == DSA_LIST_REFUSED ||
        list->end == DSA_LIST_RUNNING || !room_is_own(list->queue))
        return result;
    const uint8_t opcode = list->list[ENTRY * operation + 7];
    const bool is_compare = opcode == OPCODE_COMPARE || opcode == OPCODE_COMPARE_PATTERN;
    const uint32_t first = list->first[operation], count = list->first[operation + 1] - first;
    const uint8_t *records = list->records + RECORD * (size_t)first, *said = records;
    for (uint32_t i = 0; i < count; i++) {
        const uint8_t *record = records + RECORD * (size_t)i;
        if (weight_of(list, record) > weight_of(list, said))
            said = record;
        if (is_compare && !result.result && record[1] && !is_page_fault(status_of(record))) {
            result.result = 1;
            result.offset = list->queue->settings.greatest_transfer * i + number_at(record + 4, 4);
        }
    }
    result.status = status_of(said);
    if (is_checksum(list->list + ENTRY * operation) && result.status == STATUS_SUCCESS) {
        result.has_checksum = 1;
        result.checksum = (uint32_t)number_at(said + CHECKSUM_AT, 4);
    }
    if (is_page_fault(result.status)) {
        result.is_write = said[0] & IS_WRITE ? 1 : 0;
        result.fault = number_at(said + 8, 8);
    }
    return result;
}

/// Whether the list could not go on after a piece of this operation.
static bool has_stopped(const struct dsa_list *list, int operation)
{
    const uint32_t *first = list->first + operation;
    return list->stopped_at && list->stopped_at >= list->records + RECORD * (size_t)first[0] &&
           list->stopped_at < list->records + RECORD * (size_t)first[1];
}

/// An operation that a page fault has stopped counts only if no other has failed, and of these the one after which the
/// list could not go on: the others may have been left for that.
int dsa_list_failed(const struct dsa_list *list)
{
    int fault = -1;
    for (int i = 0; i < (int)list->operations && list->end == DSA_LIST_FAILED; i++) {
        const uint8_t status = dsa_list_result(list, i).status;
        if (weight(status) == 3)
            return i;
        if (is_page_fault(status) && (fault < 0 || has_stopped(list, i)))
            fault = i;
    }
    return fault;
}

/// The sentence of an operation that has failed.
static void why_failed(const struct dsa_list *list, char why[DSA_WHY_ROOM])
{
    const int failed = dsa_list_failed(list);
    const struct dsa_result r = dsa_list_result(list, failed);
    const unsigned long long at = r.fault;
    if (failed < 0)
        why_not(why, "a batch has failed, and no operation of it: something else writes to the memory of the queue");
    else if (r.status == STATUS_CHECK && r.result)
        why_not(why, "operation %d: the check failed, the first difference is at byte %llu; nothing after the next "
                "barrier was begun", failed, (unsigned long long)r.offset);
    else if (r.status == STATUS_CHECK)
        why_not(why, "operation %d: the check failed, the bytes are equal; nothing after the next barrier was begun",
                failed);
    else if (is_page_fault(r.status) && list->queue->flags & DSA_QUEUE_KEEP_FAULTS)
        why_not(why, "operation %d: page fault at %#llx (%s, status %#x); make the page present, restore what "
                "the list has changed, and run it again",
                failed, at, r.is_write ? "write" : "read", r.status);
    else if (is_page_fault(r.status))
        why_not(why, "operation %d: page fault at %#llx (%s, status %#x): nothing is mapped there, or it is not for "
                "%s; correct the address or the mapping", failed, at, r.is_write ? "write" : "read", r.status,
                r.is_write ? "writing" : "reading");
    else if (r.status == 7 || r.status == 8)
        why_not(why, "operation %d: the offsets of the delta %s (status %d); correct the delta", failed,
                r.status == 7 ? "do not increase" : "are out of range", r.status);
    else
        why_not(why, "operation %d: status %#x, which linux/idxd.h names; correct the operation or the queue's "
                "configuration", failed, r.status);
}

static const char in_child[] = "this process is a child of fork, and the queue is its parent's; open a queue here";

/// The sentence of a list that was refused before anything was begun.
static void why_refused(const struct dsa_list *list, char why[DSA_WHY_ROOM])
{
    const uint32_t i = list->at_fault;
    switch (list->reason) {
    case NO_ROOM:
        why_not(why, "operation %u: a list of this queue has at most %u pieces; open the queue with more", i,
                list->queue->most);
        break;
    case TOO_LONG:
        why_not(why, "operation %u has %llu bytes, and one may have at most 4294967295; use several", i,
                (unsigned long long)list->size_at_fault);
        break;
    case MAY_NOT_OVERLAP:
        why_not(why, "operation %u: its source and its target overlap, and this device can't move that; let the "
                "processor do it", i);
        break;
    case NOT_THERE:
        why_not(why, "there is no operation %d to place, and nothing was placed; place all of the list's %u in order, "
                "from 0, or prepare or clear it", list->at_misplaced, list->operations);
        break;
    case OVERLAPS_NOW:
        why_not(why, "operation %d: its source and its target overlap where it was placed, and this device can't move "
                "that; place it elsewhere", list->at_misplaced);
        break;
    case FORKED:
        why_not(why, in_child);
        break;
    case NOT_TRACKED:
        why_not(why, "the queue was not opened for lists in flight; open it for them, or run the list");
        break;
    case AFTER_FAILED:
        why_not(why, "a list that this one comes after has not succeeded; that one says why, and what to do");
        break;
    case AFTER_LOST:
        why_not(why, "a list that this one has to wait for is lost; use other buffers");
        break;
    case WITH_DEVICE:
        why_not(why, "the device has not answered what was submitted of this list before; use another list");
        break;
    case NO_MEMORY:
        why_not(why, "there is not enough memory to prepare the list; run it as it is");
        break;
    case EMPTY:
        why_not(why, "the list is empty; add an operation");
        break;
    default:
        why_not(why, "the list has not been run since it was changed; run it");
    }
}

/// The sentence of what planning or resuming has refused.
static void why_unplanned(const struct dsa_list *list, char why[DSA_WHY_ROOM])
{
    char text[DSA_REFUSAL_TEXT_ROOM];
    const int len = (int)dsa_refusal_text(&list->refusal, text, sizeof text);
    if (list->reason == NOT_RESUMED)
        why_not(why, "after a failure what is left can't be planned, and was not begun: refused %u: %.*s",
                list->refusal.number, len, text);
    else
        why_not(why, "refused %u: %.*s", list->refusal.number, len, text);
}

/// The sentence of a list whose entry no work queue has accepted in time.
static void why_full(const struct dsa_list *list, char why[DSA_WHY_ROOM])
{
    const struct dsa_queue *queue = list->queue;
    char state[STATE_ROOM];
    if (list->port || queue->ports == 1) {
        const struct port *port = list->port ? list->port : queue->port;
        why_not(why, "%s has not accepted an entry for %u ms, and nothing more was begun; it is %s", port->name,
                queue->wait_ms, driver_state(port, state));
        return;
    }
    why_not(why, "none of %s has accepted an entry for %u ms, and nothing more was begun", queue->name, queue->wait_ms);
    for (uint32_t i = 0; i < queue->ports; i++) {
        const size_t len = strlen(why);
        snprintf(why + len, DSA_WHY_ROOM - len, "%s%s is %s", i ? ", " : "; ", queue->port[i].name,
                 driver_state(&queue->port[i], state));
    }
}

/// The sentence of a list whose entry the kernel has not taken.
static void why_unwritten(const struct dsa_list *list, char why[DSA_WHY_ROOM])
{
    const char *what = "see write(2)";
    if (list->error == EPERM || list->error == EACCES)
        what = "the process is another than the one that has opened it, or a rule of security (seccomp, SELinux) "
               "forbids it: open a queue here, or permit it";
    else if (list->error == ENOMEM)
        what = "the kernel has not enough memory: free some, and run the list again";
    else if (list->error == EINVAL)
        what = "the kernel refuses the descriptor, or takes none by write(): Linux 6.10 or later does";
    why_not(why, "%s: an entry could not be written (%s), and nothing more was begun; %s", list->port->name,
            strerror(list->error), what);
}

char *dsa_list_why(const struct dsa_list *list, char why[DSA_WHY_ROOM])
{
    const struct dsa_queue *queue = list->queue;
    char state[STATE_ROOM];
    if (!room_is_own(queue)) /* it has no records either */
        return why_not(why, in_child), why;
    if (list->end == DSA_LIST_RUNNING)
        return why_not(why, "the list is in flight; wait until it has ended"), why;
    switch (list->reason) {
    case NO_REASON:
        why_not(why, "all operations have succeeded");
        break;
    case UNPLANNED:
    case NOT_RESUMED:
        why_unplanned(list, why);
        break;
    case OPERATION:
        why_failed(list, why);
        break;
    case BATCH:
        why_not(why, "a batch has failed with status %#x, which linux/idxd.h names; correct the queue's configuration",
                status_of(record_of(list->portal + ENTRY * list->entry)));
        break;
    case NO_PROGRESS:
        if (dsa_list_failed(list) < 0)
            why_not(why, "the memory of the queue is absent again each time it was made present; lock it (mlockall)");
        else
            why_not(why, "operation %d: pages are absent again each time they were made present; pin the buffers",
                    dsa_list_failed(list));
        break;
    case NOT_ACCEPTED:
        why_full(list, why);
        break;
    case NOT_WRITTEN:
        why_unwritten(list, why);
        break;
    case NOT_ANSWERED:
        why_not(why, "%s has not answered for %u ms; it is %s; leave the buffers as they are, since the device may "
                "still use them", list->port->name, queue->wait_ms, driver_state(list->port, state));
        break;
    default:
        why_refused(list, why);
    }
    return why;
}
