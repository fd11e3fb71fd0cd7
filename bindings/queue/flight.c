/* Lists in flight: which ones a list waits for (the tracker says, and dsa_list_after), what is submitted next, and how
 * lists end. The threads that call do all of it, under the lock of the queue; what takes long is done outside. */
#include <sched.h>
#include <stdlib.h>

#include "queue.h"

static uint64_t bit_of(const struct dsa_list *list) { return UINT64_C(1) << (list - list->queue->list); }

/// Whether the list was started and has not ended.
static bool has_begun(const struct dsa_list *list) { return list->state != IDLE && list->state != ENDED; }

static void make_ready(struct dsa_list *list)
{
    list->state = READY;
    list->patience = (struct patience){0, 0};
    list->queue->ready |= bit_of(list);
}

/// How a start of a list has ended, to those that come after it, also those that are not started yet: what is done with
/// the list from now on is nothing to them.
static void tell(struct dsa_list *list, enum dsa_end how)
{
    struct dsa_queue *queue = list->queue;
    for (uint32_t i = 0; i < queue->lists; i++) {
        if (!(queue->list[i].after & bit_of(list)))
            continue;
        queue->list[i].after &= ~bit_of(list);
        queue->list[i].is_after_failed |= how != DSA_LIST_DONE;
    }
}

static void forget_after(struct dsa_list *list)
{
    list->after = 0;
    list->is_after_failed = false;
}

static void end(struct dsa_list *list, enum dsa_end how)
{
    list->end = how;
    list->state = ENDED;
    forget_after(list);
    list->queue->ended |= bit_of(list);
    list->queue->rung &= ~bit_of(list);
    list->queue->ready &= ~bit_of(list);
    tell(list, how);
}

/// The calls of a tracker that this file makes in its order are not refused.
static void must(uint32_t number)
{
    if (number != DSA_OK)
        abort();
}

/// Whether a list that waits has to be left out, and why.
static bool is_left_out(struct dsa_list *list)
{
    struct dsa_queue *queue = list->queue;
    struct dsa_refusal refusal;
    uint64_t waits = 0;
    if (list->state != WAITING)
        return false;
    if (queue->lost)
        must(dsa_track_waits(queue->tracker, queue->words, list->slot, &waits, &refusal));
    if (!(waits & queue->lost) && !list->is_after_failed)
        return false;
    list->reason = list->is_after_failed ? AFTER_FAILED : AFTER_LOST;
    return true;
}

/// Leaves out what comes after lists that have not succeeded, what waits for one that is lost, and what comes after
/// that. Answers the slots that are ready now.
static uint64_t leave_out(struct dsa_queue *queue, uint64_t ready)
{
    struct dsa_refusal refusal;
    for (uint32_t i = 0; i < queue->lists; i++) {
        struct dsa_list *list = &queue->list[i];
        uint64_t waited, more;
        if (!is_left_out(list))
            continue;
        must(dsa_track_withdraw(queue->tracker, queue->words, list->slot, &waited, &more, &refusal));
        ready = (ready | more) & ~(UINT64_C(1) << list->slot);
        end(list, DSA_LIST_LEFT_OUT);
        i = UINT32_MAX; /* from the first on again: it may come after this one */
    }
    return ready;
}

/// Ends a list. One that is lost stays with the tracker, so that nothing touches what the device may still touch.
static void finish(struct dsa_list *list, enum dsa_end how)
{
    struct dsa_queue *queue = list->queue;
    struct dsa_refusal refusal;
    uint64_t waited = 0, ready = 0;
    end(list, how);
    if (how == DSA_LIST_LOST)
        queue->lost |= UINT64_C(1) << list->slot;
    else
        must(dsa_track_complete(queue->tracker, queue->words, list->slot, &waited, &ready, &refusal));
    if (how != DSA_LIST_DONE)
        ready = leave_out(queue, ready);
    for (; ready; ready &= ready - 1)
        make_ready(queue->of_slot[__builtin_ctzll(ready)]);
}

/// With the lock: a list that was lost, and that the device has answered since, is not lost any more.
static void recover(struct dsa_list *list)
{
    struct dsa_queue *queue = list->queue;
    struct dsa_refusal refusal;
    uint64_t waited, ready; /* nothing waits for it: that was left out */
    if (!list->is_lost || __atomic_load_n(record_of(list->portal + ENTRY * list->entry), __ATOMIC_ACQUIRE) == 0)
        return;
    list->is_lost = false;
    portal_credit(list);
    if (!queue->tracker)
        return;
    queue->lost &= ~(UINT64_C(1) << list->slot);
    must(dsa_track_complete(queue->tracker, queue->words, list->slot, &waited, &ready, &refusal));
}

void flight_recover(struct dsa_list *list)
{
    pthread_mutex_lock(&list->queue->lock);
    recover(list);
    pthread_mutex_unlock(&list->queue->lock);
}

/// Submits the next entry of a ready list; false if the queue has no room. In software this thread does it.
static bool ring(struct dsa_list *list)
{
    struct dsa_queue *queue = list->queue;
    const uint8_t *entry = list->portal + ENTRY * list->entry;
    const enum answer answer = queue->ports ? portal_submit(list, entry) : ACCEPTED;
    if (answer != ACCEPTED) {
        if (answer == UNWRITTEN || portal_is_over(&list->patience, queue->wait_ms)) {
            list->reason = run_hindered(answer);
            finish(list, DSA_LIST_FAILED);
        }
        return false;
    }
    queue->ready &= ~bit_of(list);
    list->state = RUNG;
    list->patience = (struct patience){0, 0};
    if (!queue->ports) {
        pthread_mutex_unlock(&queue->lock);
        software_do(entry, &queue->settings);
        pthread_mutex_lock(&queue->lock);
    }
    atomic_store_explicit(&list->watched, record_of(entry), memory_order_release);
    queue->rung |= bit_of(list);
    return true;
}

/// Goes on after an entry has ended: with the next one, or with what is left after a failure, which is planned outside
/// the lock.
static void go_on(struct dsa_list *list, uint8_t status)
{
    bool can = true;
    if (status == STATUS_SUCCESS)
        list->entry++;
    else {
        list->reason = OPERATION;
        pthread_mutex_unlock(&list->queue->lock);
        can = fault_resume(list);
        pthread_mutex_lock(&list->queue->lock);
    }
    if (can && list->entry < list->entries) {
        make_ready(list);
        return;
    }
    const bool has_failed = !can || list->has_failed_check;
    list->reason = !can ? list->reason : has_failed ? OPERATION : NO_REASON;
    finish(list, has_failed ? DSA_LIST_FAILED : DSA_LIST_DONE);
}

/// Looks at the record of a list that is rung.
static void look(struct dsa_list *list)
{
    struct dsa_queue *queue = list->queue;
    const uint8_t status = __atomic_load_n(record_of(list->portal + ENTRY * list->entry), __ATOMIC_ACQUIRE);
    if (status == 0 && !portal_is_over(&list->patience, queue->wait_ms))
        return;
    atomic_store_explicit(&list->watched, NULL, memory_order_relaxed);
    queue->rung &= ~bit_of(list);
    if (status == 0) {
        list->is_lost = true;
        list->reason = NOT_ANSWERED;
        finish(list, DSA_LIST_LOST);
        return;
    }
    portal_credit(list);
    go_on(list, status);
}

/// With the lock: moves all lists on. It may leave the lock, so each list is looked at as it is when its turn comes.
static void move_on(struct dsa_queue *queue)
{
    for (uint32_t i = 0; i < queue->lists; i++)
        if (queue->rung & bit_of(&queue->list[i]))
            look(&queue->list[i]);
    for (uint32_t i = 0; i < queue->lists; i++)
        if (queue->ready & bit_of(&queue->list[i]) && !ring(&queue->list[i]) && queue->ports < 2)
            return; /* the one work queue has no room for others either */
}

/// The slots of the lists that this one comes after. False if one of them has not succeeded, or is not started.
static bool slots_before(const struct dsa_list *list, uint64_t *slots)
{
    bool can = !list->is_after_failed;
    for (uint64_t left = list->after; left; left &= left - 1) {
        const struct dsa_list *other = &list->queue->list[__builtin_ctzll(left)];
        *slots |= UINT64_C(1) << other->slot;
        can = can && has_begun(other);
    }
    return can;
}

/// In a child of fork a thread that is not there may have the lock.
static bool can_order(const struct dsa_list *list) { return list->queue->tracker && room_is_own(list->queue); }

/// Whether the list is in flight, or else whether it is lost and no call has said so.
static bool is_in_flight(struct dsa_list *list, bool *is_lost)
{
    pthread_mutex_lock(&list->queue->lock);
    const bool is = has_begun(list);
    *is_lost = list->state == ENDED && list->end == DSA_LIST_LOST;
    pthread_mutex_unlock(&list->queue->lock);
    return is;
}

/// With the lock: takes the list to the tracker.
static enum dsa_end take_in(struct dsa_list *list)
{
    struct dsa_queue *queue = list->queue;
    uint64_t waits = 0, also = 0;
    for (uint64_t left = queue->lost; left; left &= left - 1)
        recover(queue->of_slot[__builtin_ctzll(left)]);
    if (!slots_before(list, &also)) {
        list->reason = AFTER_FAILED;
        end(list, DSA_LIST_LEFT_OUT);
        return DSA_LIST_RUNNING;
    }
    if (dsa_track_list(queue->tracker, queue->words, &queue->settings, &queue->settings.batch, 0, list->list,
                       ENTRY * (uint64_t)list->operations, address_of(list->staging), DSA_STAGING_AREA(list->pieces),
                       also, &list->slot, &waits, &list->refusal)) {
        list->reason = UNPLANNED;
        return list->end = DSA_LIST_REFUSED;
    }
    queue->of_slot[list->slot] = list;
    list->end = DSA_LIST_RUNNING;
    list->state = WAITING;
    if (waits & queue->lost)
        leave_out(queue, 0);
    else if (waits == 0)
        make_ready(list);
    if (queue->ports) /* in software the thread that waits does it */
        move_on(queue);
    return DSA_LIST_RUNNING;
}

enum dsa_end dsa_list_start(struct dsa_list *list)
{
    struct dsa_queue *queue = list->queue;
    bool is_lost = false;
    if (can_order(list) && is_in_flight(list, &is_lost))
        return DSA_LIST_RUNNING;
    if (is_lost)
        return dsa_list_wait(list);
    list->reason = queue->tracker ? run_begin(list) : NOT_TRACKED;
    if (list->reason)
        return list->end = DSA_LIST_REFUSED;
    list->was_started = true;
    pthread_mutex_lock(&queue->lock);
    queue->ended &= ~bit_of(list);
    const enum dsa_end how = take_in(list);
    pthread_mutex_unlock(&queue->lock);
    return how;
}

/// With the lock: takes the list from those that have ended and that no call has answered.
static void answer(struct dsa_list *list)
{
    list->queue->ended &= ~bit_of(list);
    list->state = IDLE;
}

enum dsa_end dsa_list_test(struct dsa_list *list)
{
    struct dsa_queue *queue = list->queue;
    if (!room_is_own(queue))
        return DSA_LIST_REFUSED;
    pthread_mutex_lock(&queue->lock);
    if (has_begun(list))
        move_on(queue);
    if (list->state == ENDED)
        answer(list);
    const enum dsa_end how = list->state == IDLE ? list->end : DSA_LIST_RUNNING;
    pthread_mutex_unlock(&queue->lock);
    return how;
}

enum dsa_end dsa_list_wait(struct dsa_list *list)
{
    enum { LOOKS = 64 };
    for (;;) {
        const enum dsa_end how = dsa_list_test(list);
        if (how != DSA_LIST_RUNNING)
            return how;
        const uint8_t *record = atomic_load_explicit(&list->watched, memory_order_acquire);
        for (int i = 0; record && i < LOOKS && __atomic_load_n(record, __ATOMIC_ACQUIRE) == 0; i++)
            portal_rest(list->queue, record);
        if (!record || __atomic_load_n(record, __ATOMIC_ACQUIRE) == 0)
            sched_yield();
    }
}

struct dsa_list *dsa_queue_poll(struct dsa_queue *queue)
{
    struct dsa_list *list = NULL;
    if (!room_is_own(queue))
        return NULL;
    pthread_mutex_lock(&queue->lock);
    move_on(queue);
    if (queue->ended) {
        list = &queue->list[__builtin_ctzll(queue->ended)];
        answer(list);
    }
    pthread_mutex_unlock(&queue->lock);
    return list;
}

void flight_settle(struct dsa_list *list)
{
    if (!list->was_started || !can_order(list))
        return;
    dsa_list_wait(list);
    list->was_started = false;
}

void flight_forget(struct dsa_list *list)
{
    if (!list->has_after || !can_order(list))
        return;
    list->has_after = false;
    pthread_mutex_lock(&list->queue->lock);
    forget_after(list);
    pthread_mutex_unlock(&list->queue->lock);
}

void flight_leave(struct dsa_list *list)
{
    if (!can_order(list))
        return;
    flight_settle(list);
    pthread_mutex_lock(&list->queue->lock);
    tell(list, DSA_LIST_REFUSED);
    pthread_mutex_unlock(&list->queue->lock);
}

/// A start that has ended is known now, and may be forgotten when the list is started or cleared; of one in flight, and
/// of the next one, its end tells.
void dsa_list_after(struct dsa_list *list, const struct dsa_list *other)
{
    if (!can_order(list))
        return;
    flight_settle(list); /* it is of the next start */
    list->has_after = true;
    pthread_mutex_lock(&list->queue->lock);
    if (other->queue != list->queue)
        list->is_after_failed = true;
    else if (has_begun(other) || other->end == DSA_LIST_REFUSED)
        list->after |= bit_of(other);
    else
        list->is_after_failed |= other->end != DSA_LIST_DONE;
    pthread_mutex_unlock(&list->queue->lock);
}

void dsa_list_set_tag(struct dsa_list *list, void *tag) { list->tag = tag; }
void *dsa_list_tag(const struct dsa_list *list) { return list->tag; }
