/* What is submitted: whether the queue takes it, its members as they are now, its recording, and its place among what
 * is in flight. */
#include "order.h"

#include <sys/mman.h>

static struct submission *take_unused(void)
{
    struct submission *s = order.unused;
    if (s) {
        order.unused = s->next;
        return s;
    }
    s = mmap(NULL, sizeof *s, PROT_READ | PROT_WRITE, MAP_PRIVATE | MAP_ANONYMOUS, -1, 0);
    if (s != MAP_FAILED)
        return s;
    say("no memory for another submission in flight, so it is lost");
    record_give_up("a submission in flight");
    return NULL;
}

static void put_in(struct submission *s)
{
    board_submitted();
    if (settings.watch)
        watch_reuse(s->entry.completion_addr);
    records_enter(s, -1, &s->entry);
    for (unsigned i = 0; s->is_batch && i < s->count; i++)
        records_enter(s, i, &s->members[i]);
    for (unsigned i = 0; i < s->count; i++)
        s->turn[i] = i;
    order_find_epoch(s);
    s->next = NULL;
    *order.tail = s;
    order.tail = &s->next;
    s->queue->in_flight++;
    if (settings.hold)
        order_watch(s);
}

/// The letter of the error for which a batch is refused, or 0 if its descriptor shows that, as it is recorded.
static char error_of(uint8_t status)
{
    switch (status) {
    case DSA_COMP_DESC_CNT_ERANGE: return 'C';
    case DSA_COMP_DESCLIST_ALIGN: return 'M';
    case DSA_COMP_BATCH_PAGE_FAULT: return 'R';
    default: return 0;
    }
}

/// A batch without members: its list can't be read, or the device refuses it. It is recorded with none.
static void refuse_batch(struct submission *s, const completion *r)
{
    const char error = error_of(r->status);
    descriptor empty = s->entry;
    empty.desc_count = 0;
    say("batch %lu of %u descriptors at %#lx is refused with status %#x (%s)", s->number, s->entry.desc_count,
        (unsigned long)s->entry.desc_list_addr, r->status, valid_name(r->status));
    record_submission(&(struct submitted){s->number, s->queue, &empty, NULL, 0, s->origin});
    if (error)
        record_error(error, s->number, -1, s->entry.desc_list_addr);
    s->is_batch = false;
    put_in(s);
    order_complete(s, r);
}

/// Takes what is submitted: copies, records, and does it or leaves it to the worker. Called with the lock.
static void take_in(struct queue *q, const descriptor *d, const struct submitter *by)
{
    completion r;
    struct submission *s = take_unused();
    if (!s)
        return;
    s->number = order.submitted++;
    s->queue = q;
    s->entry = *d;
    s->is_batch = d->opcode == DSA_OPCODE_BATCH;
    s->has_failed = s->is_done = false;
    s->is_at_once = order_is_at_once(s);
    s->watch = -1;
    s->origin = stacks_origin(by);
    s->begun = 0;
    s->count = 1;
    s->members[0] = *d;
    if (settings.watch)
        watch_note_seen();
    if (s->is_batch && execute_take(s, &r) != DSA_COMP_SUCCESS) {
        refuse_batch(s, &r);
        return;
    }
    order.batches += s->is_batch;
    order.members += s->is_batch ? s->count : 0;
    record_submission(&(struct submitted){s->number, q, d, s->members, s->is_batch ? s->count : 0, s->origin});
    put_in(s);
    while (s->is_at_once && !s->is_done)
        order_step(s);
    if (!order.head) /* nothing is left for the worker */
        return;
    pace_begin(&order.pace, process_thread());
    if (order.sleeps)
        pthread_cond_signal(&order.work);
}

/// Whether ENQCMD finds the queue full. It asks without the lock: threads that ask again and again would have it all
/// the time, and what is in flight would wait for them.
static bool is_full(struct queue *q)
{
    if (q->in_flight < q->size)
        return false;
    order.wants_room = true;
    order.retried++;
    return true;
}

/// Whether the queue has room for it, once more with the lock; MOVDIR64B does not learn that it has none.
static bool has_room(struct queue *q, bool is_enqueued)
{
    if (is_enqueued && is_full(q))
        return false;
    if (is_enqueued && settings.retry && random_next(&order.retries) % settings.retry == 0) {
        order.retried++;
        return false;
    }
    if (q->in_flight < q->size)
        return true;
    record_dropped(order.submitted, q);
    if (!order.dropped++)
        say("wq%d.%d is full (%u in flight): MOVDIR64B is lost, as on a device; have fewer in flight, or a larger "
            "queue (--queue)", q->device, q->id, q->size);
    return false;
}

/// Says once of a queue that a device would not take what is submitted so; here it is taken.
static void note_mode(struct queue *q, bool is_enqueued)
{
    if (is_enqueued != q->is_shared && !q->is_mistaken)
        say("%s to wq%d.%d, which is %s: a device does not take it", is_enqueued ? "ENQCMD" : "MOVDIR64B", q->device,
            q->id, q->is_shared ? "shared" : "dedicated");
    q->is_mistaken |= is_enqueued != q->is_shared;
}

/// One submission, from a stub, the handler of signals or a write to a queue's file.
enum accepted order_submit(struct queue *q, const descriptor *d, bool is_enqueued, const struct submitter *by)
{
    order_start();
    if (is_enqueued && is_full(q))
        return FULL;
    pthread_mutex_lock(&order.lock);
    note_mode(q, is_enqueued);
    const bool is_taken = has_room(q, is_enqueued);
    if (is_taken)
        take_in(q, d, by);
    pthread_mutex_unlock(&order.lock);
    return is_taken || !is_enqueued ? ACCEPTED : FULL;
}
