/* Submits an entry to a work queue, and waits until the device has ended it. */
#include <errno.h>
#include <immintrin.h>
#include <sched.h>
#include <time.h>
#include <unistd.h>

#include "queue.h"

enum { TURNS = 1024 };

/// Whether the limit has passed since the first call.
bool portal_is_over(struct patience *p, uint32_t limit_ms)
{
    struct timespec t;
    clock_gettime(CLOCK_MONOTONIC, &t);
    const uint64_t now = (uint64_t)t.tv_sec * 1000 + (uint64_t)t.tv_nsec / 1000000;
    if (p->until == 0)
        p->until = now + limit_ms + 1; /* `now` is rounded down */
    return now >= p->until;
}

__attribute__((target("movdir64b"))) static void write_dedicated(void *portal, const void *entry)
{
    _movdir64b(portal, entry);
}

__attribute__((target("enqcmd"))) static bool write_shared(void *portal, const void *entry)
{
    return _enqcmd(portal, entry) == 0;
}

/// A dedicated queue that is full drops what is written to it, so its entries are counted.
static bool take_credit(struct port *port)
{
    long credits = atomic_load_explicit(&port->credits, memory_order_relaxed);
    while (credits > 0)
        if (atomic_compare_exchange_weak_explicit(&port->credits, &credits, credits - 1, memory_order_acquire,
                                                  memory_order_relaxed))
            return true;
    return false;
}

static void give_credit(struct port *port)
{
    if (!port->is_shared)
        atomic_fetch_add_explicit(&port->credits, 1, memory_order_release);
}

void portal_credit(struct dsa_list *list)
{
    if (list->queue->ports)
        give_credit(list->port);
}

/// Has the kernel submit an entry, where the portal is not mapped.
static enum answer write_file(struct dsa_list *list, const struct port *port, const uint8_t *entry)
{
    if (write(port->file, entry, ENTRY) == ENTRY)
        return ACCEPTED;
    list->error = errno;
    return errno == EAGAIN || errno == EBUSY || errno == EINTR ? REFUSED_FULL : UNWRITTEN;
}

static enum answer offer(struct dsa_list *list, struct port *port, const uint8_t *entry)
{
    enum answer answer = ACCEPTED;
    if (!port->is_shared && !take_credit(port))
        return REFUSED_FULL;
    if (!port->portal)
        answer = write_file(list, port, entry);
    else if (port->is_shared)
        answer = write_shared(port->portal, entry) ? ACCEPTED : REFUSED_FULL;
    else
        write_dedicated(port->portal, entry);
    if (answer != ACCEPTED)
        give_credit(port);
    return answer;
}

/// The device sees what was written to the staging area and the records before the entry.
enum answer portal_submit(struct dsa_list *list, const uint8_t *entry)
{
    struct dsa_queue *queue = list->queue;
    enum answer answer = REFUSED_FULL;
    _mm_sfence();
    if (list->port)
        return offer(list, list->port, entry);
    const uint32_t turn = atomic_fetch_add_explicit(&queue->turn, 1, memory_order_relaxed) % queue->ports;
    for (uint32_t i = 0; i < queue->ports && answer == REFUSED_FULL; i++) {
        struct port *port = &queue->port[(turn + i) % queue->ports];
        answer = offer(list, port, entry);
        if (answer != REFUSED_FULL)
            list->port = port;
    }
    return answer;
}

/// Sleeps until the line of the record is written, or for a while. The record is looked at once more when its line is
/// watched, so that a write between the two is not missed.
__attribute__((target("waitpkg"))) static void sleep_at(const uint8_t *record)
{
    enum { CYCLES = 20000 };
    _umonitor((void *)(uintptr_t)record);
    if (__atomic_load_n(record, __ATOMIC_ACQUIRE) == 0)
        _umwait(0, __rdtsc() + CYCLES);
}

void portal_rest(const struct dsa_queue *queue, const uint8_t *record)
{
    if (queue->has_waitpkg)
        sleep_at(record);
    else
        _mm_pause();
}

/// One more turn of waiting. Once in so many the clock is looked at, and other threads may run. False: the limit has
/// passed.
static bool waits(const struct dsa_queue *queue, struct patience *patience, const uint8_t *record)
{
    const bool is_long = ++patience->turns % TURNS == 0;
    if (is_long && portal_is_over(patience, queue->wait_ms))
        return false;
    if (is_long)
        sched_yield();
    else if (record)
        portal_rest(queue, record);
    else
        _mm_pause();
    return true;
}

enum answer portal_do(struct dsa_list *list, const uint8_t *entry, uint8_t *status)
{
    const struct dsa_queue *queue = list->queue;
    const uint8_t *record = record_of(entry);
    struct patience patience = {0, 0};
    enum answer answer = ACCEPTED;
    if (!queue->ports)
        software_do(entry, &queue->settings);
    while (queue->ports && (answer = portal_submit(list, entry)) == REFUSED_FULL)
        if (!waits(queue, &patience, NULL))
            return REFUSED_FULL;
    if (answer == UNWRITTEN)
        return UNWRITTEN;
    patience = (struct patience){0, 0};
    while ((*status = __atomic_load_n(record, __ATOMIC_ACQUIRE)) == 0)
        if (!waits(queue, &patience, record))
            return SILENT;
    portal_credit(list);
    return ANSWERED;
}
