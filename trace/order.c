/* The order in which submissions in flight are done. FIFO and MEMBERS do each at once, on the thread that submits
 * (intake.c); so are most of a long run. DATA and ALL leave it to a thread of ours, which waits until the program has
 * run on for a while (pace.c) and then draws what comes next from all that fences and drains allow. */
#include "order.h"

#include <errno.h>
#include <stdatomic.h>
#include <string.h>
#include <sys/prctl.h>
#include <sys/syscall.h>
#include <time.h>
#include <unistd.h>

struct order_state order = {.lock = PTHREAD_MUTEX_INITIALIZER, .tail = &order.head};

static __thread bool is_arriving; /* this thread is counted by `arriving` */
static __thread uint32_t keys;    /* those that it may use otherwise */
static __thread volatile int postponed; /* a signal that came meanwhile, or 0 */

bool order_is_async(void) { return settings.order >= ORDER_DATA; }

/// In a long run that is not recorded most submissions are done at once, as by a fast device: else each that a program
/// waits for would take the delay. A part of the run is drawn by the number and the seed alone, so it is the same each
/// time.
static bool is_drawn(uint64_t number)
{
    enum { PART = 256, ONE_IN = 16 };
    return !settings.drawn || settings.hold || number < settings.drawn ||
           random_at(~settings.seed, number / PART) % ONE_IN == 0;
}

static bool has_older_of_queue(const struct submission *s)
{
    for (const struct submission *o = order.head; o && o != s; o = o->next)
        if (o->queue == s->queue)
            return true;
    return false;
}

static bool waits_for_older(const struct submission *s)
{
    return s->entry.opcode == DSA_OPCODE_DRAIN && has_older_of_queue(s);
}

bool order_is_at_once(const struct submission *s)
{
    return !order_is_async() || (!is_drawn(s->number) && !waits_for_older(s));
}

static void give_back(struct submission *s)
{
    records_leave(&s->entry);
    for (unsigned i = 0; s->is_batch && i < s->count; i++)
        records_leave(&s->members[i]);
    s->next = order.unused;
    order.unused = s;
}

static void take_out(struct submission *s)
{
    struct submission **at = &order.head;
    while (*at != s)
        at = &(*at)->next;
    *at = s->next;
    if (!*at)
        order.tail = at;
    s->queue->in_flight--;
    order.wants_room = false;
    give_back(s);
    if (!order.head)
        pthread_cond_broadcast(&order.idle);
}

/// Watches the record of a submission, if it has one and there is a watchpoint for it. A record that is written by the
/// thread that submits is not: its own look is not told from ours.
void order_watch(struct submission *s)
{
    const unsigned asks = IDXD_OP_FLAG_CRAV | IDXD_OP_FLAG_RCR;
    if (!settings.watch || s->is_at_once || (s->entry.flags & asks) != asks)
        return;
    s->watch = watch_open(s->entry.completion_addr, order.worker);
    if (s->watch >= 0)
        record_event('W', s->number, -1, -1);
}

/// A submission is done: its completion follows, in DATA after those of all submissions before it.
void order_complete(struct submission *s, const completion *r)
{
    s->is_done = true;
    s->last = *r;
    if (settings.order == ORDER_DATA)
        s = order.head;
    while (s && s->is_done) {
        if (s->watch < 0)
            order_watch(s);
        record_event('C', s->number, -1, s->last.status); /* before the record, so that nobody knows of it earlier */
        if (s->watch >= 0)
            watch_completed(s->watch, s->number);
        order.records += execute_record(s, -1, &s->last);
        take_out(s);
        s = settings.order == ORDER_DATA ? order.head : NULL;
    }
}

/// The epoch that begins at member `begun`: up to the next fence.
void order_find_epoch(struct submission *s)
{
    s->end = s->begun + 1;
    while (s->end < s->count && !(s->members[s->end].flags & IDXD_OP_FLAG_FENCE))
        s->end++;
}

/// Draws the next member of a batch, and answers its index; that of a lone descriptor is 0.
static uint16_t draw_member(struct submission *s)
{
    unsigned place = s->begun;
    if (s->is_batch && settings.order != ORDER_FIFO)
        place += random_next(&order.choices) % (s->end - s->begun);
    const uint16_t index = s->turn[place];
    s->turn[place] = s->turn[s->begun]; /* those before `begun` are done */
    s->turn[s->begun] = index;
    return index;
}

/// The next member of the batch, or the lone descriptor. Called with the lock, which it leaves while it works if other
/// threads may submit meanwhile.
void order_step(struct submission *s)
{
    completion r;
    const uint16_t index = draw_member(s);
    if (s->is_batch && !execute_fetch(s, index, &r)) {
        r.bytes_completed = s->begun;
        order_complete(s, &r);
        return;
    }
    if (!s->is_at_once)
        pthread_mutex_unlock(&order.lock);
    execute(s, index, &r);
    if (!s->is_at_once)
        pthread_mutex_lock(&order.lock);
    s->begun++;
    if (!s->is_batch) {
        order_complete(s, &r);
        return;
    }
    s->has_failed |= r.status != DSA_COMP_SUCCESS;
    record_event('c', s->number, index, r.status);
    order.records += execute_record(s, index, &r);
    if (s->begun < s->end)
        return;
    if (s->begun < s->count && !s->has_failed) {
        order_find_epoch(s);
        return;
    }
    memset(&r, 0, sizeof r); /* all are done, or a fence stops the rest */
    r.status = s->has_failed ? DSA_COMP_BATCH_FAIL : DSA_COMP_SUCCESS;
    r.bytes_completed = s->begun;
    order_complete(s, &r);
}

static bool may_go(const struct submission *s) { return !s->is_done && !waits_for_older(s); }

/// For --watch MS: whether all waits until the program looks at a record that is watched. Until then it does not wait
/// for it.
static bool is_held(void)
{
    bool is_watched = false;
    for (const struct submission *s = order.head; s; s = s->next) {
        if (s->watch >= 0 && watch_is_touched(s->watch))
            return false;
        is_watched |= s->watch >= 0;
    }
    return is_watched && pace_since(&order.pace) < (int64_t)settings.hold * 1000000;
}

/// Draws one of the submissions that may go.
static struct submission *choose(void)
{
    unsigned count = 0;
    for (const struct submission *s = order.head; s; s = s->next)
        count += may_go(s);
    if (!count || (settings.hold && is_held()))
        return NULL;
    unsigned left = random_next(&order.choices) % count;
    struct submission *s = order.head;
    while (!may_go(s) || left--)
        s = s->next;
    return s;
}

static void wait_for_work(int64_t nanoseconds)
{
    struct timespec until;
    clock_gettime(CLOCK_MONOTONIC, &until);
    until.tv_nsec += nanoseconds % 1000000000;
    until.tv_sec += nanoseconds / 1000000000 + until.tv_nsec / 1000000000;
    until.tv_nsec %= 1000000000;
    pthread_cond_timedwait(&order.work, &order.lock, &until);
}

/// Nothing is in flight: looks again every now and then before it sleeps, since waking it costs the program time. For a
/// second it also notes at which records the program looks, in case it then closes our files.
static void rest(unsigned *rests)
{
    enum { LOOKS = 20, SOON = 50000, NOTES = 100, LATER = 10000000 };
    if (++*rests < LOOKS) {
        wait_for_work(SOON);
        return;
    }
    if (settings.watch)
        watch_note_seen();
    order.sleeps = true;
    if (settings.watch && *rests < LOOKS + NOTES)
        wait_for_work(LATER);
    else
        pthread_cond_wait(&order.work, &order.lock);
    order.sleeps = false;
}

/// Whether something in flight may be done now; else *wait has the nanoseconds after which to ask again. A program that
/// asks a full queue again and again waits for the device: of its threads one is always about to submit.
static bool may_work(int64_t *wait)
{
    enum { SOON = 10000 }; /* for a thread that is about to submit */
    *wait = SOON;
    return order.pace.waits || order.wants_room || (!order.arriving && pace_is_quiet(&order.pace, wait));
}

/// The thread that does the work. Signals are not for it.
static void *work(void *unused)
{
    enum { AGAIN = 100000 };
    unsigned rests = 0;
    int64_t wait;
    prctl(PR_SET_TIMERSLACK, 1);
    prctl(PR_SET_NAME, "dsa_trace");
    order.worker = (pid_t)syscall(SYS_gettid);
    memory_permit();
    pthread_mutex_lock(&order.lock);
    for (;;) {
        struct submission *s = NULL;
        const uint64_t records = order.records;
        if (!order.head) {
            rest(&rests);
            continue;
        }
        rests = 0;
        if (!may_work(&wait))
            wait_for_work(wait);
        else if (!(s = choose()))
            wait_for_work(AGAIN);
        if (s)
            order_step(s);
        if (s && order.records != records) /* what the program does with a record comes first */
            pace_begin(&order.pace, 0);
    }
    return unused;
}

/// A child of fork has neither the worker nor what was in flight. Called without the lock, which may be in any state.
static void begin_process(void)
{
    pthread_condattr_t clock;
    pthread_condattr_init(&clock);
    pthread_condattr_setclock(&clock, CLOCK_MONOTONIC);
    pthread_mutex_init(&order.lock, NULL);
    pthread_cond_init(&order.work, &clock);
    pthread_cond_init(&order.idle, &clock);
    for (struct submission *s = order.head; s; s = s->next)
        s->queue->in_flight = 0;
    order.head = NULL;
    order.tail = &order.head;
    order.unused = NULL;
    order.has_worker = order.wants_room = order.sleeps = false;
    order.worker = 0;
    order.arriving = is_arriving;
    order.choices = (struct random){settings.seed, 0};
    order.retries = (struct random){~settings.seed, 0};
    watch_forget();
    records_forget();
    order.submitted = order.batches = order.members = order.dropped = order.records = 0;
    order.retried = 0;
    record_forget();
    stacks_forget();
    order.pid = getpid();
}

/// When the library is loaded.
void order_begin(void)
{
    process_is_new();
    begin_process();
}

/// Starts the worker, once in a process. It is called when a portal is mapped, where more may be done than in a
/// handler.
void order_start(void)
{
    pthread_t thread;
    if (process_is_new())
        begin_process();
    if (!order_is_async() || atomic_exchange(&order.has_worker, true))
        return;
    const uint64_t before = signals_block();
    const int fault = pthread_create(&thread, NULL, work, NULL);
    signals_restore(before);
    if (fault) {
        say("no thread for the device (%s), so submissions are done as they come", strerror(fault));
        settings.order = ORDER_MEMBERS;
        return;
    }
    pthread_detach(thread);
    while (!order.worker)
        sched_yield();
}

/// This thread is about to submit, from before it takes the lock on: the program does not wait meanwhile.
void order_arrive(void)
{
    is_arriving = true;
    order.arriving++;
    keys = memory_permit();
}

/// Whether a signal that was sent waits: a handler of the program's may submit, jump away or end the process, and this
/// thread may have the lock, or is ours.
bool order_postpones(int signal)
{
    const pid_t thread = (pid_t)syscall(SYS_gettid);
    if (thread == order.worker)
        syscall(SYS_tgkill, getpid(), getpid(), signal);
    else if (is_arriving)
        postponed = signal;
    return thread == order.worker || is_arriving;
}

void order_leave(void)
{
    memory_permit_as(keys);
    is_arriving = false;
    order.arriving--;
    const int signal = postponed;
    postponed = 0;
    if (signal)
        syscall(SYS_tgkill, getpid(), (pid_t)syscall(SYS_gettid), signal);
}

/// The program waits by UMWAIT or TPAUSE.
void order_program_waits(void) { order.pace.waits = true; }

/// At the end of the process: what is in flight has a second.
void order_finish(void)
{
    struct timespec until;
    unsigned left = 0;
    if (order.pid != getpid())
        return;
    clock_gettime(CLOCK_MONOTONIC, &until);
    until.tv_sec++;
    pthread_mutex_lock(&order.lock);
    for (struct submission *s = order.head; s; s = s->next)
        left++;
    if (left)
        say("%u %s in flight at the end of the process: nobody has waited for %s", left,
            left == 1 ? "submission is" : "submissions are", left == 1 ? "its record" : "their records");
    while (order.head && pthread_cond_timedwait(&order.idle, &order.lock, &until) != ETIMEDOUT)
        ;
    if (settings.verbose)
        say("%lu submissions, %lu of them batches with %lu members; %lu retries, %lu lost, %lu records",
            order.submitted, order.batches, order.members, order.retried, order.dropped, order.records);
    stacks_finish();
    record_finish();
    pthread_mutex_unlock(&order.lock);
}
