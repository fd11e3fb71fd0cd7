/* Hardware watchpoints on completion records: which completions the program has looked at. There are four at once, the
 * debug registers of the CPU. The kernel counts, for each thread that there is and for those that these start later,
 * touches of the record's first byte; the device's own thread is left out. There is no watchpoint for reads alone, so
 * one that is to spare counts the writes: to clear a record is no look. A watchpoint costs a thread that polls the
 * record a trap each time, so it is set when the record is written, and off from the look on. */
#include <errno.h>
#include <fcntl.h>
#include <linux/hw_breakpoint.h>
#include <linux/perf_event.h>
#include <stdlib.h>
#include <string.h>
#include <sys/ioctl.h>
#include <sys/syscall.h>
#include <sys/uio.h>
#include <unistd.h>

#include "trace.h"

enum { THREADS = 32, TRIES = 8, LOWEST = 600 };

/* A watch counts the touches of a record, for a submission, or its writes alone; `pair` is the other of the two, or -1.
 * LOST: it counted the touches of a record that is not yet written. `before` is the count when that was written, and
 * more by the writes that are passed over since; `is_passed`: one is. */
static struct watch {
    enum counted { FREE, TOUCHES, WRITES, LOST } counts;
    int pair;
    bool is_written, is_passed;
    uint64_t record, number, before;
} watches[WATCHES];

/* Of each thread a file for each watch. They stay open. `has_lost`: the program has closed them once. */
static struct watched { int threads, fd[THREADS][WATCHES]; bool is_missing, has_children, has_lost; } watched;

/// What a file watches, FREE for nothing. Before Linux 5.13 children of fork inherit it as threads do: `has_children`.
static struct perf_event_attr attributes(uint64_t record, enum counted counts)
{
    return (struct perf_event_attr){.type = PERF_TYPE_BREAKPOINT, .size = sizeof(struct perf_event_attr),
                                    .bp_type = counts == WRITES ? HW_BREAKPOINT_W : HW_BREAKPOINT_RW,
                                    .bp_addr = record, .bp_len = HW_BREAKPOINT_LEN_1, .disabled = counts == FREE,
                                    .inherit = 1, .inherit_thread = !watched.has_children, .exclude_kernel = 1,
                                    .exclude_hv = 1};
}

static int open_file(pid_t thread)
{
    struct perf_event_attr a = attributes((uintptr_t)&watched, FREE);
    const int fd = syscall(SYS_perf_event_open, &a, thread, -1, -1, PERF_FLAG_FD_CLOEXEC);
    if (fd >= 0 || errno != EINVAL || watched.has_children)
        return fd;
    watched.has_children = true;
    return open_file(thread);
}

/// Opens the files of one thread, out of the way of the program's own; false, with errno, if not all can be opened.
static bool open_thread(pid_t thread)
{
    int *const fd = watched.fd[watched.threads];
    for (int i = 0; i < WATCHES; i++) {
        fd[i] = open_file(thread);
        const int high = fd[i] < 0 ? -1 : fcntl(fd[i], F_DUPFD_CLOEXEC, LOWEST);
        const int fault = errno;
        if (high >= 0) {
            syscall(SYS_close, fd[i]);
            fd[i] = high;
        }
        for (int k = 0; fd[i] < 0 && k < i; k++)
            syscall(SYS_close, fd[k]);
        errno = fault;
        if (fd[i] < 0)
            return false;
    }
    watched.threads++;
    return true;
}

static void close_all(void)
{
    for (int i = 0; i < watched.threads * WATCHES; i++)
        syscall(SYS_close, watched.fd[i / WATCHES][i % WATCHES]);
    watched.threads = 0;
}

/// The threads of the process but one, in the kernel's order; answers how many, and at most one more than have room.
static int list_threads(pid_t except, pid_t found[THREADS + 1])
{
    struct entry { uint64_t inode; int64_t next; uint16_t length; uint8_t kind; char name[]; };
    static _Alignas(struct entry) char room[2048]; /* under the lock of order.c, since there may be little stack */
    int count = 0;
    long length;
    const int fd = syscall(SYS_openat, AT_FDCWD, "/proc/self/task", O_RDONLY | O_DIRECTORY | O_CLOEXEC, 0);
    while (fd >= 0 && (length = syscall(SYS_getdents64, fd, room, sizeof room)) > 0)
        for (long at = 0; at < length; at += ((struct entry *)(room + at))->length) {
            const pid_t thread = atoi(((struct entry *)(room + at))->name);
            if (thread && thread != except && count <= THREADS)
                found[count++] = thread;
        }
    if (fd >= 0)
        syscall(SYS_close, fd);
    return count;
}

/// From now on nothing is watched.
static bool give_up(const char *why)
{
    board_unwatched(why);
    watched.is_missing = true;
    return false;
}

/// Opens the files of all threads but one. A thread that starts meanwhile may have none, so then all is done again.
static bool open_all(pid_t except)
{
    pid_t before[THREADS + 1], after[THREADS + 1];
    for (int i = 0; i < TRIES; i++) {
        int fault = 0;
        const int count = list_threads(except, before);
        if (count == 0 || count > THREADS)
            return give_up(count ? "more than 32 threads" : strerror(errno));
        for (int k = 0; k < count && !fault; k++)
            fault = open_thread(before[k]) || errno == ESRCH ? 0 : errno; /* or it has ended meanwhile */
        if (!fault && list_threads(except, after) == count && memcmp(before, after, sizeof *before * count) == 0)
            return true;
        close_all();
        if (fault && fault != ENOSPC) /* which a thread has that started meanwhile with those of another */
            return give_up(strerror(fault));
    }
    return give_up("threads start and end all the time, or the debug registers are in use");
}

/// The files are gone, so whether the program looks at the records that are watched is not known any more.
static bool lose_all(void)
{
    bool has_some = false;
    for (int i = 0; i < WATCHES; i++) {
        has_some |= watches[i].counts == TOUCHES;
        watches[i] = (struct watch){.counts = watches[i].counts == TOUCHES && !watches[i].is_written ? LOST : FREE};
    }
    if (has_some && !watched.has_lost)
        board_half_watched();
    watched.has_lost |= has_some;
    watched.threads = 0;
    return false;
}

/// Sets a watch, or with FREE turns it off; false if it can't be. Files that the program has closed are ours no more.
static bool set(int watch, uint64_t record, enum counted counts)
{
    struct perf_event_attr a = attributes(record, counts);
    for (int i = 0; i < watched.threads; i++)
        if (syscall(SYS_ioctl, watched.fd[i][watch], PERF_EVENT_IOC_MODIFY_ATTRIBUTES, &a)) {
            if (errno != EBADF && errno != ENOTTY)
                give_up(strerror(errno));
            return lose_all();
        }
    return true;
}

/// Sets a watch on a record, with new files if the program has closed those that there were.
static bool set_first(int watch, uint64_t record, pid_t except)
{
    for (int i = 0; i < 2 && !watched.is_missing && (watched.threads || open_all(except)); i++)
        if (set(watch, record, TOUCHES))
            return true;
    return false;
}

/// Adds up what the program's threads have done to a record; false if that can't be known.
static bool count_all(int watch, uint64_t *sum)
{
    uint64_t count;
    *sum = 0;
    for (int i = 0; i < watched.threads; i++) {
        if (syscall(SYS_read, watched.fd[i][watch], &count, sizeof count) != sizeof count)
            return lose_all();
        *sum += count;
    }
    return watched.threads;
}

/// A watch that is free, or WATCHES. A watch costs each thread that runs an interrupt whenever it is set or read, so
/// there are fewer with many threads.
static int free_watch(void)
{
    const int most = watched.threads <= 2 ? WATCHES : watched.threads <= 4 ? 2 : 1;
    for (int at = 0; at < most; at++)
        if (watches[at].counts == FREE)
            return at;
    return WATCHES;
}

/// Frees a watch that counts writes, or answers WATCHES. Those so far are counted as touches that are no looks.
static int take_writes(void)
{
    for (int at = 0; at < WATCHES; at++) {
        struct watch *w = &watches[at];
        uint64_t writes;
        if (w->counts != WRITES)
            continue;
        if (count_all(at, &writes)) {
            watches[w->pair].before += writes - w->before;
            watches[w->pair].is_passed = writes > w->before;
            watches[w->pair].pair = -1;
            w->counts = FREE;
        }
        return at;
    }
    return WATCHES;
}

/// Watches a record; answers a number, or -1 if all are in use or there are none.
int watch_open(uint64_t record, pid_t except)
{
    int at = free_watch();
    if (at == WATCHES) {
        watch_note_seen();
        at = free_watch();
    }
    if (at == WATCHES)
        at = take_writes();
    if (at == WATCHES || !set_first(at, record, except))
        return -1;
    watches[at] = (struct watch){.counts = TOUCHES, .pair = -1, .record = record};
    if (settings.hold) /* else it is set as the record is written */
        count_all(at, &watches[at].before);
    return at;
}

/// Whether the program has touched a record since it is watched. It counts as touched if that can't be known, so that
/// nothing waits for it.
bool watch_is_touched(int watch)
{
    uint64_t sum;
    return watches[watch].counts == LOST || !count_all(watch, &sum) || sum > watches[watch].before;
}

/// Whether a record is watched: a read of it by a thread of the program would count.
bool watch_has(uint64_t record)
{
    for (int i = 0; i < WATCHES; i++)
        if (watches[i].counts == TOUCHES && watches[i].record == record)
            return true;
    return false;
}

/// Has a watch that is to spare count the writes of a record.
static void add_writes(int watch)
{
    const int at = free_watch();
    if (at == WATCHES || !set(at, watches[watch].record, WRITES))
        return;
    watches[at] = (struct watch){.counts = WRITES, .pair = watch};
    watches[watch].pair = at;
    count_all(at, &watches[at].before);
}

/// The record that is watched is about to be written, for this submission.
void watch_completed(int watch, uint64_t number)
{
    struct watch *w = &watches[watch];
    if (w->counts == LOST) {
        w->counts = FREE;
        return;
    }
    w->number = number;
    w->is_written = true;
    add_writes(watch);
    if (w->counts == TOUCHES)
        count_all(watch, &w->before);
}

/// Whether the status of a record is zero. The kernel reads it, since this is no look.
static bool is_cleared(uint64_t record)
{
    uint8_t status = 0;
    const struct iovec to = {&status, 1}, from = {(void *)record, 1};
    return syscall(SYS_process_vm_readv, getpid(), &to, 1l, &from, 1l, 0l) == 1 && !status;
}

/// For a record whose writes nothing counts: if one touch has left it cleared, that was the write that did it. Answers
/// false if the touches can't be known.
static bool pass_over_write(struct watch *w, uint64_t *touches)
{
    const uint64_t one = w->before + 1;
    if (w->is_passed || *touches != one || !is_cleared(w->record))
        return true;
    if (!count_all(w - watches, touches)) /* once more, since it may have been cleared after a look meanwhile */
        return false;
    w->is_passed = *touches == one;
    w->before += w->is_passed;
    return true;
}

/// Whether the program has read a record since it was written.
static bool is_seen(int watch)
{
    struct watch *w = &watches[watch];
    uint64_t touches, writes;
    if (!count_all(watch, &touches))
        return false;
    if (w->pair >= 0)
        return count_all(w->pair, &writes) && touches - w->before > writes - watches[w->pair].before;
    return pass_over_write(w, &touches) && touches > w->before;
}

/// A record is no longer watched.
static void end(int watch)
{
    const struct watch w = watches[watch];
    watches[watch].counts = FREE;
    if (w.pair >= 0)
        watches[w.pair].counts = FREE;
    if (set(watch, w.record, FREE) && w.pair >= 0)
        set(w.pair, w.record, FREE);
}

/// Events of completions that the program has looked at since.
void watch_note_seen(void)
{
    for (int i = 0; i < WATCHES; i++) {
        const struct watch *w = &watches[i];
        if (w->counts != TOUCHES || !w->is_written || !is_seen(i))
            continue;
        record_event('K', w->number, -1, -1);
        end(i);
    }
}

/// A record is submitted once more, so a look at it is no longer one at the end of an earlier submission.
void watch_reuse(uint64_t record)
{
    for (int i = 0; i < WATCHES; i++)
        if (watches[i].counts == TOUCHES && watches[i].is_written && watches[i].record == record)
            end(i);
}

/// In a child of fork: the watches are of the parent's threads.
void watch_forget(void)
{
    close_all();
    memset(&watches, 0, sizeof watches);
    watched.is_missing = watched.has_lost = false;
}
