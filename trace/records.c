/* Completion records of what is in flight: what their memory should have, until the device writes there next. It is
 * what was there when they were submitted, or what the device has written since for another descriptor with the same
 * record. What else is found there the program has written too early or too late. */
#include <errno.h>
#include <string.h>
#include <sys/mman.h>
#include <sys/syscall.h>
#include <sys/uio.h>
#include <unistd.h>

#include "order.h"

enum { LEAST_ROOM = 256 };

/* A record in flight, of `users` descriptors; `users` is 0 in a free place. Of one that could not be read nothing is
 * known. */
struct kept { uint64_t at; uint32_t users; bool is_known; completion bytes; };

/* A table of `room` places, a power of two, of which at most half are used. A record is at the place of its address or
 * after it, with no free place between. */
static struct { struct kept *table; size_t room, used; } records;

static bool is_told(const descriptor *d)
{
    const unsigned asks = IDXD_OP_FLAG_CRAV | IDXD_OP_FLAG_RCR;
    return (d->flags & asks) == asks && !valid_is_misplaced(d);
}

/// Reads a record. That is no look of the program's, so where it is watched the kernel does it.
static bool read_record(uint64_t at, completion *bytes)
{
    const struct iovec to = {bytes, sizeof *bytes}, from = {(void *)at, sizeof *bytes};
    if (watch_has(at))
        return syscall(SYS_process_vm_readv, getpid(), &to, 1l, &from, 1l, 0l) == sizeof *bytes;
    return memory_copy(bytes, (const void *)at, sizeof *bytes, NULL);
}

static size_t place_of(uint64_t at) { return random_at(0, at) & (records.room - 1); }

/// The record at this address, or the free place for it.
static struct kept *find(uint64_t at)
{
    size_t place = place_of(at);
    while (records.table[place].users && records.table[place].at != at)
        place = (place + 1) & (records.room - 1);
    return &records.table[place];
}

/// Makes room for one more; false if there is no memory.
static bool make_room(void)
{
    struct kept *old = records.table;
    const size_t count = records.room;
    if (2 * records.used < count)
        return true;
    const size_t room = count ? 2 * count : LEAST_ROOM;
    void *more = mmap(NULL, room * sizeof *old, PROT_READ | PROT_WRITE, MAP_PRIVATE | MAP_ANONYMOUS, -1, 0);
    if (more == MAP_FAILED)
        return false;
    records.table = more;
    records.room = room;
    for (size_t i = 0; i < count; i++)
        if (old[i].users)
            *find(old[i].at) = old[i];
    if (old)
        munmap(old, count * sizeof *old);
    return true;
}

/// Frees a place, and moves those after it that are no longer found.
static void free_place(struct kept *k)
{
    size_t hole = k - records.table;
    records.used--;
    for (size_t at = (hole + 1) & (records.room - 1); records.table[at].users; at = (at + 1) & (records.room - 1)) {
        const size_t from = place_of(records.table[at].at), mask = records.room - 1;
        if (((at - from) & mask) < ((at - hole) & mask))
            continue;
        records.table[hole] = records.table[at];
        hole = at;
    }
    records.table[hole].users = 0;
}

/// One descriptor is submitted. Its record should be zero, or else a program that polls it goes on at once.
void records_enter(const struct submission *s, int member, const descriptor *d)
{
    completion bytes;
    if (!settings.out[0] || !is_told(d))
        return;
    const bool is_known = read_record(d->completion_addr, &bytes);
    if (is_known && bytes.status)
        record_error('Z', s->number, member, d->completion_addr);
    if (!make_room()) {
        record_give_up("completion records");
        return;
    }
    struct kept *k = find(d->completion_addr);
    if (k->users++)
        return;
    records.used++;
    *k = (struct kept){d->completion_addr, 1, is_known, bytes};
}

/// The device is about to write the record of a descriptor.
void records_check(const struct submission *s, int member, const descriptor *d)
{
    completion bytes;
    if (!records.used || !is_told(d) || !read_record(d->completion_addr, &bytes))
        return;
    const struct kept *k = find(d->completion_addr);
    if (k->users && k->is_known && memcmp(&k->bytes, &bytes, sizeof bytes))
        record_error('X', s->number, member, d->completion_addr);
}

/// The device has written it.
void records_write(const descriptor *d, const completion *r)
{
    struct kept *k = records.used && is_told(d) ? find(d->completion_addr) : NULL;
    if (k && k->users)
        *k = (struct kept){k->at, k->users, true, *r};
}

/// A descriptor is no longer in flight.
void records_leave(const descriptor *d)
{
    struct kept *k = records.used && is_told(d) ? find(d->completion_addr) : NULL;
    if (k && k->users && --k->users == 0)
        free_place(k);
}

/// In a child of fork nothing is in flight.
void records_forget(void)
{
    if (records.table)
        munmap(records.table, records.room * sizeof *records.table);
    memset(&records, 0, sizeof records);
}
