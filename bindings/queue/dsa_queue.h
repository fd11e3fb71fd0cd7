/*
 * dsa_queue.h: runs lists of operations on a work queue of Intel's Data Streaming Accelerator, from C or C++.
 *
 * Experimental: this layer is not proved, and no device has run it yet. It was tested with dsa_trace, a device in
 * software, and its calls may change in any version. What it submits are the plans of dsa_planner.h.
 *
 *   char why[DSA_WHY_ROOM];
 *   struct dsa_queue *queue = dsa_queue_open(NULL, NULL, why);     // NULL: why says what is missing
 *   struct dsa_list *list = dsa_list_get(queue);
 *   dsa_list_move(list, a, b, size);
 *   dsa_list_move(list, b, c, size);                               // it waits for the first: nobody has to say so
 *   if (dsa_list_run(list) != DSA_LIST_DONE)
 *       puts(dsa_list_why(list, why));
 *
 * Order:     if all operations succeed, a list leaves in memory what its operations leave one after another. Lists of
 *            several threads are ordered by the program alone, unless the queue has the flag DSA_QUEUE_IN_FLIGHT.
 * Checks:    if a check fails, what was added before the next barrier is done, and nothing after it.
 * Faults:    a page that is absent is made present (Linux 5.14 or later), and what is left of the list is done. After
 *            any other failure nothing more is submitted; of what is, all before the next barrier may be done.
 * Checksums: a list with one (dsa_list_crc, dsa_list_copy_crc) is planned as it is, so none of its operations may be
 *            longer than the queue's greatest transfer.
 * Memory:    dsa_queue_open takes all memory of the layer; only planning allocates later, and frees it again, and
 *            dsa_list_prepare, whose memory is kept with the list until the queue is closed.
 *            Completion records and staging areas are the queue's. Buffers have to stay until the list has ended, and
 *            as they are while it is lost: ask dsa_list_wait or dsa_list_test how a list that was started has ended
 *            before you use or free its buffers. The calls that change, drop or start it wait too, but do not say it.
 * Queues:    a queue may have several work queues, also of several devices. Each list goes to one of them, in turn, or
 *            to the next one that has room, and lists in flight are ordered across them.
 * Portals:   if the kernel keeps the portal from the program, as from those without CAP_SYS_RAWIO for devices of
 *            version 1.0, entries are given to it by write(), one for each operation and without batches.
 * Software:  the processor does what the device of dsa_trace does, with the same results. A page that is not there
 *            kills the program, as it does in memcpy.
 * Waiting:   a queue that is reset or disabled never answers. After the limit the list is lost: see DSA_LIST_LOST.
 * Threads:   a queue may be shared. A list belongs to one thread at a time, from dsa_list_get to dsa_list_drop. A call
 *            needs 64 KiB of stack, and none may be made from a signal handler.
 * Forks:     a child can't use a queue of its parent: runs are refused, and dsa_queue_close gives the memory back.
 *
 * Link:      cc app.c $(pkg-config --cflags --libs dsa_queue)
 *            CMake: find_package(dsa_planner 1.0), and the target dsa_planner::queue.
 */
#ifndef DSA_QUEUE_H
#define DSA_QUEUE_H

#include <dsa_descriptors.h>
#include <dsa_planner.h>

#ifdef __cplusplus
extern "C" {
#endif

struct dsa_queue; /* a work queue, its limits, and the memory of its lists */
struct dsa_list;  /* operations, their completion records, and what submits them */

enum {
    DSA_QUEUE_KEEP_FAULTS = 1,    /* a page fault fails its operation, and no page is made present */
    DSA_QUEUE_BLOCK_ON_FAULT = 2, /* the device waits for absent pages itself, if the queue allows that */
    DSA_QUEUE_OR_SOFTWARE = 4,    /* without a device the processor does the lists, and why says what is missing: if no
                                     file is named and no queue can be opened, or if those that are named, as
                                     /dev/dsa/wq0.0, are not there and the machine has no device at all */
    DSA_QUEUE_SOFTWARE = 8,       /* the processor does the lists, even if there is a device; no file is looked at */
    DSA_QUEUE_IN_FLIGHT = 16      /* lists may be started, and several be in flight; then all lists are ordered */
};

/* All may be 0. */
struct dsa_queue_options {
    uint32_t flags;
    uint32_t lists;              /* how many there are at a time, at most 64; 0: 16 */
    uint32_t pieces;             /* the most of one list, at most 65,536; 0: 64. An operation that is longer than the
                                    queue's greatest transfer has several */
    uint32_t wait_ms;            /* milliseconds after which an entry counts as lost; 0: 10,000 */
    uint64_t lone, batch, fence; /* prices, as in struct dsa_settings, of batches one for all sizes; all 0: 10, 14, 3.
                                    Else lone and batch are not 0, and a fence of 0 costs nothing. dsa_prices measures
                                    them: of its table take the price for the size of your usual lists */
};

/* The most bytes of a sentence, with its zero byte. */
#define DSA_WHY_ROOM 1024u

/* Opens a queue by its file, or with NULL the first one that is enabled, is of type user, and can be opened. Several
 * files, at most 16, have colons between them, so no name may have one; transfer sizes, batches and flags are then
 * those that all of them allow, and one that can't be opened fails the call, as wrong names and unknown flags do. NULL:
 * why says what is missing and what to do; else why is empty if there is a device. options may be NULL. */
struct dsa_queue *dsa_queue_open(const char *file, const struct dsa_queue_options *options, char why[DSA_WHY_ROOM]);
/* Waits for lists in flight; no other call of the queue may run. The memory of lists that are lost stays mapped. */
void dsa_queue_close(struct dsa_queue *queue);
/* The name of the queue's file, or those of several as they were given, or "software". */
const char *dsa_queue_name(const struct dsa_queue *queue);

/* An empty list; NULL if none is free. */
struct dsa_list *dsa_list_get(struct dsa_queue *queue);
/* Gives a list back, and waits for it if it is in flight. One that is lost is free when the device has answered. */
void dsa_list_drop(struct dsa_list *list);
/* Takes all operations off, and what the list comes after. This and the calls that add wait for a list in flight. */
void dsa_list_clear(struct dsa_list *list);

/* Adds an operation of this transfer size; the queue fills in the completion record, and its flag 0x0001 is a barrier.
 * Returns its number, from 0, or -1 if the list can't have it. Nobody has to look: dsa_list_run refuses such a list. */
int dsa_list_add(struct dsa_list *list, const uint8_t descriptor[64], uint64_t size);
/* What is added next begins only if all before it has succeeded. */
void dsa_list_barrier(struct dsa_list *list);

enum dsa_end {
    DSA_LIST_DONE,     /* all operations have succeeded */
    DSA_LIST_FAILED,   /* one has not, and nothing after the next barrier was begun: dsa_list_result */
    DSA_LIST_REFUSED,  /* nothing was begun: dsa_list_why */
    DSA_LIST_LOST,     /* the queue has not answered in time. The device may still read and write the buffers of the
                          list, so leave them as they are. Once it has answered, the list can be used again, and
                          lists of a queue with DSA_QUEUE_IN_FLIGHT that conflict with it are not left out any more */
    DSA_LIST_LEFT_OUT, /* nothing was begun: a list that it comes after has not succeeded, or one that it conflicts
                          with is lost, and the device has not answered that one since. It ends so at once */
    DSA_LIST_RUNNING   /* it was started, and has not ended */
};

/* Plans the list, submits it, and waits until it has ended; for one that is in flight it waits alone. A list may be run
 * again; if nothing was added since, it is not planned again. */
enum dsa_end dsa_list_run(struct dsa_list *list);

/* One list for buffers that change: dsa_list_prepare plans it as it is, and dsa_list_place gives its operations other
 * addresses. A run then fills them in without planning, which takes some nanoseconds an operation. Only if operands
 * that overlapped went to places that are not in step, or operands that were apart overlap now, is the list planned
 * anew: there may be conflicts that the plan does not know. A list that is not prepared, or was added to or cleared
 * since, is planned at each run after dsa_list_place. */

/* Plans the list for dsa_list_place. Returns 0, or -1: dsa_list_why says why. */
int dsa_list_prepare(struct dsa_list *list);
/* Gives an operation other addresses, in the order in which the call that added it takes them, and after these that of
 * a seed in memory; NULL leaves one as it is, and what the operation does not have is passed over. Sizes stay. It waits
 * for a list that is in flight. Returns the operation, or -1. Nobody has to look: from then on dsa_list_run and
 * dsa_list_start refuse the list. If there is no such operation, nothing is placed, and they do so until all operations
 * are placed again in order, from 0; if it is a move within its own range now that the device can't do, until it is
 * placed elsewhere; and in both cases until the list is cleared. dsa_list_prepare ends the first one too. */
int dsa_list_place(struct dsa_list *list, int operation, const void *first, const void *second, const void *third);

/* Several lists in flight, on a queue with DSA_QUEUE_IN_FLIGHT. They leave what they leave one after another in the
 * order in which they were started: one that conflicts with an earlier one waits for it. A list that fails stops only
 * those that come after it by dsa_list_after, however fast they are. These calls move all lists on; no thread does. */

/* Starts the list: DSA_LIST_RUNNING, or DSA_LIST_REFUSED, or DSA_LIST_LOST if an earlier start is lost and no call
 * has said so. A list that is in flight stays as it is. */
enum dsa_end dsa_list_start(struct dsa_list *list);
/* When it is started next (one in flight is waited for), the list comes after the other of its queue: after that one's
 * last start by now, or, if it was cleared, added to, placed or prepared since then, after its next one. It is left out
 * unless that start succeeds, and if that is not started before it; what is done with the other later changes nothing,
 * be it started again, cleared, or given back and taken by others. It holds for one start that is not refused. A list
 * of another queue counts as one that has failed. Without DSA_QUEUE_IN_FLIGHT it does nothing. */
void dsa_list_after(struct dsa_list *list, const struct dsa_list *other);
/* How a list has ended, or DSA_LIST_RUNNING. */
enum dsa_end dsa_list_test(struct dsa_list *list);
/* Waits until the list has ended. */
enum dsa_end dsa_list_wait(struct dsa_list *list);
/* A list that has ended, whoever started it, and that no call has answered; NULL if there is none. If one thread polls,
 * the others may not run, test or wait for lists of the queue: it may be theirs. */
struct dsa_list *dsa_queue_poll(struct dsa_queue *queue);
/* What the caller wants to find again with a list that has ended; NULL at first. */
void dsa_list_set_tag(struct dsa_list *list, void *tag);
void *dsa_list_tag(const struct dsa_list *list);

struct dsa_result {
    uint8_t status;       /* as in linux/idxd.h, without bit 7; 0: not begun, or not known */
    uint8_t is_write;     /* of a page fault: it was a write */
    uint8_t result;       /* of a compare: 0 if the bytes are equal, else 1 */
    uint8_t has_checksum; /* 1 of dsa_list_crc and dsa_list_copy_crc with status 1, else 0 */
    uint32_t checksum;    /* and the checksum then */
    uint64_t offset;      /* of a compare with result 1: the offset of the first difference */
    uint64_t fault;       /* of a page fault: the address */
};
/* The result of an operation, by its number, once the list has ended. */
struct dsa_result dsa_list_result(const struct dsa_list *list, int operation);
/* The number of the operation that has failed, the first one if there are several; -1 if none has. */
int dsa_list_failed(const struct dsa_list *list);
/* How the list has ended, in a sentence: what happened, and what to do. Returns its second argument. */
char *dsa_list_why(const struct dsa_list *list, char why[DSA_WHY_ROOM]);

/* Sources come before targets, as in dsa_descriptors.h. Each returns what dsa_list_add returns. */
static inline int dsa_list_move(struct dsa_list *list, const void *source, void *target, size_t size)
{
    uint8_t d[64];
    dsa_put_move(d, (uintptr_t)source, (uintptr_t)target, size, 0);
    return dsa_list_add(list, d, size);
}

/* The 8 bytes of the pattern, the lowest first, over and over. */
static inline int dsa_list_fill(struct dsa_list *list, void *target, size_t size, uint64_t pattern)
{
    uint8_t d[64];
    dsa_put_fill(d, (uintptr_t)target, size, pattern, 0);
    return dsa_list_add(list, d, size);
}

static inline int dsa_list_compare(struct dsa_list *list, const void *first, const void *second, size_t size)
{
    uint8_t d[64];
    dsa_put_compare(d, (uintptr_t)first, (uintptr_t)second, size, 0);
    return dsa_list_add(list, d, size);
}

static inline int dsa_list_compare_pattern(struct dsa_list *list, const void *source, size_t size, uint64_t pattern)
{
    uint8_t d[64];
    dsa_put_compare_pattern(d, (uintptr_t)source, size, pattern, 0);
    return dsa_list_add(list, d, size);
}

/* A move to two places, whose low 12 bits are equal. */
static inline int dsa_list_dualcast(struct dsa_list *list, const void *source, void *first, void *second, size_t size)
{
    uint8_t d[64];
    dsa_put_dualcast(d, (uintptr_t)source, (uintptr_t)first, (uintptr_t)second, size, 0);
    return dsa_list_add(list, d, size);
}

static inline int dsa_list_apply_delta(struct dsa_list *list, const void *delta, uint32_t delta_size, void *target,
                                       size_t size)
{
    uint8_t d[64];
    dsa_put_apply_delta(d, (uintptr_t)delta, delta_size, (uintptr_t)target, size, 0);
    return dsa_list_add(list, d, size);
}

/* The checksum (CRC-32C) of a range, which dsa_list_result has: as one checksum of what `seed` is that of and of the
 * range; 0 for that of the range alone. */
static inline int dsa_list_crc(struct dsa_list *list, const void *source, size_t size, uint32_t seed)
{
    uint8_t d[64];
    dsa_put_crc(d, (uintptr_t)source, size, seed, 0);
    return dsa_list_add(list, d, size);
}

/* The same, and the range is moved to target, which may not meet it. */
static inline int dsa_list_copy_crc(struct dsa_list *list, const void *source, void *target, size_t size, uint32_t seed)
{
    uint8_t d[64];
    dsa_put_copy_crc(d, (uintptr_t)source, (uintptr_t)target, size, seed, 0);
    return dsa_list_add(list, d, size);
}

/* The four bytes at which the checksum of an operation of the list will be, the lowest first, for operations that read
 * it: a compare with a checksum that was kept, or a move that keeps it. Without such an operation NULL. */
const void *dsa_list_checksum(const struct dsa_list *list, int operation);

/* The two ranges have to be equal, else the list fails and nothing that is added later is begun: a compare that checks
 * its result, and a barrier after it. */
static inline int dsa_list_check(struct dsa_list *list, const void *first, const void *second, size_t size)
{
    uint8_t d[64];
    dsa_put_compare(d, (uintptr_t)first, (uintptr_t)second, size, 0);
    dsa_expect(d, 0);
    const int number = dsa_list_add(list, d, size);
    dsa_list_barrier(list);
    return number;
}

#ifdef __cplusplus
}
#endif

#endif
