/* Opens a queue: its options, its work queues, and its memory. */
#include <stdio.h>
#include <stdlib.h>

#include "queue.h"

enum { DEFAULT_WAIT = 10000, GREATEST_BATCH = 1024, GREATEST_PRICE = 1000000000 };
static const uint64_t greatest_transfer = UINT64_C(1) << 31;

/// The limits of software: it splits nothing that a device need not.
static void set_widest(struct dsa_queue *queue, uint32_t flags)
{
    queue->flags = flags;
    queue->settings.greatest_batch = GREATEST_BATCH;
    queue->settings.greatest_transfer = greatest_transfer;
    queue->may_overlap = true;
}

/* The names of files, which have colons between them where they are given. */
struct names { uint32_t count; char name[MOST_PORTS][NAME_ROOM]; };

static bool take_name(struct names *to, const char *name, size_t len, char why[DSA_WHY_ROOM])
{
    if (len == 0 || len >= NAME_ROOM)
        return why_not(why, "a queue's file has 1 to %d bytes, and there is a name of %zu; names are between colons",
                       NAME_ROOM - 1, len);
    if (to->count == MOST_PORTS)
        return why_not(why, "there are more than %d files; open a second queue", MOST_PORTS);
    char *last = to->name[to->count];
    memcpy(last, name, len);
    last[len] = 0;
    for (uint32_t i = 0; i < to->count; i++)
        if (strcmp(to->name[i], last) == 0)
            return why_not(why, "%s is there twice; name it once", last);
    to->count++;
    return true;
}

static bool take_names(struct names *to, const char *files, char why[DSA_WHY_ROOM])
{
    to->count = 0;
    if (strlen(files) >= NAMES_ROOM)
        return why_not(why, "the names of files have more than %d bytes; name fewer", NAMES_ROOM - 1);
    for (const char *at = files;; at++) {
        const size_t len = strcspn(at, ":");
        if (!take_name(to, at, len, why))
            return false;
        at += len;
        if (!*at)
            return true;
    }
}

/// Opens all work queues that are named.
static bool open_all(struct dsa_queue *queue, const struct names *names, char why[DSA_WHY_ROOM])
{
    for (uint32_t i = 0; i < names->count; i++)
        if (!driver_open(queue, names->name[i], why))
            return false;
    return true;
}

/// Whether all are names of queues that a device would have which is not there. A wrong name is the caller's mistake,
/// and a queue that is there and can't be opened has a reason that software would hide.
static bool are_absent(const struct names *names)
{
    uint32_t i = 0;
    while (i < names->count && driver_is_absent(names->name[i]))
        i++;
    return i == names->count && !driver_has_device();
}

/// Queues without batches get a price at which no batch is planned.
static void set_name_and_prices(struct dsa_queue *queue, const char *name)
{
    struct dsa_settings *settings = &queue->settings;
    snprintf(queue->name, sizeof queue->name, "%s", name);
    if (settings->greatest_batch < 2) {
        settings->greatest_batch = 2;
        settings->lone = 1;
        settings->batch = GREATEST_PRICE;
    }
}

/// Opens work queues, or what the flags permit in their place: then `why` still says why there are none.
static bool open_any(struct dsa_queue *queue, const char *files, char why[DSA_WHY_ROOM])
{
    const uint32_t flags = queue->flags;
    struct names names;
    why[0] = 0;
    if (!(flags & DSA_QUEUE_SOFTWARE)) {
        if (files && !take_names(&names, files, why))
            return false;
        if (files ? open_all(queue, &names, why) : driver_open_first(queue, why)) {
            why[0] = 0; /* of a queue that was passed over */
            set_name_and_prices(queue, files ? files : queue->port[0].name);
            return true;
        }
        driver_close(queue, true);
        if (!(flags & DSA_QUEUE_OR_SOFTWARE) || (files && !are_absent(&names)))
            return false;
    }
    set_widest(queue, flags);
    snprintf(queue->name, sizeof queue->name, "software");
    return true;
}

static bool has_waitpkg(void)
{
    unsigned a = 7, b, c = 0, d;
    __asm__ volatile("cpuid" : "+a"(a), "=b"(b), "+c"(c), "=d"(d));
    return c >> 5 & 1;
}

/// Whether the prices are those of a plan, or all 0; else why not.
static bool are_prices(const struct dsa_queue_options *o, char why[DSA_WHY_ROOM])
{
    const unsigned long long lone = o->lone, batch = o->batch, fence = o->fence;
    if ((lone | batch | fence) && !(lone && batch))
        return why_not(why, "the prices are %llu for a lone descriptor, %llu for a batch and %llu for a fence; give "
                       "those of both a lone descriptor and a batch, or none", lone, batch, fence);
    if (lone > GREATEST_PRICE || batch > GREATEST_PRICE || fence > GREATEST_PRICE)
        return why_not(why, "the prices are %llu for a lone descriptor, %llu for a batch and %llu for a fence, and "
                       "none may be above %d", lone, batch, fence, GREATEST_PRICE);
    return true;
}

/// Whether the options are those of a queue that can be; else why not.
static bool are_right(const struct dsa_queue_options *o, char why[DSA_WHY_ROOM])
{
    const uint32_t known = DSA_QUEUE_KEEP_FAULTS | DSA_QUEUE_BLOCK_ON_FAULT | DSA_QUEUE_OR_SOFTWARE |
                           DSA_QUEUE_SOFTWARE | DSA_QUEUE_IN_FLIGHT;
    if (o->lists > MOST_LISTS || o->pieces > DSA_MOST_PIECES)
        return why_not(why, "a queue has at most %d lists, and a list at most %u pieces", MOST_LISTS, DSA_MOST_PIECES);
    if (o->flags & ~known)
        return why_not(why, "no flag of a queue is %#x; dsa_queue.h has them", o->flags & ~known);
    return are_prices(o, why);
}

static void set_options(struct dsa_queue *queue, const struct dsa_queue_options *o)
{
    const bool has_prices = o->lone | o->batch | o->fence;
    set_widest(queue, o->flags);
    queue->lists = o->lists ? o->lists : 16;
    queue->most = o->pieces ? o->pieces : 64;
    queue->wait_ms = o->wait_ms ? o->wait_ms : DEFAULT_WAIT;
    queue->settings.version = 1;
    queue->settings.lone = 10;
    queue->settings.batch = 14;
    queue->settings.fence = 3;
    if (has_prices) {
        queue->settings.lone = o->lone;
        queue->settings.batch = o->batch;
        queue->settings.fence = o->fence;
    }
    queue->has_waitpkg = has_waitpkg();
    pthread_mutex_init(&queue->lock, NULL);
}

struct dsa_queue *dsa_queue_open(const char *file, const struct dsa_queue_options *options, char why[DSA_WHY_ROOM])
{
    static const struct dsa_queue_options none;
    if (options && !are_right(options, why))
        return NULL;
    struct dsa_queue *queue = calloc(1, sizeof *queue);
    if (!queue)
        return why_not(why, "there is not enough memory for a queue"), NULL;
    set_options(queue, options ? options : &none);
    if (open_any(queue, file, why) && room_take(queue, why))
        return queue;
    driver_close(queue, true);
    free(queue);
    return NULL;
}

const char *dsa_queue_name(const struct dsa_queue *queue) { return queue->name; }
