/* The memory of a queue, all of which is taken when it is opened, and its lists. */
#include <errno.h>
#include <stdlib.h>
#include <sys/mman.h>

#include "queue.h"

enum { LOG2_ROWS = 13, LOG2_UNIT = 12 }; /* of the tracker: they change no answer */

/// A size in whole units, which are powers of two.
static size_t rounded(size_t size, size_t unit) { return (size + unit - 1) & -unit; }

/// Places what the device touches of a list; answers how many bytes that takes.
static size_t place_shared(struct dsa_list *list, uint8_t *at, size_t most)
{
    list->records = at;
    list->staging = at + rounded(RECORD * most, ENTRY);
    return rounded(RECORD * most, ENTRY) + rounded(DSA_STAGING_AREA(most), ENTRY);
}

/// Places the rest of a list.
static size_t place_own(struct dsa_list *list, uint8_t *at, size_t most)
{
    list->portal = at;
    list->list = at + ENTRY * most;
    list->left = at + 2 * ENTRY * most;
    list->rest = at + 3 * ENTRY * most;
    list->gathered = at + 4 * ENTRY * most;
    list->first = (uint32_t *)(void *)(list->gathered + rounded(RECORD * most, ENTRY));
    return 4 * ENTRY * most + rounded(RECORD * most, ENTRY) + rounded(sizeof *list->first * (most + 1), ENTRY);
}

static uint8_t *mapped(size_t size)
{
    void *at = mmap(NULL, size, PROT_READ | PROT_WRITE, MAP_PRIVATE | MAP_ANONYMOUS | MAP_POPULATE, -1, 0);
    return at == MAP_FAILED ? NULL : at;
}

/// Gives back what was mapped. In a child of fork something else may be at the addresses of what it does not have.
static void give_back(struct dsa_queue *queue, bool with_shared)
{
    if (queue->shared && with_shared)
        munmap(queue->shared, queue->shared_size);
    if (queue->own)
        munmap(queue->own, queue->own_size);
}

/// Takes the memory. A child of fork does not share what the device touches: else the fork would make pages of it
/// absent for the device, until they are copied.
bool room_take(struct dsa_queue *queue, char why[DSA_WHY_ROOM])
{
    struct dsa_list any;
    const size_t shared = place_shared(&any, NULL, queue->most), own = place_own(&any, NULL, queue->most);
    const size_t spans = DSA_TRACKER_SPANS(queue->most);
    const bool is_tracked = queue->flags & DSA_QUEUE_IN_FLIGHT;
    queue->words = is_tracked ? DSA_TRACKER_WORDS(queue->lists, spans, LOG2_ROWS) : 0;
    queue->shared_size = rounded(shared * queue->lists, PAGE);
    queue->own_size = PAGE + rounded(own * queue->lists + queue->words * sizeof *queue->tracker, PAGE);
    queue->shared = mapped(queue->shared_size);
    queue->own = mapped(queue->own_size);
    if (!queue->shared || !queue->own) {
        give_back(queue, true);
        return why_not(why, "there is not enough memory for %u lists of %u pieces; open the queue with fewer",
                       queue->lists, queue->most);
    }
    if (madvise(queue->own, PAGE, MADV_WIPEONFORK) || madvise(queue->shared, queue->shared_size, MADV_DONTFORK)) {
        const int error = errno;
        give_back(queue, true);
        return why_not(why, "memory can't be kept from children of fork (madvise: %s); it can with Linux 4.14 or later",
                       strerror(error));
    }
    queue->own[0] = 1;
    for (uint32_t i = 0; i < queue->lists; i++) {
        queue->list[i].queue = queue;
        place_shared(&queue->list[i], queue->shared + shared * i, queue->most);
        place_own(&queue->list[i], queue->own + PAGE + own * i, queue->most);
    }
    queue->tracker = is_tracked ? (uint64_t *)(void *)(queue->own + PAGE + own * queue->lists) : NULL;
    struct dsa_refusal refusal;
    return !is_tracked || dsa_track_begin(queue->tracker, queue->words, queue->lists, (uint32_t)spans, LOG2_ROWS,
                                          LOG2_UNIT, &refusal) == DSA_OK;
}

bool room_is_own(const struct dsa_queue *queue) { return queue->own[0]; }

bool room_is_lost(struct dsa_list *list)
{
    if (list->is_lost && room_is_own(list->queue))
        flight_recover(list);
    return list->is_lost;
}

struct dsa_list *dsa_list_get(struct dsa_queue *queue)
{
    for (uint32_t i = 0; i < queue->lists; i++) {
        const uint64_t bit = UINT64_C(1) << i;
        if (atomic_load_explicit(&queue->taken, memory_order_relaxed) & bit ||
            atomic_fetch_or_explicit(&queue->taken, bit, memory_order_acquire) & bit)
            continue;
        if (!room_is_lost(&queue->list[i])) {
            dsa_list_clear(&queue->list[i]);
            queue->list[i].tag = NULL;
            return &queue->list[i];
        }
        dsa_list_drop(&queue->list[i]);
    }
    return NULL;
}

void dsa_list_drop(struct dsa_list *list)
{
    struct dsa_queue *queue = list->queue;
    flight_leave(list);
    atomic_fetch_and_explicit(&queue->taken, ~(UINT64_C(1) << (list - queue->list)), memory_order_release);
}

void dsa_queue_close(struct dsa_queue *queue)
{
    const bool is_own = room_is_own(queue);
    bool is_lost = false;
    for (uint32_t i = 0; i < queue->lists; i++) {
        dsa_list_drop(&queue->list[i]);
        is_lost |= room_is_lost(&queue->list[i]);
    }
    for (uint32_t i = 0; i < queue->lists; i++)
        prepared_free(&queue->list[i]);
    driver_close(queue, is_own);
    give_back(queue, is_own && !is_lost);
    free(queue);
}
