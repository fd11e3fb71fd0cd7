/* The pages that programs map from a queue's file. Writers hold the lock; a handler of signals reads without it. */
#include <errno.h>
#include <pthread.h>
#include <stdarg.h>
#include <stdatomic.h>
#include <stdio.h>
#include <sys/mman.h>
#include <sys/syscall.h>
#include <unistd.h>

#include "trace.h"

enum { PAGE = 4096 };

/* `queue` is written before `at`, and `at` is 0 while the place is free. */
struct portal { _Atomic uintptr_t at; struct queue *queue; };

static struct portals {
    pthread_mutex_t lock;
    struct portal table[PORTALS];
    struct queue queues[QUEUES];
    int queue_count;
} portals = {.lock = PTHREAD_MUTEX_INITIALIZER};

/// Takes the lock, with signals blocked: a handler that maps something must not find it taken by its own thread.
static uint64_t enter(void)
{
    const uint64_t before = signals_block();
    pthread_mutex_lock(&portals.lock);
    return before;
}

static void leave(uint64_t before)
{
    pthread_mutex_unlock(&portals.lock);
    signals_restore(before);
}

/// The queue at whose portal this address is, or NULL.
struct queue *portals_at(uintptr_t address)
{
    const uintptr_t page = process_is_known() ? address & -(uintptr_t)PAGE : 0;
    for (int i = 0; page && i < PORTALS; i++)
        if (atomic_load_explicit(&portals.table[i].at, memory_order_acquire) == page)
            return portals.table[i].queue;
    return NULL;
}

/// The queue of this device and number, read by `fill` when it is asked for first.
struct queue *portals_queue(int device, int id, bool (*fill)(struct queue *))
{
    struct queue *found = NULL;
    const uint64_t before = enter();
    for (int i = 0; i < portals.queue_count && !found; i++)
        if (portals.queues[i].device == device && portals.queues[i].id == id)
            found = &portals.queues[i];
    if (!found && portals.queue_count < QUEUES) {
        found = &portals.queues[portals.queue_count];
        *found = (struct queue){.device = device, .id = id};
        if (fill(found))
            portals.queue_count++;
        else
            found = NULL;
    }
    leave(before);
    return found;
}

/// Forgets the portals in a range that is unmapped or mapped anew.
static void forget(uintptr_t at, size_t size)
{
    for (int i = 0; i < PORTALS; i++) {
        const uintptr_t page = atomic_load(&portals.table[i].at);
        if (page && page - at < size)
            atomic_store(&portals.table[i].at, 0);
    }
}

/// Notes that a page is a portal. False, after a sentence, if there are too many.
static bool add(uintptr_t page, struct queue *queue)
{
    int place = 0;
    forget(page, PAGE); /* another queue's, if it is put over that */
    while (place < PORTALS && atomic_load(&portals.table[place].at))
        place++;
    if (place == PORTALS) {
        say("more than %d portals are mapped at once", PORTALS);
        return false;
    }
    portals.table[place].queue = queue;
    atomic_store_explicit(&portals.table[place].at, page, memory_order_release);
    return true;
}

/// Makes a page of a queue's file a portal: it can't be touched, and is not for children.
static bool claim(void *page, struct queue *queue)
{
    const uint64_t before = enter();
    const bool is_ours = syscall(SYS_mprotect, page, PAGE, PROT_NONE) == 0 && add((uintptr_t)page, queue);
    madvise(page, PAGE, MADV_DONTFORK);
    leave(before);
    return is_ours;
}

/// Maps a portal: the kernel looks at all but the size, which the driver does. It takes a private map too, but what is
/// stored there reaches no device, so here it is refused.
static void *map_portal(void *at, size_t size, int protection, int flags, int fd, off_t offset, struct queue *queue)
{
    if (size > PAGE || !(flags & MAP_SHARED)) {
        errno = EINVAL;
        return MAP_FAILED;
    }
    if (!board_is_there() || !queue->may_map) {
        errno = queue->may_map ? EACCES : EPERM;
        return MAP_FAILED;
    }
    order_start();
    void *page = (void *)syscall(SYS_mmap, at, size, protection, flags, fd, offset);
    if (page == MAP_FAILED || claim(page, queue))
        return page;
    syscall(SYS_munmap, page, PAGE);
    errno = ENOMEM;
    return MAP_FAILED;
}

/// The queue whose file is mapped at an address, if that was done past us, as by a system call; the page then becomes a
/// portal like others.
struct queue *portals_adopt(uintptr_t address)
{
    struct queue *queue = files_mapped(address);
    return queue && board_is_there() && claim((void *)(address & -(uintptr_t)PAGE), queue) ? queue : NULL;
}

/// In a child of fork: the driver's mappings are not inherited, so a child has to map a portal of its own.
void portals_forget(void)
{
    pthread_mutex_init(&portals.lock, NULL);
    forget(0, SIZE_MAX);
}

static void *map(void *at, size_t size, int protection, int flags, int fd, off_t offset)
{
    const struct opened file = flags & MAP_ANONYMOUS ? (struct opened){.kind = OF_OTHERS} : files_opened(fd);
    if (file.kind == OF_QUEUE)
        return file.queue ? map_portal(at, size, protection, flags, fd, offset, file.queue) : MAP_FAILED;
    if (flags & MAP_FIXED)
        forget((uintptr_t)at, size);
    return (void *)syscall(SYS_mmap, at, size, protection, flags, fd, offset);
}

void *mmap(void *at, size_t size, int protection, int flags, int fd, off_t offset)
{
    return map(at, size, protection, flags, fd, offset);
}

void *mmap64(void *at, size_t size, int protection, int flags, int fd, off64_t offset)
{
    return map(at, size, protection, flags, fd, offset);
}

/// Unmaps. What the kernel refuses stays, and a portal in it.
int munmap(void *at, size_t size)
{
    if ((uintptr_t)at % PAGE == 0)
        forget((uintptr_t)at, size);
    return syscall(SYS_munmap, at, size);
}

/// Moves a mapping; a portal goes with it.
void *mremap(void *at, size_t size, size_t new_size, int flags, ...)
{
    va_list more;
    va_start(more, flags);
    void *const wanted = flags & MREMAP_FIXED ? va_arg(more, void *) : NULL;
    va_end(more);
    struct queue *queue = portals_at((uintptr_t)at);
    void *const page = (void *)syscall(SYS_mremap, at, size, new_size, flags, wanted);
    if (page == MAP_FAILED)
        return page;
    const uint64_t before = enter();
    forget((uintptr_t)at, size);
    forget((uintptr_t)page, new_size);
    if (queue)
        add((uintptr_t)page, queue);
    leave(before);
    return page;
}
