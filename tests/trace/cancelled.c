/* Threads are cancelled:
 *   write        while one waits in write() for a pipe that is full
 *   submits      at any time, while they submit, by the instruction
 *   file         the same by writes to the queue's file
 * Each runs its cleanup, and afterwards a move is right. */
#include "client.h"

#include <pthread.h>
#include <signal.h>

enum { HUNG = 7, TIMES = 200 };

static void *portal;
static int queue_file, pipe_of[2], cleaned;
static volatile completion *r;

static void hang(int number)
{
    (void)number;
    _exit(HUNG);
}

static void clean(void *unused)
{
    (void)unused;
    __atomic_add_fetch(&cleaned, 1, __ATOMIC_RELAXED);
}

static void *fill_pipe(void *unused)
{
    static const char some[100];
    pthread_cleanup_push(clean, NULL);
    while (write(pipe_of[1], some, sizeof some) >= 0)
        ;
    pthread_cleanup_pop(0);
    return unused;
}

/* Submits until it is cancelled, which is possible between any two of its instructions. */
static void *submit_on(void *by_file)
{
    volatile completion *own = fresh(4096);
    const descriptor d = {.flags = ASKS, .completion_addr = (uintptr_t)own};
    pthread_cleanup_push(clean, NULL);
    pthread_setcanceltype(PTHREAD_CANCEL_ASYNCHRONOUS, NULL);
    for (;;) {
        own->status = 0;
        while (by_file ? write(queue_file, &d, sizeof d) != sizeof d : enqueue(portal, &d))
            ;
        await(own);
    }
    pthread_cleanup_pop(0);
    return by_file;
}

/* Starts a thread and cancels it after so many microseconds. */
static int cancel(void *(*work)(void *), void *how, int after)
{
    pthread_t thread;
    void *result = NULL;
    if (pthread_create(&thread, NULL, work, how))
        return 0;
    usleep(after);
    pthread_cancel(thread);
    pthread_join(thread, &result);
    return result == PTHREAD_CANCELED;
}

int main(int argc, char **argv)
{
    const char *what = argc > 1 ? argv[1] : "submits";
    int ended = 0, times = TIMES;
    uint8_t *memory = fresh(4096);
    portal = portal_of("/dev/dsa/wq0.1");
    queue_file = open("/dev/dsa/wq0.1", O_RDWR);
    r = fresh(4096);
    signal(SIGALRM, hang);
    alarm(60);
    if (pipe(pipe_of))
        return WRONG;
    if (strcmp(what, "write") == 0) {
        times = 1;
        ended = cancel(fill_pipe, NULL, 200000);
    }
    for (int i = 0; i < times && times > 1; i++)
        ended += cancel(submit_on, strcmp(what, "file") ? NULL : memory, 7 * i);
    memory[0] = 5;
    const descriptor d = move(memory, memory + 64, 64, r);
    while (enqueue(portal, &d))
        ;
    await(r);
    printf("%d of %d cancelled, %d without cleanup, moved %d\n", ended, times, times - cleaned, memory[64]);
    return 0;
}
