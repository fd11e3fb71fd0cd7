/* Four threads, or so many, made after the first submission and with all signals blocked, each with moves of its own in
 * flight on the shared queue, and so many rounds of these; then a child by fork, which maps a portal of its own. Status
 * 0: all copies are right. */
#include <pthread.h>
#include <signal.h>
#include <sys/wait.h>

#include "client.h"

enum { MOVES = 4, SIZE = 3000, APART = 4096 };

static void *portal;
static int rounds = 20, wrong;

static void put(const descriptor *d)
{
    while (enqueue(portal, d))
        _mm_pause();
}

static void *work(void *unused)
{
    uint8_t *from = fresh(MOVES * APART), *to = fresh(MOVES * APART);
    volatile completion *r = fresh(4096);
    for (int round = 0; round < rounds; round++) {
        memset((void *)r, 0, sizeof *r * MOVES);
        for (int i = 0; i < MOVES * APART; i++)
            from[i] = rand();
        for (int i = 0; i < MOVES; i++) {
            const descriptor d = move(from + i * APART, to + i * APART, SIZE, &r[i]);
            put(&d);
        }
        for (int i = 0; i < MOVES; i++)
            if (await(&r[i]) != DSA_COMP_SUCCESS || memcmp(from + i * APART, to + i * APART, SIZE))
                __atomic_add_fetch(&wrong, 1, __ATOMIC_RELAXED);
    }
    return unused;
}

int main(int argc, char **argv)
{
    const int count = argc > 1 ? atoi(argv[1]) : 4;
    pthread_t threads[count];
    sigset_t all;
    int status;
    rounds = argc > 2 ? atoi(argv[2]) : rounds;
    portal = portal_of("/dev/dsa/wq0.1");
    work(NULL);
    sigfillset(&all);
    pthread_sigmask(SIG_BLOCK, &all, NULL);
    for (int i = 0; i < count; i++)
        pthread_create(&threads[i], NULL, work, NULL);
    for (int i = 0; i < count; i++)
        pthread_join(threads[i], NULL);
    const pid_t child = fork();
    if (child == 0)
        portal = portal_of("/dev/dsa/wq0.1");
    work(NULL);
    if (child == 0)
        _exit(wrong != 0);
    waitpid(child, &status, 0);
    return wrong || status ? WRONG : 0;
}
