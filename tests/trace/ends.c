/* Processes that end or begin in the midst of submissions, one case for each word:
 *   unread   a descriptor that can't be read, with no handler of the program's own
 *   endless  four threads that submit until the process is killed, with nothing in place to end them
 *   forks    thirty children, each with a portal of its own, by fork while two threads submit
 *   spawned  another program, by posix_spawn, while two threads submit */
#include <pthread.h>
#include <spawn.h>
#include <sys/wait.h>

#include "client.h"

enum { THREADS = 4, CHILDREN = 30 };

extern char **environ;
static volatile int is_over;

/* Submits moves on a portal of this thread's own queue until all is over. */
static void *submit_on(void *unused)
{
    void *portal = portal_of("/dev/dsa/wq0.1");
    volatile completion *r = fresh(4096);
    uint8_t *memory = fresh(4096);
    const descriptor d = move(memory, memory + 64, 64, r);
    while (!is_over) {
        memset((void *)r, 0, sizeof *r);
        while (enqueue(portal, &d))
            _mm_pause();
        await(r);
    }
    return unused;
}

/* Whether a move on a portal of this process's own is right. */
static int moves(void)
{
    void *portal = portal_of("/dev/dsa/wq0.0");
    volatile completion *r = fresh(4096);
    uint8_t *memory = fresh(4096);
    const descriptor d = move(memory, memory + 64, 64, r);
    memset(memory, 5, 64);
    submit(portal, &d);
    return await(r) == DSA_COMP_SUCCESS && memcmp(memory, memory + 64, 64) == 0;
}

/* How many of the children end well. */
static int ending_well(int count, int is_spawned, char **argv)
{
    char *const again[] = {argv[0], "once", NULL};
    int well = 0, status;
    for (int i = 0; i < count; i++) {
        pid_t child = -1;
        if (is_spawned)
            posix_spawn(&child, "/proc/self/exe", NULL, NULL, again, environ);
        else
            child = fork();
        if (child == 0)
            _exit(!moves());
        well += waitpid(child, &status, 0) == child && WIFEXITED(status) && WEXITSTATUS(status) == 0;
    }
    return well;
}

int main(int argc, char **argv)
{
    const char *what = argc > 1 ? argv[1] : "once";
    pthread_t threads[THREADS];
    if (strcmp(what, "once") == 0)
        return !moves();
    if (strcmp(what, "unread") == 0)
        submit(portal_of("/dev/dsa/wq0.0"), NULL);
    const int count = strcmp(what, "endless") ? 2 : THREADS;
    for (int i = 0; i < count; i++)
        pthread_create(&threads[i], NULL, submit_on, NULL);
    if (count == 2)
        printf("%d of %d children end well\n", ending_well(CHILDREN, strcmp(what, "spawned") == 0, argv), CHILDREN);
    is_over = count == 2;
    for (int i = 0; i < count; i++)
        pthread_join(threads[i], NULL);
    printf("a move afterwards: %d\n", moves());
    return 0;
}
