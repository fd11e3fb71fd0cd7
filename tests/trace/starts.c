/* Starts itself in an environment that has nothing of ours, by each function that starts programs; or submits:
 *   starts FUNCTION [child]   with a word more in a child by vfork
 *   starts submits WORD       WORD has to be there */
#include "client.h"

#include <spawn.h>
#include <sys/wait.h>

static char *const words[] = {"starts", "submits", "word", NULL};
static char *const other[] = {"LD_PRELOAD=libm.so.6", "MINE=1", NULL};

static int submits(const char *word)
{
    volatile completion *r = fresh(4096);
    const descriptor d = {.flags = ASKS, .completion_addr = (uintptr_t)r};
    submit(portal_of("/dev/dsa/wq0.0"), &d);
    printf("status %#x, %s, mine %d\n", await(r), word, getenv("MINE") != NULL);
    return 0;
}

static void spawn(const char *how, const char *self)
{
    pid_t child;
    int status;
    if (strcmp(how, "posix_spawn") == 0 ? posix_spawn(&child, self, NULL, NULL, words, other)
                                        : posix_spawnp(&child, self, NULL, NULL, words, other))
        exit(WRONG);
    waitpid(child, &status, 0);
    exit(WEXITSTATUS(status));
}

static void start(const char *how, const char *self)
{
    if (strcmp(how, "execve") == 0)
        execve(self, words, other);
    if (strcmp(how, "nothing") == 0)
        execve(self, words, NULL);
    if (strcmp(how, "execvpe") == 0)
        execvpe(self, words, other);
    if (strcmp(how, "fexecve") == 0)
        fexecve(open(self, O_RDONLY), words, other);
    if (strcmp(how, "execle") == 0)
        execle(self, "starts", "submits", "word", (char *)NULL, other);
    if (strncmp(how, "posix", 5) == 0)
        spawn(how, self);
    clearenv();
    if (strcmp(how, "execv") == 0)
        execv(self, words);
    if (strcmp(how, "execvp") == 0)
        execvp(self, words);
    if (strcmp(how, "execl") == 0)
        execl(self, "starts", "submits", "word", (char *)NULL);
    if (strcmp(how, "execlp") == 0)
        execlp(self, "starts", "submits", "word", (char *)NULL);
}

int main(int argc, char **argv)
{
    int status;
    if (argc == 3 && strcmp(argv[1], "submits") == 0)
        return submits(argv[2]);
    const pid_t child = argc > 2 ? vfork() : 0;
    if (child == 0) {
        start(argv[1], "/proc/self/exe");
        perror(argv[1]);
        _exit(WRONG);
    }
    waitpid(child, &status, 0);
    return WEXITSTATUS(status);
}
