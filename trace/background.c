/* Processes that a program leaves in the background. The launcher is their parent once their own has ended
 * (PR_SET_CHILD_SUBREAPER): this needs no right, and the program sees the numbers of processes that it sees without us,
 * which it would not in a namespace of processes. */
#include <dirent.h>
#include <errno.h>
#include <signal.h>
#include <stdio.h>
#include <stdlib.h>
#include <string.h>
#include <sys/prctl.h>
#include <sys/wait.h>
#include <time.h>
#include <unistd.h>

#include "launcher.h"

/* Seconds after which it is said for whom we wait, and after which we do no longer; most that are named. */
enum { SAID_AFTER = 3, LIMIT = 60, MOST_NAMED = 20, DEEPEST = 64 };

struct process { int number, parent; char state, name[32]; };

/// What Linux says of a process; false if it is none.
static bool read_process(const char *number, struct process *p)
{
    char path[64], text[256];
    snprintf(path, sizeof path, "/proc/%.20s/stat", number);
    FILE *file = fopen(path, "r");
    const size_t length = file ? fread(text, 1, sizeof text - 1, file) : 0;
    if (file)
        fclose(file);
    text[length] = 0;
    char *name = strchr(text, '('), *end = strrchr(text, ')');
    if (!name || !end || sscanf(end + 1, " %c %d", &p->state, &p->parent) != 2)
        return false;
    *end = 0;
    p->number = atoi(text);
    snprintf(p->name, sizeof p->name, "%s", name + 1);
    return true;
}

/// Whether the process is below us and has not ended.
static bool is_below(const struct process *it)
{
    struct process p = *it;
    char number[16];
    for (int depth = 0; p.parent > 1 && depth < DEEPEST; depth++) {
        if (p.parent == getpid())
            return it->state != 'Z' && it->state != 'X';
        snprintf(number, sizeof number, "%d", p.parent);
        if (!read_process(number, &p))
            return false;
    }
    return false;
}

/// Names those that still run after a sentence, on one line.
static void name_all(const char *sentence)
{
    struct process p;
    int count = 0;
    DIR *list = opendir("/proc");
    fprintf(stderr, "dsa_trace: %s", sentence);
    for (struct dirent *e; list && (e = readdir(list));)
        if (*e->d_name >= '1' && *e->d_name <= '9' && read_process(e->d_name, &p) && is_below(&p) &&
            count++ < MOST_NAMED)
            fprintf(stderr, "%s process %d (%s)", count > 1 ? "," : "", p.number, p.name);
    if (count > MOST_NAMED)
        fprintf(stderr, " and %d more", count - MOST_NAMED);
    fputc('\n', stderr);
    if (list)
        closedir(list);
}

/// Sends a signal to all processes of the run.
void background_signal(int number)
{
    struct process p;
    DIR *list = opendir("/proc");
    for (struct dirent *e; list && (e = readdir(list));)
        if (*e->d_name >= '1' && *e->d_name <= '9' && read_process(e->d_name, &p) && is_below(&p))
            kill(p.number, number);
    if (list)
        closedir(list);
}

/// Has all processes of the run come to us when their parents end.
void background_begin(void)
{
    if (prctl(PR_SET_CHILD_SUBREAPER, 1))
        fail("processes in the background");
}

/// Whether a process that has been started still runs; those that have ended are waited for.
static bool is_one_left(void)
{
    pid_t ended;
    while ((ended = waitpid(-1, NULL, WNOHANG)) > 0 || (ended < 0 && errno == EINTR))
        ;
    return ended == 0;
}

/// Waits for the processes that are left; false if some still run after the limit. Unless `waits`, it names those that
/// run, and does not wait for them.
bool background_end(bool waits)
{
    const time_t start = time(NULL);
    bool is_said = false;
    while (is_one_left()) {
        const time_t passed = time(NULL) - start;
        if (!waits || passed >= LIMIT) {
            name_all("the program has ended, but not");
            return !waits;
        }
        if (!is_said && passed >= SAID_AFTER)
            name_all("the program has ended; for a minute at most (--no-wait: not at all) this waits for");
        is_said |= passed >= SAID_AFTER;
        usleep(5000);
    }
    return true;
}
