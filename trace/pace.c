/* When the program has had its time. What is in flight waits until the thread that submitted has run on for the delay
 * without another submission, or sleeps. Its processor time counts and not the clock, so that a busy machine does not
 * change the order. */
#include <fcntl.h>
#include <stdio.h>
#include <string.h>
#include <sys/syscall.h>
#include <time.h>
#include <unistd.h>

#include "order.h"

enum { LONGEST = 1000000000 };

static int64_t clock_of(clockid_t id)
{
    struct timespec t;
    return clock_gettime(id, &t) ? -1 : t.tv_sec * 1000000000l + t.tv_nsec;
}

/// The processor time of a thread, as Linux numbers such clocks; -1 if it has ended.
static int64_t cpu_of(pid_t thread)
{
    enum { OF_THREAD = 4, OF_SCHEDULER = 2 };
    return clock_of((clockid_t)(~(unsigned)thread << 3 | OF_THREAD | OF_SCHEDULER));
}

/// Whether the thread is neither running nor waiting for a processor.
static bool is_asleep(pid_t thread)
{
    char path[48], text[64];
    snprintf(path, sizeof path, "/proc/self/task/%d/stat", (int)thread);
    const int fd = syscall(SYS_openat, AT_FDCWD, path, O_RDONLY | O_CLOEXEC, 0);
    if (fd < 0)
        return true;
    const ssize_t length = syscall(SYS_read, fd, text, sizeof text - 1);
    syscall(SYS_close, fd);
    text[length > 0 ? length : 0] = 0;
    const char *state = strrchr(text, ')');
    return state && strlen(state) > 2 && strchr("STtZX", state[2]); /* not D, which a page fault may be */
}

/// A submission by this thread, or with 0 a record.
void pace_begin(struct pace *p, pid_t thread)
{
    if (thread)
        p->thread = thread;
    p->cpu = thread ? clock_of(CLOCK_THREAD_CPUTIME_ID) : cpu_of(p->thread);
    p->wall = clock_of(CLOCK_MONOTONIC);
    p->waits = false;
}

/// Nanoseconds since the last submission or record.
int64_t pace_since(const struct pace *p) { return clock_of(CLOCK_MONOTONIC) - p->wall; }

/// Whether the program has had its time.
bool pace_is_quiet(const struct pace *p, int64_t *wait)
{
    const int64_t delay = (int64_t)settings.delay * 1000, passed = pace_since(p);
    if (delay == 0 || p->waits)
        return true;
    *wait = delay - passed;
    if (passed < delay)
        return false;
    const int64_t cpu = cpu_of(p->thread);
    if (cpu < 0 || p->cpu < 0 || cpu - p->cpu >= delay || passed > LONGEST || is_asleep(p->thread))
        return true;
    *wait = delay - (cpu - p->cpu) + 1000;
    return false;
}
