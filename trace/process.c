/* What a process and a thread know of themselves without asking the system for each submission. A page that is empty
 * after fork says that the process is new. */
#include <sys/mman.h>
#include <sys/syscall.h>
#include <unistd.h>

#include "trace.h"

/* `mark` is NULL if the kernel can't empty it in children; then `number` tells. */
static struct process { volatile bool *mark; pid_t number; unsigned generation; } process;

/// Whether process_is_new was called in this process. A child by the system call fork is not known at first.
bool process_is_known(void) { return process.mark ? *process.mark : process.number == getpid(); }

/// Whether this is called for the first time in this process. A child by vfork shares the memory, so it is no new one.
bool process_is_new(void)
{
    if (process_is_known())
        return false;
    process.number = getpid();
    if (process.generation++ == 0) {
        const size_t page = 4096;
        void *at = mmap(NULL, page, PROT_READ | PROT_WRITE, MAP_PRIVATE | MAP_ANONYMOUS, -1, 0);
        if (at != MAP_FAILED && madvise(at, page, MADV_WIPEONFORK) == 0)
            process.mark = at;
    }
    if (process.mark)
        *process.mark = true;
    return true;
}

/// Whether this is a child by vfork, which has its parent's memory: what it asks for is not for that.
bool process_is_borrowed(void) { return process.mark && *process.mark && process.number != getpid(); }

/// The number of this thread, after process_is_new in this process.
pid_t process_thread(void)
{
    static __thread struct { pid_t number; unsigned generation; } own;
    if (own.generation != process.generation) {
        own.number = (pid_t)syscall(SYS_gettid);
        own.generation = process.generation;
    }
    return own.number;
}
