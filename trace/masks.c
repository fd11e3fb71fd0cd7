/* What the program blocks: a fault that comes while its signal is blocked kills the process, so SIGILL, SIGSEGV and
 * SIGBUS are never blocked, by whatever function of the C library. */
#include <errno.h>
#include <pthread.h>
#include <signal.h>
#include <ucontext.h>

#include "trace.h"

/// Takes our signals out of a set.
void masks_spare(sigset_t *set)
{
    sigdelset(set, SIGILL);
    sigdelset(set, SIGSEGV);
    sigdelset(set, SIGBUS);
}

/// The program may be started with our signals blocked.
void masks_begin(void)
{
    sigset_t none, before;
    sigemptyset(&none);
    pthread_sigmask(SIG_BLOCK, &none, &before);
    pthread_sigmask(SIG_SETMASK, &before, NULL);
}

int pthread_sigmask(int how, const sigset_t *set, sigset_t *old)
{
    REAL_OF(pthread_sigmask);
    sigset_t less;
    if (set && how != SIG_UNBLOCK) {
        less = *set;
        masks_spare(&less);
        set = &less;
    }
    return REAL(pthread_sigmask)(how, set, old);
}

int sigprocmask(int how, const sigset_t *set, sigset_t *old)
{
    const int fault = pthread_sigmask(how, set, old);
    if (fault)
        errno = fault;
    return fault ? -1 : 0;
}

/* Of a thread that is started. */
int pthread_attr_setsigmask_np(pthread_attr_t *attributes, const sigset_t *set)
{
    REAL_OF(pthread_attr_setsigmask_np);
    sigset_t less;
    if (set) {
        less = *set;
        masks_spare(&less);
        set = &less;
    }
    return REAL(pthread_attr_setsigmask_np)(attributes, set);
}

/* Of a coroutine that goes on. */
int setcontext(const ucontext_t *next)
{
    REAL_OF(setcontext);
    masks_spare((sigset_t *)&next->uc_sigmask);
    return REAL(setcontext)(next);
}

int swapcontext(ucontext_t *restrict before, const ucontext_t *restrict next)
{
    REAL_OF(swapcontext);
    masks_spare((sigset_t *)&next->uc_sigmask);
    return REAL(swapcontext)(before, next);
}

/* Functions of BSD and System V: a mask of the first 32 signals, and one signal. */
static int change(int how, int mask)
{
    sigset_t set, before;
    int found = 0;
    sigemptyset(&set);
    for (int number = 1; number <= 32; number++)
        if ((unsigned)mask >> (number - 1) & 1)
            sigaddset(&set, number);
    if (sigprocmask(how, &set, &before))
        return -1;
    for (int number = 1; number < 32; number++)
        found |= (int)((unsigned)(sigismember(&before, number) == 1) << (number - 1));
    return found;
}

int sigblock(int mask) { return change(SIG_BLOCK, mask); }
int sigsetmask(int mask) { return change(SIG_SETMASK, mask); }

int sighold(int number)
{
    sigset_t set;
    sigemptyset(&set);
    return sigaddset(&set, number) ? -1 : sigprocmask(SIG_BLOCK, &set, NULL);
}
