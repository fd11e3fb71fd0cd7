/* The instructions that the CPU does not take, or that touch a portal: the handler of SIGILL and SIGSEGV has them done
 * (emulate.c), and notes where submissions are made (sites.c). The program's own handlers come after it. */
#include <asm/prctl.h>
#include <cpuid.h>
#include <errno.h>
#include <pthread.h>
#include <string.h>
#include <sys/syscall.h>
#include <ucontext.h>
#include <unistd.h>

#include "emulate.h"
#include "sites.h"
#include "trace.h"

enum { HIGHEST = 64 };

static const uint64_t all_but_faults = ~(1ull << (SIGSEGV - 1) | 1ull << (SIGBUS - 1));

/* What the program asked for: written by its calls of sigaction, and by what is found when ours take over. */
static struct signals {
    struct sigaction theirs[HIGHEST + 1];
    bool fakes_cpuid;
} signals;

static bool is_ours(int number) { return number == SIGILL || number == SIGSEGV || number == SIGBUS; }

static greg_t *register_at(ucontext_t *u, unsigned number)
{
    static const int at[16] = {REG_RAX, REG_RCX, REG_RDX, REG_RBX, REG_RSP, REG_RBP, REG_RSI, REG_RDI,
                               REG_R8, REG_R9, REG_R10, REG_R11, REG_R12, REG_R13, REG_R14, REG_R15};
    return &u->uc_mcontext.gregs[at[number]];
}

static struct registers registers_of(ucontext_t *u)
{
    struct registers r = {.flags = u->uc_mcontext.gregs[REG_EFL]};
    for (unsigned i = 0; i < 16; i++)
        r.general[i] = *register_at(u, i);
    return r;
}

/// CPUID, which faults while it is asked to: the answer of the CPU, with our instructions beside its own.
static void answer_cpuid(greg_t *g)
{
    enum { FEATURES = 7, WAITPKG = 1u << 5, MOVES = 7u << 27 };
    const unsigned leaf = g[REG_RAX], sub = g[REG_RCX];
    unsigned a, b, c, d;
    syscall(SYS_arch_prctl, ARCH_SET_CPUID, 1l);
    __cpuid_count(leaf, sub, a, b, c, d);
    syscall(SYS_arch_prctl, ARCH_SET_CPUID, 0l);
    if (leaf == FEATURES && sub == 0)
        c |= WAITPKG | MOVES;
    g[REG_RAX] = a;
    g[REG_RBX] = b;
    g[REG_RCX] = c;
    g[REG_RDX] = d;
    g[REG_RIP] += 2;
}

/// Says why an instruction can't be done, if its fault does not.
static void say_refused(enum outcome outcome, const struct emulated *e)
{
    const char *name = e->in.kind == ENQCMD ? "ENQCMD" : "MOVDIR64B";
    if (outcome == UNREADABLE)
        say("%s: its descriptor at %#lx can't be read", name, (unsigned long)e->in.address);
    else if (outcome == NO_PORTAL)
        say("%s: no portal is mapped at %#lx (a child of fork has to map its own)", name, (unsigned long)e->to);
}

/// Says so if the program's own instruction has faulted at its descriptor: a CPU that has it reads that before it
/// touches the portal.
static void say_unreadable(ucontext_t *u, uintptr_t fault)
{
    uintptr_t at = u->uc_mcontext.gregs[REG_RIP];
    uint8_t code[LONGEST_CODE];
    const struct registers r = registers_of(u);
    struct emulated e = {0};
    sites_code(&at, code);
    if (!decode(code, at, r.general, &e.in) || (e.in.kind != MOVDIR64B && e.in.kind != ENQCMD))
        return;
    if (fault - e.in.address < 64)
        say_refused(UNREADABLE, &e);
}

/// Does the instruction at which the program has stopped, itself or in the stub that has its place, if it is one of
/// ours.
static enum outcome perform(ucontext_t *u, struct fault *fault)
{
    greg_t *g = u->uc_mcontext.gregs;
    uintptr_t at = g[REG_RIP];
    uint8_t code[LONGEST_CODE];
    struct registers r = registers_of(u);
    struct emulated e;
    const bool is_rewritten = sites_code(&at, code);
    g[REG_RIP] = (greg_t)at;
    if (signals.fakes_cpuid && memcmp(code, "\x0f\xa2", 2) == 0) {
        answer_cpuid(g);
        return DONE;
    }
    const enum outcome outcome = emulate(code, at, &r, &e);
    say_refused(outcome, &e);
    *fault = e.fault;
    if (outcome != SUBMITTED && outcome != DONE)
        return outcome;
    g[REG_EFL] = r.flags;
    g[REG_RIP] += e.in.length;
    if (outcome == SUBMITTED && !is_rewritten)
        sites_note(at, code, e.in.length);
    return outcome;
}

/// The program's own handler, with the mask that it asked for.
static void call_theirs(int number, siginfo_t *info, ucontext_t *u)
{
    struct sigaction a = signals.theirs[number];
    sigset_t mask;
    sigorset(&mask, &u->uc_sigmask, &a.sa_mask);
    if (!(a.sa_flags & SA_NODEFER))
        sigaddset(&mask, number);
    if (a.sa_flags & (int)SA_RESETHAND)
        signals.theirs[number].sa_handler = SIG_DFL;
    pthread_sigmask(SIG_SETMASK, &mask, NULL);
    if (a.sa_flags & SA_SIGINFO)
        a.sa_sigaction(number, info, u);
    else
        a.sa_handler(number);
}

/// The signal is the program's: its own handler, or its death as the signal's default has it.
static void pass_on(int number, siginfo_t *info, ucontext_t *u)
{
    REAL_OF(sigaction);
    const struct sigaction *a = &signals.theirs[number], by_default = {.sa_handler = SIG_DFL};
    const bool is_sent = info->si_code <= 0;
    if (!(a->sa_flags & SA_SIGINFO) && a->sa_handler == SIG_IGN && is_sent)
        return;
    if (a->sa_flags & SA_SIGINFO || (a->sa_handler != SIG_DFL && a->sa_handler != SIG_IGN)) {
        call_theirs(number, info, u);
        return;
    }
    sigset_t only;
    sigemptyset(&only);
    sigaddset(&only, number);
    REAL(sigaction)(number, &by_default, NULL);
    syscall(SYS_tgkill, getpid(), (pid_t)syscall(SYS_gettid), number);
    pthread_sigmask(SIG_UNBLOCK, &only, NULL);
}

static void take_over(void);

/// SIGILL: the CPU lacks the instruction. SIGSEGV: it has it, and the portal's page can't be touched, or ENQCMD has no
/// PASID, which is a general protection fault and has no address.
static void handler(int number, siginfo_t *info, void *context)
{
    const int kept = errno;
    ucontext_t *u = context;
    struct fault fault = {0};
    enum outcome outcome = NOT_OURS;
    const bool is_fault = info->si_code > 0; /* and not sent by somebody, at any time */
    if (!is_fault && order_postpones(number)) {
        errno = kept;
        return;
    }
    if (number != SIGILL && is_fault)
        memory_escape(info, context);
    const bool may_be = number != SIGSEGV || info->si_code == SI_KERNEL || portals_at((uintptr_t)info->si_addr);
    if (is_fault && may_be) { /* SIGBUS: of a queue's file that is mapped past us */
        order_arrive();
        outcome = perform(u, &fault);
        order_leave();
    } else if (is_fault)
        say_unreadable(u, (uintptr_t)info->si_addr);
    if (outcome == SUBMITTED && number == SIGBUS)
        take_over(); /* who has mapped a portal past us may have asked for handlers past us, too */
    if (outcome == NOT_OURS || (outcome == FAULTED && number == SIGBUS))
        pass_on(number, info, u);
    else if (outcome != SUBMITTED && outcome != DONE) {
        siginfo_t theirs = {.si_signo = SIGSEGV, .si_code = fault.address ? SEGV_MAPERR : SI_KERNEL};
        theirs.si_addr = (void *)fault.address;
        pass_on(SIGSEGV, &theirs, u);
    }
    errno = kept;
}

/// Sets this thread's mask of signals, as the kernel has it: the C library's function leaves out signals of its own.
static uint64_t set_mask(uint64_t mask)
{
    uint64_t before = 0;
    syscall(SYS_rt_sigprocmask, SIG_SETMASK, &mask, &before, sizeof mask);
    return before;
}

uint64_t signals_block(void) { return set_mask(all_but_faults); }

void signals_restore(uint64_t before) { set_mask(before); }

/// Installs our handler for one signal. All others are blocked while it runs, so that it is not called while the thread
/// has a lock of ours. It uses the program's other stack only if the program's own handler does.
static void install(int number)
{
    REAL_OF(sigaction);
    struct sigaction ours = {.sa_sigaction = handler, .sa_flags = SA_SIGINFO | SA_NODEFER};
    ours.sa_flags |= number == SIGILL ? 0 : signals.theirs[number].sa_flags & SA_ONSTACK;
    memcpy(&ours.sa_mask, &all_but_faults, sizeof all_but_faults);
    REAL(sigaction)(number, &ours, NULL);
}

/// Puts our handlers before those that are there. If ours is there already, a library has asked for its own before, and
/// it is known.
static void take_over(void)
{
    REAL_OF(sigaction);
    static const int ours[] = {SIGILL, SIGSEGV, SIGBUS};
    struct sigaction found;
    for (int i = 0; i < 3; i++) {
        REAL(sigaction)(ours[i], NULL, &found);
        if (!(found.sa_flags & SA_SIGINFO) || found.sa_sigaction != handler)
            signals.theirs[ours[i]] = found;
        install(ours[i]);
    }
}

/// Puts our handlers before those that are there, and lets CPUID fault if that is asked for.
void signals_install(void)
{
    take_over();
    masks_begin();
    if (!settings.cpuid)
        return;
    signals.fakes_cpuid = syscall(SYS_arch_prctl, ARCH_SET_CPUID, 0l) == 0; /* threads inherit it */
    if (!signals.fakes_cpuid)
        say("--cpuid: this processor or kernel can't let CPUID fault, so programs see the processor's own answer: have "
            "yours submit without asking");
}

int sigaction(int number, const struct sigaction *new, struct sigaction *old)
{
    REAL_OF(sigaction);
    if ((!is_ours(number) && !new) || (is_ours(number) && process_is_borrowed()))
        return REAL(sigaction)(number, new, old);
    if (!is_ours(number)) {
        struct sigaction less = *new;
        masks_spare(&less.sa_mask);
        return REAL(sigaction)(number, &less, old);
    }
    const struct sigaction before = signals.theirs[number];
    if (new) {
        signals.theirs[number] = *new;
        install(number);
    }
    if (old)
        *old = before;
    return 0;
}

sighandler_t signal(int number, sighandler_t action)
{
    REAL_OF(signal);
    if (!is_ours(number))
        return REAL(signal)(number, action);
    const struct sigaction new = {.sa_handler = action, .sa_flags = SA_RESTART};
    struct sigaction old;
    sigaction(number, &new, &old);
    return old.sa_handler;
}
