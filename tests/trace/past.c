/* Does past the library, or against it, what programs may do, then submits and prints the status:
 *   mapped, enqueued   the portal is mapped by a system call; the first instruction is MOVDIR64B or ENQCMD
 *   deep LIBRARY       by a library that has functions of its own before ours (tests/trace/early.c)
 *   kept, moved        munmap of the portal that fails; its mapping is moved
 *   thread, bsd, held, context, raw   SIGILL is blocked: in a new thread, by sigsetmask, by sighold, in a coroutine, by
 *                      a system call
 *   blocks COMMAND     becomes a command with all signals blocked
 *   hidden             the instruction is in code that can't be read
 *   keys               descriptor and buffers have a protection key
 *   forked             a child by the system call fork has no portal
 *   reset              a child by vfork resets the handler of SIGSEGV, and the program then faults
 *   many               more portals at once than there may be
 *   filtered           a filter permits three system calls alone */
#include "client.h"

#include <dlfcn.h>
#include <errno.h>
#include <linux/filter.h>
#include <linux/seccomp.h>
#include <pthread.h>
#include <signal.h>
#include <stddef.h>
#include <sys/prctl.h>
#include <sys/syscall.h>
#include <sys/wait.h>
#include <ucontext.h>

enum { PAGE = 4096, TIMES = 4 };

static void *portal;
static volatile completion *r;
static uint8_t *memory;
static sigset_t all;

static void submit_some(void)
{
    for (int i = 0; i < TIMES; i++) {
        const descriptor d = move(memory, memory + 64, 64, r);
        r->status = 0;
        submit(portal, &d);
        await(r);
    }
}

static void *submit_on(void *unused)
{
    submit_some();
    return unused;
}

/* ---- maps */

static void map_by_call(const char *path)
{
    portal = (void *)syscall(SYS_mmap, NULL, PAGE, PROT_WRITE, MAP_SHARED, open(path, O_RDWR), 0l);
}

static void mapped(void)
{
    map_by_call("/dev/dsa/wq0.0");
    submit_some();
}

static void enqueued(void)
{
    map_by_call("/dev/dsa/wq0.1");
    for (int i = 0; i < TIMES; i++) {
        const descriptor d = move(memory, memory + 64, 64, r);
        r->status = 0;
        while (enqueue(portal, &d))
            ;
        await(r);
    }
}

static void kept(void)
{
    const int failed = munmap(portal, 0) < 0, odd = munmap((uint8_t *)portal - 1, PAGE) < 0;
    printf("munmap failed %d %d, ", failed, odd);
    submit_some();
}

static void moved(void)
{
    void *to = fresh(PAGE), *from = portal;
    portal = mremap(portal, PAGE, PAGE, MREMAP_MAYMOVE | MREMAP_FIXED, to);
    printf("moved %d, ", portal == to && from != to);
    submit_some();
}

static void many(void)
{
    int count = 1;
    const int file = open("/dev/dsa/wq0.1", O_RDWR);
    while (mmap(NULL, PAGE, PROT_WRITE, MAP_SHARED, file, 0) != MAP_FAILED)
        count++;
    printf("%d portals, then ENOMEM %d, ", count, errno == ENOMEM);
    submit_some();
}

/* ---- signals */

static void in_thread(void)
{
    pthread_t thread;
    pthread_attr_t blocked;
    pthread_attr_init(&blocked);
    pthread_attr_setsigmask_np(&blocked, &all);
    pthread_create(&thread, &blocked, submit_on, NULL);
    pthread_join(thread, NULL);
}

#pragma GCC diagnostic ignored "-Wdeprecated-declarations"

static void by_bsd(void)
{
    const int before = sigsetmask(1 << (SIGUSR1 - 1));
    printf("%d %d ", before, sigsetmask(~0) == 1 << (SIGUSR1 - 1));
    submit_some();
}

static void held(void)
{
    sighold(SIGILL);
    submit_some();
}

static void in_context(void)
{
    static ucontext_t back, next;
    getcontext(&next);
    next.uc_stack.ss_sp = fresh(1 << 16);
    next.uc_stack.ss_size = 1 << 16;
    next.uc_link = &back;
    next.uc_sigmask = all;
    makecontext(&next, submit_some, 0);
    swapcontext(&back, &next);
}

static void by_call(void)
{
    syscall(SYS_rt_sigprocmask, SIG_BLOCK, &all, NULL, 8l);
    submit_some();
}

static void leave(int number)
{
    (void)number;
    (void)!write(STDOUT_FILENO, "my handler\n", 11);
    _exit(0);
}

static void reset(void)
{
    signal(SIGSEGV, leave);
    const pid_t child = vfork();
    if (child == 0) {
        signal(SIGSEGV, SIG_DFL);
        execl("/bin/true", "true", (char *)NULL);
        _exit(1);
    }
    waitpid(child, NULL, 0);
    *(volatile int *)8 = 1;
}

/* ---- rights */

static void hidden(void)
{
    static const uint8_t code[] = {0x66, 0x0f, 0x38, 0xf8, 0x3e, 0xc3}; /* movdir64b (%rsi), %rdi; ret */
    uint8_t *at = fresh(PAGE);
    memcpy(at, code, sizeof code);
    mprotect(at, PAGE, PROT_EXEC);
    for (int i = 0; i < TIMES; i++) {
        const descriptor d = move(memory, memory + 64, 64, r);
        r->status = 0;
        ((void (*)(void *, const descriptor *))(uintptr_t)at)(portal, &d);
        await(r);
    }
}

static void keys(void)
{
    const int key = pkey_alloc(0, 0);
    if (key < 0) {
        printf("no keys, ");
        r->status = 1;
        return;
    }
    descriptor *d = (descriptor *)(memory + 2048);
    pkey_mprotect(memory, PAGE, PROT_READ | PROT_WRITE, key);
    for (int i = 0; i < TIMES; i++) {
        memset(memory + 64, i, 64);
        memory[0] = 5 + i;
        *d = move(memory, memory + 64, 64, r);
        r->status = 0;
        submit(portal, d);
        await(r);
        if (memory[64] != 5 + i)
            printf("wrong ");
    }
}

static void forked(void)
{
    int status = 0;
    submit_some();
    const pid_t child = (pid_t)syscall(SYS_fork);
    if (child == 0) {
        submit_some();
        _exit(0);
    }
    waitpid(child, &status, 0);
    printf("the child ends by signal %d, ", WTERMSIG(status));
    submit_some();
}

static void filtered(void)
{
    struct sock_filter permits[] = {
        BPF_STMT(BPF_LD | BPF_W | BPF_ABS, offsetof(struct seccomp_data, nr)),
        BPF_JUMP(BPF_JMP | BPF_JEQ | BPF_K, SYS_write, 3, 0),
        BPF_JUMP(BPF_JMP | BPF_JEQ | BPF_K, SYS_exit_group, 2, 0),
        BPF_JUMP(BPF_JMP | BPF_JEQ | BPF_K, SYS_rt_sigreturn, 1, 0),
        BPF_STMT(BPF_RET | BPF_K, SECCOMP_RET_KILL_PROCESS),
        BPF_STMT(BPF_RET | BPF_K, SECCOMP_RET_ALLOW),
    };
    const struct sock_fprog filter = {sizeof permits / sizeof *permits, permits};
    prctl(PR_SET_NO_NEW_PRIVS, 1, 0, 0, 0);
    if (prctl(PR_SET_SECCOMP, SECCOMP_MODE_FILTER, &filter))
        perror("seccomp");
    submit_some();
}

static int deep(const char *path)
{
    void *library = dlopen(path, RTLD_NOW | RTLD_DEEPBIND); /* its constructor submits */
    puts(library ? "loaded" : dlerror());
    return !library;
}

int main(int argc, char **argv)
{
    static const struct { const char *name; void (*run)(void); } cases[] = {
        {"mapped", mapped}, {"enqueued", enqueued}, {"kept", kept}, {"moved", moved}, {"many", many},
        {"thread", in_thread}, {"bsd", by_bsd}, {"held", held}, {"context", in_context}, {"raw", by_call},
        {"reset", reset}, {"hidden", hidden}, {"keys", keys}, {"forked", forked}, {"filtered", filtered},
        {"plain", submit_some},
    };
    const char *what = argc > 1 ? argv[1] : "plain";
    sigfillset(&all);
    if (strcmp(what, "blocks") == 0) {
        syscall(SYS_rt_sigprocmask, SIG_BLOCK, &all, NULL, 8l);
        execvp(argv[2], argv + 2);
    }
    if (strcmp(what, "deep") == 0)
        return deep(argv[2]);
    portal = portal_of("/dev/dsa/wq0.0");
    r = fresh(PAGE);
    memory = fresh(PAGE);
    for (size_t i = 0; i < sizeof cases / sizeof *cases; i++)
        if (strcmp(what, cases[i].name) == 0)
            cases[i].run();
    printf("status %#x\n", r->status);
    return 0;
}
