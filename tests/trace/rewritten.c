/* Sites that are rewritten while they are in use, one case for each word; each prints what tests/trace.py compares. */
#include <dlfcn.h>
#include <pthread.h>
#include <setjmp.h>
#include <signal.h>
#include <sys/time.h>
#include <sys/wait.h>

#include "client.h"

enum { THREADS = 8, SITES = 64, APART = 13, JUMP = 0xe9, PAGE = 4096 };

/* Functions of one instruction each, so close that some cross lines of the cache and one crosses a page. */
__asm__(".pushsection .text\n.p2align 12\n.skip 4096-30*13-2\nsites:\n"
        ".rept 64\nmovdir64b (%rsi), %rdi\nret\n.skip 7, 0x90\n.endr\n.popsection\n");
extern const uint8_t sites[];

typedef void put_function(void *portal, const descriptor *d);

static void submit_at(int number, void *to, const descriptor *d)
{
    ((put_function *)(uintptr_t)(sites + number * APART))(to, d);
}

static int rewritten(void)
{
    int count = 0;
    for (int i = 0; i < SITES; i++)
        count += sites[i * APART] == JUMP;
    return count;
}

/* What one thread needs: a portal, a record and memory of its own. */
struct user { void *portal; volatile completion *r; uint64_t *memory; };

static struct user new_user(void *portal)
{
    return (struct user){portal, fresh(PAGE), fresh(PAGE)};
}

/* Moves a number by one submission at a site; whether it comes right. */
static int moves(const struct user *u, int number, uint64_t value)
{
    const descriptor d = move(u->memory, u->memory + 1, 8, u->r);
    u->memory[0] = value;
    u->memory[1] = ~value;
    memset((void *)u->r, 0, sizeof *u->r);
    submit_at(number, u->portal, &d);
    return await(u->r) == DSA_COMP_SUCCESS && u->memory[1] == value;
}

static void *portal;
static volatile int is_over;
static int is_one, total; /* all threads use one site, and submit so often */
static _Atomic int right;

static void *work(void *number)
{
    const struct user u = new_user(portal);
    const int self = (int)(intptr_t)number;
    int count = 0;
    for (int i = 0; i < total / THREADS; i++)
        count += moves(&u, is_one ? 0 : (i / 3 + 7 * self) % SITES, (uint64_t)i << 8 | self);
    right += count;
    return NULL;
}

static void *work_on(void *number)
{
    const struct user u = new_user(portal);
    for (int i = 0; !is_over; i++)
        right += !moves(&u, (int)((i + (intptr_t)number) % SITES), i); /* here: how many come wrong */
    return NULL;
}

static void start(pthread_t *threads, int count, void *(*run)(void *))
{
    for (intptr_t i = 0; i < count; i++)
        pthread_create(&threads[i], NULL, run, (void *)i);
}

static void join(const pthread_t *threads, int count)
{
    for (int i = 0; i < count; i++)
        pthread_join(threads[i], NULL);
}

/* Eight threads at one site, or at all of them: "one" or "all", and how many submissions. */
static void threads(const char *how)
{
    pthread_t list[THREADS];
    is_one = strncmp(how, "one", 3) == 0;
    total = atoi(how + 3);
    start(list, THREADS, work);
    join(list, THREADS);
    printf("%d of %d right, %d rewritten\n", right, total, rewritten());
}

static struct user of_handler;
static _Atomic int fired, in_handler, is_busy;

static void fire(int number)
{
    (void)number;
    if (is_busy++ == 0) {
        in_handler += moves(&of_handler, fired % SITES, fired);
        fired++;
    }
    is_busy--;
}

/* A handler that submits, by a timer, in one of the threads that submit too. */
static void timer(const char *unused)
{
    const struct itimerval often = {{0, 300}, {0, 300}}, never = {{0, 0}, {0, 0}};
    struct sigaction a = {.sa_handler = fire};
    pthread_t list[4];
    (void)unused;
    of_handler = new_user(portal);
    sigfillset(&a.sa_mask);
    sigaction(SIGALRM, &a, NULL);
    start(list, 4, work_on);
    pthread_sigmask(SIG_BLOCK, &a.sa_mask, NULL);
    setitimer(ITIMER_REAL, &often, NULL);
    for (int i = 0; i < 1000 && fired < 200; i++)
        usleep(10000);
    setitimer(ITIMER_REAL, &never, NULL);
    is_over = 1;
    join(list, 4);
    printf("%d wrong in threads, %d wrong in the handler, fired %d\n", right, fired - in_handler, fired >= 200);
}

static int status_of(pid_t child)
{
    int status = 0;
    waitpid(child, &status, 0);
    return WIFSIGNALED(status) ? 128 + WTERMSIG(status) : WEXITSTATUS(status);
}

/* Children of fork, while other threads come to sites for the first time: each maps a portal, and uses all sites. */
static void forks(const char *unused)
{
    enum { CHILDREN = 20 };
    pthread_t list[2];
    int well = 0;
    (void)unused;
    start(list, 2, work_on);
    for (int i = 0; i < CHILDREN; i++) {
        const pid_t child = fork();
        if (child == 0) {
            const struct user u = new_user(portal_of("/dev/dsa/wq0.0"));
            int count = 0;
            for (int k = 0; k < 3 * SITES; k++)
                count += moves(&u, k % SITES, k);
            _exit(count != 3 * SITES);
        }
        well += status_of(child) == 0;
    }
    is_over = 1;
    join(list, 2);
    const struct user u = new_user(portal);
    const pid_t child = fork();
    if (child == 0)
        _exit(moves(&u, 0, 1)); /* it has no portal there */
    printf("%d of %d children right, %d wrong in threads, ", well, CHILDREN, right);
    printf("without a portal %d, afterwards %d\n", status_of(child), moves(&u, 0, 2));
}

/* A library with a site, which is loaded again and again. */
static void library(const char *path)
{
    enum { LOADS = 10, LOADED_TIMES = 5 };
    volatile completion *r = fresh(PAGE);
    int count = 0, jumps = 0;
    for (int i = 0; i < LOADS; i++) {
        void *loaded = dlopen(path, RTLD_NOW);
        put_function *put = loaded ? (put_function *)dlsym(loaded, "put") : NULL;
        for (int k = 0; put && k < LOADED_TIMES; k++) {
            memset((void *)r, 0, sizeof *r);
            put(portal, &(descriptor){.flags = ASKS, .completion_addr = (uintptr_t)r});
            count += await(r) == DSA_COMP_SUCCESS;
        }
        jumps += put && *(const uint8_t *)put == JUMP;
        if (loaded)
            dlclose(loaded);
    }
    printf("%d of %d right, rewritten in %d of %d loads\n", count, LOADS * LOADED_TIMES, jumps, LOADS);
}

static const uint8_t one[] = {0x66, 0x0f, 0x38, 0xf8, 0x3e, 0xc3}; /* movdir64b (%rsi), %rdi; ret */

/* Code that is made at one address, other code at the same, the first again; and code that is shared. */
static void made(const char *unused)
{
    static const uint8_t other[] = {0x66, 0x0f, 0x38, 0xf8, 0x7e, 0x40, 0xc3}; /* movdir64b 64(%rsi), %rdi; ret */
    uint8_t *const at = fresh(PAGE);
    volatile completion *r = fresh(PAGE);
    const int all = PROT_READ | PROT_WRITE | PROT_EXEC;
    (void)unused;
    for (int i = 0; i < 4; i++) {
        int count = 0;
        munmap(at, PAGE);
        mmap(at, PAGE, all, MAP_ANONYMOUS | MAP_FIXED | (i < 3 ? MAP_PRIVATE : MAP_SHARED), -1, 0);
        memcpy(at, i == 1 ? other : one, i == 1 ? sizeof other : sizeof one);
        for (int k = 0; k < 5; k++) {
            const descriptor d[2] = {{.flags = ASKS, .completion_addr = (uintptr_t)r},
                                     {.flags = ASKS, .completion_addr = (uintptr_t)(r + 1)}};
            memset((void *)r, 0, 2 * sizeof *r);
            ((put_function *)(uintptr_t)at)(portal, d);
            while (!r[0].status && !r[1].status)
                _mm_pause();
            count += r[i == 1].status == DSA_COMP_SUCCESS && !r[i != 1].status;
        }
        printf("code %d: %d right, rewritten %d\n", i, count, at[0] == JUMP);
    }
}

enum { ROUNDS = 300, AT_ONCE = 4, TIMES = 10 };
static pthread_barrier_t round_begins;
static uint8_t *code;

/* Submits some times by the new code; how often it comes right. */
static int use_code(const struct user *u)
{
    const descriptor d = {.flags = ASKS, .completion_addr = (uintptr_t)u->r};
    int count = 0;
    for (int k = 0; k < TIMES; k++) {
        memset((void *)u->r, 0, sizeof *u->r);
        ((put_function *)(uintptr_t)code)(u->portal, &d);
        count += await(u->r) == DSA_COMP_SUCCESS;
    }
    return count;
}

static void *work_on_new_code(void *unused)
{
    const struct user u = new_user(portal);
    for (int i = 0; i < ROUNDS; i++) {
        pthread_barrier_wait(&round_begins);
        right += use_code(&u);
        pthread_barrier_wait(&round_begins);
    }
    return unused;
}

/* Whether a child, which may find the code changed in part, can use it with a portal of its own. */
static int child_uses_code(void)
{
    const pid_t child = fork();
    if (child == 0) {
        const struct user u = new_user(portal_of("/dev/dsa/wq0.0"));
        _exit(use_code(&u) != TIMES);
    }
    return status_of(child) == 0;
}

/* Code that is made anew again and again, to which threads come at once, and with "forks" children too. */
static void anew(const char *how)
{
    pthread_t list[AT_ONCE];
    int jumps = 0, well = 0;
    code = fresh(PAGE);
    pthread_barrier_init(&round_begins, NULL, AT_ONCE + 1);
    start(list, AT_ONCE, work_on_new_code);
    for (int i = 0; i < ROUNDS; i++) {
        mmap(code, PAGE, PROT_READ | PROT_WRITE | PROT_EXEC, MAP_ANONYMOUS | MAP_PRIVATE | MAP_FIXED, -1, 0);
        memcpy(code, one, sizeof one);
        pthread_barrier_wait(&round_begins);
        well += strcmp(how, "forks") == 0 && child_uses_code();
        pthread_barrier_wait(&round_begins);
        jumps += *code == JUMP;
    }
    join(list, AT_ONCE);
    printf("%d of %d right, rewritten in %d of %d rounds, ", right, TIMES * AT_ONCE * ROUNDS, jumps, ROUNDS);
    printf("%d children right\n", well);
}

static descriptor *missing;
static volatile uintptr_t faulted;
static sigjmp_buf away;

static void mend(int number, siginfo_t *info, void *context)
{
    (void)number, (void)context;
    if (faulted)
        siglongjmp(away, 1);
    faulted = (uintptr_t)info->si_addr;
    mprotect(missing, PAGE, PROT_READ | PROT_WRITE);
}

/* A descriptor that can't be read once the site is rewritten: a handler makes it readable, so that the instruction is
 * done again; the next time it leaves by a jump. Then a store to memory at the same site, and a portal that is gone. */
static void unreadable(const char *unused)
{
    struct sigaction a = {.sa_sigaction = mend, .sa_flags = SA_SIGINFO};
    const struct user u = new_user(portal);
    int count = 0;
    (void)unused;
    missing = fresh(PAGE);
    sigaction(SIGSEGV, &a, NULL);
    *missing = move(u.memory, u.memory + 1, 8, u.r);
    for (int i = 0; i < 7; i++) {
        if (i == 4)
            mprotect(missing, PAGE, PROT_NONE);
        memset((void *)u.r, 0, sizeof *u.r);
        submit_at(0, portal, missing);
        count += await(u.r) == DSA_COMP_SUCCESS;
    }
    printf("%d right, fault at %d, ", count, faulted == (uintptr_t)missing);
    submit_at(0, u.memory + 64, missing);
    printf("stored %d, ", memcmp(u.memory + 64, missing, sizeof *missing) == 0);
    munmap(portal, PAGE);
    if (!sigsetjmp(away, 1))
        submit_at(0, portal, missing);
    else
        printf("no portal, ");
    printf("rewritten %d\n", sites[0] == JUMP);
}

int main(int argc, char **argv)
{
    static const struct part { const char *name; void (*run)(const char *); } parts[] = {
        {"threads", threads}, {"timer", timer}, {"forks", forks}, {"library", library}, {"made", made}, {"anew", anew},
        {"unreadable", unreadable},
    };
    portal = portal_of("/dev/dsa/wq0.0");
    for (size_t i = 0; i < sizeof parts / sizeof *parts; i++)
        if (argc > 1 && strcmp(argv[1], parts[i].name) == 0)
            parts[i].run(argc > 2 ? argv[2] : "");
    return 0;
}
