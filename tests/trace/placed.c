/* Submissions with a fault from each kind of code, for what is said of their places:
 *
 *     placed fence|hidden|twins|waits|again|sizes|lengths|many|list|heap|stack|handler|fork|deep|written|library PATH
 *
 * As a library (-DLIBRARY) it has submit_in_library alone. */
#include <dlfcn.h>
#include <signal.h>
#include <sys/wait.h>

#include "client.h"

enum { SIZE = 4096 };
#define OUT_OF_LINE __attribute__((noinline))

/* Two copies of which the second reads what the first writes, without a fence. */
struct job { void *portal; char *from, *between, *to; };
void submit_in_library(struct job *j);

OUT_OF_LINE static void flush(struct job *j)
{
    static _Alignas(64) descriptor list[2];
    static _Alignas(32) completion done;
    list[0] = move(j->from, j->between, SIZE, NULL);
    list[1] = move(j->between, j->to, SIZE, NULL);
    const descriptor both = batch(list, 2, &done);
    done.status = 0;
    submit(j->portal, &both); /* flush submits */
    await(&done);
}

#ifdef LIBRARY
void submit_in_library(struct job *j)
{
    flush(j); /* the library flushes */
    __asm__ volatile("");
}
#else

static struct { char from[SIZE], between[SIZE], to[SIZE], other[SIZE]; } data;
static struct job job = {NULL, data.from, data.between, data.to};

OUT_OF_LINE static void commit(void)
{
    job.to = data.to;
    flush(&job); /* commit flushes */
}

/* As a commit, and with the same fault. */
OUT_OF_LINE static void mirror(void)
{
    job.to = data.other;
    flush(&job); /* mirror flushes */
}

static void fence(void)
{
    for (int i = 0; i < 5; i++) {
        commit(); /* fence commits */
        mirror(); /* fence mirrors */
    }
    __asm__ volatile("");
}

/* The last of three copies lacks a fence for each of the two before it. */
OUT_OF_LINE static void three(void)
{
    static _Alignas(64) descriptor list[3];
    static _Alignas(32) completion done;
    list[0] = move(data.from, data.between, 128, NULL);
    list[1] = move(data.from, data.between + 128, 64, NULL);
    list[2] = move(data.between, data.to, SIZE, NULL); /* reads what both write */
    const descriptor all = batch(list, 3, &done);
    done.status = 0;
    submit(job.portal, &all);
    await(&done);
}

OUT_OF_LINE static void hidden(void)
{
    three();
    __asm__ volatile("");
}

/* The same from two places. */
static void twins(void)
{
    hidden();
    three();
}

static _Alignas(32) completion ends[4];
static unsigned started;

/* A move that is not waited for. */
OUT_OF_LINE static void start(const char *from, char *to, unsigned size)
{
    const descriptor one = move(from, to, size, &ends[started++]);
    submit(job.portal, &one);
    __asm__ volatile("");
}

/* Waits for all of them. */
static void settle(void)
{
    for (unsigned i = 0; i < started; i++)
        await(&ends[i]);
    memset(ends, 0, sizeof ends);
    started = 0;
}

OUT_OF_LINE static void first(void)
{
    start(data.other, data.from, 128);
    __asm__ volatile("");
}

OUT_OF_LINE static void second(void)
{
    start(data.other, data.between, 256);
    __asm__ volatile("");
}

OUT_OF_LINE static void third(unsigned size)
{
    start(data.other, data.to, size);
    __asm__ volatile("");
}

OUT_OF_LINE static void fourth(unsigned size)
{
    start(data.other, data.to, size);
    __asm__ volatile("");
}

/* Reads what the others write. */
OUT_OF_LINE static void last(void)
{
    static char all[3 * SIZE];
    start(data.from, all, sizeof all);
    settle();
}

/* The last of four moves lacks a wait for each of those before it. */
OUT_OF_LINE static void waits(void)
{
    first();
    second();
    third(64);
    last();
}

/* Then moves lack waits for one of the same sizes, but from elsewhere. */
OUT_OF_LINE static void again(void)
{
    waits();
    fourth(128);
    last();
    fourth(256);
    last();
    third(128);
    last();
}

/* From one place the same fault in a batch of 2, and in one of 3 whose last move has none. */
OUT_OF_LINE static void sizes(void)
{
    static _Alignas(64) descriptor list[3];
    static _Alignas(32) completion done;
    list[0] = move(data.from, data.between, SIZE, NULL);
    list[1] = move(data.between, data.to, SIZE, NULL);
    list[2] = move(data.from, data.other, 64, NULL);
    for (unsigned count = 2; count <= 3; count++) {
        const descriptor all = batch(list, count, &done);
        done.status = 0;
        submit(job.portal, &all);
        await(&done);
    }
}

/* As flush does, of any size. */
OUT_OF_LINE static void both(unsigned size)
{
    static _Alignas(64) descriptor list[2];
    static _Alignas(32) completion done;
    list[0] = move(data.from, data.between, size, NULL);
    list[1] = move(data.between, data.to, size, NULL);
    const descriptor all = batch(list, 2, &done);
    done.status = 0;
    submit(job.portal, &all);
    await(&done);
}

OUT_OF_LINE static void one_byte(void)
{
    both(1);
    __asm__ volatile("");
}

/* The same fault with many sizes, and from another place with one of them. */
static void lengths(void)
{
    for (unsigned size = 1; size <= 101; size++)
        both(size);
    one_byte();
}

/* After as many stacks as have numbers two batches with a fault, whose stacks have none. */
static void many(void)
{
    static _Alignas(32) completion done;
    const descriptor one = move(data.from, data.other, 64, &done);
    for (int i = 0; i < 4096; i++) {
        void *library = dlopen("libm.so.6", RTLD_NOW);
        if (!library || dlclose(library))
            exit(WRONG);
        done.status = 0;
        submit(job.portal, &one);
        await(&done);
    }
    commit();
    mirror();
}

/* The list is filled anew before the device has read it. */
OUT_OF_LINE static void refill(void)
{
    static _Alignas(64) descriptor list[2];
    static _Alignas(32) completion done;
    for (int i = 0; i < 2; i++)
        list[i] = move(data.from, i ? data.other : data.to, SIZE, NULL);
    const descriptor both = batch(list, 2, &done);
    done.status = 0;
    submit(job.portal, &both); /* refill submits */
    list[1].xfer_size = 64;
    await(&done);
}

OUT_OF_LINE static void on_heap(void)
{
    char *between = malloc(SIZE);
    job.between = between;
    flush(&job);
    free(between);
}

OUT_OF_LINE static void on_stack(void)
{
    char between[SIZE];
    job.between = between;
    flush(&job);
}

static void on_signal(int number)
{
    (void)number;
    flush(&job); /* a handler flushes */
    __asm__ volatile("");
}

OUT_OF_LINE static int deep(volatile int n)
{
    if (n == 0)
        commit(); /* deep commits */
    else
        deep(n - 1); /* deep goes deeper */
    return n;
}

OUT_OF_LINE static void in_child(void)
{
    const pid_t child = fork();
    if (child == 0) {
        job.portal = portal_of("/dev/dsa/wq0.0");
        commit(); /* a child commits */
        exit(0);
    }
    waitpid(child, NULL, 0);
}

/* Two copies by the queue's file, of which the second does not wait for the first. */
OUT_OF_LINE static void written(void)
{
    static _Alignas(32) completion done[2];
    const int file = open("/dev/dsa/wq0.0", O_RDWR);
    const descriptor first = move(data.from, data.between, SIZE, &done[0]);
    const descriptor second = move(data.between, data.to, SIZE, &done[1]);
    if (write(file, &first, sizeof first) != sizeof first)   /* the first is written */
        exit(WRONG);
    if (write(file, &second, sizeof second) != sizeof second) /* the second is written */
        exit(WRONG);
    await(&done[0]);
    await(&done[1]);
}

/* From the library, which is loaded twice. */
static void in_library(const char *path)
{
    for (int i = 0; i < 2; i++) {
        void *library = dlopen(path, RTLD_NOW);
        void (*submit_there)(struct job *);
        if (!library || !(submit_there = (void (*)(struct job *))dlsym(library, "submit_in_library")))
            exit(WRONG);
        submit_there(&job); /* main calls the library */
        dlclose(library);
    }
}

int main(int argc, char **argv)
{
    static const struct { const char *name; void (*run)(void); } modes[] = {
        {"fence", fence}, {"hidden", hidden},   {"twins", twins}, {"waits", waits},     {"again", again},
        {"sizes", sizes}, {"lengths", lengths}, {"many", many},   {"list", refill},     {"heap", on_heap},
        {"stack", on_stack}, {"fork", in_child}, {"written", written},
    };
    const char *mode = argc > 1 ? argv[1] : "fence";
    job.portal = portal_of("/dev/dsa/wq0.0");
    for (size_t i = 0; i < sizeof modes / sizeof *modes; i++)
        if (strcmp(mode, modes[i].name) == 0)
            modes[i].run();
    if (strcmp(mode, "deep") == 0)
        deep(40);
    if (strcmp(mode, "library") == 0)
        in_library(argv[2]);
    if (strcmp(mode, "handler") == 0) {
        signal(SIGUSR1, on_signal);
        raise(SIGUSR1);
    }
    return 0;
}
#endif
