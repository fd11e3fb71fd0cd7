/* What an audit may not pass over, by words:
 *   files, chroot, user, disk, size  the recording breaks off, then a wait is missing
 *   late                  a thread submits while the process ends
 *   background, stays     a process in the background lacks a wait, and ends or stays
 *   list, gone            the list of a batch is filled anew too early, or unmapped
 *   dropped               a queue of 16 places gets 40 moves at once
 *   record, stale         a record is cleared after the submission, or never
 *   long COUNT            which of so many moves are done at once
 *   gap US                a missing wait, with so many microseconds between the submissions
 *   cleared COUNT         records of so many moves are cleared for the next ones, and nobody looks at them
 *   closed                all files are closed, also ours, and then a wait is missing
 *   after COUNT           a missing wait after so many moves that are waited for
 *   parts                 a missing wait between two parts of the recording
 *   asks                  does without the device if CPUID says so
 * and what is right: right; reuse (a list is filled anew after its members), shared (a record of two members with a
 * fence between), looks (all files are closed after a wait), pace (prints how many microseconds a move takes). */
#include "client.h"

#include <cpuid.h>
#include <grp.h>
#include <pthread.h>
#include <signal.h>
#include <stdbool.h>
#include <sys/resource.h>
#include <time.h>

enum { SIZE = 64, HUNG = 7, MANY = 6000, LONGEST = 300000 };

static uint8_t first[SIZE] = "hello", second[SIZE], third[SIZE];
static volatile completion *records;

static void *portal(void)
{
    records = fresh(4096);
    return portal_of("/dev/dsa/wq0.0");
}

static void submit_and_await(void *at, const descriptor *d)
{
    records[0].status = 0;
    submit(at, d);
    await(&records[0]);
}

/* Two moves, the second of what the first writes, without a wait between. */
static void lack_a_wait(void *at)
{
    const descriptor one = move(first, second, SIZE, &records[0]), other = move(second, third, SIZE, &records[1]);
    records[0].status = records[1].status = 0;
    submit(at, &one);
    submit(at, &other);
    await(&records[0]);
    await(&records[1]);
}

/* The recording breaks off, since it grows when no file can be opened, and then a wait is missing. */
static int lose(const char *how)
{
    void *at = portal();
    const descriptor d = move(first, second, SIZE, &records[0]);
    submit_and_await(at, &d);
    if (strcmp(how, "files") == 0)
        while (dup(0) >= 0)
            ;
    if (strcmp(how, "chroot") == 0 && chroot("/mnt"))
        perror("chroot");
    if (strcmp(how, "size") == 0 && setrlimit(RLIMIT_FSIZE, &(struct rlimit){LONGEST, LONGEST}))
        perror("setrlimit");
    if (strcmp(how, "user") == 0 && (setgroups(0, NULL) || setgid(65534) || setuid(65534)))
        perror("setuid");
    for (int i = 0; i < MANY; i++)
        submit_and_await(at, &d);
    lack_a_wait(at);
    return 0;
}

/* Fills a part of a recording, of 65,536 entries, but for one entry. Then a wait is missing. */
static int fill_a_part(void)
{
    enum { MEMBERS = 1023, FULL = 63 };
    void *at = portal();
    descriptor *list = fresh(MEMBERS * sizeof *list);
    for (int i = 0; i <= FULL; i++) {
        const descriptor d = batch(list, i < FULL ? MEMBERS : MEMBERS - 1, &records[0]);
        submit_and_await(at, &d);
    }
    lack_a_wait(at);
    return 0;
}

static volatile int count; /* submissions that have ended */

static void *submit_on(void *at)
{
    volatile completion *own = fresh(4096);
    uint8_t *memory = fresh(4096);
    const descriptor d = move(memory, memory + SIZE, SIZE, own);
    for (; at; count++) {
        own->status = 0;
        submit(at, &d);
        await(own);
    }
    return NULL;
}

/* What the C library writes at the very end, when no function of a library is called any more. */
static ssize_t write_slowly(void *unused, const char *text, size_t size)
{
    char said[64];
    const int before = count;
    (void)unused, (void)text;
    usleep(100000);
    (void)!write(STDOUT_FILENO, said, snprintf(said, sizeof said, "%d before, %d after\n", before, count));
    return size;
}

/* A thread submits while the process ends. */
static int end_late(void)
{
    pthread_t thread;
    FILE *slow = fopencookie(NULL, "w", (cookie_io_functions_t){.write = write_slowly});
    pthread_create(&thread, NULL, submit_on, portal());
    usleep(50000);
    fputs("text", slow);
    return 0;
}

static int go_to_background(bool stays)
{
    if (daemon(1, 1))
        return 1;
    void *at = portal();
    usleep(300000);
    lack_a_wait(at);
    while (stays)
        pause();
    return 0;
}

/* The list of a batch is filled anew before the batch has ended. */
static int refill(void)
{
    enum { MEMBERS = 4 };
    static uint8_t from[2][MEMBERS][SIZE], to[2][MEMBERS][SIZE];
    void *at = portal();
    descriptor *list = fresh(4096);
    for (int b = 0; b < 2; b++) {
        for (int i = 0; i < MEMBERS; i++) {
            memset(from[b][i], 1 + b * MEMBERS + i, SIZE);
            list[i] = move(from[b][i], to[b][i], SIZE, NULL);
        }
        const descriptor d = batch(list, MEMBERS, &records[b]);
        submit(at, &d);
    }
    await(&records[0]);
    await(&records[1]);
    return memcmp(from, to, sizeof from) ? WRONG : 0;
}

/* The list of a batch is unmapped before the batch has ended. */
static int unmap_list(void)
{
    void *at = portal();
    descriptor *list = fresh(4096);
    list[0] = list[1] = move(first, second, SIZE, NULL);
    const descriptor d = batch(list, 2, &records[0]);
    submit(at, &d);
    munmap(list, 4096);
    await(&records[0]);
    printf("status %#x, %u members, at the list %d, moved %d\n", records[0].status, records[0].bytes_completed,
           records[0].fault_addr == (uintptr_t)list, second[0] != 0);
    return 0;
}

/* Each member has its record, and once all have ended the list may be filled anew, whether the batch has or not. */
static int refill_after_members(void)
{
    void *at = portal();
    descriptor *list = fresh(4096);
    for (int times = 0; times < 20; times++) {
        memset((void *)records, 0, 4096);
        for (int i = 0; i < 2; i++)
            list[i] = move(first, i ? second : third, SIZE, &records[1 + i]);
        const descriptor d = batch(list, 2, &records[0]);
        submit(at, &d);
        await(&records[1]);
        await(&records[2]);
        memset(list, 0xff, 2 * sizeof *list);
        await(&records[0]);
    }
    return 0;
}

/* Two members have one record, and a fence between. */
static int share_record(void)
{
    void *at = portal();
    descriptor *list = fresh(4096);
    list[0] = move(first, second, SIZE, &records[1]);
    list[1] = move(second, third, SIZE, &records[1]);
    list[1].flags |= IDXD_OP_FLAG_FENCE;
    const descriptor d = batch(list, 2, &records[0]);
    submit(at, &d);
    await(&records[0]);
    return strcmp((char *)third, "hello") ? WRONG : 0;
}

static void hang(int number)
{
    (void)number;
    _exit(HUNG);
}

/* A record is cleared after its submission, or never. A queue of 16 places drops none. */
static int clear_late(bool clears)
{
    enum { TIMES = 16 };
    void *at = portal();
    const descriptor d = move(first, second, SIZE, &records[0]);
    signal(SIGALRM, hang);
    alarm(4);
    for (int i = 0; i < TIMES; i++) {
        submit(at, &d);
        if (clears)
            records[0].status = 0;
        await(&records[0]);
    }
    return 0;
}

/* Submits more than a dedicated queue of 16 places has room for, and awaits those. */
static int overflow(void)
{
    enum { PLACES = 16, MANY_MORE = 40 };
    void *at = portal();
    uint8_t *from = fresh(4096), *to = fresh(4096);
    for (int i = 0; i < MANY_MORE; i++) {
        const descriptor d = move(from + i * SIZE, to + i * SIZE, SIZE, &records[i]);
        submit(at, &d);
    }
    for (int i = 0; i < PLACES; i++)
        await(&records[i]);
    return 0;
}

/* Microseconds of this thread's processor time. */
static double now(void)
{
    struct timespec t;
    clock_gettime(CLOCK_THREAD_CPUTIME_ID, &t);
    return t.tv_sec * 1e6 + t.tv_nsec / 1e3;
}

/* The least of some times from a submission to its record. */
static int time_moves(void)
{
    void *at = portal();
    const descriptor d = move(first, second, SIZE, &records[0]);
    double least = 1e9;
    enum { BEFORE = 10, TIMES = 30 }; /* the first ones go by signals, and have the place rewritten */
    for (int i = 0; i < TIMES; i++) {
        records[0].status = 0;
        submit(at, &d);
        const double start = now();
        await(&records[0]);
        const double took = now() - start;
        least = i >= BEFORE && took < least ? took : least;
    }
    printf("%.0f us\n", least);
    return 0;
}

/* Waits for each of so many moves, and prints for each 256 of them 1 if nearly all were done when they were submitted,
 * 0 if nearly none was, and else x: a busy machine interrupts a few. */
static int submit_long(int count)
{
    enum { PART = 256, FEW = 16 };
    void *at = portal();
    const descriptor d = move(first, second, SIZE, &records[0]);
    for (int i = 0, done = 0; i < count; i++) {
        records[0].status = 0;
        submit(at, &d);
        done += records[0].status != 0;
        await(&records[0]);
        if (i % PART == PART - 1) {
            putchar(done >= PART - FEW ? '1' : done > FEW ? 'x' : '0');
            done = 0;
        }
    }
    return 0;
}

/* Waits for each of so many moves, and then lacks a wait. */
static int lack_a_wait_after(int count)
{
    void *at = portal();
    const descriptor d = move(first, second, SIZE, &records[0]);
    for (int i = 0; i < count; i++)
        submit_and_await(at, &d);
    lack_a_wait(at);
    return 0;
}

/* Computes for so many microseconds before a submission that lacks a wait. */
static int submit_after(double gap)
{
    void *at = portal();
    const descriptor one = move(first, second, SIZE, &records[0]), other = move(second, third, SIZE, &records[1]);
    submit(at, &one);
    for (const double start = now(); now() - start < gap;)
        ;
    submit(at, &other);
    await(&records[1]);
    await(&records[0]);
    return strcmp((char *)third, "hello") ? WRONG : 0;
}

/* Moves to and fro four times, as many at once. Each time their records are cleared, and nobody looks at them. */
static int clear_unseen(int many)
{
    void *at = portal();
    uint8_t *memory = fresh(4096), *other = fresh(4096);
    for (int times = 0; times < 4; times++) {
        memset((void *)records, 0, many * sizeof *records);
        for (int i = 0; i < many; i++) {
            uint8_t *from = (times % 2 ? other : memory) + i * SIZE, *to = (times % 2 ? memory : other) + i * SIZE;
            const descriptor d = move(from, to, SIZE, &records[i]);
            submit(at, &d);
        }
        usleep(100000); /* all have ended */
    }
    for (int i = 0; i < many; i++)
        await(&records[i]);
    return 0;
}

/* Closes all files, also those of others, when a move has ended, and submits one of what it has written: `looks` says
 * whether after a look at its record. */
static int close_files(bool looks)
{
    void *at = portal();
    const descriptor one = move(first, second, SIZE, &records[0]), other = move(second, third, SIZE, &records[1]);
    submit(at, &one);
    if (looks)
        await(&records[0]);
    usleep(300000);
    for (int file = STDERR_FILENO + 1; file < 2000; file++)
        close(file);
    submit(at, &other);
    await(&records[0]);
    await(&records[1]);
    return strcmp((char *)third, "hello") ? WRONG : 0;
}

/* Submits if CPUID says that it can, and else does it itself. */
static int ask(void)
{
    unsigned a, b, c = 0, d;
    if (!__get_cpuid_count(7, 0, &a, &b, &c, &d) || !(c >> 28 & 1)) {
        memcpy(second, first, SIZE);
        return 0;
    }
    void *at = portal();
    const descriptor one = move(first, second, SIZE, &records[0]);
    submit_and_await(at, &one);
    return 0;
}

static int be_right(void)
{
    void *at = portal();
    const descriptor one = move(first, second, SIZE, &records[0]), other = move(second, third, SIZE, &records[0]);
    submit_and_await(at, &one);
    submit_and_await(at, &other);
    return strcmp((char *)third, "hello") ? WRONG : 0;
}

int main(int argc, char **argv)
{
    static const struct { const char *word; int (*run)(void); } plain[] = {
        {"late", end_late}, {"list", refill}, {"gone", unmap_list}, {"reuse", refill_after_members},
        {"shared", share_record}, {"pace", time_moves}, {"asks", ask}, {"right", be_right}, {"parts", fill_a_part},
        {"dropped", overflow},
    };
    const char *what = argc > 1 ? argv[1] : "right";
    for (size_t i = 0; i < sizeof plain / sizeof *plain; i++)
        if (strcmp(what, plain[i].word) == 0)
            return plain[i].run();
    if (strcmp(what, "background") == 0 || strcmp(what, "stays") == 0)
        return go_to_background(*what == 's');
    if (strcmp(what, "record") == 0 || strcmp(what, "stale") == 0)
        return clear_late(*what == 'r');
    if (strcmp(what, "long") == 0)
        return submit_long(argc > 2 ? atoi(argv[2]) : 10000);
    if (strcmp(what, "after") == 0)
        return lack_a_wait_after(argc > 2 ? atoi(argv[2]) : 12000);
    if (strcmp(what, "closed") == 0 || strcmp(what, "looks") == 0)
        return close_files(*what == 'l');
    if (strcmp(what, "cleared") == 0)
        return clear_unseen(argc > 2 ? atoi(argv[2]) : 1);
    if (strcmp(what, "gap") == 0)
        return submit_after(argc > 2 ? atof(argv[2]) : 200);
    return lose(what);
}
