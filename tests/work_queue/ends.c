/* How lists end, a case at a time: each prints the sentences of its lists, and ends with 0 if memory and results are
 * right.
 *     ends CASE [QUEUE] */
#include <pthread.h>
#include <stdio.h>
#include <stdlib.h>
#include <string.h>
#include <sys/mman.h>
#include <sys/wait.h>
#include <time.h>
#include <unistd.h>

#include "queue.h"

static const char *file; /* the queue of the command line, or NULL */
static _Alignas(4096) uint8_t a[4 * PAGE], b[4 * PAGE], c[4 * PAGE];
static char why[DSA_WHY_ROOM];

static struct dsa_queue *opened(const struct dsa_queue_options *options)
{
    struct dsa_queue_options all = options ? *options : (struct dsa_queue_options){0};
    all.flags |= file && strcmp(file, "software") == 0 ? DSA_QUEUE_SOFTWARE : 0;
    struct dsa_queue *queue = dsa_queue_open(file, &all, why);
    if (!queue) {
        printf("%s\n", why);
        exit(2);
    }
    return queue;
}

/* Runs a list and prints how it ends; whether it ends so. */
static int ends(struct dsa_list *list, enum dsa_end wanted)
{
    const enum dsa_end end = dsa_list_run(list);
    printf("%s\n", dsa_list_why(list, why));
    return end == wanted;
}

static uint8_t *mapped(int protection)
{
    return mmap(NULL, PAGE, protection, MAP_PRIVATE | MAP_ANONYMOUS, -1, 0);
}

/* What opening says. */
static int open_it(void)
{
    struct dsa_queue *queue = opened(NULL);
    printf("opened %s\n", dsa_queue_name(queue));
    dsa_queue_close(queue);
    return 1;
}

/* The processor in the place of a device that is missing, and why. */
static int or_software(void)
{
    const struct dsa_queue_options o = {.flags = DSA_QUEUE_OR_SOFTWARE};
    struct dsa_queue *queue = opened(&o);
    struct dsa_list *list = dsa_list_get(queue);
    printf("%s: %s\n", dsa_queue_name(queue), why);
    memset(a, 7, sizeof a);
    dsa_list_move(list, a, b, sizeof a);
    const int right = ends(list, DSA_LIST_DONE) && b[sizeof b - 1] == 7;
    dsa_queue_close(queue);
    return right;
}

/* The limits of options. */
static int options(void)
{
    const struct dsa_queue_options many = {.lists = 65}, long_ones = {.pieces = 65537}, most = {.lists = 64};
    const struct dsa_queue_options unknown = {.flags = 0x80000020 | DSA_QUEUE_SOFTWARE};
    int is_refused = !dsa_queue_open(file, &many, why) && !dsa_queue_open(file, &long_ones, why);
    printf("%s\n", why);
    is_refused = is_refused && !dsa_queue_open(file, &unknown, why);
    printf("%s\n", why);
    const struct dsa_queue_options lacking[] = {{.lone = 7}, {.batch = 8}, {.fence = 9}, {.lone = 7, .fence = 9},
                                                {.batch = 8, .fence = 9}, {.lone = 1000000001, .batch = 8},
                                                {.lone = 7, .batch = 8, .fence = 1000000001}};
    for (int i = 0; i < 7; i++) {
        is_refused = is_refused && !dsa_queue_open(file, &lacking[i], why);
        printf("%s\n", why);
    }
    const struct dsa_queue_options given = {.lone = 7, .batch = 8}; /* a fence costs nothing */
    struct dsa_queue *cheap = opened(&given);
    is_refused = is_refused && cheap->settings.lone == 7 && cheap->settings.batch == 8 && cheap->settings.fence == 0;
    dsa_queue_close(cheap);
    struct dsa_queue *queue = opened(&most);
    struct dsa_list *list = dsa_list_get(queue), *last = list;
    for (int i = 1; i < 64; i++)
        last = dsa_list_get(queue);
    const int is_full = last && !dsa_list_get(queue);
    dsa_list_drop(list);
    const int is_again = dsa_list_get(queue) == list;
    dsa_queue_close(queue);
    return is_refused && is_full && is_again;
}

/* A page that nothing maps, and one that may not be written: others are done, and the list can be run again. */
static int absent(void)
{
    struct dsa_queue *queue = opened(NULL);
    struct dsa_list *list = dsa_list_get(queue);
    uint8_t *none = mapped(PROT_NONE), *read_only = mapped(PROT_READ);
    memset(a, 7, sizeof a);
    dsa_list_move(list, a, b, 64);
    dsa_list_move(list, none, c, 64);
    dsa_list_barrier(list);
    dsa_list_move(list, a, b + PAGE, 64);
    int right = ends(list, DSA_LIST_FAILED);
    struct dsa_result r = dsa_list_result(list, 1);
    right = right && b[63] == 7 && b[PAGE] == 0 && dsa_list_result(list, 0).status == 1 && dsa_list_failed(list) == 1 &&
            r.status == 3 && !r.is_write && r.fault == (uintptr_t)none && dsa_list_result(list, 2).status == 0;
    printf("at the page %d\n", strtoull(strstr(why, "0x"), NULL, 16) == (uintptr_t)none);
    mprotect(none, PAGE, PROT_READ);
    right = ends(list, DSA_LIST_DONE) && right && b[PAGE] == 7;
    dsa_list_clear(list);
    dsa_list_fill(list, read_only, 8, 1);
    right = ends(list, DSA_LIST_FAILED) && right;
    r = dsa_list_result(list, 0);
    right = right && r.status == 3 && r.is_write && r.fault == (uintptr_t)read_only && dsa_list_failed(list) == 0;
    dsa_queue_close(queue);
    return right;
}

/* The same if the list is to end at a page fault, and if the device waits for pages. */
static int kept(void)
{
    int right = 1;
    for (uint32_t flag = DSA_QUEUE_KEEP_FAULTS; flag <= 3; flag += 2) { /* alone, and with DSA_QUEUE_BLOCK_ON_FAULT */
        const struct dsa_queue_options o = {.flags = flag};
        struct dsa_queue *queue = opened(&o);
        struct dsa_list *list = dsa_list_get(queue);
        dsa_list_move(list, a, mapped(PROT_NONE), 64);
        right = ends(list, DSA_LIST_FAILED) && right;
        const struct dsa_result r = dsa_list_result(list, 0);
        right = right && r.is_write && r.status == (flag & DSA_QUEUE_BLOCK_ON_FAULT ? 4 : 3);
        dsa_queue_close(queue);
    }
    return right;
}

/* A check that fails and a page that is never there, in one batch: what comes after the barrier is not begun. */
static int both(void)
{
    struct dsa_queue *queue = opened(NULL);
    struct dsa_list *list = dsa_list_get(queue);
    memset(a, 7, sizeof a);
    dsa_list_move(list, mapped(PROT_NONE), c, 64);
    dsa_list_check(list, a, b, 64);
    dsa_list_move(list, a, c + PAGE, 64);
    const int right = ends(list, DSA_LIST_FAILED) && c[PAGE] == 0 && dsa_list_result(list, 0).status == 3 &&
                      dsa_list_result(list, 1).status == 2 && dsa_list_failed(list) == 1;
    dsa_queue_close(queue);
    return right;
}

/* Deltas that are wrong, and a check for a difference of what is equal. */
static int failing(void)
{
    struct dsa_queue *queue = opened(NULL);
    struct dsa_list *list = dsa_list_get(queue);
    uint8_t delta[20] = {1, 0}, d[64];
    dsa_list_apply_delta(list, delta, sizeof delta, b, 64); /* offsets 1 and 0 */
    int right = ends(list, DSA_LIST_FAILED) && dsa_list_result(list, 0).status == 7;
    delta[10] = 9;
    right = ends(list, DSA_LIST_FAILED) && right && dsa_list_result(list, 0).status == 8;
    delta[10] = 7;
    right = ends(list, DSA_LIST_DONE) && right;
    dsa_list_clear(list);
    dsa_put_compare(d, (uintptr_t)a, (uintptr_t)a, 64, 0);
    dsa_expect(d, 1);
    dsa_list_add(list, d, 64);
    right = ends(list, DSA_LIST_FAILED) && right && dsa_list_result(list, 0).status == 2;
    dsa_queue_close(queue);
    return right;
}

/* Checksums, of vectors of RFC 3720 and of "123456789": in one, after a copy of its beginning, and of bytes elsewhere.
 * After a failed check nothing after the next barrier is done, and after a page that can't be made present the list can
 * be run again. In flight it waits for what it reads. */
static int checksums(void)
{
    const struct dsa_queue_options o = {.flags = DSA_QUEUE_IN_FLIGHT};
    struct dsa_queue *queue = opened(NULL), *tracked = opened(&o);
    struct dsa_list *list = dsa_list_get(queue), *other = dsa_list_get(tracked), *before = dsa_list_get(tracked);
    uint8_t d[64], *target = mapped(PROT_NONE);
    memcpy(a, "123456789", 9);
    memset(c, 0xff, 32);
    dsa_list_crc(list, a, 9, 0);
    dsa_list_copy_crc(list, a, b, 4, 0);
    int right = !dsa_list_result(list, 0).has_checksum && ends(list, DSA_LIST_DONE) && memcmp(b, "1234", 5) == 0;
    const struct dsa_result whole = dsa_list_result(list, 0), begun = dsa_list_result(list, 1);
    right = right && whole.has_checksum && whole.checksum == 0xe3069283 && begun.has_checksum;
    dsa_list_clear(list);
    dsa_list_crc(list, a + 4, 5, begun.checksum);
    dsa_list_copy_crc(list, a + PAGE, b, 32, 0);
    dsa_list_move(list, a, b + PAGE, 9);
    right = ends(list, DSA_LIST_DONE) && right && dsa_list_result(list, 0).checksum == 0xe3069283;
    right = right && dsa_list_result(list, 1).checksum == 0x8a9136aa && !dsa_list_result(list, 2).has_checksum;
    dsa_list_place(list, 1, c, b + 64, NULL);
    right = ends(list, DSA_LIST_DONE) && right && dsa_list_result(list, 1).checksum == 0x62a8ab43 && b[64] == 0xff;
    dsa_list_clear(list);
    dsa_list_crc(list, a, 9, 0);
    dsa_list_check(list, dsa_list_checksum(list, 0), c, 4); /* it is not ff.. */
    dsa_list_move(list, a, b + 128, 9);
    right = ends(list, DSA_LIST_FAILED) && right && dsa_list_failed(list) == 1 && b[128] == 0;
    right = right && dsa_list_result(list, 0).checksum == 0xe3069283 && !dsa_list_checksum(list, 1);
    dsa_list_clear(list);
    dsa_list_crc(list, a, 4, 0);
    dsa_put_copy_crc(d, (uintptr_t)(a + 4), (uintptr_t)target, 5, 0, 0);
    dsa_seed_from(d, (uintptr_t)dsa_list_checksum(list, 0));
    dsa_list_add(list, d, 5);
    right = ends(list, DSA_LIST_FAILED) && right && !dsa_list_result(list, 1).has_checksum;
    mprotect(target, PAGE, PROT_READ | PROT_WRITE);
    right = ends(list, DSA_LIST_DONE) && right && dsa_list_result(list, 1).checksum == 0xe3069283;
    dsa_list_crc(other, a, 9, 0);
    right = ends(other, DSA_LIST_DONE) && right && dsa_list_result(other, 0).checksum == 0xe3069283;
    dsa_list_move(before, a, b + 2 * PAGE, 9);
    dsa_list_clear(other);
    dsa_list_crc(other, b + 2 * PAGE, 9, 0);
    right = dsa_list_start(before) == DSA_LIST_RUNNING && dsa_list_start(other) == DSA_LIST_RUNNING && right;
    right = dsa_list_wait(other) == DSA_LIST_DONE && dsa_list_wait(before) == DSA_LIST_DONE && right;
    right = right && dsa_list_result(other, 0).checksum == 0xe3069283;
    dsa_queue_close(tracked);
    dsa_queue_close(queue);
    return right;
}

/* Lists that are refused. */
static int refused(void)
{
    const struct dsa_queue_options o = {.pieces = 3};
    struct dsa_queue *queue = opened(&o);
    struct dsa_list *list = dsa_list_get(queue);
    printf("%s\n", dsa_list_why(list, why));
    int right = ends(list, DSA_LIST_REFUSED);
    right = dsa_list_move(list, a, b, 64) == 0 && dsa_list_move(list, a, b, 0) == 1 && right;
    right = ends(list, DSA_LIST_REFUSED) && right;
    dsa_list_clear(list);
    right = dsa_list_fill(list, b, (size_t)1 << 32, 0) == -1 && right;
    right = ends(list, DSA_LIST_REFUSED) && right;
    dsa_list_clear(list);
    for (int i = 0; i < 4; i++)
        right = dsa_list_move(list, a, b, 64) == (i < 3 ? i : -1) && right;
    dsa_list_fill(list, b, (size_t)1 << 32, 0); /* what was met first is said */
    right = ends(list, DSA_LIST_REFUSED) && right;
    dsa_list_clear(list);
    dsa_list_dualcast(list, a, b, c + 8, 64);
    right = ends(list, DSA_LIST_REFUSED) && right && dsa_list_failed(list) == -1;
    right = right && dsa_list_result(list, 0).status == 0;
    dsa_list_clear(list);
    dsa_list_move(list, a, a + 8, 64);
    dsa_list_move(list, a, b, 64);
    const enum dsa_end end = dsa_list_run(list); /* by what gen_cap says */
    printf("%s\n", dsa_list_why(list, why));
    dsa_queue_close(queue);
    return right && (end == DSA_LIST_DONE || end == DSA_LIST_REFUSED);
}

/* Places that fail: until they are right, nothing is begun, and what was placed before keeps its bytes. */
static int misplaced(void)
{
    static const struct dsa_queue_options all[] = {{0}, {.flags = DSA_QUEUE_IN_FLIGHT}};
    int right = 1;
    for (int i = 0; i < 2; i++) {
        struct dsa_queue *queue = opened(&all[i]);
        struct dsa_list *list = dsa_list_get(queue);
        memset(a, 7, sizeof a);
        const int first = dsa_list_move(list, a, b, 64), second = dsa_list_move(list, a, b + 64, 64);
        right = right && dsa_list_prepare(list) == 0 && dsa_list_run(list) == DSA_LIST_DONE;
        memset(b, 1, 128);
        right = right && dsa_list_place(list, second + 1, a, c, NULL) == -1 && strstr(dsa_list_why(list, why), "place");
        right = ends(list, DSA_LIST_REFUSED) && right;
        right = right && dsa_list_start(list) == DSA_LIST_REFUSED && dsa_list_result(list, 0).status == 0;
        right = right && b[0] == 1 && b[127] == 1 && dsa_list_place(list, second, a, c + 64, NULL) == second;
        right = right && dsa_list_place(list, first, a, c, NULL) == first;
        right = right && dsa_list_run(list) == DSA_LIST_REFUSED && b[0] == 1; /* not in order */
        right = right && dsa_list_place(list, second, a, c + 64, NULL) == second;
        right = ends(list, DSA_LIST_DONE) && right && b[0] == 1 && b[127] == 1 && c[0] == 7 && c[127] == 7;
        right = right && dsa_list_place(list, -1, a, b, NULL) == -1 && dsa_list_run(list) == DSA_LIST_REFUSED;
        right = right && dsa_list_prepare(list) == 0 && dsa_list_run(list) == DSA_LIST_DONE;
        right = right && dsa_list_place(list, -1, a, b, NULL) == -1;
        dsa_list_clear(list);
        dsa_list_move(list, a, b, 64);
        right = ends(list, DSA_LIST_DONE) && right && b[0] == 7 && b[127] == 1;
        dsa_queue_close(queue);
    }
    return right;
}

/* The same of places that a device without gen_cap's overlap can't do: two moves, of which each has to be mended. */
static int overlapped(void)
{
    struct dsa_queue *queue = opened(NULL);
    struct dsa_list *list = dsa_list_get(queue);
    dsa_list_move(list, a, b, 64);
    dsa_list_move(list, a, c, 64);
    int right = dsa_list_prepare(list) == 0 && dsa_list_place(list, 0, NULL, a + 8, NULL) == -1 &&
                dsa_list_place(list, 1, NULL, a + 16, NULL) == -1;
    right = ends(list, DSA_LIST_REFUSED) && right && dsa_list_place(list, 0, NULL, b, NULL) == 0;
    right = ends(list, DSA_LIST_REFUSED) && right && dsa_list_prepare(list) == -1;
    right = right && dsa_list_place(list, 2, a, b, NULL) == -1 && dsa_list_place(list, 0, NULL, b, NULL) == 0;
    right = right && dsa_list_run(list) == DSA_LIST_REFUSED && dsa_list_place(list, 1, NULL, a + 16, NULL) == -1;
    right = ends(list, DSA_LIST_REFUSED) && right && dsa_list_place(list, 1, NULL, c, NULL) == 1;
    right = ends(list, DSA_LIST_DONE) && right;
    dsa_queue_close(queue);
    return right;
}

/* One list over and over: each turn its records, and those of its batches, are clear again. */
static int again(void)
{
    struct dsa_queue *queue = opened(NULL);
    struct dsa_list *list = dsa_list_get(queue);
    int right = 1;
    dsa_list_move(list, a, b, sizeof a);
    dsa_list_barrier(list);
    dsa_list_move(list, b, c, sizeof b);
    for (int turn = 1; turn < 60; turn++) {
        memset(a, turn, sizeof a);
        if (turn == 30)
            dsa_list_move(list, c, b, 64);
        right = dsa_list_run(list) == DSA_LIST_DONE && memcmp(a, c, sizeof a) == 0 && right;
    }
    printf("%s\n", dsa_list_why(list, why));
    dsa_queue_close(queue);
    return right;
}

/* In a child of fork runs are refused, and closing leaves alone what is mapped there since; the parent goes on. */
static int forked(void)
{
    struct dsa_queue *queue = opened(NULL);
    struct dsa_list *list = dsa_list_get(queue);
    int status = -1;
    memset(a, 7, sizeof a);
    dsa_list_move(list, a, b, 64);
    int right = dsa_list_run(list) == DSA_LIST_DONE;
    const pid_t child = fork();
    if (child == 0) {
        char why[DSA_WHY_ROOM];
        puts(dsa_list_why(list, why));
        const int is_refused = ends(list, DSA_LIST_REFUSED) && dsa_list_result(list, 0).status == 0;
        uint8_t *filled[64];
        for (int i = 0; i < 64; i++) {
            filled[i] = mapped(PROT_READ | PROT_WRITE);
            memset(filled[i], i, PAGE);
        }
        dsa_queue_close(queue);
        int is_there = 1;
        for (int i = 0; i < 64; i++)
            is_there = filled[i][PAGE - 1] == i && is_there;
        fflush(stdout);
        _exit(is_refused && is_there ? 0 : 1);
    }
    waitpid(child, &status, 0);
    memset(a, 8, sizeof a);
    right = ends(list, DSA_LIST_DONE) && right && b[63] == 8 && status == 0;
    dsa_queue_close(queue);
    return right;
}

/* Lists in flight: each that has ended is handed out once, with its tag; and a queue that has none in flight. */
static int polled(void)
{
    enum { LISTS = 8 };
    const struct dsa_queue_options o = {.flags = DSA_QUEUE_IN_FLIGHT, .lists = LISTS};
    struct dsa_queue *queue = opened(NULL);
    static int tags[LISTS];
    struct dsa_list *list = dsa_list_get(queue);
    dsa_list_move(list, a, b, 64);
    int right = dsa_list_start(list) == DSA_LIST_REFUSED && dsa_queue_poll(queue) == NULL;
    printf("%s\n", dsa_list_why(list, why));
    dsa_queue_close(queue);
    queue = opened(&o);
    memset(a, 7, sizeof a);
    for (int i = 0; i < LISTS; i++) {
        list = dsa_list_get(queue);
        right = right && list && dsa_list_tag(list) == NULL;
        dsa_list_set_tag(list, &tags[i]);
        dsa_list_move(list, i ? b + 64 * (i - 1) : a, b + 64 * i, 64);
        right = dsa_list_start(list) == DSA_LIST_RUNNING && dsa_list_start(list) == DSA_LIST_RUNNING && right;
    }
    for (int left = LISTS; left > 0;) {
        list = dsa_queue_poll(queue);
        if (!list)
            continue;
        right = right && dsa_list_test(list) == DSA_LIST_DONE && (*(int *)dsa_list_tag(list))++ == 0;
        left--;
    }
    right = right && dsa_queue_poll(queue) == NULL && b[64 * LISTS - 1] == 7 && b[64 * LISTS] == 0;
    right = right && dsa_list_start(list) == DSA_LIST_RUNNING;
    dsa_list_clear(list); /* waits for it, and what is added then is done by the next start */
    dsa_list_fill(list, b + 64 * LISTS, 64, 0x0909090909090909);
    right = right && dsa_list_start(list) == DSA_LIST_RUNNING && strstr(dsa_list_why(list, why), "is in flight");
    right = right && dsa_list_wait(list) == DSA_LIST_DONE && b[64 * LISTS] == 9;
    dsa_list_start(list); /* closing waits for it */
    dsa_queue_close(queue);
    return right;
}

/* Threads with a list each on one queue, which has fewer places than there are threads. */
static void *run_many(void *of)
{
    struct dsa_queue *queue = of;
    struct dsa_list *list = dsa_list_get(queue);
    uint8_t *own = mapped(PROT_READ | PROT_WRITE);
    size_t wrong = !list || own == MAP_FAILED;
    char said[DSA_WHY_ROOM];
    for (int i = 1; !wrong && i < 20; i++) {
        dsa_list_clear(list);
        dsa_list_fill(list, own, 64, UINT64_C(0x0101010101010101) * (unsigned)i);
        dsa_list_move(list, own, own + 64, 64);
        dsa_list_move(list, own + 64, own + 128, 64);
        wrong += dsa_list_run(list) != DSA_LIST_DONE || own[191] != i;
    }
    if (wrong && list)
        printf("%s\n", dsa_list_why(list, said));
    return (void *)wrong;
}

static int threads(void)
{
    enum { THREADS = 4 };
    const struct dsa_queue_options o = {.lists = THREADS, .wait_ms = 20000};
    struct dsa_queue *queue = opened(&o);
    pthread_t all[THREADS];
    size_t wrong = 0;
    for (int i = 0; i < THREADS; i++)
        pthread_create(&all[i], NULL, run_many, queue);
    for (int i = 0; i < THREADS; i++) {
        void *one = NULL;
        pthread_join(all[i], &one);
        wrong += (size_t)one;
    }
    dsa_queue_close(queue);
    return wrong == 0;
}

/* A queue that takes nothing, and one that drops an entry, since another that nobody counted has filled it. */
static int at_limit(const uint8_t *uncounted)
{
    const struct dsa_queue_options o = {.wait_ms = 100};
    struct dsa_queue *queue = opened(&o);
    struct dsa_list *list = dsa_list_get(queue);
    struct timespec start, end;
    if (uncounted)
        __asm__ volatile("movdir64b (%1), %0" : : "r"(queue->port->portal), "r"(uncounted) : "memory");
    clock_gettime(CLOCK_MONOTONIC, &start);
    dsa_list_move(list, a, b, 64);
    const enum dsa_end how = dsa_list_run(list);
    printf("%s\n", dsa_list_why(list, why));
    clock_gettime(CLOCK_MONOTONIC, &end);
    dsa_queue_close(queue);
    return (how == DSA_LIST_FAILED || how == DSA_LIST_LOST) &&
           (end.tv_sec - start.tv_sec) * 1000 + (end.tv_nsec - start.tv_nsec) / 1000000 >= 100;
}

static int limit(void) { return at_limit(NULL); }

static int dropped(void)
{
    static _Alignas(64) uint8_t entry[64], record[32];
    dsa_put_move(entry, (uintptr_t)a, (uintptr_t)c, 64, (uintptr_t)record);
    return at_limit(entry);
}

int main(int argc, char **argv)
{
    static const struct { const char *name; int (*run)(void); } cases[] = {
        {"open", open_it}, {"or_software", or_software}, {"options", options}, {"absent", absent}, {"kept", kept},
        {"both", both}, {"failing", failing}, {"checksums", checksums}, {"refused", refused}, {"misplaced", misplaced},
        {"overlapped", overlapped}, {"again", again}, {"forked", forked}, {"polled", polled}, {"threads", threads},
        {"limit", limit}, {"dropped", dropped},
    };
    setvbuf(stdout, NULL, _IOLBF, 0);
    file = argc > 2 ? argv[2] : NULL;
    for (size_t i = 0; argc > 1 && i < sizeof cases / sizeof *cases; i++)
        if (strcmp(argv[1], cases[i].name) == 0)
            return !cases[i].run();
    return 3;
}
