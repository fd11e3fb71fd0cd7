/* Measures what submissions cost on a work queue, as docs/PRICES.md says: a lone descriptor, batches by size, and a
 * fence; prints them as settings of the planner, in nanoseconds. */
#include <errno.h>
#include <fcntl.h>
#include <immintrin.h>
#include <linux/idxd.h>
#include <stdbool.h>
#include <stdint.h>
#include <stdio.h>
#include <stdlib.h>
#include <string.h>
#include <sys/mman.h>
#include <time.h>
#include <unistd.h>

#include "shown.h"

enum { MOST = 1024, MOVED = 64, LARGEST_PRICE = 1000000000, STAGING = 65536 };

typedef struct dsa_hw_desc descriptor;
typedef struct dsa_completion_record completion;

static const char help[] =
    "Measures what submissions to a work queue cost, in nanoseconds, and prints them as settings of the planner.\n"
    "\n"
    "Usage: dsa_prices [OPTIONS] [QUEUE]\n"
    "\n"
    "Arguments:\n"
    "  [QUEUE]                   the queue's file [default: /dev/dsa/wq0.0]\n"
    "\n"
    "Options:\n"
    "      --options             print options of dsa_text and not settings as JSON\n"
    "      --greatest-batch <N>  the largest batch to measure, 2 to 1024 [default: that of the queue]\n"
    "      --times <N>           how often each is measured [default: 1000]\n"
    "  -h, --help                print this\n"
    "  -V, --version             print the version\n";

struct asked { const char *queue; bool options; unsigned greatest, times; };

/* A queue and the memory that its operations use: each member moves between 64 bytes of its own. */
struct bench {
    void *portal;
    bool is_shared;
    unsigned times;
    descriptor *list;
    volatile completion *record;
    uint8_t *data;
};

static void fail(const char *what, const char *why) __attribute__((noreturn));

static void fail(const char *what, const char *why)
{
    fprintf(stderr, "dsa_prices: %s: %s\n", what, why);
    exit(1);
}

static unsigned number_of(const char *option, const char *text, unsigned least, unsigned most)
{
    char *end = NULL;
    const unsigned long number = text ? strtoul(text, &end, 10) : 0;
    if (!text || *end || number < least || number > most) {
        fprintf(stderr, "dsa_prices: a number from %u to %u comes after %s\n", least, most, option);
        exit(2);
    }
    return (unsigned)number;
}

static struct asked ask(char **word)
{
    struct asked a = {.queue = "/dev/dsa/wq0.0", .times = 1000};
    for (word++; *word; word++)
        if (strcmp(*word, "--help") == 0 || strcmp(*word, "-h") == 0) {
            fputs(help, stdout);
            exit(0);
        } else if (strcmp(*word, "--version") == 0 || strcmp(*word, "-V") == 0) {
            puts("dsa_prices " VERSION);
            exit(0);
        } else if (strcmp(*word, "--options") == 0)
            a.options = true;
        else if (strcmp(*word, "--greatest-batch") == 0) {
            a.greatest = number_of(*word, word[1], 2, MOST);
            word++;
        } else if (strcmp(*word, "--times") == 0) {
            a.times = number_of(*word, word[1], 1, 1000000);
            word++;
        } else if (!**word) {
            fputs("dsa_prices: the name of the queue is empty\n", stderr);
            exit(2);
        } else if (**word == '-') {
            fprintf(stderr, "dsa_prices: %s: there is no such option (see dsa_prices --help)\n", *word);
            exit(2);
        } else
            a.queue = *word;
    return a;
}

/// What a file of the queue has, in the folder of the driver; false if it has none.
static bool attribute(const char *queue, const char *name, char text[64])
{
    char path[4096];
    const char *last = strrchr(queue, '/');
    snprintf(path, sizeof path, "/sys/bus/dsa/devices/%s/%s", last ? last + 1 : queue, name);
    FILE *file = fopen(path, "r");
    const bool is_read = file && fgets(text, 64, file);
    if (file)
        fclose(file);
    return is_read;
}

static void *memory_of(size_t size)
{
    void *at = mmap(NULL, size, PROT_READ | PROT_WRITE, MAP_PRIVATE | MAP_ANONYMOUS | MAP_POPULATE, -1, 0);
    if (at == MAP_FAILED)
        fail("memory", strerror(errno));
    return at;
}

static void open_queue(struct bench *b, const struct asked *a)
{
    char mode[64] = "";
    const int file = open(a->queue, O_RDWR);
    if (file < 0)
        fail(a->queue, errno == ENOENT ? "there is no such queue: no device, or it is not configured (accel-config)"
                                       : strerror(errno));
    b->portal = mmap(NULL, 4096, PROT_WRITE, MAP_SHARED | MAP_POPULATE, file, 0);
    if (b->portal == MAP_FAILED)
        fail(a->queue, errno == EPERM ? "the kernel lets only programs with CAP_SYS_RAWIO map its portal; without it "
                                        "the queue is used without batches and fences, so prices change nothing"
                                      : strerror(errno));
    if (!attribute(a->queue, "mode", mode))
        fail(a->queue, "the driver names no mode of it under /sys/bus/dsa");
    b->is_shared = mode[0] == 's';
    b->times = a->times;
    b->list = memory_of(sizeof *b->list * MOST);
    b->record = memory_of(4096);
    b->data = memory_of(2ul * MOVED * MOST);
}

__attribute__((target("movdir64b"))) static void submit_dedicated(void *portal, const descriptor *d)
{
    _movdir64b(portal, d);
}

__attribute__((target("enqcmd"))) static void submit_shared(void *portal, const descriptor *d)
{
    while (_enqcmd(portal, d)) /* the queue is full */
        _mm_pause();
}

/// Submits one entry and awaits its record; answers the nanoseconds.
static uint32_t measure_once(struct bench *b, const descriptor *d)
{
    struct timespec start, end;
    b->record->status = 0;
    clock_gettime(CLOCK_MONOTONIC, &start);
    _mm_sfence();
    if (b->is_shared)
        submit_shared(b->portal, d);
    else
        submit_dedicated(b->portal, d);
    while (!b->record->status)
        _mm_pause();
    clock_gettime(CLOCK_MONOTONIC, &end);
    if (b->record->status != DSA_COMP_SUCCESS) {
        fprintf(stderr, "dsa_prices: a submission ends with status %#x\n", b->record->status);
        exit(1);
    }
    return (uint32_t)((end.tv_sec - start.tv_sec) * 1000000000l + end.tv_nsec - start.tv_nsec);
}

static int by_size(const void *one, const void *other)
{
    const uint32_t a = *(const uint32_t *)one, b = *(const uint32_t *)other;
    return a < b ? -1 : a > b;
}

/// The median of what an entry takes, after a tenth of the times to warm up.
static uint32_t measure(struct bench *b, const descriptor *d)
{
    uint32_t *times = malloc(sizeof *times * b->times);
    if (!times)
        fail("memory", strerror(errno));
    for (unsigned i = 0; i < b->times / 10 + 1; i++)
        measure_once(b, d);
    for (unsigned i = 0; i < b->times; i++)
        times[i] = measure_once(b, d);
    qsort(times, b->times, sizeof *times, by_size);
    const uint32_t median = times[b->times / 2];
    free(times);
    return median < LARGEST_PRICE ? median : LARGEST_PRICE;
}

static descriptor move_of(const struct bench *b, unsigned i)
{
    return (descriptor){.opcode = DSA_OPCODE_MEMMOVE,
                        .xfer_size = MOVED,
                        .src_addr = (uintptr_t)(b->data + 2 * MOVED * i),
                        .dst_addr = (uintptr_t)(b->data + 2 * MOVED * i + MOVED)};
}

static uint32_t lone(struct bench *b)
{
    descriptor d = move_of(b, 0);
    d.flags = IDXD_OP_FLAG_CRAV | IDXD_OP_FLAG_RCR;
    d.completion_addr = (uintptr_t)b->record;
    return measure(b, &d);
}

/// A batch of so many members, with a fence before the middle one or without.
static uint32_t batch(struct bench *b, unsigned size, bool is_fenced)
{
    for (unsigned i = 0; i < size; i++)
        b->list[i] = move_of(b, i);
    b->list[size / 2].flags = is_fenced ? IDXD_OP_FLAG_FENCE : 0;
    const descriptor d = {.opcode = DSA_OPCODE_BATCH, .flags = IDXD_OP_FLAG_CRAV | IDXD_OP_FLAG_RCR, .desc_count = size,
                          .desc_list_addr = (uintptr_t)b->list, .completion_addr = (uintptr_t)b->record};
    return measure(b, &d);
}

/// Measures the sizes 2, 4, 8 and so on and the greatest, and puts those between on straight lines.
static void measure_batches(struct bench *b, unsigned greatest, uint32_t prices[MOST + 1])
{
    unsigned last = 2;
    prices[2] = batch(b, 2, false);
    while (last < greatest) {
        const unsigned size = 2 * last < greatest ? 2 * last : greatest;
        prices[size] = batch(b, size, false);
        const double step = ((double)prices[size] - prices[last]) / (size - last);
        for (unsigned between = last + 1; between < size; between++)
            prices[between] = (uint32_t)(prices[last] + step * (between - last) + 0.5);
        last = size;
    }
}

/// What a fence adds, the median over some sizes; 0 where it adds nothing that can be measured.
static uint32_t fence(struct bench *b, unsigned greatest)
{
    uint32_t more[3];
    const unsigned sizes[3] = {2, greatest < 8 ? greatest : 8, greatest < 32 ? greatest : 32};
    for (int i = 0; i < 3; i++) {
        const uint32_t without = batch(b, sizes[i], false), with = batch(b, sizes[i], true);
        more[i] = with > without ? with - without : 0;
    }
    qsort(more, 3, sizeof *more, by_size);
    return more[1];
}

static void print_all(const char *between, const uint32_t *prices, unsigned greatest)
{
    for (unsigned size = 2; size <= greatest; size++)
        printf("%s%u", size > 2 ? between : "", prices[size]);
}

int main(int argc, char **argv)
{
    shown_begin();
    struct asked a = ask(argv);
    struct bench b = {0};
    char text[64];
    uint32_t prices[MOST + 1];
    (void)argc;
    open_queue(&b, &a);
    if (getenv("DSA_TRACE_ORDER"))
        fputs("dsa_prices: this runs under dsa_trace: these are prices of the emulation, not of a device\n", stderr);
    const unsigned long of_queue = attribute(a.queue, "max_batch_size", text) ? strtoul(text, NULL, 10) : MOST;
    const unsigned greatest = a.greatest ? a.greatest : of_queue >= 2 && of_queue < MOST ? (unsigned)of_queue : MOST;
    unsigned long transfer = attribute(a.queue, "max_transfer_size", text) ? strtoul(text, NULL, 10) : 1ul << 21;
    transfer = transfer < 1ul << 31 ? transfer & ~7ul : 1ul << 31;
    const uint32_t of_lone = lone(&b);
    measure_batches(&b, greatest, prices);
    const uint32_t of_fence = fence(&b, greatest);
    if (a.options)
        printf("--greatest-batch %u --greatest-transfer %lu --lone %u --fence %u --batches ", greatest, transfer,
               of_lone, of_fence);
    else
        printf("{\"version\":2,\"greatest_batch\":%u,\"greatest_transfer\":%lu,\"lone\":%u,\"fence\":%u,\"staging\":%d,"
               "\"batch\":[",
               greatest, transfer, of_lone, of_fence, STAGING);
    print_all(",", prices, greatest);
    puts(a.options ? "" : "]}");
    return 0;
}
