/* Measures how much stack each call takes, on lists of 2 to 65,536 moves, with a checksum in place of the first move,
 * and with checksums alone: stack MOST_FOR_PLANNING MOST_FOR_CHECKING. It prints the greatest number of bytes for each
 * call, and fails if one is above what the header asks of a caller. */
#include <pthread.h>
#include <stdio.h>
#include <stdlib.h>
#include <string.h>
#include <sys/mman.h>

#include <dsa_planner.h>

enum { MOST = DSA_MOST_PIECES, STACK = 1 << 20, CALLS = 14 };

static const struct dsa_settings settings = {1, 1024, 4096, 10, 14, 3, UINT64_C(1) << 40};
static uint8_t list[64 * MOST], records[32 * MOST], portal[64 * MOST], staging[80 * MOST], marks[MOST];
static uint64_t prices[MOST + 1], cost;
static struct dsa_pair pairs[MOST];
static struct dsa_planned planned;
static struct dsa_resumed resumed;
static struct dsa_reason reasons[MOST];
static struct dsa_warning warnings[2 * MOST];
static struct dsa_refusal refusal;
static size_t len;
static const struct dsa_region regions[2] = {{0, UINT64_C(0x80000000)}, {UINT64_C(0x80000000), 32 * MOST}};
static const uint64_t bases[2] = {UINT64_C(0x100000000), UINT64_C(0x300000000)};
static struct dsa_prepared_row rows[1 + 2 + 3 * MOST];
static struct dsa_prepared_info prepared;
static uint64_t words[DSA_TRACKER_WORDS(1, DSA_TRACKER_SPANS(MOST), 13)], waited, ready;
static uint32_t slots[64];
static uint32_t slot;

/* Moves of 64 bytes, of which each third reads what the one before writes. */
static void put_moves(uint64_t n)
{
    for (uint64_t i = 0; i < n; i++) {
        uint64_t fields[3] = {UINT64_C(0x80000000) + 32 * i, 0x1000 * (i % 3 == 2 ? i - 1 : i + MOST), 0x1000 * i};
        uint8_t *d = list + 64 * i;
        memset(d, 0, 64);
        d[4] = 0x0c;
        d[7] = 0x03;
        memcpy(d + 8, fields, 24);
        d[32] = 64;
    }
    len = 64 * n;
}

static void *call(void *which)
{
    const struct dsa_settings *s = &settings;
    uint64_t n = planned.pieces;
    uint32_t code = 0;
    switch (*(int *)which) {
    case 0:
        cost = dsa_count_pieces(s, &s->batch, 0, list, len);
        break;
    case 1:
        code = dsa_plan_list(s, &s->batch, 0, list, len, portal, sizeof portal, staging, sizeof staging, &planned, &refusal);
        break;
    case 2:
        code = dsa_plan_list_certified(s, &s->batch, 0, list, len, portal, sizeof portal, staging, sizeof staging, prices,
                                       MOST + 1, pairs, MOST, marks, MOST, &planned, &refusal);
        break;
    case 3:
        code = dsa_check(s, &s->batch, 0, portal, planned.portal_len, staging, planned.staging_len, 1, prices, n + 1,
                         pairs, n, &cost, &refusal);
        break;
    case 4:
        code = dsa_judge(s, &s->batch, 0, list, len, marks, n, &cost, &refusal);
        break;
    case 5:
        code = dsa_check_list(s, &s->batch, 0, list, len, portal, planned.portal_len, staging, planned.staging_len, 1,
                              prices, n + 1, pairs, n, &cost, &refusal);
        break;
    case 6:
        code = dsa_prepare(s, &s->batch, 0, list, len, regions, 2, rows, DSA_PREPARED_ROOM(2, MOST), &prepared, &refusal);
        break;
    case 7:
        code = dsa_fill(rows, prepared.rows, bases, 2, s->staging, portal, sizeof portal, staging, sizeof staging, &refusal);
        break;
    case 8:
        code = dsa_track_begin(words, sizeof words / sizeof *words, 1, DSA_TRACKER_SPANS(MOST), 13, 12, &refusal);
        if (code == DSA_OK)
            code = dsa_track_list(words, sizeof words / sizeof *words, s, &s->batch, 0, list, len, s->staging, 96 * n,
                                  0, &slot, &waited, &refusal);
        break;
    case 9:
        code = dsa_track_complete(words, sizeof words / sizeof *words, slot, &waited, &ready, &refusal);
        break;
    case 11:
        code = dsa_resume(s, &s->batch, 0, list, len, records, 32 * n, records, 0, 0, portal, sizeof portal, &resumed,
                          &refusal);
        break;
    case 12:
        code = dsa_explain_list(s, &s->batch, 0, list, len, reasons, MOST, &cost, &refusal);
        break;
    case 13:
        code = dsa_warn_list(s, &s->batch, 0, list, len, warnings, 2 * MOST, &cost, &refusal);
        break;
    default: /* large groups, and many, are refused once they are read */
        code = dsa_track_begin(words, sizeof words / sizeof *words, 64, 1024, 13, 12, &refusal);
        if (code == DSA_OK)
            code = dsa_track_groups(words, sizeof words / sizeof *words, s, &s->batch, 0, portal, planned.portal_len,
                                    staging, planned.staging_len, 0, slots, 64, &refusal);
        code = code == DSA_FEW_SLOTS || code == DSA_TOO_MANY_SPANS ? DSA_OK : code;
    }
    return code == DSA_OK ? NULL : which;
}

static void *nothing(void *which)
{
    (void)which;
    return NULL;
}

/* How many bytes of its stack a thread that runs this has written. */
static size_t touched_by(void *(*run)(void *), int which)
{
    pthread_t thread;
    pthread_attr_t attributes;
    void *failed = NULL;
    uint8_t *stack = mmap(NULL, STACK, PROT_READ | PROT_WRITE, MAP_PRIVATE | MAP_ANONYMOUS, -1, 0);
    memset(stack, 0xa5, STACK);
    if (pthread_attr_init(&attributes) || pthread_attr_setstack(&attributes, stack, STACK) ||
        pthread_create(&thread, &attributes, run, &which) || pthread_join(thread, &failed) || failed) {
        printf("call %d failed: %u\n", which, (unsigned)refusal.number);
        exit(EXIT_FAILURE);
    }
    size_t untouched = 0;
    while (stack[untouched] == 0xa5)
        untouched++;
    munmap(stack, STACK);
    return STACK - untouched;
}

int main(int argc, char **argv)
{
    static const char *const names[CALLS] = {"count_pieces", "plan_list", "plan_list_certified", "check", "judge",
                                             "check_list", "prepare", "fill", "track_list", "track_complete",
                                             "track_groups", "resume", "explain_list", "warn_list"};
    static const uint64_t lengths[] = {2, 63, 65, 3000, MOST};
    size_t greatest[CALLS] = {0}, limits[2] = {0, 0};
    if (argc != 3)
        return EXIT_FAILURE;
    for (int i = 0; i < 2; i++)
        limits[i] = strtoull(argv[i + 1], NULL, 10);
    size_t base = touched_by(nothing, 0);
    for (int k = 0; k < 15; k++) {
        const uint64_t n = lengths[k / 3], checksums = (const uint64_t[]){0, 1, n}[k % 3];
        put_moves(n);
        for (uint64_t i = 0; i < checksums; i++)
            list[64 * i + 7] = 0x11;
        for (int which = 0; which < CALLS; which++) {
            size_t bytes = touched_by(call, which) - base;
            greatest[which] = bytes > greatest[which] ? bytes : greatest[which];
        }
    }
    int is_over = 0;
    for (int which = 0; which < CALLS; which++) {
        printf("%s: %zu bytes of stack\n", names[which], greatest[which]);
        is_over |= greatest[which] > limits[which >= 3 && which <= 5];
    }
    return is_over;
}
