/* Random lists on one queue, beside the processor, which does them one after another: memory, results, what a failed
 * check stops, and which lists are left out because they come after one that has failed. Each third list may have
 * checksums, some of which go on with others.
 *     lists QUEUE COUNT SEED [DEEP]     so many in flight, at most 8; ends with 0 if all is equal */
#include <stdio.h>
#include <stdlib.h>
#include <string.h>

#include <dsa_queue.h>

enum { PAGE = 4096, SIZE = 16 * PAGE, MOST = 12, MOVES = 3, CHECKSUMS = 4, SHORT = 256 };
enum { ENTRIES = 4, ENTRY_OF_DELTA = 10, DEEP = 8 };

/* What an operation has to end with. */
struct wanted { uint8_t status, result, has_checksum; uint32_t checksum; uint64_t offset; };

/* A list in flight, and what it has to end with. */
struct case_of {
    struct dsa_list *list;
    int count; /* 0 before the first */
    int may_have_checksums;
    enum dsa_end end;
    struct wanted wanted[MOST];
    uint8_t deltas[MOST][ENTRIES * ENTRY_OF_DELTA];
};

static _Alignas(4096) uint8_t memory[SIZE], model[SIZE];
static int wrong, checksums, ends[DSA_LIST_RUNNING + 1];

static size_t draw(size_t below) { return (size_t)rand() % below; }

static void expect(int right, const char *what, const struct dsa_list *list)
{
    char why[DSA_WHY_ROOM];
    if (!right && wrong++ < 10)
        printf("%s; %s\n", what, dsa_list_why(list, why));
}

/* How the first difference of two ranges of the model is found. */
static struct wanted compared(const uint8_t *one, const uint8_t *other, size_t n, int is_check)
{
    size_t at = 0;
    while (at < n && one[at] == other[at])
        at++;
    return at == n ? (struct wanted){.status = 1} : (struct wanted){is_check ? 2 : 1, 1, 0, 0, at};
}

/* CRC-32C, a bit at a time, of bytes after those that `seed` is the checksum of. */
static uint32_t checksum(const uint8_t *at, size_t n, uint32_t seed)
{
    uint32_t rest = ~seed;
    for (size_t k = 0; k < 8 * n; k++)
        rest = rest >> 1 ^ ((rest ^ at[k / 8] >> k % 8) & 1 ? UINT32_C(0x82f63b78) : 0);
    return ~rest;
}

/* A checksum, half of them with a copy elsewhere. Its seed is given, or the checksum of an operation before. */
static struct wanted put_checksum(struct case_of *c, int i, size_t a, size_t b, size_t n, int is_begun)
{
    uint8_t d[64];
    const size_t at = a < b + n && b < a + n ? (b + PAGE) % (SIZE - SHORT) : b;
    const int before = (int)draw((size_t)i + 1), is_copy = (int)draw(2);
    const int goes_on = before < i && c->wanted[before].has_checksum;
    const uint32_t seed = goes_on ? c->wanted[before].checksum : (uint32_t)draw(3);
    const struct wanted wanted = {1, 0, 1, checksum(model + a, n, seed), 0};
    if (is_copy)
        dsa_put_copy_crc(d, (uintptr_t)memory + a, (uintptr_t)memory + at, n, seed, 0);
    else
        dsa_put_crc(d, (uintptr_t)memory + a, n, seed, 0);
    if (goes_on)
        dsa_seed_from(d, (uintptr_t)dsa_list_checksum(c->list, before));
    dsa_list_add(c->list, d, n);
    if (is_copy && is_begun)
        memcpy(model + at, model + a, n);
    checksums += is_begun;
    return wanted;
}

/* A delta of a few words at increasing offsets. */
static void put_delta(struct case_of *c, int i, size_t at, int is_begun)
{
    size_t word = 0;
    for (int k = 0; k < ENTRIES; k++, word++) {
        uint8_t *entry = c->deltas[i] + ENTRY_OF_DELTA * k;
        word += draw(8);
        const uint16_t offset = (uint16_t)word;
        memcpy(entry, &offset, 2);
        memset(entry + 2, (int)draw(256), 8);
        if (is_begun)
            memcpy(model + at + 8 * word, entry + 2, 8);
    }
    dsa_list_apply_delta(c->list, c->deltas[i], sizeof c->deltas[i], memory + at, 64 * 8);
}

static void put_dualcast(struct dsa_list *list, size_t n, int is_begun)
{
    const size_t low = draw(PAGE), first = low + PAGE * (5 + draw(3)), second = low + PAGE * (10 + draw(3));
    n = n > 2 * PAGE ? 2 * PAGE : n;
    const size_t a = draw(5 * PAGE - n + 1);
    dsa_list_dualcast(list, memory + a, memory + first, memory + second, n);
    if (is_begun) {
        memcpy(model + first, model + a, n);
        memcpy(model + second, model + a, n);
    }
}

static void put_fill(struct dsa_list *list, size_t b, size_t n, int is_begun)
{
    const uint64_t pattern = UINT64_C(0x0102030405060708) * draw(32);
    dsa_list_fill(list, memory + b, n, pattern);
    for (size_t k = 0; is_begun && k < n; k++)
        model[b + k] = (uint8_t)(pattern >> k % 8 * 8);
}

/* A comparison, some of which are checks; answers what it ends with. */
static struct wanted put_compare(struct dsa_list *list, int kind, size_t a, size_t b, size_t n)
{
    const uint64_t byte = draw(3);
    uint8_t pattern[3 * PAGE];
    if (kind == 0) {
        memset(pattern, (int)byte, n);
        dsa_list_compare_pattern(list, memory + a, n, UINT64_C(0x0101010101010101) * byte);
        return compared(model + a, pattern, n, 0);
    }
    if (kind == 1)
        dsa_list_check(list, memory + a, memory + b, n);
    else
        dsa_list_compare(list, memory + a, memory + b, n);
    return compared(model + a, model + b, n, kind == 1);
}

/* One operation to the list, and to the model if it is begun. */
static struct wanted put(struct case_of *c, int i, int is_begun)
{
    struct dsa_list *list = c->list;
    const int is_short = c->may_have_checksums;
    const size_t n = 1 + draw(is_short || rand() % 4 ? SHORT : 3 * PAGE - 1);
    const size_t a = draw(SIZE - n), b = draw(SIZE - n);
    const int kind = (int)draw(8 + MOVES + (is_short ? CHECKSUMS : 0));
    if (kind >= 8 + MOVES)
        return put_checksum(c, i, a, b, n, is_begun);
    if (kind < 4)
        return put_compare(list, kind, a, kind == 1 && rand() % 4 ? a : b, n);
    if (kind == 4)
        put_delta(c, i, b / 8 * 8 % (SIZE - 512), is_begun);
    else if (kind == 5)
        put_dualcast(list, n, is_begun);
    else if (kind < 8)
        put_fill(list, b, n, is_begun);
    else {
        dsa_list_move(list, memory + a, memory + b, n);
        if (is_begun)
            memmove(model + b, model + a, n);
    }
    return (struct wanted){.status = 1};
}

/* Adds operations: what comes after the next barrier after a failed check is not begun, nor is what is left out. */
static void make(struct case_of *c, int is_left_out)
{
    int is_begun = !is_left_out, is_after_barrier = 0, has_failed = 0;
    c->count = 1 + (int)draw(MOST);
    c->may_have_checksums = draw(3) == 0;
    for (int i = 0; i < c->count; i++) {
        if (draw(6) == 0) {
            dsa_list_barrier(c->list);
            is_after_barrier = i > 0;
        }
        is_begun = is_begun && !(is_after_barrier && has_failed);
        c->wanted[i] = put(c, i, is_begun);
        is_after_barrier = c->wanted[i].status == 2;
        if (!is_begun)
            c->wanted[i] = (struct wanted){.status = 0};
        has_failed |= c->wanted[i].status == 2;
    }
    c->end = is_left_out ? DSA_LIST_LEFT_OUT : has_failed ? DSA_LIST_FAILED : DSA_LIST_DONE;
}

/* Looks at how a list has ended. */
static void look(const struct case_of *c, enum dsa_end end)
{
    int failed = -1;
    ends[end]++;
    expect(end == c->end, "the end", c->list);
    for (int i = c->count - 1; i >= 0; i--) {
        const struct dsa_result r = dsa_list_result(c->list, i);
        const struct wanted *w = &c->wanted[i];
        expect(r.status == w->status && r.result == w->result && r.offset == w->offset, "a result", c->list);
        expect(r.has_checksum == w->has_checksum && r.checksum == w->checksum, "a checksum", c->list);
        failed = w->status == 2 ? i : failed;
    }
    expect(dsa_list_failed(c->list) == failed, "the operation that failed", c->list);
}

/* Runs lists one after another. */
static void run(struct case_of *c, int count)
{
    for (int i = 0; i < count; i++) {
        dsa_list_clear(c->list);
        make(c, 0);
        look(c, dsa_list_run(c->list));
        expect(memcmp(memory, model, SIZE) == 0, "the memory", c->list);
        memcpy(model, memory, SIZE);
    }
}

/* Starts lists; some come after another, whether that one has ended or not. */
static void fly(struct case_of *cases, int deep, int count)
{
    for (int i = 0; i < count + deep; i++) {
        struct case_of *c = &cases[i % deep], *other = &cases[draw((size_t)deep)];
        if (c->count)
            look(c, dsa_list_wait(c->list));
        if (i >= count)
            continue;
        dsa_list_clear(c->list);
        const int is_after = other != c && other->count && draw(3) == 0;
        if (is_after)
            dsa_list_after(c->list, other->list);
        make(c, is_after && other->end != DSA_LIST_DONE);
        expect(dsa_list_start(c->list) == DSA_LIST_RUNNING, "the start", c->list);
    }
    expect(memcmp(memory, model, SIZE) == 0, "the memory", cases->list);
}

int main(int argc, char **argv)
{
    static struct case_of cases[DEEP];
    const int count = argc > 3 ? atoi(argv[2]) : 0, deep = argc > 4 ? atoi(argv[4]) : 0;
    const int is_software = argc > 3 && strcmp(argv[1], "software") == 0;
    const struct dsa_queue_options options = {
        .flags = (is_software ? DSA_QUEUE_SOFTWARE : 0) | (deep ? DSA_QUEUE_IN_FLIGHT : 0), .lists = DEEP,
        .pieces = 100};
    char why[DSA_WHY_ROOM] = "usage: lists QUEUE COUNT SEED [DEEP]";
    struct dsa_queue *queue = argc > 3 && deep <= DEEP ? dsa_queue_open(argv[1], &options, why) : NULL;
    if (!queue)
        return printf("%s\n", why), 2;
    srand((unsigned)atoi(argv[3]));
    for (int i = 0; i < SIZE; i++)
        memory[i] = model[i] = (uint8_t)draw(3);
    for (int i = 0; i < DEEP; i++)
        cases[i].list = dsa_list_get(queue);
    if (deep)
        fly(cases, deep, count);
    else
        run(cases, count);
    dsa_queue_close(queue);
    printf("%d lists, %d checksums, %d failed, %d left out, %d wrong\n", count, checksums, ends[DSA_LIST_FAILED],
           ends[DSA_LIST_LEFT_OUT], wrong);
    return wrong != 0;
}
