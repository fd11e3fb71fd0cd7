/* Random lists that are prepared, or not, and then placed at other addresses several times, beside the processor: all
 * buffers in step, some of them anywhere, or all anywhere. Some lists have checksums, with seeds that they are given or
 * read, also in the record of another.
 *     placed QUEUE COUNT SEED [FLAGS]     ends with 0 if memory and results are equal
 * It has the memory functions of the library: in software a run that needs no plan allocates nothing. */
#include <stdio.h>
#include <stdlib.h>
#include <string.h>

#include <dsa_queue.h>

enum { PAGE = 4096, SIZE = 32 * PAGE, MOST = 10, PLACES = 4, LONGEST = PAGE, SHORT = 256, DELTA = 40 };
enum kind { MOVE, FILL, COMPARE, PATTERN, DUALCAST, APPLY, CHECKSUM, COPY, KINDS };
enum seed { GIVEN, READ, OF_ANOTHER };

/* An operation: its size, where its operands are in memory, and of a checksum its seed: that of an operation before, or
 * where it is read. */
struct operation { enum kind kind; size_t size, at[3]; enum seed seed; int before; };

static _Alignas(4096) uint8_t memory[SIZE], model[SIZE];
static int allocated, wrong, checksums, runs[2]; /* runs that planned, and those that did not */

struct rattle_block rattle_alloc(size_t size, size_t align)
{
    (void)align;
    allocated++;
    return (struct rattle_block){1, malloc(size ? size : 1)};
}

struct rattle_block rattle_realloc(void *at, size_t old_size, size_t size, size_t align)
{
    (void)old_size, (void)align;
    return (struct rattle_block){1, realloc(at, size ? size : 1)};
}

void rattle_dealloc(void *at) { free(at); }

static size_t draw(size_t below) { return (size_t)rand() % below; }

static void expect(int right, const char *what, const struct dsa_list *list)
{
    char why[DSA_WHY_ROOM];
    if (!right && wrong++ < 10)
        printf("%s; %s\n", what, dsa_list_why(list, why));
}

/* Draws places for an operation; `step` of a page keeps what an operation needs of its addresses. */
static void draw_places(struct operation *o)
{
    for (int k = 0; k < 3; k++)
        o->at[k] = draw(SIZE / 2 - 2 * LONGEST) / 8 * 8;
    if (o->kind == DUALCAST) { /* equal low bits, and apart from each other and from the source */
        o->at[0] = draw(2 * PAGE);
        o->at[1] = 4 * PAGE + draw(4 * PAGE);
        o->at[2] = o->at[1] + PAGE * (1 + draw(4));
    }
    if (o->kind == APPLY) /* the delta is apart from what it is applied to */
        o->at[0] = SIZE / 2 - LONGEST + DELTA * draw(8);
    if (o->kind == COPY) { /* its target is apart from what it reads */
        o->at[0] = draw(2 * PAGE);
        o->at[1] = 4 * PAGE + draw(4 * PAGE);
        o->at[2] = 10 * PAGE + draw(PAGE);
    }
}

static int is_checksum(const struct operation *o) { return o->kind >= CHECKSUM; }

/* The next operation after these; beside checksums all are short. */
static struct operation drawn(const struct operation *others, int count, int may_have_checksums)
{
    const size_t longest = may_have_checksums ? SHORT : LONGEST;
    struct operation o = {.kind = (enum kind)draw(may_have_checksums ? KINDS : CHECKSUM),
                          .size = 8 * (1 + draw(draw(3) ? 16 : longest / 8)), .seed = (enum seed)draw(3)};
    o.size = o.kind == APPLY ? 64 : o.size;
    o.before = count ? (int)draw((size_t)count) : 0;
    if (o.seed == OF_ANOTHER && (!count || !is_checksum(&others[o.before])))
        o.seed = GIVEN;
    draw_places(&o);
    return o;
}

/* Where the seed of a checksum that reads it is: the operand after the others. */
static int seed_operand(const struct operation *o) { return o->kind == CHECKSUM ? 1 : 2; }

static void add_checksum(struct dsa_list *list, const struct operation *o)
{
    uint8_t d[64];
    const uintptr_t a = (uintptr_t)(memory + o->at[0]), b = (uintptr_t)(memory + o->at[1]);
    if (o->kind == CHECKSUM)
        dsa_put_crc(d, a, o->size, (uint32_t)o->size, 0);
    else
        dsa_put_copy_crc(d, a, b, o->size, (uint32_t)o->size, 0);
    if (o->seed == READ)
        dsa_seed_from(d, (uintptr_t)(memory + o->at[seed_operand(o)]));
    if (o->seed == OF_ANOTHER)
        dsa_seed_from(d, (uintptr_t)dsa_list_checksum(list, o->before));
    dsa_list_add(list, d, o->size);
}

static void add(struct dsa_list *list, const struct operation *o)
{
    uint8_t *const a = memory + o->at[0], *const b = memory + o->at[1], *const c = memory + o->at[2];
    switch (o->kind) {
    case MOVE: dsa_list_move(list, a, b, o->size); break;
    case FILL: dsa_list_fill(list, a, o->size, UINT64_C(0x0102030405060708) * o->size); break;
    case COMPARE: dsa_list_compare(list, a, b, o->size); break;
    case PATTERN: dsa_list_compare_pattern(list, a, o->size, 0); break;
    case DUALCAST: dsa_list_dualcast(list, a, b, c, o->size); break;
    case APPLY: dsa_list_apply_delta(list, a, DELTA, b, o->size); break;
    default: add_checksum(list, o);
    }
}

/* A pattern compare has one difference or none: the memory is 0 or not. */
static int model_compare(const uint8_t *a, const uint8_t *b, size_t size)
{
    for (size_t i = 0; i < size; i++)
        if (a[i] != (b ? b[i] : 0))
            return 1;
    return 0;
}

/* CRC-32C, a bit at a time, of bytes after those that `seed` is the checksum of. */
static uint32_t checksum_of(const uint8_t *at, size_t n, uint32_t seed)
{
    uint32_t crc = ~seed;
    for (size_t i = 0; i < n; i++) {
        crc ^= at[i];
        for (int bit = 0; bit < 8; bit++)
            crc = crc >> 1 ^ (crc & 1 ? UINT32_C(0x82f63b78) : 0);
    }
    return ~crc;
}

/* Makes a checksum on the model, and copies. */
static uint32_t model_checksum(const struct operation *o, const uint32_t *results)
{
    uint32_t seed = (uint32_t)o->size;
    if (o->seed == READ)
        memcpy(&seed, model + o->at[seed_operand(o)], 4);
    if (o->seed == OF_ANOTHER)
        seed = results[o->before];
    if (o->kind == COPY)
        memcpy(model + o->at[1], model + o->at[0], o->size);
    checksums++;
    return checksum_of(model + o->at[0], o->size, seed);
}

/* Does an operation on the model; answers the result of a compare, and 0 of others. */
static uint32_t model_do(const struct operation *o)
{
    uint8_t *const a = model + o->at[0], *const b = model + o->at[1], *const c = model + o->at[2];
    const uint64_t pattern = UINT64_C(0x0102030405060708) * o->size;
    if (o->kind == COMPARE || o->kind == PATTERN)
        return (uint32_t)model_compare(a, o->kind == COMPARE ? b : NULL, o->size);
    if (o->kind == MOVE)
        memmove(b, a, o->size);
    for (size_t i = 0; o->kind == FILL && i < o->size; i += 8)
        memcpy(a + i, &pattern, 8);
    if (o->kind == DUALCAST) {
        memcpy(b, a, o->size);
        memcpy(c, a, o->size);
    }
    for (int k = 0; o->kind == APPLY && k < DELTA / 10; k++) {
        uint16_t offset;
        memcpy(&offset, a + 10 * k, 2);
        memcpy(b + 8 * offset, a + 10 * k + 2, 8);
    }
    return 0;
}

/* Deltas that are right, where operations find theirs; nothing else writes there. */
static void put_deltas(void)
{
    for (int i = 0; i < 8; i++)
        for (uint16_t k = 0; k < DELTA / 10; k++) {
            uint8_t *entry = memory + SIZE / 2 - LONGEST + DELTA * i + 10 * k;
            const uint16_t offset = (uint16_t)(k + i / 4 * k);
            memcpy(entry, &offset, 2);
            memset(entry + 2, i, 8);
        }
}

/* Places all operations: in step, some anywhere, or all anywhere. Answers whether they are in step. */
static int place(struct dsa_list *list, struct operation *o, int count)
{
    const size_t step = draw(2) * SIZE / 2, how = draw(3);
    for (int i = 0; i < count; i++) {
        if (how == 2 || (how == 1 && draw(3) == 0))
            draw_places(&o[i]);
        for (int k = 0; k < 3; k++) /* the deltas stay: their region is one of its own */
            o[i].at[k] = o[i].kind == APPLY && k == 0 ? o[i].at[k] : o[i].at[k] % (SIZE / 2) + step;
        const void *places[] = {memory + o[i].at[0], memory + o[i].at[1], memory + o[i].at[2]};
        if (o[i].seed == OF_ANOTHER && is_checksum(&o[i]))
            places[seed_operand(&o[i])] = NULL; /* the records stay */
        expect(dsa_list_place(list, i, places[0], places[1], places[2]) == i, "the place", list);
    }
    return how == 0;
}

/* Runs the list, and looks at memory and results. */
static void run(struct dsa_list *list, const struct operation *o, int count)
{
    uint32_t results[MOST];
    for (int i = 0; i < count; i++)
        results[i] = is_checksum(&o[i]) ? model_checksum(&o[i], results) : model_do(&o[i]);
    allocated = 0;
    expect(dsa_list_run(list) == DSA_LIST_DONE, "the end", list);
    runs[allocated == 0]++;
    for (int i = 0; i < count; i++) {
        const struct dsa_result r = dsa_list_result(list, i);
        const uint32_t result = r.has_checksum ? r.checksum : r.result;
        expect(r.status == 1 && r.has_checksum == is_checksum(&o[i]) && result == results[i], "a result", list);
    }
    expect(memcmp(memory, model, SIZE) == 0, "the memory", list);
    memcpy(model, memory, SIZE);
}

static void try_list(struct dsa_list *list, int counts_plans)
{
    struct operation o[MOST];
    const int count = 1 + (int)draw(MOST), is_prepared = draw(4) > 0, may_have_checksums = draw(3) == 0;
    dsa_list_clear(list);
    for (int i = 0; i < count; i++) {
        o[i] = drawn(o, i, may_have_checksums);
        add(list, &o[i]);
    }
    if (is_prepared)
        expect(dsa_list_prepare(list) == 0, "the preparation", list);
    for (int i = 0, are_same = 1; i < PLACES; i++) {
        run(list, o, count);
        if (i && counts_plans && is_prepared && are_same)
            expect(allocated == 0, "a plan that is not needed", list);
        are_same = place(list, o, count) && are_same;
    }
}

int main(int argc, char **argv)
{
    const int is_software = argc > 3 && strcmp(argv[1], "software") == 0;
    const uint32_t flags = argc > 4 ? (uint32_t)atoi(argv[4]) : 0;
    const struct dsa_queue_options options = {.flags = flags | (is_software ? DSA_QUEUE_SOFTWARE : 0), .pieces = 100};
    char why[DSA_WHY_ROOM] = "usage: placed QUEUE COUNT SEED [FLAGS]";
    struct dsa_queue *queue = argc > 3 ? dsa_queue_open(argv[1], &options, why) : NULL;
    if (!queue)
        return printf("%s\n", why), 2;
    srand((unsigned)atoi(argv[3]));
    for (int i = 0; i < SIZE; i++)
        memory[i] = (uint8_t)(draw(64) == 0);
    put_deltas();
    memcpy(model, memory, SIZE);
    struct dsa_list *list = dsa_list_get(queue);
    expect(dsa_list_place(list, 0, memory, memory, memory) == -1, "a place of no operation", list);
    for (int i = 0; i < atoi(argv[2]); i++)
        try_list(list, is_software && !flags);
    dsa_queue_close(queue);
    printf("%d runs planned, %d did not, %d checksums, %d wrong\n", runs[0], runs[1], checksums, wrong);
    return wrong != 0 || !checksums || (is_software && !flags && (runs[0] == 0 || runs[1] == 0));
}
