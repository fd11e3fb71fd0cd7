/* What the layer does if a device stops: this program is the device, in the place of portal.c, and each case says how
 * an entry ends.
 *     stopped CASE     ends with 0 if all is right, and prints the sentences */
#include <stdio.h>
#include <stdlib.h>
#include <string.h>
#include <sys/mman.h>

#include "queue.h"

enum { SIZE = 4 * PAGE };

static _Alignas(4096) uint8_t a[SIZE], b[SIZE], c[SIZE];
static char why[DSA_WHY_ROOM];
static int asked, wrong; /* entries that were submitted; expectations that failed */

/* How the case ends a descriptor: 0, and it is done; or a status, with what the record has besides. */
static uint8_t (*ended)(const uint8_t *d, uint8_t *record);
/* The answer for an entry before anything of it is done. */
static enum answer (*answered)(const uint8_t *entry);

#define EXPECT(right) ((right) ? 0 : (wrong++, printf("line %d: not %s\n", __LINE__, #right)))

static uint8_t do_one(const uint8_t *d)
{
    uint8_t *record = record_of(d);
    EXPECT(record[0] == 0);
    uint8_t status = ended ? ended(d, record) : 0;
    if (status == 0 && d[7] == OPCODE_MOVE)
        memmove((void *)number_at(d + 24, 8), (const void *)number_at(d + 16, 8), number_at(d + 32, 4));
    record[0] = status ? status : 1;
    return record[0];
}

static uint8_t do_batch(const uint8_t *d)
{
    const uint8_t *members = (const uint8_t *)number_at(d + 16, 8);
    uint8_t *record = record_of(d);
    EXPECT(record[0] == 0);
    uint8_t status = ended ? ended(d, record) : 0;
    for (uint32_t i = 0; status == 0 && i < number_at(d + 32, 4); i++)
        if (do_one(members + ENTRY * i) != 1)
            status = STATUS_BATCH;
    record[0] = status ? status : 1;
    return record[0];
}

enum answer portal_do(struct dsa_list *list, const uint8_t *entry, uint8_t *status)
{
    list->port = list->queue->port;
    asked++;
    if (answered && answered(entry) != ANSWERED)
        return answered(entry);
    *status = entry[7] == OPCODE_BATCH ? do_batch(entry) : do_one(entry);
    return ANSWERED;
}

/* The same for lists in flight: an entry that is not answered is accepted all the same. */
enum answer portal_submit(struct dsa_list *list, const uint8_t *entry)
{
    uint8_t status;
    const enum answer answer = portal_do(list, entry, &status);
    if (answer != ANSWERED && answer != SILENT)
        return answer;
    list->port->credits--;
    return ACCEPTED;
}

void portal_credit(struct dsa_list *list) { list->port->credits++; }

/* The limit passes at the second look. */
bool portal_is_over(struct patience *patience, uint32_t limit_ms)
{
    (void)limit_ms;
    return ++patience->turns > 1;
}

void portal_rest(const struct dsa_queue *queue, const uint8_t *record)
{
    (void)queue, (void)record;
}

static struct dsa_list *list_of(const struct dsa_queue_options *options)
{
    struct dsa_queue *queue = dsa_queue_open("/dev/dsa/wq0.0", options, why);
    if (!queue)
        printf("%s\n", why), exit(2);
    asked = 0;
    return dsa_list_get(queue);
}

/* Runs a list and prints how it ends. */
static void ends(struct dsa_list *list, enum dsa_end wanted)
{
    const enum dsa_end end = dsa_list_run(list);
    EXPECT(end == wanted);
    printf("%s\n", dsa_list_why(list, why));
}

static uint8_t page_fault(uint8_t *record, const void *at, uint32_t done, uint8_t from_end, uint8_t status)
{
    dsa_put_number(record + 4, done, 4);
    dsa_put_number(record + 8, (uintptr_t)at / PAGE * PAGE, 8);
    record[1] = from_end;
    return status;
}

static int is_present(const void *at)
{
    unsigned char is = 0;
    return mincore((void *)((uintptr_t)at / PAGE * PAGE), PAGE, &is) == 0 && is & 1;
}

static uint8_t *fresh(size_t size)
{
    return mmap(NULL, size, PROT_READ | PROT_WRITE, MAP_PRIVATE | MAP_ANONYMOUS, -1, 0);
}

/* ---- a queue that does not answer ---- */

static enum answer silent(const uint8_t *entry) { (void)entry; return SILENT; }
static enum answer full(const uint8_t *entry) { (void)entry; return REFUSED_FULL; }

/* The list stays with the device until it answers; its memory outlives the queue. */
static void lost(void)
{
    const struct dsa_queue_options one = {.lists = 1};
    struct dsa_list *list = list_of(&one);
    struct dsa_queue *queue = list->queue;
    const long credits = queue->port->credits;
    dsa_list_move(list, a, b, 64);
    answered = silent;
    ends(list, DSA_LIST_LOST);
    answered = NULL;
    ends(list, DSA_LIST_REFUSED);
    EXPECT(asked == 1);
    dsa_list_drop(list);
    EXPECT(dsa_list_get(queue) == NULL);
    queue->port->credits--;            /* as portal.c leaves it, which counts an entry without an answer */
    list->records[0] = 1;        /* the device answers */
    EXPECT(dsa_list_get(queue) == list && queue->port->credits == credits);
    dsa_list_move(list, a, b, 64);
    ends(list, DSA_LIST_DONE);
    answered = silent;
    ends(list, DSA_LIST_LOST);
    uint8_t *record = list->records;
    dsa_queue_close(queue);
    *record = 1; /* the device writes to it after all */
}

/* A queue that is disabled while an entry is in flight, and one that is full. */
static void disabled(void)
{
    struct dsa_list *list = list_of(NULL);
    dsa_list_move(list, a, b, 64);
    answered = full;
    ends(list, DSA_LIST_FAILED);
    EXPECT(dsa_list_result(list, 0).status == 0 && dsa_list_failed(list) == -1);
    FILE *state = fopen("/sys/bus/dsa/devices/wq0.0/state", "w");
    EXPECT(state && fputs("disabled\n", state) >= 0 && fclose(state) == 0);
    answered = silent;
    ends(list, DSA_LIST_LOST);
}

/* In flight: what conflicts with a list that is lost, or comes after it, is left out, and others are done. */
static void in_flight(void)
{
    const struct dsa_queue_options options = {.flags = DSA_QUEUE_IN_FLIGHT};
    struct dsa_list *list = list_of(&options), *others[4];
    struct dsa_queue *queue = list->queue;
    const long credits = queue->port->credits;
    for (int i = 0; i < 4; i++)
        others[i] = dsa_list_get(queue);
    memset(a, 7, sizeof a);
    dsa_list_move(list, a, b, 64);
    dsa_list_move(others[0], b, c, 64);              /* conflicts */
    dsa_list_move(others[1], a, c + PAGE, 64);       /* comes after */
    dsa_list_after(others[1], list);
    dsa_list_move(others[2], a, c + 2 * PAGE, 64);   /* has nothing to do with it */
    dsa_list_move(others[3], c + PAGE, b + PAGE, 64); /* conflicts with one that is left out */
    answered = silent;
    EXPECT(dsa_list_start(list) == DSA_LIST_RUNNING);
    answered = NULL;
    for (int i = 0; i < 4; i++)
        EXPECT(dsa_list_start(others[i]) == DSA_LIST_RUNNING);
    EXPECT(dsa_list_wait(others[0]) == DSA_LIST_LEFT_OUT && c[0] == 0);
    EXPECT(dsa_list_run(list) == DSA_LIST_LOST); /* its start is, and nobody was told so far */
    printf("%s\n", dsa_list_why(others[0], why));
    EXPECT(dsa_list_wait(others[1]) == DSA_LIST_LEFT_OUT && c[PAGE] == 0);
    printf("%s\n", dsa_list_why(others[1], why));
    EXPECT(dsa_list_wait(others[2]) == DSA_LIST_DONE && c[2 * PAGE] == 7);
    EXPECT(dsa_list_wait(others[3]) == DSA_LIST_DONE);
    ends(others[0], DSA_LIST_LEFT_OUT);
    ends(list, DSA_LIST_REFUSED);
    list->records[0] = 1; /* the device answers, which the others find, whoever has lost it */
    ends(others[0], DSA_LIST_DONE);
    EXPECT(queue->port->credits == credits);
    ends(list, DSA_LIST_DONE);
    EXPECT(c[63] == 0 && dsa_list_run(others[0]) == DSA_LIST_DONE && c[63] == 7 && queue->port->credits == credits);
    answered = full;
    ends(list, DSA_LIST_FAILED);
    dsa_queue_close(queue);
}

/* Runs a list whose entry a full queue refuses, or does not. */
static void run(struct dsa_list *list, int is_refused)
{
    answered = is_refused ? full : NULL;
    dsa_list_run(list);
    answered = NULL;
}

/* What comes after a start, the last one or the next, depends on how that ends, and on nothing that is done later: the
 * list is started again, cleared, or given back and taken by others. */
static void after(void)
{
    enum start { BEFORE, NEXT, MISSING };
    enum then { AGAIN, CLEARED, TAKEN };
    static const struct { enum start start; int fails; enum then then; } cases[] = {
        {BEFORE, 1, AGAIN}, {BEFORE, 1, CLEARED}, {BEFORE, 1, TAKEN}, {BEFORE, 0, AGAIN},
        {NEXT, 1, AGAIN},   {NEXT, 0, CLEARED},   {NEXT, 0, TAKEN},   {MISSING, 1, TAKEN},
    };
    struct dsa_list *list = list_of(&(struct dsa_queue_options){.flags = DSA_QUEUE_IN_FLIGHT, .lists = 2});
    struct dsa_list *other = dsa_list_get(list->queue);
    for (size_t i = 0; i < sizeof cases / sizeof *cases; i++) {
        dsa_list_clear(list), dsa_list_move(list, a, b, 64);
        dsa_list_clear(other), dsa_list_move(other, c, c + PAGE, 64);
        if (cases[i].start == BEFORE)
            run(other, cases[i].fails);
        dsa_list_after(list, other);
        if (cases[i].start == NEXT)
            run(other, cases[i].fails);
        if (cases[i].then == TAKEN)
            dsa_list_drop(other), other = dsa_list_get(list->queue), dsa_list_fill(other, c, 64, 0);
        if (cases[i].then == CLEARED)
            dsa_list_clear(other);
        else
            run(other, !cases[i].fails);
        EXPECT(dsa_list_run(list) == (cases[i].fails ? DSA_LIST_LEFT_OUT : DSA_LIST_DONE));
        EXPECT(dsa_list_run(list) == DSA_LIST_DONE); /* it holds for one start */
    }
    printf("%s\n", dsa_list_why(list, why));
    dsa_queue_close(list->queue);
}

/* ---- page faults ---- */

static const uint8_t *absent[2]; /* pages that have to be made present one after another */

/* A page fault at the first of them that is not present. */
static uint8_t at_absent(const uint8_t *d, uint8_t *record)
{
    for (int i = 0; d[7] != OPCODE_BATCH && i < 2; i++)
        if (!is_present(absent[i]))
            return page_fault(record, absent[i], 0, 0, d[7] == OPCODE_FILL ? 0x84 : 3);
    return 0;
}

/* Each operand is made present to its end, also one that is written and the seed of a checksum, and no more than it. */
static void populated(void)
{
    struct dsa_list *list = list_of(NULL);
    uint8_t *one = fresh(SIZE), *other = fresh(SIZE);
    absent[0] = one + 5, absent[1] = other + PAGE;
    ended = at_absent;
    dsa_list_compare(list, one + 5, other + PAGE, 2 * PAGE);
    ends(list, DSA_LIST_DONE);
    EXPECT(asked == 3 && is_present(one + 2 * PAGE) && !is_present(one + 3 * PAGE) && !is_present(other));
    EXPECT(is_present(other + 2 * PAGE) && !is_present(other + 3 * PAGE));
    uint8_t *written = fresh(SIZE);
    munmap(written + 2 * PAGE, PAGE); /* a gap is met only if the device gets there */
    absent[0] = absent[1] = written + PAGE;
    dsa_list_clear(list);
    dsa_list_fill(list, written, SIZE, 0);
    ends(list, DSA_LIST_DONE);
    EXPECT(is_present(written + PAGE));
    uint8_t d[64], *source = fresh(SIZE), *seed = fresh(SIZE);
    dsa_put_copy_crc(d, (uintptr_t)source + 5, (uintptr_t)b, 2 * PAGE, 0, 0);
    dsa_seed_from(d, (uintptr_t)seed + PAGE);
    absent[0] = source + 5, absent[1] = seed + PAGE;
    dsa_list_clear(list);
    dsa_list_add(list, d, 2 * PAGE);
    ends(list, DSA_LIST_DONE);
    EXPECT(is_present(source + 2 * PAGE) && is_present(seed + PAGE) && !is_present(seed + 2 * PAGE));
}

static uint8_t *beside; /* the record of the operation that is done at once with the first */

/* A page fault of both: at a page until it is present, and at one that can't be. */
static uint8_t at_both(const uint8_t *d, uint8_t *record)
{
    if (d[7] == OPCODE_BATCH || is_present(absent[0]))
        return 0;
    beside[0] = page_fault(beside, (const void *)(uintptr_t)PAGE, 0, 0, 0x83);
    return page_fault(record, absent[0], 0, 0, 3);
}

/* Of two page faults the one that can't be mended is said, and not the one before it that was. */
static void blamed(void)
{
    struct dsa_list *list = list_of(NULL);
    absent[0] = fresh(SIZE);
    ended = at_both;
    dsa_list_move(list, absent[0], b, PAGE);
    dsa_list_move(list, a, (void *)(uintptr_t)PAGE, 64);
    beside = list->records + RECORD * (size_t)list->first[1];
    ends(list, DSA_LIST_FAILED);
    const struct dsa_result r = dsa_list_result(list, 1);
    EXPECT(is_present(absent[0]) && dsa_list_failed(list) == 1);
    EXPECT(r.fault == PAGE && r.is_write && r.status == 3);
}

static uint32_t stops[4][2]; /* how much is done of the moves, and whether from their ends */
static int stopped;
static uint64_t seen[8][3]; /* the moves that came: source, target, size */

static uint8_t at_stops(const uint8_t *d, uint8_t *record)
{
    seen[stopped][0] = number_at(d + 16, 8);
    seen[stopped][1] = number_at(d + 24, 8);
    seen[stopped][2] = number_at(d + 32, 4);
    const uint32_t done = stops[stopped][0], is_from_end = stops[stopped][1];
    if (stops[stopped++][0] == 0)
        return 0;
    const uint64_t size = number_at(d + 32, 4), skipped = is_from_end ? size - done : 0;
    memmove((uint8_t *)number_at(d + 24, 8) + skipped, (const uint8_t *)number_at(d + 16, 8) + skipped, done);
    return page_fault(record, (const void *)number_at(d + 16, 8), done, (uint8_t)is_from_end, 3);
}

/* A move within its own range goes on where it has stopped, forward and from its end. */
static void overlapping(void)
{
    struct dsa_list *list = list_of(NULL);
    uint8_t model[SIZE];
    for (int turn = 0; turn < 2; turn++) {
        const size_t source = turn ? 0 : 100, target = turn ? 100 : 0, size = 3 * PAGE;
        for (int i = 0; i < SIZE; i++)
            a[i] = model[i] = (uint8_t)rand();
        memmove(model + target, model + source, size);
        stopped = 0;
        memcpy(stops, (uint32_t[4][2]){{PAGE, (uint32_t)turn}, {10, (uint32_t)turn}, {0, 0}, {0, 0}}, sizeof stops);
        ended = at_stops;
        dsa_list_clear(list);
        dsa_list_move(list, a + source, a + target, size);
        ends(list, DSA_LIST_DONE);
        const size_t done = turn ? 0 : PAGE + 10;
        EXPECT(stopped == 3 && seen[2][0] == (uintptr_t)(a + source + done));
        EXPECT(seen[2][1] == (uintptr_t)(a + target + done));
        EXPECT(seen[2][2] == size - PAGE - 10 && memcmp(a, model, SIZE) == 0);
    }
}

static uint8_t always(const uint8_t *d, uint8_t *record)
{
    return d[7] == OPCODE_BATCH ? 0 : page_fault(record, a, 0, 0, 3);
}

/* A page that is absent again whatever is done. */
static void endless(void)
{
    struct dsa_list *list = list_of(NULL);
    ended = always;
    dsa_list_move(list, a, b, 64);
    ends(list, DSA_LIST_FAILED);
    EXPECT(asked > 10 && asked < 100 && dsa_list_failed(list) == 0 && dsa_list_result(list, 0).fault == (uintptr_t)a);
}

/* ---- batches ---- */

static int members_done;

/* The list of the batch is absent after its first member. */
static uint8_t list_absent(const uint8_t *d, uint8_t *record)
{
    if (d[7] != OPCODE_BATCH || asked > 1)
        return 0;
    members_done = do_one((const uint8_t *)number_at(d + 16, 8)) == 1;
    return page_fault(record, (const void *)number_at(d + 16, 8), 1, 0, STATUS_BATCH_FAULT);
}

static uint8_t batch_refused(const uint8_t *d, uint8_t *record)
{
    (void)record;
    return d[7] == OPCODE_BATCH ? 0x14 : 0;
}

/* A batch whose list is absent is done from where it stopped; one that is refused fails. */
static void batches(void)
{
    struct dsa_list *list = list_of(NULL);
    memset(a, 7, sizeof a);
    for (int i = 0; i < 3; i++)
        dsa_list_move(list, a + 64 * i, b + 64 * i, 64);
    ended = list_absent;
    ends(list, DSA_LIST_DONE);
    EXPECT(members_done == 1 && b[0] == 7 && b[191] == 7 && b[192] == 0);
    ended = batch_refused;
    ends(list, DSA_LIST_FAILED);
    EXPECT(dsa_list_failed(list) == -1);
}

/* A status that needs no page fault: nothing more is begun. */
static uint8_t overrun(const uint8_t *d, uint8_t *record)
{
    (void)record;
    return d[7] == OPCODE_MOVE ? 0x1a : 0;
}

static void other_status(void)
{
    struct dsa_list *list = list_of(NULL);
    ended = overrun;
    dsa_list_move(list, a, b, 64);
    dsa_list_barrier(list);
    dsa_list_fill(list, c, 64, 0);
    ends(list, DSA_LIST_FAILED);
    EXPECT(dsa_list_failed(list) == 0 && dsa_list_result(list, 0).status == 0x1a);
    EXPECT(dsa_list_result(list, 1).status == 0);
}

int main(int argc, char **argv)
{
    static const struct { const char *name; void (*run)(void); } cases[] = {
        {"lost", lost}, {"in_flight", in_flight}, {"after", after}, {"disabled", disabled},
        {"populated", populated}, {"blamed", blamed}, {"overlapping", overlapping}, {"endless", endless},
        {"batches", batches}, {"other_status", other_status},
    };
    for (size_t i = 0; argc > 1 && i < sizeof cases / sizeof *cases; i++)
        if (strcmp(argv[1], cases[i].name) == 0) {
            cases[i].run();
            return wrong != 0;
        }
    return 3;
}
