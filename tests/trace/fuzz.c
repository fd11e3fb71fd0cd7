/* Targets of libFuzzer, one for each value of TARGET: the decoder, one operation, and a submission on its way through
 * the library. Beside what sanitizers find, an operation writes nothing but its destination, and each submission has a
 * record that `linux/idxd.h` has a name for. */
#include <stdlib.h>
#include <string.h>
#include <sys/mman.h>

#include "decode.h"
#include "order.h"

enum { DECODER, OPERATION, SUBMISSION, PAGE = 4096, ARENA = 12 * PAGE, HOLE = 7 * PAGE, NOTHING = 16 * PAGE };
enum { SEED_IS_READ = 0x10000 }; /* a flag of checksums (specification 341204) */

struct settings settings;
static uint8_t *arena, *before; /* the first has a page that is missing, and nothing after its end */
static descriptor *list;
static completion *record;
static struct queue queue = {.is_shared = true, .size = 16,
                             .limits = {.may_block = true, .greatest_batch = 8, .greatest_transfer = 3 * PAGE}};

/* What signals.c has otherwise: here the program has no signals but faults. */
uint64_t signals_block(void) { return 0; }
void signals_restore(uint64_t mask) { (void)mask; }

static void fault(int number, siginfo_t *info, void *context)
{
    memory_escape(info, context);
    signal(number, SIG_DFL);
}

static void *map(size_t size)
{
    void *at = mmap(NULL, size, PROT_READ | PROT_WRITE, MAP_PRIVATE | MAP_ANONYMOUS, -1, 0);
    return at == MAP_FAILED ? abort(), NULL : at;
}

int LLVMFuzzerInitialize(int *count, char ***words)
{
    const struct sigaction ours = {.sa_sigaction = fault, .sa_flags = SA_SIGINFO | SA_NODEFER};
    (void)count, (void)words;
    sigaction(SIGSEGV, &ours, NULL);
    sigaction(SIGBUS, &ours, NULL);
    settings = settings_default();
    settings.order = ORDER_MEMBERS;
    arena = map(ARENA + NOTHING);
    before = map(ARENA);
    list = map(PAGE);
    record = map(PAGE);
    mprotect(arena + ARENA, NOTHING, PROT_NONE);
    mprotect(arena + HOLE, PAGE, PROT_NONE);
    order_begin();
    return 0;
}

static void check(bool is_right)
{
    if (!is_right)
        abort();
}

static void decode_one(const uint8_t *data, size_t size)
{
    uint64_t registers[16] = {1, 2, 3};
    struct instruction in = {0};
    uint8_t *code = calloc(1, 15); /* what is read after it is found */
    memcpy(code, data, size < 15 ? size : 15);
    if (decode(code, 0x1000, registers, &in))
        check(in.length >= 4 && in.length <= 15 && in.reg < 16);
    free(code);
}

static uint64_t inside(uint64_t address) { return (uintptr_t)arena + address % ARENA; }

/* A descriptor whose addresses are in the arena, beside or over its end, or in its hole. */
static descriptor descriptor_of(const uint8_t *data)
{
    descriptor d;
    memcpy(&d, data, sizeof d);
    d.src_addr = inside(d.src_addr);
    d.dst_addr = inside(d.dst_addr);
    d.completion_addr = inside(d.completion_addr);
    if (d.opcode == DSA_OPCODE_DUALCAST || d.opcode == DSA_OPCODE_CR_DELTA)
        d.dest2 = inside(d.dest2);
    if ((d.opcode == DSA_OPCODE_CRCGEN || d.opcode == DSA_OPCODE_COPY_CRC) && d.flags & SEED_IS_READ)
        d.seed_addr = inside(d.seed_addr);
    d.xfer_size %= 3 * PAGE;
    return d;
}

static bool is_in(uint64_t at, uint64_t start, uint64_t size) { return at - start < size; }

/* Whether an operation may write this byte. */
static bool may_write(const descriptor *d, uint64_t at)
{
    switch (d->opcode) {
    case DSA_OPCODE_MEMMOVE:
    case DSA_OPCODE_MEMFILL:
    case DSA_OPCODE_COPY_CRC:
    case DSA_OPCODE_AP_DELTA: return is_in(at, d->dst_addr, d->xfer_size);
    case DSA_OPCODE_DUALCAST: return is_in(at, d->dst_addr, d->xfer_size) || is_in(at, d->dest2, d->xfer_size);
    case DSA_OPCODE_CR_DELTA: return is_in(at, d->delta_addr, d->max_delta_size);
    case DSA_OPCODE_DIF_INS: return is_in(at, d->dst_addr, d->xfer_size + d->xfer_size / 512 * 8);
    case DSA_OPCODE_DIF_STRP:
    case DSA_OPCODE_DIF_UPDT: return is_in(at, d->dst_addr, d->xfer_size);
    default: return false;
    }
}

static void operate_one(const uint8_t *data)
{
    const descriptor d = descriptor_of(data);
    completion r;
    uint32_t bad = 0;
    if (d.opcode == DSA_OPCODE_BATCH || valid_descriptor(&d, &queue.limits, false, &bad) != DSA_COMP_SUCCESS)
        return;
    for (size_t page = 0; page < ARENA; page += page + PAGE == HOLE ? 2 * PAGE : PAGE) {
        memset(arena + page, data[page / PAGE], PAGE);
        memset(before + page, data[page / PAGE], PAGE);
    }
    execute_operation(&d, &r, 0);
    const unsigned status = r.status & DSA_COMP_STATUS_MASK;
    check(status >= DSA_COMP_SUCCESS && (status <= DSA_COMP_DIF_ERR || status == DSA_COMP_XFER_ERANGE));
    check(r.bytes_completed <= d.xfer_size);
    for (size_t page = 0; page < ARENA; page += page + PAGE == HOLE ? 2 * PAGE : PAGE)
        for (size_t i = page; memcmp(arena + page, before + page, PAGE) && i < page + PAGE; i++) {
            check(arena[i] == before[i] || may_write(&d, (uintptr_t)arena + i));
            before[i] = arena[i];
        }
}

/* A submission, or a batch of what follows. */
static void submit_one(const uint8_t *data, size_t size)
{
    descriptor d = descriptor_of(data);
    const size_t members = size / sizeof d - 1;
    for (size_t i = 0; i < members && i < 8; i++)
        list[i] = descriptor_of(data + sizeof d * (i + 1));
    if (d.opcode == DSA_OPCODE_BATCH) {
        d.desc_list_addr = (uintptr_t)list;
        d.desc_count %= 10;
    }
    d.flags |= IDXD_OP_FLAG_CRAV | IDXD_OP_FLAG_RCR;
    d.completion_addr = (uintptr_t)record;
    memset(record, 0, sizeof *record);
    check(order_submit(&queue, &d, true, &(struct submitter){0}) == ACCEPTED && queue.in_flight == 0);
    const unsigned status = record->status & DSA_COMP_STATUS_MASK;
    check((status >= DSA_COMP_SUCCESS && status <= DSA_COMP_DIF_ERR) || strcmp(valid_name(status), "unknown"));
}

int LLVMFuzzerTestOneInput(const uint8_t *data, size_t size)
{
    if (TARGET == DECODER)
        decode_one(data, size);
    else if (size >= sizeof(descriptor) && TARGET == OPERATION)
        operate_one(data);
    else if (size >= sizeof(descriptor))
        submit_one(data, size);
    return 0;
}
