/* What goes wrong, one case for each word; most print what they see, for tests/trace.py to compare. */
#include <errno.h>
#include <signal.h>
#include <sys/wait.h>

#include "client.h"

static void *portal;
static volatile completion *r;
static uint8_t *memory; /* three pages, of which the last can't be touched */

enum { PAGE = 4096 };

static void show(const char *what)
{
    printf("%s: status %#x, %u bytes, at %#llx\n", what, r->status, r->bytes_completed,
           (unsigned long long)(r->fault_addr ? r->fault_addr - (uintptr_t)memory : 0));
}

static void done(descriptor d, const char *what)
{
    memset((void *)r, 0, sizeof *r);
    d.completion_addr = (uintptr_t)r;
    submit(portal, &d);
    await(r);
    show(what);
}

/* Moves from and to a page that is missing, with and without block-on-fault. */
static void missing_pages(void)
{
    descriptor d = move(memory, memory + PAGE, 2 * PAGE, r);
    done(d, "write, blocking");
    d.flags &= ~IDXD_OP_FLAG_BOF;
    done(d, "write");
    d = move(memory + PAGE, memory, 2 * PAGE, r);
    d.flags &= ~IDXD_OP_FLAG_BOF;
    done(d, "read");
}

/* Buffers that are unmapped, beyond the end of their file, or can only be read; and a record that can't be written. */
static void gone(void)
{
    uint8_t *unmapped = fresh(PAGE), *beyond, *constant = fresh(PAGE);
    FILE *file = tmpfile();
    munmap(unmapped, PAGE);
    done(move(memory, unmapped, 8, r), "to an unmapped page");
    done(move(unmapped, memory, 8, r), "from an unmapped page");
    beyond = mmap(NULL, PAGE, PROT_READ | PROT_WRITE, MAP_SHARED, fileno(file), 0);
    done(move(memory, beyond, 8, r), "beyond the end of a file");
    mprotect(constant, PAGE, PROT_READ);
    done(move(memory, constant, 8, r), "to a page that is read alone");
    descriptor d = move(memory, memory + PAGE, 8, r);
    d.completion_addr = (uintptr_t)constant;
    submit(portal, &d);
    done(move(memory, memory + 128, 8, r), "the next");
}

/* Batches whose list is not there, begins at an odd place, or has too few or too many members; and one that is refused
 * while a move is in flight. */
static void lists(void)
{
    const descriptor *list = (const descriptor *)memory;
    done(batch((const descriptor *)(memory + 2 * PAGE), 2, r), "missing list");
    done(batch((const descriptor *)(memory + 32), 2, r), "odd list");
    done(batch(list, 1, r), "one member");
    done(batch(list, 1025, r), "too many members");
    const descriptor first = move(memory, memory + PAGE, 64, r), second = batch(list, 1, r + 1);
    memset((void *)r, 0, 2 * sizeof *r);
    submit(portal, &first);
    submit(portal, &second);
    await(r + 1);
    printf("the move before it has ended %d\n", r->status == DSA_COMP_SUCCESS);
}

/* Among the members of a batch a batch, and one of another PASID; the last reads what the first writes. */
static void strange_members(void)
{
    descriptor *list = fresh(PAGE);
    list[0] = move(memory, memory + PAGE, 64, NULL);
    list[1] = batch(list, 2, r + 1);
    list[2] = move(memory + 1024, memory + 2048, 64, NULL);
    list[2].pasid = 5;
    list[3] = move(memory + PAGE, memory + 4096 - 64, 64, NULL);
    memset((void *)(r + 1), 0, sizeof *r);
    done(batch(list, 4, r), "the batch");
    printf("the member: status %#x\n", r[1].status);
}

/* The device does nothing, and has no place to say so. */
static void odd_record(void)
{
    descriptor d = move(memory, memory + PAGE, 64, r);
    memset(memory, 1, PAGE);
    d.completion_addr = (uintptr_t)r + 8;
    submit(portal, &d);
    done(move(memory, memory + 128, 8, r), "the next");
    printf("moved %d, record %d\n", memory[PAGE], ((uint8_t *)r)[8]);
}

/* Descriptors that the device refuses. */
static void refused(void)
{
    descriptor d = move(memory, memory + PAGE, 64, r);
    d.flags |= 0x40;
    done(d, "reserved flag");
    printf("invalid flags %#x\n", r->invalid_flags);
    d = move(memory, memory + PAGE, 64, r);
    d.flags |= IDXD_OP_FLAG_CR;
    done(d, "check result of a move");
    d = move(memory, memory + PAGE, 64, r);
    d.flags |= IDXD_OP_FLAG_RCI;
    done(d, "interrupt");
    d = move(memory, memory + PAGE, 64, r);
    d.opcode = 0x0a;
    done(d, "operation 0xa");
    d = move(memory, memory + PAGE, 0, r);
    done(d, "no bytes");
    d = move(memory, memory + PAGE, 64, r);
    d.op_specific[23] = 1;
    done(d, "reserved byte");
    d = move(memory, memory + PAGE, 64, r);
    d.rsvd = 5;
    done(d, "reserved bits");
    d = move(memory, memory + 1024, 64, r);
    d.opcode = DSA_OPCODE_DUALCAST;
    d.dest2 = (uintptr_t)memory + PAGE + 1032;
    done(d, "dualcast bits");
    d.dest2 = d.dst_addr;
    done(d, "dualcast overlap");
    d = move(memory, memory + PAGE, 12, r);
    d.opcode = DSA_OPCODE_AP_DELTA;
    d.delta_rec_size = 10;
    done(d, "delta of 12 bytes");
    d.xfer_size = 16;
    d.delta_rec_size = 11;
    done(d, "delta record of 11 bytes");
}

static void caught(int number, siginfo_t *info, void *context)
{
    (void)context;
    printf("signal %d at %#llx\n", number, (unsigned long long)((uintptr_t)info->si_addr - (uintptr_t)memory));
    fflush(stdout);
    _exit(42);
}

/* A descriptor that can't be read is a fault of the program, which its own handler sees. */
static void unreadable(void)
{
    struct sigaction a = {.sa_sigaction = caught, .sa_flags = SA_SIGINFO};
    sigfillset(&a.sa_mask);
    sigaction(SIGSEGV, &a, NULL);
    submit(portal, (const descriptor *)(memory + 2 * PAGE));
}

/* The handler of another signal submits, with all signals blocked. */
static void in_handler(int number)
{
    (void)number;
    done(move(memory, memory + PAGE, 64, r), "in a handler");
}

/* A child of fork has no portal, as with the driver's mapping. */
static void child(void)
{
    int status;
    const pid_t pid = fork();
    if (pid == 0) {
        done(move(memory, memory + PAGE, 64, r), "in the child");
        _exit(0);
    }
    waitpid(pid, &status, 0);
    printf("the child ends by signal %d\n", WIFSIGNALED(status) ? WTERMSIG(status) : 0);
    done(move(memory, memory + PAGE, 64, r), "in the parent");
}

/* Another program in the same process, which submits too. */
static void replaced(char **argv)
{
    done(move(memory, memory + PAGE, 64, r), "before");
    fflush(stdout);
    execl("/proc/self/exe", argv[0], "refused", (char *)NULL);
}

/* Submits many no-ops of reserved bits, and leaves without running what is to run at the end. */
static void many(int count, const char *how)
{
    for (int i = 0; i < count; i++) {
        const descriptor d = {.rsvd = 0x2aa, .flags = ASKS, .completion_addr = (uintptr_t)r,
                              .int_handle = (unsigned short)i}; /* to be told apart */
        memset((void *)r, 0, sizeof *r);
        submit(portal, &d);
        await(r);
    }
    if (strcmp(how, "killed") == 0)
        kill(getpid(), SIGKILL);
    _exit(0);
}

/* Closes all files, and opens its own with their numbers, which nobody else may write to or cut. */
static void closed(int count)
{
    char path[] = "/tmp/trace_closed.XXXXXX";
    for (int i = 0; i < 2; i++) {
        if (i == 1)
            close_range(3, ~0u, 0);
        for (int k = 0; k < (i ? 8 : 0); k++)
            (void)!write(k ? dup(3) : mkstemp(path), "mine", 4);
        for (int k = 0; k < count; k++) {
            memset((void *)r, 0, sizeof *r);
            submit(portal, &(descriptor){.flags = ASKS, .completion_addr = (uintptr_t)r});
            await(r);
        }
    }
    printf("my file has %ld bytes\n", (long)lseek(3, 0, SEEK_END));
    unlink(path);
}

/* Batches of 1,000 no-ops. */
static void large(int count)
{
    descriptor *list = fresh(1000 * sizeof *list);
    for (int i = 0; i < 1000; i++)
        list[i].src_addr = i;
    for (int i = 0; i < count; i++)
        done(batch(list, 1000, r), "batch");
}

/* A move in parts, each of which may stop at a page; answers how many there are. Of a part that goes from its end the
 * first bytes are left. */
static unsigned in_parts(const uint8_t *from, uint8_t *to, uint32_t size)
{
    for (unsigned parts = 1;; parts++) {
        descriptor d = move(from, to, size, r);
        d.flags &= ~IDXD_OP_FLAG_BOF;
        memset((void *)r, 0, sizeof *r);
        submit(portal, &d);
        if (await(r) != DSA_COMP_PAGE_FAULT_NOBOF)
            return parts;
        size -= r->bytes_completed;
        from += r->result ? 0 : r->bytes_completed;
        to += r->result ? 0 : r->bytes_completed;
    }
}

/* Moves to another place, and to higher and lower addresses of their own range. */
static void partial(void)
{
    enum { SIZE = 64 * PAGE };
    uint8_t *wanted = fresh(SIZE), *from = fresh(2 * SIZE) + PAGE;
    const struct { const char *name; uint8_t *to; } cases[] = {
        {"apart", fresh(SIZE)}, {"up", from + 64}, {"down", from - 64}};
    for (int i = 0; i < SIZE; i++)
        wanted[i] = i / 13;
    for (int i = 0; i < 3; i++) {
        memcpy(from, wanted, SIZE);
        const unsigned parts = in_parts(from, cases[i].to, SIZE);
        printf("%s: %s, more than one part: %d\n", cases[i].name, memcmp(wanted, cases[i].to, SIZE) ? "wrong" : "right",
               parts > 1);
    }
}

/* What is done before a page that is missing: the checksum of a copy, a delta, and a move that goes from its end. */
static void stops(void)
{
    uint8_t *other = fresh(3 * PAGE);
    descriptor d = move(memory + PAGE, other, 2 * PAGE, r);
    d.opcode = DSA_OPCODE_COPY_CRC;
    d.crc_seed = 5;
    done(d, "a copy");
    const uint64_t checksum = r->crc_val;
    d.xfer_size = PAGE;
    done(d, "its page");
    printf("of the same checksum %d\n", checksum == r->crc_val);
    other[8] = 1;
    d = (descriptor){.opcode = DSA_OPCODE_CR_DELTA, .flags = ASKS, .xfer_size = 2 * PAGE, .max_delta_size = 80};
    d.src_addr = (uintptr_t)memory + PAGE, d.src2_addr = (uintptr_t)other, d.delta_addr = (uintptr_t)memory;
    done(d, "a delta");
    printf("a record of %u bytes\n", r->delta_rec_size);
    mprotect(other, PAGE, PROT_NONE);
    done(move(other, other + 64, 2 * PAGE, r), "from its end");
    printf("result %u, at its first page %d\n", r->result, r->fault_addr == (uintptr_t)other);
}

/* What ends exactly at a page that is missing: a fill, whose pattern goes on over pages, a move onto itself, a flush;
 * and a check of integrity fields at the block that is wrong. */
static void edges(void)
{
    uint8_t wrong = 0;
    descriptor d = {.opcode = DSA_OPCODE_MEMFILL, .flags = ASKS | IDXD_OP_FLAG_BOF};
    d.pattern = 0x0807060504030201;
    d.dst_addr = (uintptr_t)memory + PAGE - 3;
    d.xfer_size = 1001;
    done(d, "a fill over pages");
    for (int i = 0; i < 1001; i++)
        wrong |= memory[PAGE - 3 + i] != 1 + i % 8;
    memset(memory + 2 * PAGE - 100, 0x55, 100);
    d.dst_addr = (uintptr_t)memory + 2 * PAGE - 99;
    d.xfer_size = 200;
    done(d, "a fill");
    for (int i = 0; i < 99; i++)
        wrong |= memory[2 * PAGE - 99 + i] != 1 + i % 8;
    printf("before it %#x, wrong %d\n", memory[2 * PAGE - 100], wrong);
    done(move(memory + PAGE, memory + PAGE, 2 * PAGE, r), "a move onto itself");
    mprotect(memory + PAGE, PAGE, PROT_READ);
    done(move(memory + PAGE, memory + PAGE, PAGE, r), "of what is read alone");
    mprotect(memory + PAGE, PAGE, PROT_READ | PROT_WRITE);
    d = (descriptor){.opcode = DSA_OPCODE_CFLUSH, .flags = ASKS, .xfer_size = 5000};
    d.dst_addr = (uintptr_t)memory + PAGE + 10;
    done(d, "a flush");
    memset(memory, 0, PAGE); /* blocks of zeros have a guard of zero */
    memory[520 + 512] = 1;
    d = (descriptor){.opcode = DSA_OPCODE_DIF_CHECK, .flags = ASKS, .xfer_size = 3 * 520, .chk_ref_tag_seed = 0};
    d.src_addr = (uintptr_t)memory;
    d.src_upd_flags = 0x80; /* the reference tag stays the same */
    done(d, "a wrong field");
}

/* Submits by writing to the queue's file, two at once, and one of which not all can be read. */
static void written(void)
{
    const int file = open("/dev/dsa/wq0.1", O_RDWR);
    descriptor *two = fresh(PAGE);
    memset(memory, 5, 64);
    two[0] = move(memory, memory + PAGE, 64, r);
    two[1] = move(memory + PAGE, memory + 128, 64, r + 1);
    two[1].flags |= IDXD_OP_FLAG_BOF;
    printf("written %zd", write(file, two, sizeof *two));
    await(r);
    printf(" %zd", write(file, two + 1, sizeof *two));
    await(r + 1);
    printf(", moved %d %d", memory[PAGE], memory[128]);
    errno = 0;
    const ssize_t unreadable = write(file, memory + 2 * PAGE, 128);
    printf(", unreadable %zd %d", unreadable, errno == EFAULT);
    sigset_t blocked;
    sigprocmask(SIG_BLOCK, NULL, &blocked);
    printf(", signals blocked %d\n", sigismember(&blocked, SIGUSR1));
}

/* More at once than the queue takes: MOVDIR64B is lost, ENQCMD says so. */
static void full(void)
{
    enum { MANY = 40 };
    void *shared = portal_of("/dev/dsa/wq0.1");
    int kept = 0, retries = 0;
    for (int i = 0; i < MANY; i++)
        submit(portal, &(descriptor){.flags = ASKS, .completion_addr = (uintptr_t)(r + i)});
    usleep(100000);
    for (int i = 0; i < MANY; i++)
        kept += r[i].status == DSA_COMP_SUCCESS;
    memset((void *)r, 0, sizeof *r * MANY);
    for (int i = 0; i < MANY; i++)
        while (enqueue(shared, &(descriptor){.flags = ASKS, .completion_addr = (uintptr_t)(r + i)}))
            retries++;
    for (int i = 0; i < MANY; i++)
        await(r + i);
    printf("all kept %d, 16 at least %d, retried %d\n", kept == MANY, kept >= 16, retries > 0);
}

static volatile sig_atomic_t seen;

static void count_seen(int number)
{
    (void)number;
    seen++;
}

static void leave(int number)
{
    signal(number, SIG_IGN);
    exit(0);
}

/* Does large moves while another process sends SIGSEGV so often; answers how many fail. */
static int moves_meanwhile(int times)
{
    enum { SIZE = 1 << 20 };
    static uint8_t from[SIZE], to[SIZE];
    const pid_t parent = getpid(), child = fork();
    int failed = 0;
    for (int i = 0; child == 0 && i < times; i++) {
        usleep(100);
        kill(parent, SIGSEGV);
    }
    if (child == 0)
        _exit(0);
    while (waitpid(child, NULL, WNOHANG) == 0) {
        const descriptor d = move(from, to, SIZE, r);
        memset((void *)r, 0, sizeof *r);
        submit(portal, &d);
        failed += await(r) != DSA_COMP_SUCCESS;
    }
    return failed;
}

/* No move fails for a signal that is sent, and the program's handler sees it, and may end the process. */
static void sent(void)
{
    signal(SIGSEGV, count_seen);
    const int failed = moves_meanwhile(200);
    printf("failed %d, seen %d\n", failed, seen > 0);
    signal(SIGSEGV, leave);
    moves_meanwhile(200);
    printf("nothing has ended the process\n");
    exit(WRONG);
}

/* Maps that the driver refuses, a portal over that of another queue, and one that is unmapped. */
static void maps(void)
{
    const int file = open("/dev/dsa/wq0.0", O_RDWR);
    void *large = mmap(NULL, 2 * PAGE, PROT_WRITE, MAP_SHARED, file, 0);
    void *private = mmap(NULL, PAGE, PROT_WRITE, MAP_PRIVATE, file, 0);
    void *second = portal_of("/dev/dsa/wq0.0");
    printf("refused %d %d, two %d\n", large == MAP_FAILED, private == MAP_FAILED, second != portal);
    void *over = portal_of("/dev/dsa/wq0.0");
    over = mmap(over, PAGE, PROT_WRITE, MAP_SHARED | MAP_FIXED, open("/dev/dsa/wq0.1", O_RDWR), 0);
    printf("over it %d\n", enqueue(over, &(descriptor){.flags = 0}));
    munmap(portal, PAGE);
    portal = second;
    done(move(memory, memory + PAGE, 64, r), "the second");
    munmap(second, PAGE);
    fflush(stdout);
    done(move(memory, memory + PAGE, 64, r), "none");
}

/* How often ENQCMD says retry. */
static void retried(void)
{
    void *shared = portal_of("/dev/dsa/wq0.1");
    int retries = 0;
    for (int i = 0; i < 100; i++) {
        const descriptor d = {.flags = ASKS, .completion_addr = (uintptr_t)r};
        memset((void *)r, 0, sizeof *r);
        while (enqueue(shared, &d))
            retries++;
        await(r);
    }
    printf("retries from 20 to 80: %d\n", retries >= 20 && retries <= 80);
}

int main(int argc, char **argv)
{
    const char *what = argc > 1 ? argv[1] : "";
    const int count = argc > 2 ? atoi(argv[2]) : 0;
    portal = portal_of("/dev/dsa/wq0.0");
    r = fresh(PAGE);
    memory = fresh(3 * PAGE);
    mprotect(memory + 2 * PAGE, PAGE, PROT_NONE);
    static const struct plain { const char *name; void (*run)(void); } plain[] = {
        {"pages", missing_pages}, {"gone", gone}, {"lists", lists}, {"record", odd_record}, {"refused", refused},
        {"unreadable", unreadable}, {"child", child}, {"partial", partial}, {"retried", retried},
        {"written", written}, {"full", full}, {"maps", maps}, {"members", strange_members}, {"stops", stops},
        {"sent", sent}, {"edges", edges},
    };
    for (size_t i = 0; i < sizeof plain / sizeof *plain; i++)
        if (strcmp(what, plain[i].name) == 0)
            plain[i].run();
    if (strcmp(what, "handler") == 0) {
        struct sigaction a = {.sa_handler = in_handler};
        sigfillset(&a.sa_mask);
        sigaction(SIGUSR1, &a, NULL);
        raise(SIGUSR1);
    }
    if (strcmp(what, "replaced") == 0)
        replaced(argv);
    if (strcmp(what, "left") == 0 || strcmp(what, "killed") == 0)
        many(count, what);
    if (strcmp(what, "closed") == 0)
        closed(count);
    if (strcmp(what, "large") == 0)
        large(count);
    if (strcmp(what, "status") == 0)
        return count;
    if (strcmp(what, "hang") == 0)
        pause();
    return 0;
}
