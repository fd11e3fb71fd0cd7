/* Submits on a stack of so many bytes, and prints how many of them it and what runs on it have used:
 *   thread SIZE  the stack of a thread
 *   fiber SIZE   that of a coroutine
 *   other SIZE   the stack for handlers of signals, for which the handlers of SIGSEGV and SIGILL ask
 * A word after the size says what: a move; `batch`; `pattern`, a comparison with one; `file`, by a write to the queue's
 * file; `refused`, by the device, with a record that is not zero; `missing`, from a page that is not there. */
#include "client.h"

#include <pthread.h>
#include <signal.h>
#include <ucontext.h>

enum { ROOM = 1 << 19, PAINT = 0x5a, TIMES = 5 };

static void *portal;
static volatile completion *r;
static uint8_t *memory;
static const char *what;
static int queue_file;

static descriptor descriptor_of(void)
{
    descriptor *list = (descriptor *)(memory + 1024), d = move(memory, memory + 64, 64, r);
    list[0] = list[1] = move(memory, memory + 64, 64, NULL);
    if (strcmp(what, "batch") == 0)
        return batch(list, 2, r);
    if (strcmp(what, "pattern") == 0)
        return (descriptor){.opcode = DSA_OPCODE_COMPVAL, .flags = ASKS, .src_addr = (uintptr_t)memory,
                            .xfer_size = 4096, .completion_addr = (uintptr_t)r};
    if (strcmp(what, "refused") == 0)
        d.flags |= 0x40; /* which is reserved */
    if (strcmp(what, "missing") == 0)
        d.src_addr = 64;
    return d;
}

/* What is to be done on the stack. */
static void work(void)
{
    for (int i = 0; i < TIMES; i++) {
        const descriptor d = descriptor_of();
        const uint8_t before = strcmp(what, "refused") == 0 ? 0xff : 0;
        r->status = before;
        if (strcmp(what, "file"))
            submit(portal, &d);
        else if (write(queue_file, &d, sizeof d) != sizeof d)
            return;
        while (r->status == before)
            _mm_pause();
    }
}

static void *work_on_thread(void *unused)
{
    work();
    return unused;
}

static int on_thread(uint8_t *stack, size_t size)
{
    pthread_t thread;
    pthread_attr_t own;
    pthread_attr_init(&own);
    return pthread_attr_setstack(&own, stack, size) || pthread_create(&thread, &own, work_on_thread, NULL) ||
           pthread_join(thread, NULL);
}

static int on_fiber(uint8_t *stack, size_t size)
{
    static ucontext_t back, fiber;
    getcontext(&fiber);
    fiber.uc_stack.ss_sp = stack;
    fiber.uc_stack.ss_size = size;
    fiber.uc_link = &back;
    makecontext(&fiber, work, 0);
    return swapcontext(&back, &fiber);
}

static void leave(int number) { _exit(128 + number); }

static int on_other(uint8_t *stack, size_t size)
{
    const stack_t other = {.ss_sp = stack, .ss_size = size};
    const struct sigaction a = {.sa_handler = leave, .sa_flags = SA_ONSTACK};
    if (sigaltstack(&other, NULL) || sigaction(SIGSEGV, &a, NULL) || sigaction(SIGILL, &a, NULL))
        return 1;
    work();
    return 0;
}

int main(int argc, char **argv)
{
    const size_t size = argc > 2 ? strtoul(argv[2], NULL, 0) : 16384;
    const char kind = argc > 1 ? *argv[1] : 't';
    uint8_t *room = fresh(2 * ROOM), *stack = room + ROOM;
    size_t unused = 0;
    what = argc > 3 ? argv[3] : "";
    portal = portal_of("/dev/dsa/wq0.0");
    queue_file = open("/dev/dsa/wq0.0", O_RDWR);
    r = fresh(4096);
    memory = fresh(8192);
    memset(room, PAINT, ROOM + size);
    if (kind == 't' ? on_thread(stack, size) : kind == 'f' ? on_fiber(stack, size) : on_other(stack, size)) {
        perror(argv[1]);
        return NO_QUEUE;
    }
    while (unused < ROOM + size && room[unused] == PAINT)
        unused++;
    printf("%zu bytes of %zu are used, status %#x\n", ROOM + size - unused, size, r->status);
    return unused < ROOM ? WRONG : 0;
}
