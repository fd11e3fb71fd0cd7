/* What the driver of the kernel takes and refuses of a queue's file, a line for each call: the result, or the error. */
#include "client.h"

#include <errno.h>
#include <sys/uio.h>

static volatile completion *r;
static uint8_t *memory;

static void show(const char *what, ssize_t result)
{
    if (result < 0)
        printf("%s: %s\n", what, strerrorname_np(errno));
    else
        printf("%s: %zd\n", what, result);
}

/* A map of this size, protection and offset. */
static void try_map(const char *what, int file, size_t size, int protection, off_t offset)
{
    void *page = mmap(NULL, size, protection, MAP_SHARED, file, offset);
    show(what, page == MAP_FAILED ? -1 : 0);
    if (page != MAP_FAILED)
        munmap(page, size);
}

static void maps(void)
{
    const int both = open("/dev/dsa/wq0.1", O_RDWR), one = open("/dev/dsa/wq0.1", O_RDONLY);
    const int other = open("/dev/dsa/wq0.1", O_WRONLY);
    try_map("a map", both, 4096, PROT_WRITE, 0);
    try_map("of a byte", both, 1, PROT_WRITE, 0);
    try_map("to read", both, 4096, PROT_READ, 0);
    try_map("at a page", both, 4096, PROT_WRITE, 4096);
    try_map("of nothing", both, 0, PROT_WRITE, 0);
    try_map("of two pages", both, 8192, PROT_WRITE, 0);
    try_map("at byte 123", both, 4096, PROT_WRITE, 123);
    try_map("of a file to read", one, 4096, PROT_WRITE, 0);
    try_map("of a file to write", other, 4096, PROT_WRITE, 0);
}

/* What is written, and where the move of it puts a byte. */
static void writes(void)
{
    const int file = open("/dev/dsa/wq0.1", O_RDWR);
    descriptor *d = fresh(4096);
    const struct iovec parts[2] = {{d, 64}, {d + 1, 64}};
    memory[0] = 5;
    for (int i = 0; i < 2; i++)
        d[i] = move(memory, memory + 64 * (i + 1), 64, &r[i]);
    show("writev", writev(file, parts, 2));
    const int first = await(&r[0]), second = await(&r[1]);
    printf("statuses %d %d, moved %d %d\n", first, second, memory[64], memory[128]);
    memset((void *)r, 0, 4096);
    show("pwrite", pwrite(file, d, 64, 0));
    await(&r[0]);
    r[0].status = 0;
    show("65 bytes", write(file, d, 65));
    await(&r[0]);
    show("63 bytes", write(file, d, 63));
    d[1] = batch(d + 2, 2, &r[1]);
    show("a batch", write(file, d + 1, 64));
    d[1] = move(memory, memory + 64, 64, NULL);
    d[1].completion_addr = 8;
    show("an odd record", write(file, d + 1, 64));
    r[0].status = 0;
    show("a move and an odd record", write(file, d, 128));
    await(&r[0]);
}

int main(void)
{
    r = fresh(4096);
    memory = fresh(4096);
    maps();
    writes();
    return 0;
}
