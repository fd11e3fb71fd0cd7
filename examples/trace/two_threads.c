/* Two threads copy blocks through a cache: the reader fills a block, and the writer sends it on. The reader tells the
 * writer of a block when its copy is submitted, and not when it has ended:
 *
 *     gcc -g -O2 -mmovdir64b -pthread -o two_threads two_threads.c
 *     dsa_trace --audit --seeds 20 -- ./two_threads
 */
#include <fcntl.h>
#include <immintrin.h>
#include <linux/idxd.h>
#include <pthread.h>
#include <stdint.h>
#include <stdio.h>
#include <string.h>
#include <sys/mman.h>
#include <sys/prctl.h>

enum { SIZE = 4096, BLOCKS = 8, ASKS = IDXD_OP_FLAG_CRAV | IDXD_OP_FLAG_RCR };

static char disk[BLOCKS][SIZE], cache[BLOCKS][SIZE], net[BLOCKS][SIZE];
static struct dsa_completion_record filled[BLOCKS], sent[BLOCKS];
static volatile int ready = -1;
static void *portal;

static void copy(const char *from, char *to, struct dsa_completion_record *done)
{
    struct dsa_hw_desc d = {.opcode = DSA_OPCODE_MEMMOVE, .flags = ASKS, .src_addr = (uintptr_t)from,
                            .dst_addr = (uintptr_t)to, .xfer_size = SIZE, .completion_addr = (uintptr_t)done};
    _mm_sfence();
    _movdir64b(portal, &d);
}

static void await(volatile struct dsa_completion_record *done)
{
    while (done->status == 0)
        _mm_pause();
}

static void *read_all(void *unused)
{
    prctl(PR_SET_NAME, "reader");
    for (int i = 0; i < BLOCKS; i++) {
        copy(disk[i], cache[i], &filled[i]);
        ready = i;
        await(&filled[i]);
    }
    return unused;
}

static void *send_all(void *unused)
{
    prctl(PR_SET_NAME, "writer");
    for (int i = 0; i < BLOCKS; i++) {
        while (ready < i)
            _mm_pause();
        copy(cache[i], net[i], &sent[i]);
        await(&sent[i]);
    }
    return unused;
}

int main(void)
{
    pthread_t reader, writer;
    const int queue = open("/dev/dsa/wq0.0", O_RDWR);
    portal = queue < 0 ? MAP_FAILED : mmap(NULL, 4096, PROT_WRITE, MAP_SHARED, queue, 0);
    if (portal == MAP_FAILED)
        return perror("/dev/dsa/wq0.0"), 1;
    memset(disk, 'x', sizeof disk);
    pthread_create(&writer, NULL, send_all, NULL);
    pthread_create(&reader, NULL, read_all, NULL);
    pthread_join(reader, NULL);
    pthread_join(writer, NULL);
    return memcmp(disk, net, sizeof disk) != 0;
}
