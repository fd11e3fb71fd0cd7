/* Copies a to b and b to c in one batch. The second copy reads what the first writes, and lacks the fence for it:
 *
 *     gcc -O2 -mmovdir64b -o copy_twice copy_twice.c
 *     dsa_trace --audit --seeds 20 -- ./copy_twice
 */
#include <fcntl.h>
#include <immintrin.h>
#include <linux/idxd.h>
#include <stdint.h>
#include <stdio.h>
#include <string.h>
#include <sys/mman.h>

enum { SIZE = 4096, ASKS = IDXD_OP_FLAG_CRAV | IDXD_OP_FLAG_RCR };

static char a[SIZE] = "hello", b[SIZE], c[SIZE];
static _Alignas(32) struct dsa_completion_record done;
static _Alignas(64) struct dsa_hw_desc list[2];

int main(void)
{
    const int queue = open("/dev/dsa/wq0.0", O_RDWR);
    void *portal = queue < 0 ? MAP_FAILED : mmap(NULL, 4096, PROT_WRITE, MAP_SHARED, queue, 0);
    if (portal == MAP_FAILED)
        return perror("/dev/dsa/wq0.0"), 1;
    list[0] = (struct dsa_hw_desc){
        .opcode = DSA_OPCODE_MEMMOVE, .src_addr = (uintptr_t)a, .dst_addr = (uintptr_t)b, .xfer_size = SIZE};
    list[1] = (struct dsa_hw_desc){
        .opcode = DSA_OPCODE_MEMMOVE, .src_addr = (uintptr_t)b, .dst_addr = (uintptr_t)c, .xfer_size = SIZE};
    struct dsa_hw_desc batch = {.opcode = DSA_OPCODE_BATCH, .flags = ASKS, .completion_addr = (uintptr_t)&done,
                                .desc_list_addr = (uintptr_t)list, .desc_count = 2};
    _mm_sfence();
    _movdir64b(portal, &batch);
    while (done.status == 0)
        _mm_pause();
    printf("c is \"%s\"\n", c);
    return strcmp(a, c) != 0;
}
