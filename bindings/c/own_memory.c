/* A program that brings its own memory: one block of the caller's, from which the library takes what it needs for one
 * call, and which is empty again when the call returns. Nothing of malloc is used: link libdsa_planner_own_memory.a.
 * A program with several threads gives each its own pool (`_Thread_local`), as here. */
#include <inttypes.h>
#include <stdio.h>
#include <string.h>

#include "dsa_planner.h"

/* A pool: blocks one after another, all given back when the last of them is. */
static _Thread_local struct {
    _Alignas(16) uint8_t bytes[1 << 16];
    size_t used, most;
    unsigned live;
} pool;

struct rattle_block rattle_alloc(size_t size, size_t align)
{
    size_t at = (pool.used + align - 1) / align * align;
    if (size > sizeof pool.bytes - at)
        return (struct rattle_block){0, pool.bytes};
    pool.used = at + size;
    pool.live++;
    if (pool.used > pool.most)
        pool.most = pool.used;
    return (struct rattle_block){1, pool.bytes + at};
}

struct rattle_block rattle_realloc(void *at, size_t old_size, size_t size, size_t align)
{
    struct rattle_block block = rattle_alloc(size, align);
    if (block.ok) {
        memcpy(block.at, at, old_size < size ? old_size : size);
        pool.live--; /* the old block is not used again until the pool is empty */
    }
    return block;
}

void rattle_dealloc(void *at)
{
    (void)at;
    if (--pool.live == 0)
        pool.used = 0;
}

int main(void)
{
    /* 64 bytes from 0x1000 to 0x2000, and 64 from 0x2000 to 0x4000; byte 4 flags, 7 operation, 9 record, 32 size */
    const uint8_t list[128] = {
        [4] = 0x0c, [7] = 0x03, [9] = 0x80, [17] = 0x10, [25] = 0x20, [32] = 64,
        [68] = 0x0c, [71] = 0x03, [72] = 0x20, [73] = 0x80, [81] = 0x20, [89] = 0x40, [96] = 64,
    };
    const struct dsa_settings s = {
        .version = 1, .greatest_batch = 4, .greatest_transfer = 4096,
        .lone = 10, .batch = 14, .fence = 3, .staging = 0x10000,
    };
    uint8_t portal[DSA_PORTAL_ROOM(2)], staging[DSA_STAGING_ROOM(2)];
    struct dsa_planned p;
    struct dsa_refusal r;
    uint32_t code = dsa_plan_list(&s, &s.batch, 0, list, sizeof list, portal, sizeof portal, staging, sizeof staging, &p, &r);
    if (code != DSA_OK || pool.live != 0)
        return 1;
    printf("cost %" PRIu64 "\n", p.cost);
    fprintf(stderr, "%zu bytes of the pool were used at most\n", pool.most);

    pool.used = sizeof pool.bytes; /* a pool with no room */
    code = dsa_plan_list(&s, &s.batch, 0, list, sizeof list, portal, sizeof portal, staging, sizeof staging, &p, &r);
    printf("without memory: %" PRIu32 "\n", code);
    return 0;
}
