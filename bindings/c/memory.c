/* The memory of the proved archive over malloc, realloc and free, in libdsa_planner.a and libdsa_planner.so. There the
 * three names are hidden, so that a program may have functions of the same names. */
#include <stdlib.h>

#include "dsa_planner.h"

/* A block of malloc's is aligned to 16, which is the most that the library asks for. */
static struct rattle_block block_at(void *at)
{
    static max_align_t none; /* what a refused request points to: no address that is NULL */
    return at ? (struct rattle_block){1, at} : (struct rattle_block){0, &none};
}

struct rattle_block rattle_alloc(size_t size, size_t align)
{
    (void)align;
    return block_at(malloc(size != 0 ? size : 1));
}

struct rattle_block rattle_realloc(void *at, size_t old_size, size_t size, size_t align)
{
    (void)old_size;
    (void)align;
    return block_at(realloc(at, size != 0 ? size : 1));
}

void rattle_dealloc(void *at)
{
    free(at);
}
