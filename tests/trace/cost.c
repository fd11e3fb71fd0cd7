/* Microseconds that an instruction takes, as medians: to memory, and to the portal from one stack, and each time from
 * another depth of a recursion. */
#include <time.h>

#include "client.h"

enum { TIMES = 4000 };

static double now(void)
{
    struct timespec t;
    clock_gettime(CLOCK_MONOTONIC, &t);
    return t.tv_sec * 1e6 + t.tv_nsec / 1e3;
}

static int by_size(const void *a, const void *b) { return *(const double *)a < *(const double *)b ? -1 : 1; }

/// One instruction from so many calls further in.
__attribute__((noinline)) static int submit_at(volatile int depth, void *to, const descriptor *d, double *took)
{
    if (depth > 0)
        return submit_at(depth - 1, to, d, took) + depth; /* and so the call stays */
    const double start = now();
    submit(to, d);
    *took = now() - start;
    return 0;
}

static double median_of(void *to, const descriptor *d, volatile completion *r, int stacks)
{
    static double times[TIMES];
    for (int i = 0; i < TIMES; i++) {
        r->status = to == (void *)r;
        submit_at(8 + i % stacks, to, d, &times[i]);
        while (d->completion_addr && !r->status)
            _mm_pause();
    }
    qsort(times, TIMES, sizeof *times, by_size);
    return times[TIMES / 2];
}

int main(void)
{
    void *portal = portal_of("/dev/dsa/wq0.0");
    volatile completion *r = fresh(4096);
    descriptor d = {0};
    const double plain = median_of((uint8_t *)r + 64, &d, r, 1);
    d = (descriptor){.flags = ASKS, .completion_addr = (uintptr_t)r};
    const double one = median_of(portal, &d, r, 1), many = median_of(portal, &d, r, TIMES);
    printf("MOVDIR64B takes %.1f us to memory and %.2f us to the portal, %.2f from other depths\n", plain, one, many);
    return 0;
}
