/* A pipeline of two stages over a ring of slots, from two threads: the first copies in to mid, the second mid to out.
 * With a word, the first does not wait for one item of sixteen, so the second may read what is not there. */
#include "client.h"

#include <pthread.h>

enum { SLOTS = 8, SIZE = 2048, ITEMS = 64 };

struct slot {
    uint8_t in[SIZE], mid[SIZE], out[SIZE];
    volatile completion records[2] __attribute__((aligned(32)));
};

static struct slot slots[SLOTS];
static void *portal;
static int omits;
static _Atomic int filled, drained;

static void put(const descriptor *d)
{
    while (enqueue(portal, d))
        _mm_pause();
}

static void *first_stage(void *unused)
{
    for (int i = 0; i < ITEMS; i++) {
        struct slot *s = &slots[i % SLOTS];
        while (i - drained >= SLOTS)
            _mm_pause();
        memset(s->in, i, SIZE);
        s->records[0].status = 0;
        const descriptor d = move(s->in, s->mid, SIZE, &s->records[0]);
        put(&d);
        if (!omits || i % 16 != 15)
            await(&s->records[0]);
        filled = i + 1;
    }
    return unused;
}

static void *second_stage(void *unused)
{
    for (int i = 0; i < ITEMS; i++) {
        struct slot *s = &slots[i % SLOTS];
        while (filled <= i)
            _mm_pause();
        s->records[1].status = 0;
        const descriptor d = move(s->mid, s->out, SIZE, &s->records[1]);
        put(&d);
        await(&s->records[1]);
        drained = i + 1;
    }
    return unused;
}

int main(int argc, char **argv)
{
    pthread_t one, other;
    (void)argv;
    omits = argc > 1;
    portal = portal_of("/dev/dsa/wq0.1");
    pthread_create(&one, NULL, first_stage, NULL);
    pthread_create(&other, NULL, second_stage, NULL);
    pthread_join(one, NULL);
    pthread_join(other, NULL);
    return 0;
}
