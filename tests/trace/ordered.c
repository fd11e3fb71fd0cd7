/* Copies a to b and b to c, with what keeps the two in order or without:
 *   fence   a batch without the fence           fenced  with it
 *   wait    two submissions at once             waited  the second after the record of the first
 *   member  waits for the record of a member of a batch, and not for that of the batch
 *   drain   the first has no record; a drain follows, and the second comes after the record of the drain
 *   polled  eight moves at once, apart, then their records are polled
 *   sleep   does not wait, but sleeps for 20 ms between the two
 *   blind   the same, and the first has no record
 *   early   one move, of which c is read before its record is there
 *   after   a batch of four, of which the third comes after a fence and has the only record; the second comes after it
 * Status 0: c is right, 3: c is wrong. */
#include "client.h"

enum { SIZE = 8192, MOST = 8 };

static int copied_apart(void *portal, volatile completion *r)
{
    uint8_t *from = fresh(MOST * SIZE), *to = fresh(MOST * SIZE);
    for (int i = 0; i < MOST * SIZE; i++)
        from[i] = i * 7 + i / 251;
    for (int i = 0; i < MOST; i++) {
        const descriptor d = move(from + i * SIZE, to + i * SIZE, SIZE, &r[i]);
        submit(portal, &d);
    }
    for (int i = 0; i < MOST; i++)
        if (await(&r[i]) != DSA_COMP_SUCCESS || memcmp(from + i * SIZE, to + i * SIZE, SIZE))
            return WRONG;
    return 0;
}

static void in_a_batch(void *portal, const char *mode, uint8_t *a, volatile completion *r)
{
    uint8_t *b = a + SIZE, *c = b + SIZE, *other = c + SIZE;
    descriptor *list = fresh(4096);
    const int is_member = strcmp(mode, "member") == 0;
    list[0] = move(a, b, SIZE, &r[1]);
    list[1] = is_member ? move(a, other, SIZE, &r[2]) : move(b, c, SIZE, &r[2]);
    list[1].flags |= strcmp(mode, "fenced") ? 0 : IDXD_OP_FLAG_FENCE;
    const descriptor both = batch(list, 2, &r[0]), second = move(b, c, SIZE, &r[3]);
    submit(portal, &both);
    if (is_member) {
        await(&r[1]);
        submit(portal, &second);
        await(&r[3]);
    }
    await(&r[0]);
}

static void after_a_fence(void *portal, uint8_t *a, volatile completion *r)
{
    uint8_t *b = a + SIZE, *c = b + SIZE, *other = c + SIZE;
    descriptor *list = fresh(4096);
    list[0] = move(a, b, SIZE, NULL);
    list[1] = move(a, other, 64, NULL);
    list[2] = move(a, other, 64, &r[0]);
    list[2].flags |= IDXD_OP_FLAG_FENCE;
    list[3] = move(a, other + 64, 64, NULL);
    descriptor all = batch(list, 4, NULL);
    all.flags = 0;
    const descriptor second = move(b, c, SIZE, &r[1]);
    submit(portal, &all);
    await(&r[0]);
    submit(portal, &second);
    await(&r[1]);
}

static int read_early(void *portal, uint8_t *a, volatile completion *r)
{
    const descriptor d = move(a, a + 2 * SIZE, SIZE, r);
    submit(portal, &d);
    const int is_wrong = memcmp(a, a + 2 * SIZE, SIZE);
    await(r);
    return is_wrong ? WRONG : 0;
}

static void alone(void *portal, const char *mode, uint8_t *a, volatile completion *r)
{
    uint8_t *b = a + SIZE, *c = b + SIZE;
    const int drains = strcmp(mode, "drain") == 0, is_blind = strcmp(mode, "blind") == 0;
    const descriptor first = move(a, b, SIZE, drains || is_blind ? NULL : &r[0]), second = move(b, c, SIZE, &r[1]);
    const descriptor drain = {.opcode = DSA_OPCODE_DRAIN, .flags = ASKS, .completion_addr = (uintptr_t)&r[0]};
    submit(portal, &first);
    if (drains)
        submit(portal, &drain);
    if (drains || strcmp(mode, "waited") == 0)
        await(&r[0]);
    if (strcmp(mode, "sleep") == 0 || is_blind)
        usleep(20000);
    submit(portal, &second);
    if (!is_blind)
        await(&r[0]);
    await(&r[1]);
}

int main(int argc, char **argv)
{
    const char *mode = argc > 1 ? argv[1] : "fence";
    void *portal = portal_of("/dev/dsa/wq0.0");
    volatile completion *r = fresh(4096);
    uint8_t *a = fresh(4 * SIZE);
    for (int i = 0; i < 4; i++)
        memset(a + i * SIZE, 'a' + i, SIZE);
    if (strcmp(mode, "polled") == 0)
        return copied_apart(portal, r);
    if (strcmp(mode, "early") == 0)
        return read_early(portal, a, r);
    if (strcmp(mode, "after") == 0)
        after_a_fence(portal, a, r);
    else if (strncmp(mode, "fence", 5) == 0 || strcmp(mode, "member") == 0)
        in_a_batch(portal, mode, a, r);
    else
        alone(portal, mode, a, r);
    return memcmp(a, a + 2 * SIZE, SIZE) ? WRONG : 0;
}
