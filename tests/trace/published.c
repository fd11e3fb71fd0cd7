/* Lists that publish only after a check, and whose check fails: published barrier|none COUNT SEED.
 *
 * A list moves pages about, compares two that differ, which it expects to be equal, and then publishes: it writes pages
 * that nothing else touches. No address shows that the check comes first; with `barrier` the first operation that
 * publishes begins after one. Each list is planned, and submitted by the code of bindings/c/submit.c, which stops at an
 * entry that failed. Prints how many lists have published something all the same. */
#define main example_main
#include "../../bindings/c/submit.c"
#undef main

enum { PAGE = 4096, PAGES = 6, PUBLIC = 4, MOVES = 4, MOST = MOVES + 1 + PUBLIC };

/* The device's memory: pages that are moved about, two that differ, and those that are published. */
struct world {
    uint8_t pages[PAGES][PAGE], unequal[2][PAGE], public[PUBLIC][PAGE];
    _Alignas(64) uint8_t staging[DSA_STAGING_AREA(MOST)];
    _Alignas(64) uint8_t records[32 * MOST];
};

static uint64_t seed;

static uint32_t drawn(uint32_t limit)
{
    seed = seed * UINT64_C(6364136223846793005) + 1442695040888963407;
    return (uint32_t)(seed >> 33) % limit;
}

static uint64_t at(const void *memory) { return (uint64_t)(uintptr_t)memory; }

/* The operations of a list, and how many there are. */
static size_t draw(struct world *w, uint8_t *list, int has_barrier)
{
    size_t n = 0;
    const uint32_t moves = drawn(MOVES + 1), published = 1 + drawn(PUBLIC);
    for (uint32_t k = 0; k < moves; k++, n++)
        dsa_put_move(list + 64 * n, at(w->pages[drawn(PAGES)]), at(w->pages[drawn(PAGES)]), PAGE,
                     at(w->records + 32 * n));
    dsa_put_compare(list + 64 * n, at(w->unequal[0]), at(w->unequal[1]), PAGE, at(w->records + 32 * n));
    dsa_expect(list + 64 * n++, 0);
    for (uint32_t k = 0; k < published; k++, n++) {
        if (drawn(2))
            dsa_put_move(list + 64 * n, at(w->unequal[0]), at(w->public[k]), PAGE, at(w->records + 32 * n));
        else
            dsa_put_fill(list + 64 * n, at(w->public[k]), PAGE, UINT64_C(0x7e7e7e7e7e7e7e7e), at(w->records + 32 * n));
        if (k == 0 && has_barrier)
            dsa_set_flags(list + 64 * n, DSA_BARRIER);
    }
    return n;
}

/* Whether a list publishes something; -1: it is refused. */
static int publishes(struct world *w, void *page, int has_barrier)
{
    uint8_t list[64 * MOST], portal[64 * MOST];
    struct dsa_planned planned;
    struct dsa_refusal refusal;
    memset(w, 0, sizeof *w);
    memset(w->unequal[0], 0x5a, PAGE);
    const size_t n = draw(w, list, has_barrier);
    const struct dsa_settings settings = {1, 2 + drawn(8), 1 << 21, drawn(14), drawn(20), drawn(12), at(w->staging)};
    if (dsa_plan_list(&settings, &settings.batch, 0, list, 64 * n, portal, sizeof portal, w->staging, sizeof w->staging,
                      &planned, &refusal))
        return -1;
    if (!run(page, 0, portal, planned.portal_len))
        return -1; /* the check has not failed */
    for (size_t i = 0; i < sizeof w->public; i++)
        if (((const uint8_t *)w->public)[i])
            return 1;
    return 0;
}

int main(int argc, char **argv)
{
    const int queue = open("/dev/dsa/wq0.0", O_RDWR), count = argc == 4 ? atoi(argv[2]) : 0;
    void *page = mmap(NULL, PAGE, PROT_WRITE, MAP_SHARED, queue, 0);
    struct world *w = aligned_alloc(PAGE, (sizeof *w + PAGE - 1) / PAGE * PAGE);
    int published = 0;
    if (page == MAP_FAILED || !w || count < 1 || !freopen("/dev/null", "w", stderr))
        return 2;
    seed = strtoull(argv[3], NULL, 10);
    for (int i = 0; i < count; i++) {
        const int found = publishes(w, page, strcmp(argv[1], "barrier") == 0);
        if (found < 0)
            return 3;
        published += found;
    }
    printf("%d of %d lists have published\n", published, count);
    return 0;
}
