/* Plans, checks and judges random lists on several threads at once: threads LISTS THREADS SEED. Each thread does all
 * lists, and the answers have to be those of the first. Each output ends where its memory does, before a page that may not
 * be touched, so that a byte too many ends the program. */
#include <pthread.h>
#include <stdio.h>
#include <stdlib.h>
#include <string.h>
#include <sys/mman.h>

#include <dsa_planner.h>

enum { OPERATIONS = 12, PIECES = 512, PAGE = 4096, MOST_THREADS = 64 };

static uint64_t lists, first_seed;

struct work {
    pthread_t thread;
    uint64_t seed, sum, planned;
};

/* Memory of so many bytes that ends before a page without any rights. */
static void *guarded(size_t size)
{
    size_t whole = (size + PAGE - 1) / PAGE * PAGE;
    uint8_t *at = mmap(NULL, whole + PAGE, PROT_READ | PROT_WRITE, MAP_PRIVATE | MAP_ANONYMOUS, -1, 0);
    if (at == MAP_FAILED || mprotect(at + whole, PAGE, PROT_NONE) != 0)
        abort();
    return at + whole - size;
}

static void unguard(void *at, size_t size)
{
    size_t whole = (size + PAGE - 1) / PAGE * PAGE;
    munmap((uint8_t *)at + size - whole, whole + PAGE);
}

static uint64_t below(struct work *w, uint64_t n)
{
    w->seed = w->seed * UINT64_C(6364136223846793005) + UINT64_C(1442695040888963407);
    return (w->seed >> 33) % n;
}

static void put(uint8_t *at, uint64_t value, size_t bytes)
{
    for (size_t i = 0; i < bytes; i++)
        at[i] = (uint8_t)(value >> (8 * i));
}

/* One operation over few addresses, mostly well formed. */
static void any_operation(struct work *w, uint8_t *d, uint64_t index)
{
    static const uint8_t codes[] = {0x03, 0x03, 0x04, 0x05, 0x06, 0x08, 0x09};
    static const uint32_t sizes[] = {8, 64, 64, 512, 4096, 5000, 9000};
    uint8_t code = codes[below(w, 7)];
    memset(d, 0, 64);
    d[4] = 0x0c;
    d[7] = code;
    put(d + 8, 0x100000 + 0x4000 * index, 8);
    put(d + 16, 0x1000 * (1 + below(w, 9)) + 64 * below(w, 3), 8);
    put(d + 24, 0x1000 * (1 + below(w, 9)), 8);
    put(d + 32, sizes[below(w, 7)], 4);
    if (code == 0x08)
        put(d + 40, 10 * below(w, 4), 4);
    if (code == 0x09)
        put(d + 40, 0x1000 * (10 + below(w, 9)), 8);
    if (below(w, 30) == 0)
        d[below(w, 64)] ^= (uint8_t)(1 << below(w, 8));
}

/* Adds bytes to the sum of all answers. */
static void add(struct work *w, const void *bytes, size_t len)
{
    for (size_t i = 0; i < len; i++)
        w->sum = (w->sum ^ ((const uint8_t *)bytes)[i]) * UINT64_C(1099511628211);
}

/* Plans a list into memory that just holds it, checks the bytes, and judges the plan where nothing was split. */
static void plan(struct work *w, const struct dsa_settings *s, const uint64_t *table, size_t entries, const uint8_t *list,
                 size_t len)
{
    uint64_t n = dsa_count_pieces(s, table, entries, list, len), cost = 0;
    struct dsa_planned p = {0, 0, 0, 0};
    struct dsa_refusal r = {0, 0, 0, 0};
    if (n > PIECES)
        n = PIECES;
    uint8_t *portal = guarded(64 * n), *staging = guarded(80 * n), *marks = guarded(n);
    uint64_t *prices = guarded(8 * (n + 1));
    struct dsa_pair *pairs = guarded(8 * n);
    uint32_t code = dsa_plan_list_certified(s, table, entries, list, len, portal, 64 * n, staging, 80 * n, prices, n + 1,
                                            pairs, n, marks, n, &p, &r);
    add(w, &code, sizeof code);
    add(w, &r, sizeof r);
    if (code == DSA_OK) {
        w->planned++;
        add(w, &p, sizeof p);
        add(w, portal, p.portal_len);
        add(w, staging, p.staging_len);
        code = dsa_check(s, table, entries, portal, p.portal_len, staging, p.staging_len, s->version, prices, n + 1, pairs,
                         n, &cost, &r);
        if (code != DSA_OK || cost != p.cost)
            abort();
        if (n == len / 64 && (dsa_judge(s, table, entries, list, len, marks, n, &cost, &r) != DSA_OK || cost != p.cost))
            abort();
    }
    unguard(portal, 64 * n);
    unguard(staging, 80 * n);
    unguard(marks, n);
    unguard(prices, 8 * (n + 1));
    unguard(pairs, 8 * n);
}

static void *all_lists(void *of)
{
    struct work *w = (struct work *)of;
    w->seed = first_seed;
    for (uint64_t i = 0; i < lists; i++) {
        struct dsa_settings s = {1, 2 + below(w, 5), UINT64_C(512) << (3 * below(w, 3)), 10, 14, 3, 0x10000000};
        uint64_t n = 1 + below(w, OPERATIONS), prices[5];
        uint8_t *list = guarded(64 * n);
        for (uint64_t k = 0; k < n; k++)
            any_operation(w, list + 64 * k, k);
        s.version = 1 + below(w, 2);
        for (size_t k = 0; k < 5; k++)
            prices[k] = below(w, 40);
        plan(w, &s, prices, s.version == 2 ? s.greatest_batch - 1 : 0, list, 64 * n);
        unguard(list, 64 * n);
    }
    return NULL;
}

int main(int argc, char **argv)
{
    static struct work works[MOST_THREADS];
    if (argc != 4)
        return EXIT_FAILURE;
    lists = strtoull(argv[1], NULL, 10);
    size_t threads = strtoull(argv[2], NULL, 10);
    first_seed = strtoull(argv[3], NULL, 10);
    for (size_t i = 0; i < threads && i < MOST_THREADS; i++)
        if (pthread_create(&works[i].thread, NULL, all_lists, &works[i]) != 0)
            return EXIT_FAILURE;
    for (size_t i = 0; i < threads && i < MOST_THREADS; i++) {
        pthread_join(works[i].thread, NULL);
        if (works[i].sum != works[0].sum) {
            printf("thread %zu has other answers\n", i);
            return EXIT_FAILURE;
        }
    }
    printf("%llu of %llu lists planned on each of %zu threads\n", (unsigned long long)works[0].planned,
           (unsigned long long)lists, threads);
    return works[0].planned == 0;
}
