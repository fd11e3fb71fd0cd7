/* Two threads with eight requests each in flight on one queue: copy page s over page m, and m over t, among 16 pages.
 * The queue lets wait what conflicts; nobody says so.
 *
 *     cc -O2 queue_threads.c $(pkg-config --cflags --libs dsa_queue) -o queue_threads
 *     dsa_trace --seeds 20 --order all -- ./queue_threads
 *
 * Ends with 0 if the pages are as after the requests one after another.
 */
#include <pthread.h>
#include <stdio.h>
#include <stdlib.h>
#include <string.h>

#include <dsa_queue.h>

enum { PAGE = 4096, PAGES = 16, THREADS = 2, WINDOW = 8, REQUESTS = 400 };

static uint8_t pages[PAGES][PAGE], model[PAGES][PAGE], order[REQUESTS][3];
static int started;
static pthread_mutex_t lock = PTHREAD_MUTEX_INITIALIZER; /* of order and started, which only the comparison needs */
static struct dsa_queue *queue;

/* Starts one request; 0 if there are enough. */
static int request(struct dsa_list *list, unsigned *seed)
{
    const int s = rand_r(seed) % PAGES, m = (s + 1 + rand_r(seed) % (PAGES - 1)) % PAGES, t = (m + 1) % PAGES;
    dsa_list_clear(list);
    dsa_list_move(list, pages[s], pages[m], PAGE);
    dsa_list_move(list, pages[m], pages[t], PAGE);
    pthread_mutex_lock(&lock);
    const int is_one = started < REQUESTS && dsa_list_start(list) == DSA_LIST_RUNNING;
    if (is_one)
        memcpy(order[started++], (uint8_t[]){(uint8_t)s, (uint8_t)m, (uint8_t)t}, 3);
    pthread_mutex_unlock(&lock);
    return is_one;
}

static void *serve(void *number)
{
    struct dsa_list *lists[WINDOW];
    unsigned seed = (unsigned)(size_t)number;
    char why[DSA_WHY_ROOM];
    int in_flight = 0;
    for (int i = 0; i < WINDOW; i++) {
        lists[i] = dsa_list_get(queue);
        in_flight += request(lists[i], &seed);
    }
    for (int i = 0; in_flight > 0; i = (i + 1) % WINDOW) { /* the oldest first */
        if (dsa_list_wait(lists[i]) != DSA_LIST_DONE)
            fprintf(stderr, "%s\n", dsa_list_why(lists[i], why));
        in_flight -= !request(lists[i], &seed);
    }
    return NULL;
}

int main(int argc, char **argv)
{
    const struct dsa_queue_options options = {
        .flags = DSA_QUEUE_IN_FLIGHT | DSA_QUEUE_OR_SOFTWARE, .lists = THREADS * WINDOW, .pieces = 2};
    char why[DSA_WHY_ROOM];
    pthread_t threads[THREADS];
    queue = dsa_queue_open(argc > 1 ? argv[1] : NULL, &options, why);
    if (!queue)
        return fprintf(stderr, "%s\n", why), 2;
    for (int i = 0; i < PAGES; i++)
        memset(pages[i], i + 1, PAGE);
    memcpy(model, pages, sizeof pages);
    for (size_t i = 0; i < THREADS; i++)
        pthread_create(&threads[i], NULL, serve, (void *)(i + 1));
    for (int i = 0; i < THREADS; i++)
        pthread_join(threads[i], NULL);
    for (int i = 0; i < started; i++) {
        memcpy(model[order[i][1]], model[order[i][0]], PAGE);
        memcpy(model[order[i][2]], model[order[i][1]], PAGE);
    }
    const int is_same = started == REQUESTS && memcmp(model, pages, sizeof pages) == 0;
    printf("%s: %d requests, %s\n", dsa_queue_name(queue), started, is_same ? "as in order" : "DIFFERENT");
    dsa_queue_close(queue);
    return !is_same;
}
