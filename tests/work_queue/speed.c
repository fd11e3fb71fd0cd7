/* What the layer adds to a list, in nanoseconds: beside what a program does by hand, with the device in software, which
 * has ended an entry when its submission returns. Both are in one process and take turns.
 *     speed [ROUNDS]     prints a line for each number of moves, with medians of the rounds; it judges nothing
 * By hand: the descriptors are written and planned, or filled for other buffers, records cleared, each entry submitted
 * and its record looked at. */
#include <stdio.h>
#include <stdlib.h>
#include <string.h>
#include <time.h>

#include "queue.h"

enum { MOVES = 32, BYTES = 64, TIMES = 100, MOST_ROUNDS = 1001, WAYS = 7 };

/* A list by hand: two areas, and what planning and filling write. */
struct by_hand {
    int moves;
    uint64_t portal_len, rows;
    struct dsa_settings settings;
    struct dsa_region regions[2];
    _Alignas(64) uint8_t list[64 * MOVES], portal[64 * MOVES], records[32 * MOVES], staging[96 * MOVES];
    struct dsa_prepared_row row[DSA_PREPARED_ROOM(2, MOVES)];
};

/* A list by each way of the layer, on queues of their own. */
struct lists { struct dsa_list *list, *again, *placed, *in_flight; };

static _Alignas(4096) uint8_t areas[2][2 * MOVES][BYTES];
static struct by_hand hand, filled;
static struct lists lists;

static void must(int is_right)
{
    if (!is_right) {
        fprintf(stderr, "speed: a list has not ended as it has to\n");
        exit(1);
    }
}

static double now(void)
{
    struct timespec t;
    clock_gettime(CLOCK_MONOTONIC, &t);
    return (double)t.tv_sec * 1e9 + (double)t.tv_nsec;
}

static void put_moves(struct by_hand *h)
{
    for (int i = 0; i < h->moves; i++)
        dsa_put_move(h->list + 64 * i, (uintptr_t)areas[0][2 * i], (uintptr_t)areas[0][2 * i + 1], BYTES,
                     (uintptr_t)(h->records + 32 * i));
}

static void plan(struct by_hand *h)
{
    struct dsa_planned planned;
    struct dsa_refusal refusal;
    must(dsa_plan_list(&h->settings, &h->settings.batch, 0, h->list, 64 * (size_t)h->moves, h->portal, sizeof h->portal,
                       h->staging, sizeof h->staging, &planned, &refusal) == DSA_OK);
    h->portal_len = planned.portal_len;
}

/* Submits what was planned. That of a batch has a record of its own, which is clear after planning alone. */
static void submit(struct by_hand *h)
{
    memset(h->records, 0, 32 * (size_t)h->moves);
    for (uint64_t at = 0; at < h->portal_len; at += ENTRY) {
        uint8_t *record = record_of(h->portal + at);
        memset(record, 0, RECORD);
        software_do(h->portal + at, &h->settings);
        must(__atomic_load_n(record, __ATOMIC_ACQUIRE) == STATUS_SUCCESS);
    }
}

static void hand_planned(int turn)
{
    (void)turn;
    put_moves(&hand);
    plan(&hand);
    submit(&hand);
}

static void hand_again(int turn)
{
    (void)turn;
    submit(&hand);
}

static void hand_filled(int turn)
{
    const uint64_t bases[2] = {address_of(areas[turn % 2]), address_of(filled.records)};
    const int is_first = bases[0] < bases[1];
    struct dsa_refusal refusal;
    must(dsa_fill(filled.row, filled.rows, (uint64_t[]){bases[!is_first], bases[is_first]}, 2, filled.settings.staging,
                  filled.portal, sizeof filled.portal, filled.staging, sizeof filled.staging, &refusal) == DSA_OK);
    submit(&filled);
}

static void add_moves(struct dsa_list *list)
{
    dsa_list_clear(list);
    for (int i = 0; i < hand.moves; i++)
        dsa_list_move(list, areas[0][2 * i], areas[0][2 * i + 1], BYTES);
}

static void layer_planned(int turn)
{
    (void)turn;
    add_moves(lists.list);
    must(dsa_list_run(lists.list) == DSA_LIST_DONE);
}

static void layer_again(int turn)
{
    (void)turn;
    must(dsa_list_run(lists.again) == DSA_LIST_DONE);
}

static void layer_placed(int turn)
{
    for (int i = 0; i < hand.moves; i++)
        dsa_list_place(lists.placed, i, areas[turn % 2][2 * i], areas[turn % 2][2 * i + 1], NULL);
    must(dsa_list_run(lists.placed) == DSA_LIST_DONE);
}

static void layer_in_flight(int turn)
{
    (void)turn;
    add_moves(lists.in_flight);
    must(dsa_list_start(lists.in_flight) == DSA_LIST_RUNNING && dsa_list_wait(lists.in_flight) == DSA_LIST_DONE);
}

static void (*const ways[WAYS])(int turn) = {hand_planned, hand_again,   hand_filled,    layer_planned,
                                             layer_again,  layer_placed, layer_in_flight};

static int compare(const void *one, const void *other)
{
    const double a = *(const double *)one, b = *(const double *)other;
    return (a > b) - (a < b);
}

static void begin_by_hand(struct by_hand *h, int moves, const struct dsa_queue *queue)
{
    struct dsa_prepared_info info;
    struct dsa_refusal refusal;
    h->moves = moves;
    h->settings = queue->settings;
    h->settings.staging = address_of(h->staging);
    put_moves(h);
    plan(h);
    const int is_first = address_of(areas[0]) < address_of(h->records);
    h->regions[!is_first] = (struct dsa_region){address_of(areas[0]), sizeof areas[0]};
    h->regions[is_first] = (struct dsa_region){address_of(h->records), sizeof h->records};
    must(dsa_prepare(&h->settings, &h->settings.batch, 0, h->list, 64 * (size_t)moves, h->regions, 2, h->row,
                     sizeof h->row / sizeof *h->row, &info, &refusal) == DSA_OK);
    h->rows = info.rows;
}

/* The ways take turns; each has the median of its rounds. */
static void measure(int rounds, double medians[WAYS])
{
    static double took[WAYS][MOST_ROUNDS];
    for (int round = 0; round < rounds; round++)
        for (int way = 0; way < WAYS; way++) {
            const double start = now();
            for (int i = 0; i < TIMES; i++)
                ways[way](i);
            took[way][round] = (now() - start) / TIMES;
        }
    for (int way = 0; way < WAYS; way++) {
        qsort(took[way], (size_t)rounds, sizeof **took, compare);
        medians[way] = took[way][rounds / 2];
    }
}

static struct dsa_queue *opened(uint32_t flags)
{
    char why[DSA_WHY_ROOM];
    const struct dsa_queue_options options = {.flags = DSA_QUEUE_SOFTWARE | flags};
    struct dsa_queue *queue = dsa_queue_open(NULL, &options, why);
    must(queue != NULL);
    return queue;
}

int main(int argc, char **argv)
{
    static const int moves[] = {1, 8, 32};
    const int rounds = argc > 1 ? atoi(argv[1]) : 101;
    struct dsa_queue *queue = opened(0), *in_flight = opened(DSA_QUEUE_IN_FLIGHT);
    must(rounds > 0 && rounds <= MOST_ROUNDS);
    lists = (struct lists){dsa_list_get(queue), dsa_list_get(queue), dsa_list_get(queue), dsa_list_get(in_flight)};
    for (size_t i = 0; i < sizeof moves / sizeof *moves; i++) {
        double ns[WAYS];
        begin_by_hand(&hand, moves[i], queue);
        begin_by_hand(&filled, moves[i], queue);
        add_moves(lists.again);
        add_moves(lists.placed);
        must(dsa_list_prepare(lists.placed) == 0);
        measure(rounds, ns);
        printf("%2d moves: planned %.0f by hand, %.0f by the layer; again %.0f, %.0f; other buffers %.0f, %.0f; in "
               "flight %.0f\n", moves[i], ns[0], ns[3], ns[1], ns[4], ns[2], ns[5], ns[6]);
    }
    dsa_queue_close(queue);
    dsa_queue_close(in_flight);
    return 0;
}
