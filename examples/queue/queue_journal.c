/* A journal as one list: seven values and a header go to the log, two checksums are read back, and only if both are
 * right does the log's new head become valid; then a flag is set that readers poll. The queue does the rest, also after
 * page faults.
 *
 *     cc -O2 queue_journal.c $(pkg-config --cflags --libs dsa_queue) -o queue_journal
 *     dsa_trace --seeds 20 --order all --fault 2 -- ./queue_journal right
 *     dsa_trace --seeds 20 --order all --fault 2 -- ./queue_journal wrong
 *
 * Ends with 0 if the head is valid, and the flag set, exactly if the checksums are right.
 */
#include <stdio.h>
#include <string.h>

#include <dsa_queue.h>

enum { VALUES = 7, VALUE = 6000, HEADER = 64 };

static uint8_t values[VALUES][VALUE], header[HEADER], journal[VALUES][VALUE], journal_header[HEADER];
static uint8_t checksums[2][8], head[8], valid_head[8], flag[8];

static void put(struct dsa_list *list)
{
    for (int i = 0; i < VALUES; i++)
        dsa_list_move(list, values[i], journal[i], VALUE);
    dsa_list_move(list, header, journal_header, HEADER);
    dsa_list_check(list, journal_header, checksums[0], 8); /* and a barrier */
    dsa_list_check(list, journal[VALUES - 1] + VALUE - 8, checksums[1], 8);
    dsa_list_move(list, head, valid_head, sizeof head);
    dsa_list_barrier(list);
    dsa_list_fill(list, flag, sizeof flag, 0x0101010101010101);
}

int main(int argc, char **argv)
{
    const int is_right = argc > 1 && strcmp(argv[1], "right") == 0;
    char why[DSA_WHY_ROOM];
    struct dsa_queue *queue = dsa_queue_open(argc > 2 ? argv[2] : NULL, NULL, why);
    if (!queue)
        return fprintf(stderr, "%s\n", why), 2;
    memset(values, 0x33, sizeof values);
    memset(header, 0x5a, sizeof header);
    memset(checksums[0], 0x5a, 8);
    memset(checksums[1], is_right ? 0x33 : 0x34, 8);
    memset(head, 1, sizeof head);
    struct dsa_list *list = dsa_list_get(queue);
    put(list);
    const enum dsa_end end = dsa_list_run(list);
    printf("%s\n", dsa_list_why(list, why));
    dsa_queue_close(queue);
    const int is_valid = valid_head[0] == 1, is_set = flag[0] == 1;
    return is_valid != is_right || is_set != is_right || (end == DSA_LIST_DONE) != is_right ||
           memcmp(values, journal, sizeof values) != 0;
}
