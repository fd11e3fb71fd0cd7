/* A write of a key-value store as one list: the value and its header go to the log, the checksum in the header is read
 * back, and only if it is right does the last move publish the new head. No address says so; the check does.
 *
 *     cc -O2 publish.c $(pkg-config --cflags --libs dsa_queue) -o publish
 *     dsa_trace --seeds 20 -- ./publish right
 *     dsa_trace --seeds 20 -- ./publish wrong
 *
 * Ends with 0 if the head is published exactly if the checksum is right.
 */
#include <stdio.h>
#include <string.h>

#include <dsa_queue.h>

enum { VALUE = 4096, HEADER = 64, CHECKSUM = 56 };

static uint8_t value[VALUE], header[HEADER], journal[HEADER + VALUE], checksum[8], head[8], published[8];

int main(int argc, char **argv)
{
    const int is_right = argc == 2 && strcmp(argv[1], "right") == 0;
    char why[DSA_WHY_ROOM];
    struct dsa_queue *queue = dsa_queue_open(NULL, NULL, why);
    if (!queue)
        return fprintf(stderr, "%s\n", why), 2;
    memset(header, 0x5a, sizeof header);
    memset(checksum, is_right ? 0x5a : 0xa5, sizeof checksum);
    memset(head, 1, sizeof head);

    struct dsa_list *list = dsa_list_get(queue);
    dsa_list_move(list, value, journal + HEADER, VALUE);
    dsa_list_move(list, header, journal, HEADER);
    dsa_list_check(list, journal + CHECKSUM, checksum, sizeof checksum); /* and a barrier */
    dsa_list_move(list, head, published, sizeof head);
    if (dsa_list_run(list) != DSA_LIST_DONE)
        printf("%s\n", dsa_list_why(list, why));
    dsa_queue_close(queue);
    printf(published[0] ? "published\n" : "not published\n");
    return (published[0] != 0) != is_right;
}
