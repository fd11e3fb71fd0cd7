/* A block of a store as one list: it is copied into the journal with its checksum beside it; then the checksum of what
 * the journal has is made again, and only if the two are equal does the last move publish the block. The checksums are
 * made and compared by the device, and read in its completion records.
 *
 *     cc -O2 queue_checksum.c $(pkg-config --cflags --libs dsa_queue) -o queue_checksum
 *     dsa_trace --seeds 20 -- ./queue_checksum right
 *     dsa_trace --seeds 20 -- ./queue_checksum wrong
 *
 * `wrong` spoils a byte of the journal in between. Ends with 0 if the block is published exactly if it is right.
 */
#include <stdio.h>
#include <string.h>

#include <dsa_queue.h>

enum { BLOCK = 4096, CHECKSUM = 4 };

static uint8_t block[BLOCK], journal[BLOCK + CHECKSUM], spoilt[8], head[8], published[8];

int main(int argc, char **argv)
{
    const int is_right = argc == 2 && strcmp(argv[1], "right") == 0;
    char why[DSA_WHY_ROOM];
    struct dsa_queue *queue = dsa_queue_open(NULL, NULL, why);
    if (!queue)
        return fprintf(stderr, "%s\n", why), 2;
    for (int i = 0; i < BLOCK; i++)
        block[i] = (uint8_t)(i * 7);
    memcpy(spoilt, block, sizeof spoilt);
    spoilt[3] ^= is_right ? 0 : 0x10;
    memset(head, 1, sizeof head);

    struct dsa_list *list = dsa_list_get(queue);
    const int written = dsa_list_copy_crc(list, block, journal, BLOCK, 0);
    dsa_list_move(list, dsa_list_checksum(list, written), journal + BLOCK, CHECKSUM);
    dsa_list_move(list, spoilt, journal, sizeof spoilt);
    const int again = dsa_list_crc(list, journal, BLOCK, 0);
    dsa_list_check(list, dsa_list_checksum(list, again), journal + BLOCK, CHECKSUM); /* and a barrier */
    dsa_list_move(list, head, published, sizeof head);
    if (dsa_list_run(list) != DSA_LIST_DONE)
        printf("%s\n", dsa_list_why(list, why));
    printf("checksum %08x, %s\n", (unsigned)dsa_list_result(list, written).checksum,
           published[0] ? "published" : "not published");
    dsa_queue_close(queue);
    return (published[0] != 0) != is_right;
}
