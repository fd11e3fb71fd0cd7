/* Plans a list once, and fills it for the buffers of each turn of a ring: docs/USING.md, "A ring of buffers". */
#include <stdint.h>
#include <stdio.h>
#include <stdlib.h>
#include <string.h>
#include <dsa_descriptors.h>
#include <dsa_planner.h>

enum { SLOTS = 3, SIZE = 4096, PIECES = 2 };

/* A slot of the ring. Its records and its staging area are the device's too. */
struct slot {
    uint8_t in[SIZE], copy[SIZE], out[SIZE];
    _Alignas(32) uint8_t records[32 * PIECES];
    _Alignas(64) uint8_t staging[DSA_STAGING_AREA(PIECES)];
};

static struct slot ring[SLOTS];

static uint64_t at(const void *memory) { return (uint64_t)(uintptr_t)memory; }

int main(void)
{
    const struct dsa_settings s = {1, 32, 2097152, 10, 14, 3, at(ring[0].staging)};
    const struct dsa_region buffers[] = {
        {at(ring[0].in), SIZE}, {at(ring[0].copy), SIZE}, {at(ring[0].out), SIZE}, {at(ring[0].records), 32 * PIECES}};
    struct dsa_prepared_row rows[DSA_PREPARED_ROOM(4, PIECES)];
    struct dsa_prepared_info info;
    struct dsa_refusal refusal;
    uint8_t list[64 * PIECES], portal[DSA_PORTAL_ROOM(PIECES)];

    /* once: from in to copy, from copy to out, with the buffers of the first slot */
    dsa_put_move(list, at(ring[0].in), at(ring[0].copy), SIZE, at(ring[0].records));
    dsa_put_move(list + 64, at(ring[0].copy), at(ring[0].out), SIZE, at(ring[0].records + 32));
    if (dsa_prepare(&s, &s.batch, 0, list, sizeof list, buffers, 4, rows, DSA_PREPARED_ROOM(4, PIECES), &info,
                    &refusal))
        return EXIT_FAILURE;

    for (int turn = 0; turn < SLOTS; turn++) { /* each turn: the staging bytes go where the device reads them */
        struct slot *slot = &ring[turn];
        const uint64_t bases[] = {at(slot->in), at(slot->copy), at(slot->out), at(slot->records)};
        memset(slot->records, 0, sizeof slot->records);
        if (dsa_fill(rows, info.rows, bases, 4, at(slot->staging), portal, sizeof portal, slot->staging,
                     sizeof slot->staging, &refusal))
            return EXIT_FAILURE;
        /* here: write each 64 bytes of portal to the queue's portal, as under "Submitting" */
        uint64_t record;
        memcpy(&record, portal + 8, 8);
        printf("slot %d: %d entry, its record at staging + %d\n", turn, (int)info.portal_len / 64,
               (int)(record - at(slot->staging)));
    }
    return EXIT_SUCCESS;
}
