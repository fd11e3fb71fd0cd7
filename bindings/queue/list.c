/* Adds operations to a list, and places them elsewhere. What it can't have is kept, as an error of stdio is, and
 * refused when it is run. */
#include "queue.h"

uint32_t operands_of(const uint8_t *d, struct operand operands[3])
{
    static const struct { uint8_t opcode, count, at[3]; } all[] = {
        {OPCODE_MOVE, 2, {16, 24, 0}}, {OPCODE_FILL, 1, {24, 0, 0}}, {OPCODE_COMPARE, 2, {16, 24, 0}},
        {OPCODE_COMPARE_PATTERN, 1, {16, 0, 0}}, {OPCODE_DELTA, 2, {16, 24, 0}}, {OPCODE_DUALCAST, 3, {16, 24, 40}},
        {OPCODE_CRC, 1, {16, SEED_AT, 0}}, {OPCODE_COPY_CRC, 2, {16, 24, SEED_AT}},
    };
    size_t i = 0;
    while (i < sizeof all / sizeof *all && all[i].opcode != d[7])
        i++;
    uint32_t count = i < sizeof all / sizeof *all ? all[i].count : 0;
    if (is_checksum(d) && d[6] & SEED_IN_MEMORY)
        count++;
    for (uint32_t k = 0; k < count; k++) {
        const bool is_delta = d[7] == OPCODE_DELTA && k == 0; /* it has a size of its own */
        const uint8_t at = all[i].at[k];
        const uint64_t len = at == SEED_AT ? 4 : number_at(d + (is_delta ? 40 : 32), 4);
        operands[k] = (struct operand){at, number_at(d + at, 8), len};
    }
    return count;
}

/// Keeps the first reason for which the list can't be run.
static int refuse(struct dsa_list *list, uint32_t operation, enum reason why, uint64_t size)
{
    if (!list->trouble) {
        list->trouble = why;
        list->at_fault = operation;
        list->size_at_fault = size;
    }
    return -1;
}

/// Whether the operation is a move within its own range, which not every device can do.
static bool overlaps(const uint8_t *d)
{
    return d[7] == OPCODE_MOVE && ranges_meet(number_at(d + 16, 8), number_at(d + 24, 8), number_at(d + 32, 4));
}

/// Whether the device can't do an operation of the list where it is now.
static bool is_misplaced(const struct dsa_list *list, uint32_t operation)
{
    return !list->queue->may_overlap && overlaps(list->list + ENTRY * operation);
}

/// The operations are others than those that were planned, and no result is that of the list as it is now.
static void change(struct dsa_list *list)
{
    list->is_planned = false;
    list->end = DSA_LIST_REFUSED;
    list->reason = NOT_RUN;
}

int dsa_list_add(struct dsa_list *list, const uint8_t descriptor[64], uint64_t size)
{
    const struct dsa_queue *queue = list->queue;
    const uint64_t pieces = pieces_of(queue, descriptor);
    flight_settle(list);
    uint8_t *to = list->list + ENTRY * list->operations;
    if (size > UINT32_MAX)
        return refuse(list, list->operations, TOO_LONG, size);
    if (list->pieces + pieces > queue->most)
        return refuse(list, list->operations, NO_ROOM, size);
    if (!queue->may_overlap && overlaps(descriptor))
        return refuse(list, list->operations, MAY_NOT_OVERLAP, size);
    memcpy(to, descriptor, ENTRY);
    dsa_put_number(to + 8, address_of(list->records + RECORD * list->pieces), 8);
    dsa_set_flags(to, 0x0c); /* the record's address is valid, and the record is requested */
    if (queue->flags & DSA_QUEUE_BLOCK_ON_FAULT)
        dsa_set_flags(to, DSA_BLOCK_ON_FAULT);
    if (list->is_after_barrier)
        dsa_set_flags(to, DSA_BARRIER);
    list->first[list->operations] = list->pieces;
    list->pieces += (uint32_t)pieces;
    list->first[list->operations + 1] = list->pieces;
    list->is_after_barrier = list->is_prepared = false;
    change(list);
    return (int)list->operations++;
}

void list_look(struct dsa_list *list)
{
    uint32_t i = 0;
    while (i < list->operations && !is_misplaced(list, i))
        i++;
    list->misplaced = i < list->operations ? OVERLAPS_NOW : NO_REASON;
    list->at_misplaced = (int)i;
}

/// Notes how an operation was placed: a wrong place of it is mended by a right one, and a wrong number, after which
/// nobody knows which operations are where they should be, by places of all.
static void note_place(struct dsa_list *list, int operation)
{
    if (list->misplaced == NOT_THERE) {
        list->placed += (uint32_t)operation == list->placed;
        if (list->placed == list->operations)
            list_look(list);
    } else if (list->misplaced && operation == list->at_misplaced)
        list_look(list);
    else if (!list->misplaced && is_misplaced(list, (uint32_t)operation)) {
        list->misplaced = OVERLAPS_NOW;
        list->at_misplaced = operation;
    }
}

int dsa_list_place(struct dsa_list *list, int operation, const void *first, const void *second, const void *third)
{
    const void *const places[] = {first, second, third};
    struct operand operands[3];
    flight_settle(list);
    change(list);
    if (operation < 0 || (uint32_t)operation >= list->operations) {
        list->reason = list->misplaced = NOT_THERE;
        list->at_misplaced = operation;
        list->placed = 0;
        return -1;
    }
    uint8_t *d = list->list + ENTRY * operation;
    for (uint32_t k = operands_of(d, operands); k > 0; k--)
        if (places[k - 1])
            dsa_put_number(d + operands[k - 1].at, address_of(places[k - 1]), 8);
    note_place(list, operation);
    if (list->misplaced)
        list->reason = list->misplaced;
    return is_misplaced(list, (uint32_t)operation) ? -1 : operation;
}

const void *dsa_list_checksum(const struct dsa_list *list, int operation)
{
    if (operation < 0 || (uint32_t)operation >= list->operations || !is_checksum(list->list + ENTRY * operation))
        return NULL;
    return list->records + RECORD * (size_t)list->first[operation] + CHECKSUM_AT;
}

void dsa_list_barrier(struct dsa_list *list)
{
    flight_settle(list);
    list->is_after_barrier = list->operations > 0;
}

void dsa_list_clear(struct dsa_list *list)
{
    flight_settle(list);
    list->operations = list->pieces = 0;
    list->is_after_barrier = list->is_prepared = false;
    list->trouble = list->misplaced = NO_REASON;
    flight_forget(list);
    change(list);
}
