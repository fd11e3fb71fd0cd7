/* Random lists of moves and fills, and what they leave one after another. */
#include "lists.h"

#include <stdio.h>
#include <stdlib.h>
#include <string.h>

uint64_t below(uint64_t *state, uint64_t n)
{
    uint64_t z = *state += UINT64_C(0x9e3779b97f4a7c15);
    z = (z ^ (z >> 30)) * UINT64_C(0xbf58476d1ce4e5b9);
    z = (z ^ (z >> 27)) * UINT64_C(0x94d049bb133111eb);
    return (z ^ (z >> 31)) % n;
}

void need(bool is_right, const char *what)
{
    if (is_right)
        return;
    printf("%s\n", what);
    exit(EXIT_FAILURE);
}

size_t record_of(const struct list *l, size_t operation)
{
    return RECORDS + 32 * (OPERATIONS * l->number + operation);
}

size_t staging_of(const struct list *l)
{
    return STAGING + 96 * OPERATIONS * l->number;
}

void any_lists(struct list *lists, uint64_t *state)
{
    const size_t most = 1 + below(state, OPERATIONS), longest = 1 + below(state, LONGEST);
    const size_t window = LONGEST + 1 + below(state, DATA - LONGEST);
    memset(lists, 0, LISTS * sizeof *lists);
    for (size_t i = 0; i < LISTS; i++) {
        lists[i].number = i;
        lists[i].count = 1 + below(state, most);
        lists[i].is_of_spans = below(state, 2);
        for (size_t k = 0; k < lists[i].count; k++) {
            struct operation *o = &lists[i].operations[k];
            o->code = below(state, 4) ? MOVE : FILL;
            o->size = 1 + below(state, longest);
            o->source = below(state, window - o->size + 1);
            o->target = below(state, window - o->size + 1);
            for (size_t b = 0; b < 8; b++)
                o->pattern[b] = (uint8_t)below(state, 256);
        }
    }
}

void do_in_order(uint8_t *memory, const struct list *l)
{
    memset(memory + staging_of(l), (int)l->number + 1, 96 * l->count);
    for (size_t k = 0; k < l->count; k++) {
        const struct operation *o = &l->operations[k];
        if (o->code == MOVE)
            memmove(memory + o->target, memory + o->source, o->size);
        for (size_t b = 0; o->code == FILL && b < o->size; b++)
            memory[o->target + b] = o->pattern[b % 8];
        memset(memory + record_of(l, k), (int)l->number + 1, 32);
        memory[record_of(l, k)] = 1;
    }
}

static bool meet(size_t a, size_t a_len, size_t b, size_t b_len)
{
    return a < b + b_len && b < a + a_len;
}

static bool operations_conflict(const struct operation *a, const struct operation *b)
{
    return meet(a->target, a->size, b->target, b->size) ||
           (b->code == MOVE && meet(a->target, a->size, b->source, b->size)) ||
           (a->code == MOVE && meet(a->source, a->size, b->target, b->size));
}

bool conflict(const struct list *a, const struct list *b)
{
    for (size_t i = 0; i < a->count; i++)
        for (size_t k = 0; k < b->count; k++)
            if (operations_conflict(&a->operations[i], &b->operations[k]))
                return true;
    return false;
}
