/* Random lists of moves and fills over one memory, and what they leave one after another. */
#ifndef LISTS_H
#define LISTS_H

#include <stdbool.h>
#include <stddef.h>
#include <stdint.h>

enum { LISTS = 32, OPERATIONS = 12, LONGEST = 200, DATA = 4096 };
enum { RECORDS = DATA, STAGING = RECORDS + 32 * OPERATIONS * LISTS, BYTES = STAGING + 96 * OPERATIONS * LISTS };
enum { FILL = 0x04, MOVE = 0x03 };

/* Places are numbers of bytes of the memory. */
struct operation {
    uint8_t code;
    size_t source, target, size;
    uint8_t pattern[8];
};

struct list {
    struct operation operations[OPERATIONS];
    size_t number, count;
    bool is_of_spans;
};

/* A number below n. */
uint64_t below(uint64_t *state, uint64_t n);

/* Ends the program with these words unless all is right. */
void need(bool is_right, const char *what);

size_t record_of(const struct list *l, size_t operation);
size_t staging_of(const struct list *l);

void any_lists(struct list *lists, uint64_t *state);

/* Does the list at once, with its staging area and its records. */
void do_in_order(uint8_t *memory, const struct list *l);

bool conflict(const struct list *a, const struct list *b);

#endif
