/* What the launcher tells the library: it goes by variables of the environment, so that each process of a run has it.
 */
#ifndef DSA_TRACE_SETTINGS_H
#define DSA_TRACE_SETTINGS_H

#include <limits.h>
#include <stdbool.h>
#include <stdint.h>

/* FIFO and MEMBERS do each submission at once, MEMBERS with the members of an epoch in any order. DATA does those in
 * flight in any order but writes their records in theirs; ALL writes records in any order too. */
enum order { ORDER_FIFO, ORDER_MEMBERS, ORDER_DATA, ORDER_ALL };

enum { MOST_FRAMES = 32 }; /* frames of a call stack */

struct settings {
    enum order order;
    uint64_t seed;
    uint64_t delay;   /* microseconds that the program has to run on before anything in flight is done */
    uint64_t drawn;   /* after so many submissions only parts of the run have the delay; 0: all of it */
    uint64_t retry;   /* ENQCMD says "retry" once in this many times; 0: only when the queue is full */
    uint64_t fault;   /* a move without block-on-fault stops at a page of its source, once in so many; 0: never */
    uint64_t watch;   /* 1: it is seen which records the program looks at */
    uint64_t hold;    /* milliseconds for which what is in flight waits until a record is looked at; 0: it does not */
    uint64_t cpuid;   /* 1: CPUID says that the instructions exist */
    uint64_t signals; /* 1: each submission by a signal, and no code is changed */
    uint64_t stacks;  /* frames of the call stack that are recorded of a submission; 0: none */
    uint64_t verbose; /* 1: a line of counts at the end of each process */
    char out[PATH_MAX / 2];  /* the folder of the recordings; empty: none */
    char board[PATH_MAX / 2]; /* the file of the launcher's board; empty: none */
    char root[PATH_MAX / 2]; /* the folder of the tree, if names are turned in the library; else empty */
};

/* The names of the orders, in the order of their numbers. */
extern const char *const order_names[4];

/* The settings when no option is given. */
struct settings settings_default(void);
/* Sets the variables of the environment; false, with errno, if there is no memory. */
bool settings_export(const struct settings *s);
/* Reads them; those that are not set stay. */
void settings_import(struct settings *s);

#endif
