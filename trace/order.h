/* What is kept of submissions in flight: taken in (intake.c), drawn (order.c, random.c) when the program has had its
 * time (pace.c), and done (execute.c). */
#ifndef DSA_TRACE_ORDER_H
#define DSA_TRACE_ORDER_H

#include <pthread.h>

#include "random.h"
#include "trace.h"

/* `turn` has the members by number: those before `begun` are done, those before `end` may be done now. */
struct submission {
    struct submission *next;
    uint64_t number;
    struct queue *queue;
    descriptor entry;
    uint32_t count, begun, end;
    bool is_batch, has_failed, is_done;
    bool is_at_once; /* the thread that submits does it */
    int watch; /* a watchpoint, or -1 */
    struct origin origin;
    completion last;
    uint16_t turn[GREATEST_BATCH];
    descriptor members[GREATEST_BATCH]; /* as submitted, or else as executed; of a lone descriptor the entry */
};

/* ---- execute.c: one descriptor ---- */
uint8_t execute_take(struct submission *s, completion *r);
bool execute_fetch(struct submission *s, unsigned index, completion *r);
void execute(const struct submission *s, unsigned index, completion *r);
/* The member, or -1 for the submission's own record. */
bool execute_record(const struct submission *s, int member, const completion *r);
void execute_operation(const descriptor *d, completion *r, uint64_t draw);

/* ---- records.c: completion records of what is in flight ---- */
void records_enter(const struct submission *s, int member, const descriptor *d);
void records_check(const struct submission *s, int member, const descriptor *d);
void records_write(const descriptor *d, const completion *r);
void records_leave(const descriptor *d);
void records_forget(void);

/* ---- pace.c: when the program has had its time ---- */
struct pace {
    pid_t thread;     /* that submitted last */
    int64_t cpu, wall; /* nanoseconds, of its processor time and of the clock, at the last submission or record */
    volatile bool waits; /* it waits by an instruction */
};
/* A submission by this thread, or with 0 a record. */
void pace_begin(struct pace *p, pid_t thread);
/* Nanoseconds since then. */
int64_t pace_since(const struct pace *p);
/* Whether the program has run for the delay since then, or waits; else *wait has the nanoseconds after which to ask
 * again. */
bool pace_is_quiet(const struct pace *p, int64_t *wait);

/* ---- order.c ---- */
struct order_state {
    pthread_mutex_t lock;
    pthread_cond_t work, idle;
    pid_t pid;                /* the process whose state this is */
    _Atomic bool has_worker;
    bool sleeps;              /* the worker waits for a signal on `work` */
    _Atomic bool wants_room;  /* ENQCMD has found a queue full, and nothing has left one since */
    _Atomic pid_t worker;
    _Atomic int arriving;     /* threads that are about to submit */
    struct submission *head, **tail, *unused;
    struct random choices, retries;
    struct pace pace;
    uint64_t submitted, batches, members, dropped, records;
    _Atomic uint64_t retried;
};
extern struct order_state order;
/* Whether a thread of ours does the work. */
bool order_is_async(void);
/* Whether this submission, not yet among those in flight, is done by the thread that submits it. */
bool order_is_at_once(const struct submission *s);
/* The following are called with the lock. */
void order_find_epoch(struct submission *s);
void order_watch(struct submission *s);
void order_complete(struct submission *s, const completion *r);
void order_step(struct submission *s);

#endif
