/* What the files of the layer share. open.c opens a queue, driver.c its work queues, room.c has its memory and its
 * lists, list.c adds operations, run.c plans and submits, prepared.c plans lists once for other addresses, flight.c has
 * several lists in flight, portal.c submits entries and waits for them, software.c does them without a device, fault.c
 * goes on after a failure, and why.c says how a list has ended. */
#ifndef QUEUE_H
#define QUEUE_H

#include <pthread.h>
#include <stdatomic.h>
#include <stdbool.h>

#include "dsa_queue.h"

enum { PAGE = 4096, MOST_LISTS = 64, MOST_PORTS = 16, NAME_ROOM = 256, NAMES_ROOM = 1024, RECORD = 32, ENTRY = 64 };
enum { STATUS_SUCCESS = 1, STATUS_CHECK = 2, STATUS_FAULT = 3, STATUS_FAULT_BLOCKED = 4 };
enum { STATUS_BATCH = 5, STATUS_BATCH_FAULT = 6, IS_WRITE = 0x80 };
/* Of a checksum: where its seed is, the bit of byte 6 that it is in memory, and where the record has the checksum. */
enum { SEED_AT = 48, SEED_IN_MEMORY = 0x01, CHECKSUM_AT = 16 };
enum { OPCODE_BATCH = 1, OPCODE_MOVE = 3, OPCODE_FILL = 4, OPCODE_COMPARE = 5, OPCODE_COMPARE_PATTERN = 6,
       OPCODE_DELTA = 8, OPCODE_DUALCAST = 9, OPCODE_CRC = 0x10, OPCODE_COPY_CRC = 0x11 };

/* Why a list was refused, or has failed; the sentences are in why.c. */
enum reason {
    NO_REASON,
    NO_ROOM, TOO_LONG, MAY_NOT_OVERLAP,             /* of what was added; kept until the list is cleared */
    NOT_THERE, OVERLAPS_NOW,                        /* of what was placed; kept until that is right */
    NOT_RUN, EMPTY, FORKED, WITH_DEVICE, UNPLANNED, NO_MEMORY, /* nothing was begun */
    NOT_TRACKED, AFTER_FAILED, AFTER_LOST,          /* the same of a list that was started */
    OPERATION, BATCH, NOT_RESUMED, NO_PROGRESS, NOT_ACCEPTED, NOT_WRITTEN, NOT_ANSWERED
};

/* How long something has taken; the clock is looked at once in so many turns. */
struct patience { uint64_t turns, until; };

/* A work queue of the driver. */
struct port {
    void *portal;         /* NULL: entries are written to the file */
    int file;             /* -1: the portal is mapped */
    bool is_shared;
    _Atomic long credits; /* how many entries a dedicated queue still takes */
    char name[NAME_ROOM];
};

/* Of a list that was started. It is IDLE before, and after a call has answered that it has ended. */
enum state { IDLE, WAITING, READY, RUNG, ENDED };

struct dsa_list {
    struct dsa_queue *queue;
    void *tag;
    struct port *port;               /* that has its entries; NULL before it has the first */
    bool was_started, has_after;     /* of the thread that has the list: if neither is so, it need not take the lock */
    enum state state;                /* this and the next five under the lock of the queue */
    uint32_t slot;                   /* of the tracker */
    uint64_t after;                  /* a bit for each list that it comes after, whose start has not ended */
    bool is_after_failed;            /* one that it comes after has not succeeded */
    struct patience patience;        /* of its next entry, or of the one that is rung */
    _Atomic(const uint8_t *) watched; /* the record of the entry that is rung, or NULL */
    enum dsa_end end;
    enum reason trouble, reason;     /* what adding met first; of the last run */
    bool is_after_barrier;           /* a barrier comes before the next operation */
    bool is_planned;                 /* portal and staging submit the operations as they are */
    bool is_resumed;                 /* `left` has what is left of them */
    bool has_failed_check;
    const uint8_t *stopped_at;       /* the first record that says why it can't go on, or NULL */
    _Atomic bool is_lost;            /* the device has not answered its entry in time; cleared under the lock */
    uint32_t operations, pieces, entries, entry; /* `entry`: the next, or the one that has failed */
    uint32_t at_fault;               /* the operation of `trouble` */
    uint64_t size_at_fault;
    enum reason misplaced;           /* what placing met, or NO_REASON */
    int at_misplaced;                /* the operation that it was called for */
    uint32_t placed;                 /* after NOT_THERE: how many operations were placed anew, in order */
    uint64_t left_len, left_bytes;   /* of `left`, and of its transfers */
    uint32_t fruitless;              /* how often in a row resuming has left as much as before */
    uint8_t *records, *staging;      /* what the device touches, and the child of a fork has not */
    uint8_t *list, *left, *rest;     /* the operations; what is left of them after a failure; and room for that */
    uint8_t *portal, *gathered;      /* entries; records in the order of the pieces that are left */
    uint32_t *first;                 /* of each operation its first record, and one more */
    struct dsa_refusal refusal;
    struct form *form;               /* what preparing keeps; NULL before the first time */
    bool is_prepared;                /* it is of the operations, wherever they are now */
    int error;                       /* of write(), if an entry was not written */
};

struct dsa_queue {
    struct port port[MOST_PORTS];
    uint32_t ports;         /* 0: in software */
    _Atomic uint32_t turn;  /* of the ports */
    bool may_overlap, has_waitpkg;
    uint32_t flags, lists, most, wait_ms;
    struct dsa_settings settings;
    char name[NAMES_ROOM];
    uint8_t *shared, *own;   /* the memory of all lists: what the device touches, which a child of fork has not, and
                                the rest, whose first byte is 0 in a child of fork */
    size_t shared_size, own_size;
    _Atomic uint64_t taken; /* a bit for each list that somebody has */
    pthread_mutex_t lock;   /* of lists in flight, and the tracker, which is NULL if there are none */
    uint64_t *tracker;
    size_t words;
    uint64_t ready, rung, ended; /* a bit for each list */
    uint64_t lost;               /* a bit for each slot of a list that is lost */
    struct dsa_list *of_slot[MOST_LISTS];
    struct dsa_list list[MOST_LISTS];
};

/* A number of a descriptor or a record. */
static inline uint64_t number_at(const uint8_t *at, int bytes)
{
    uint64_t value = 0;
    memcpy(&value, at, (size_t)bytes);
    return value;
}

static inline uint64_t address_of(const void *at) { return (uintptr_t)at; }

/* The record of a descriptor. */
static inline uint8_t *record_of(const uint8_t *d) { return (uint8_t *)(uintptr_t)number_at(d + 8, 8); }

/* The status in a record, without the bit of a write. */
static inline uint8_t status_of(const uint8_t *record) { return __atomic_load_n(record, __ATOMIC_ACQUIRE) & 0x7f; }

/* How many pieces an operation is split into. */
static inline uint64_t pieces_of(const struct dsa_queue *queue, const uint8_t *d)
{
    const uint64_t size = number_at(d + 32, 4);
    return size ? (size - 1) / queue->settings.greatest_transfer + 1 : 1;
}

static inline bool ranges_meet(uint64_t one, uint64_t other, uint64_t size)
{
    return one - other < size || other - one < size;
}

static inline bool is_checksum(const uint8_t *d) { return d[7] == OPCODE_CRC || d[7] == OPCODE_COPY_CRC; }

/* ---- list.c ---- */
struct operand { uint8_t at; uint64_t first, len; };
/* What an operation reads and writes: where its descriptor has the address, the address and the bytes. They are in the
 * order in which the call that adds it takes them. Answers how many there are. */
uint32_t operands_of(const uint8_t *d, struct operand operands[3]);
/* Looks where all operations are now, and forgets that one was placed that the list has not. */
void list_look(struct dsa_list *list);

/* ---- driver.c ---- */
enum { STATE_ROOM = 64 };
/* Opens the work queue of this file as one more of the queue, and lowers its limits to those of this one; false, with a
 * sentence, if it can't be used. */
bool driver_open(struct dsa_queue *queue, const char *file, char why[DSA_WHY_ROOM]);
/* The same of the first one that can be opened. */
bool driver_open_first(struct dsa_queue *queue, char why[DSA_WHY_ROOM]);
/* Whether the name is that of a queue's file, wq and two numbers, and there is no such file. */
bool driver_is_absent(const char *file);
/* Whether the driver has a device. */
bool driver_has_device(void);
/* Closes the work queues. In a child of fork no portal is mapped. */
void driver_close(struct dsa_queue *queue, bool is_own);
/* What the driver says of a work queue now: enabled, disabled, .. */
const char *driver_state(const struct port *port, char state[STATE_ROOM]);

/* ---- room.c ---- */
bool room_take(struct dsa_queue *queue, char why[DSA_WHY_ROOM]);
/* Whether this process has opened the queue, and is not a child of the one that has. */
bool room_is_own(const struct dsa_queue *queue);
/* Whether the device has still not answered the entry that the list has lost. */
bool room_is_lost(struct dsa_list *list);

/* ---- portal.c ---- */
enum answer { ACCEPTED, ANSWERED, REFUSED_FULL, UNWRITTEN, SILENT };
/* Submits an entry of the list, whose record is clear, and waits until that has a status. */
enum answer portal_do(struct dsa_list *list, const uint8_t *entry, uint8_t *status);
/* Submits an entry once: ACCEPTED, REFUSED_FULL, or UNWRITTEN. The first of a list goes to any work queue that has
 * room, in turn, and those after it to the same one. */
enum answer portal_submit(struct dsa_list *list, const uint8_t *entry);
/* The list's entry has ended: a dedicated queue takes one more. */
void portal_credit(struct dsa_list *list);
/* Sleeps until the line of the record is written, or for a moment. */
void portal_rest(const struct dsa_queue *queue, const uint8_t *record);
/* One more turn: whether the limit has passed. */
bool portal_is_over(struct patience *patience, uint32_t limit_ms);

/* ---- software.c ---- */
/* Does an entry, a batch or a lone descriptor, by the processor, and writes its records. */
void software_do(const uint8_t *entry, const struct dsa_settings *limits);

/* ---- flight.c ---- */
/* If the device has answered a list that was lost, it can be used again, and others need not be left out for it. */
void flight_recover(struct dsa_list *list);
/* Waits for a list that is in flight, before it is changed. */
void flight_settle(struct dsa_list *list);
/* The list comes after no other any more. */
void flight_forget(struct dsa_list *list);
/* Waits for a list that is given back. For those that were to come after its next start, that has failed. */
void flight_leave(struct dsa_list *list);

/* ---- run.c ---- */
/* Makes the list ready for its first entry; else why it can't be run. */
enum reason run_begin(struct dsa_list *list);
/* Why an entry was not submitted. */
enum reason run_hindered(enum answer answer);
/* Writes what submits these operations, whose records are clear. */
bool run_plan(struct dsa_list *list, const uint8_t *operations, uint64_t len);

/* ---- prepared.c ---- */
/* Writes what submits a prepared list at its addresses of now; false if it is not prepared, or has to be planned. */
bool prepared_fill(struct dsa_list *list);
void prepared_free(struct dsa_list *list);

/* ---- fault.c ---- */
/* After an entry that has failed: makes pages present, and plans what is left, which may be nothing. False: the list
 * has failed for good, and its reason says why. */
bool fault_resume(struct dsa_list *list);

/* ---- why.c ---- */
/* Writes a sentence; false, for the caller to answer. */
bool why_not(char why[DSA_WHY_ROOM], const char *format, ...) __attribute__((format(printf, 2, 3)));

#endif
