/* The parts of the library that is loaded into programs. README.md follows one submission through them. */
#ifndef DSA_TRACE_H
#define DSA_TRACE_H

#include <setjmp.h>
#include <signal.h>
#include <sys/types.h>

#include "operations.h"
#include "settings.h"

enum { QUEUES = 64, PORTALS = 256 };

extern struct settings settings;

/* A work queue. */
struct queue {
    int device, id;
    bool is_shared;
    uint32_t size;
    struct limits limits;
    _Atomic uint32_t in_flight; /* this and the next are written under the lock of order.c */
    bool may_map;               /* else mmap refuses its portal, as the driver does for programs without a right */
    bool is_mistaken;           /* that the instruction is that of the other mode is said */
};

/* ---- begin.c ---- */
/* Begins the library in this process, if that is not done. */
void library_begin(void);

/* ---- started.c: programs that this one starts ---- */
void started_begin(void);

/* ---- say.c: sentences on standard error, safe in a handler of signals ---- */
void say(const char *format, ...) __attribute__((format(printf, 1, 2)));
/* The C library's own function of this name, kept in *found. */
void *real(const char *name, void **found);
#define REAL_OF(name) static void *found_##name
#define REAL(name) ((__typeof__(&name))real(#name, &found_##name))

/* ---- process.c ---- */
/* Whether this is called for the first time in this process. */
bool process_is_new(void);
/* Whether it was called. */
bool process_is_known(void);
/* Whether this is a child by vfork of a process in which process_is_new was called. */
bool process_is_borrowed(void);
/* The number of this thread; process_is_new was called in this process before. */
pid_t process_thread(void);

/* ---- written.c: what is written to files ---- */
void written_begin(void);

/* ---- files.c: the device's files ---- */
enum { LONGEST_ATTRIBUTE = 4096 };
/* The path in the tree, if names are turned and this is one of the device's; else the path itself. */
const char *files_turned(const char *path, char room[PATH_MAX]);
/* Applies what was written to the bind and unbind files, by a shell's stdio for example. */
void files_settle(const char *path);
void files_settle_now(void);
/* What an open file is; `queue` is NULL if that of a queue can't be read, and errno then says why. */
struct opened { enum { OF_OTHERS, OF_QUEUE, OF_ATTRIBUTE } kind; struct queue *queue; };
struct opened files_opened(int fd);
/* The queue whose file is mapped at an address, or NULL. */
struct queue *files_mapped(uintptr_t at);

/* ---- portals.c: the pages that programs map ---- */
/* The queue at whose portal this address is, or NULL. It takes no lock, so it may be asked in a handler of signals. */
struct queue *portals_at(uintptr_t address);
void portals_forget(void);
/* The queue whose file is mapped there without our functions of that name; it is a portal from then on. */
struct queue *portals_adopt(uintptr_t address);
/* The queue of this device and number; a new one is read by `fill`, which answers false if there is none. */
struct queue *portals_queue(int device, int id, bool (*fill)(struct queue *));

/* ---- memory.c: the program's memory, of which any part may be missing ---- */
struct fault { uint64_t address; bool is_write; };
struct guard { volatile sig_atomic_t is_set; sigjmp_buf escape; struct fault fault; };
extern __thread struct guard guard;
/* Copies `size` bytes; false if some byte can't be touched, and where is in *fault unless that is NULL. */
bool memory_copy(void *to, const void *from, size_t size, struct fault *fault);
void memory_begin(void);
/* Permits all protection keys to this thread; and those before. */
uint32_t memory_permit(void);
void memory_permit_as(uint32_t keys);
/* In a handler: leaves the copy or the operation that this thread does for the device, if it does one. */
void memory_escape(const siginfo_t *info, const void *context);

/* ---- stacks.c and walk.c: where submissions come from ---- */
/* The instruction that submits and the one after it, or the return address of a call twice, and the program's stack and
 * frame pointers there. */
struct submitter { uintptr_t at, next, sp, bp; };
/* The number of a call stack, 0 for none, and nanoseconds since the first submission. */
struct origin { unsigned stack; uint64_t time; };
/* The following are called with the lock of order.c. */
struct origin stacks_origin(const struct submitter *s);
/* At the end of the process. */
void stacks_finish(void);
/* In a child of fork. */
void stacks_forget(void);

/* ---- order.c and intake.c: submissions in flight, and in which order they are done ---- */
enum accepted { ACCEPTED, FULL };
void order_begin(void);
/* Starts the thread that does the work, if it does not run in this process. */
void order_start(void);
/* Around order_submit, from as early as possible: a thread of the program is about to submit. */
void order_arrive(void);
void order_leave(void);
/* Of a signal that was sent: whether it comes again when this thread has left, or to another thread. */
bool order_postpones(int signal);
enum accepted order_submit(struct queue *q, const descriptor *d, bool is_enqueued, const struct submitter *by);
/* The program waits by an instruction: what is in flight need not wait for it. */
void order_program_waits(void);
/* At the end of the process: what is in flight has a second. */
void order_finish(void);

/* ---- record.c: the recording and the events, both under the lock of order.c ---- */
struct submitted {
    uint64_t number;
    const struct queue *queue;
    const descriptor *entry, *members;
    uint32_t count;
    struct origin origin;
};
/* Whether this process is recorded. */
bool record_is_on(void);
/* A whole line of NAME.PID.stacks; false, with errno, if it can't be written. */
bool record_origin(const char *line, size_t length);
void record_submission(const struct submitted *s);
/* Events are lines: a letter, a number and up to two more, -1 for none. */
void record_event(char letter, uint64_t number, int64_t member, int64_t status);
/* Errors are lines of a file of their own: a letter, the submission, a member or -1, an address. */
void record_error(char letter, uint64_t number, int64_t member, uint64_t address);
/* A submission that the full queue has dropped after so many others. */
void record_dropped(uint64_t number, const struct queue *q);
/* The recording breaks off here; errno says why. */
void record_give_up(const char *what);
void record_finish(void);
/* After fork: the files are the parent's. */
void record_forget(void);

/* ---- board.c: what the launcher learns of this process (board.h) ---- */
void board_begin(void);
bool board_is_there(void);
void board_submitted(void);
void board_unwatched(const char *why);
void board_half_watched(void);
void board_lose(const char *recording, const char *why);

/* ---- watch.c: hardware watchpoints on completion records ---- */
enum { WATCHES = 4 };
int watch_open(uint64_t record, pid_t except); /* a number, or -1 if there is none */
bool watch_is_touched(int watch);
bool watch_has(uint64_t record);
void watch_completed(int watch, uint64_t number);
void watch_note_seen(void);
void watch_reuse(uint64_t record);
void watch_forget(void);

/* ---- masks.c: which signals the program blocks ---- */
/* Unblocks ours. */
void masks_begin(void);
/* Takes ours out of a set. */
void masks_spare(sigset_t *set);

/* ---- signals.c ---- */
void signals_install(void);
/* Blocks all signals for this thread but faults of memory, until they are restored: also those by which the C library
 * cancels threads, so that none of the program's code runs, and no thread ends, while it has a lock of ours. */
uint64_t signals_block(void);
void signals_restore(uint64_t before);

#endif
