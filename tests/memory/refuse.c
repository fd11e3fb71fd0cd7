/*
 * Put before a program (LD_PRELOAD), it refuses the program allocations and starts of threads, and makes its standard
 * input and output slow or faulty. All numbers count from 1.
 *
 *   HOSTILE_FIRST, HOSTILE_LAST     the first and the last allocation that is refused
 *   HOSTILE_THREAD                  the start of a thread that is refused
 *   HOSTILE_HOLD                    if it is not 0, threads that are started before that one begin a while after the refusal
 *   HOSTILE_REPORT                  the file that gets a line at the end: how many allocations were asked for, how many
 *                                   starts of threads, how many late reads (those of standard input past its end,
 *                                   after a read that failed, or once anything was written), how many threads were
 *                                   started and have not ended, and how many microseconds of a processor all took together
 *   HOSTILE_READ_MOST               the most bytes that a read gives
 *   HOSTILE_READ_FAULT              the read that fails; the next would go on
 *   HOSTILE_WRITE_MOST              the most bytes that a write takes
 *   HOSTILE_WRITE_FAULT             how many bytes are taken, and one, before a write fails; the next would go on
 *   HOSTILE_ERROR                   the error of such a read or write; 0: the write takes nothing
 */
#define _GNU_SOURCE
#include <dlfcn.h>
#include <errno.h>
#include <pthread.h>
#include <stdatomic.h>
#include <stdbool.h>
#include <stdio.h>
#include <stdlib.h>
#include <sys/syscall.h>
#include <time.h>
#include <unistd.h>

typedef void *(*thread_body)(void *);
typedef int (*create)(pthread_t *, const pthread_attr_t *, thread_body, void *);

extern void *__libc_malloc(size_t size);
extern void *__libc_calloc(size_t count, size_t size);
extern void *__libc_realloc(void *old, size_t size);
extern void __libc_free(void *old);

struct thread {
    thread_body body;
    void *argument;
};

static atomic_bool counting;
static atomic_ulong allocations, starts, worked;
static atomic_long alive;
static unsigned long first_refused, last_refused, refused_start, holds, report_to;
static unsigned long read_most, read_fault, write_most, write_fault, fault_error;
static unsigned long turns, taken, late;
static bool is_read;

static unsigned long number(const char *name) {
    const char *text = getenv(name);
    return text ? strtoul(text, NULL, 10) : 0;
}

/* A thread may be on its way out when the program ends: it has a second for that. */
static void wait_for_threads(void) {
    for (int turn = 0; alive && turn < 1000; ++turn)
        usleep(1000);
}

static void report(void) {
    char line[120];
    int length = snprintf(line, sizeof line, "%lu %lu %lu %ld %lu\n", allocations, starts, late, alive, worked);
    if (report_to && syscall(SYS_write, (int)report_to, line, (size_t)length) != length)
        abort();
    report_to = 0;
}

__attribute__((constructor)) static void begin(void) {
    first_refused = number("HOSTILE_FIRST");
    last_refused = number("HOSTILE_LAST");
    refused_start = number("HOSTILE_THREAD");
    holds = number("HOSTILE_HOLD");
    report_to = number("HOSTILE_REPORT");
    read_most = number("HOSTILE_READ_MOST");
    read_fault = number("HOSTILE_READ_FAULT");
    write_most = number("HOSTILE_WRITE_MOST");
    write_fault = number("HOSTILE_WRITE_FAULT");
    fault_error = number("HOSTILE_ERROR");
    counting = true;
}

__attribute__((destructor)) static void end(void) {
    counting = false;
    wait_for_threads();
    report();
}

void _exit(int status) {
    end();
    for (;;)
        syscall(SYS_exit_group, status);
}

static bool refuses(void) {
    if (!counting)
        return false;
    unsigned long place = ++allocations;
    if (place < first_refused || place > last_refused)
        return false;
    errno = ENOMEM;
    return true;
}

void *malloc(size_t size) { return refuses() ? NULL : __libc_malloc(size); }

void *calloc(size_t count, size_t size) { return refuses() ? NULL : __libc_calloc(count, size); }

void *realloc(void *old, size_t size) { return refuses() ? NULL : __libc_realloc(old, size); }

/* Until the start was refused, and the caller has had a tenth of a second to do something about it. */
static void wait_for_refusal(void) {
    while (starts < refused_start)
        usleep(1000);
    usleep(100000);
}

static unsigned long own_time(void) {
    struct timespec time;
    clock_gettime(CLOCK_THREAD_CPUTIME_ID, &time);
    return (unsigned long)time.tv_sec * 1000000 + (unsigned long)time.tv_nsec / 1000;
}

static void *run_thread(void *given) {
    struct thread thread = *(struct thread *)given;
    __libc_free(given);
    if (holds)
        wait_for_refusal();
    unsigned long begin = own_time();
    void *answer = thread.body(thread.argument);
    worked += own_time() - begin;
    --alive;
    return answer;
}

int pthread_create(pthread_t *id, const pthread_attr_t *attributes, thread_body body, void *argument) {
    if (counting && ++starts == refused_start)
        return EAGAIN;
    struct thread *thread = __libc_malloc(sizeof *thread);
    if (!thread)
        return EAGAIN;
    *thread = (struct thread){body, argument};
    ++alive;
    int fault = ((create)dlsym(RTLD_NEXT, "pthread_create"))(id, attributes, run_thread, thread);
    if (fault) {
        --alive;
        __libc_free(thread);
    }
    return fault;
}

ssize_t read(int file, void *buffer, size_t size) {
    if (file == 0 && is_read)
        ++late;
    if (file == 0 && ++turns == read_fault) {
        is_read = true;
        errno = (int)fault_error;
        return -1;
    }
    if (file == 0 && read_most && size > read_most)
        size = read_most;
    ssize_t count = syscall(SYS_read, file, buffer, size);
    if (file == 0 && count <= 0)
        is_read = true;
    return count;
}

ssize_t write(int file, const void *buffer, size_t size) {
    if (file == 1)
        is_read = true;
    if (file == 1 && write_fault && size > write_fault - 1 - taken) {
        size = write_fault - 1 - taken;
        if (size == 0) {
            write_fault = 0;
            errno = (int)fault_error;
            return fault_error ? -1 : 0;
        }
    }
    if (file == 1 && write_most && size > write_most)
        size = write_most;
    ssize_t count = syscall(SYS_write, file, buffer, size);
    if (file == 1 && count > 0)
        taken += (unsigned long)count;
    return count;
}
