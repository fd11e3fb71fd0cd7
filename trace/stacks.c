/* Where submissions come from: the call stack of each, as the number of one that is written once. A stack that was
 * walked (walk.c) is kept with the places of its return addresses. While these have the same values the stack is the
 * same, so most submissions cost some comparisons. All is done under the lock of order.c, and in static memory, since a
 * thread that submits may have little stack. Lines of NAME.PID.stacks:
 *
 *     t THREAD LOW-HIGH NAME  a thread that submits, and the memory of its stack
 *     m LINE                  a line of /proc/PID/maps: code or the heap, from here on
 *     s NUMBER AT AT ..       a call stack, from the instruction that submits outwards, as addresses */
#include <dlfcn.h>
#include <errno.h>
#include <fcntl.h>
#include <stdatomic.h>
#include <stdio.h>
#include <string.h>
#include <sys/syscall.h>
#include <time.h>
#include <unistd.h>

#include "maps.h"
#include "walk.h"

enum { STACKS = 4096, KEPT = 1024, RANGES = 256 };

/* A stack that was walked, for the next submission with the same registers. `age` is that of `stacks`, or it is old. */
struct kept { uintptr_t at, sp, bp; unsigned age, number, count; struct frame frames[MOST_FRAMES]; };

/* `written` has the stacks from number 1 on, `by_hash` numbers, `ranges` the mappings that are written. */
static struct stacks {
    struct kept kept[KEPT];
    struct { unsigned count; uintptr_t at[MOST_FRAMES]; } written[STACKS];
    unsigned count, by_hash[2 * STACKS];
    struct { uintptr_t low, high; } ranges[RANGES];
    unsigned range_count, age;
    uintptr_t heap_end;
    int64_t start;
    bool is_full, is_off;
    atomic_bool is_old; /* code may have gone since */
} stacks;

/// Writes a line. If that fails no more are written, and a sentence says so.
static void put(const char *line, int length)
{
    if (stacks.is_off || record_origin(line, (size_t)length))
        return;
    say("call stacks can't be written (%s): from here on findings name no places", strerror(errno));
    stacks.is_off = true;
}

static struct kept *kept_of(const struct submitter *s)
{
    return &stacks.kept[((s->at + (s->sp >> 3)) * 0x9e3779b97f4a7c15u) >> 54];
}
_Static_assert(KEPT == 1 << (64 - 54), "the bits of the hash");

/// Whether an address is in a mapping that is written.
static bool is_known(uintptr_t at)
{
    for (unsigned i = 0; i < stacks.range_count; i++)
        if (stacks.ranges[i].low <= at && at < stacks.ranges[i].high)
            return true;
    return false;
}

/// Whether a mapping of code is of a file or has a frame: code in no file is written only then.
static bool is_wanted(const struct mapping *m, const struct walk *w)
{
    bool is_wanted = strchr(m->line, '/');
    for (unsigned i = 0; i < w->count; i++)
        is_wanted |= m->low <= w->frames[i].at && w->frames[i].at < m->high;
    return is_wanted;
}

static void put_mapping(const struct mapping *m)
{
    static char text[sizeof m->line + 4];
    put(text, snprintf(text, sizeof text, "m %s\n", m->line));
}

/// Writes a mapping of code, or the heap if it has grown.
static bool see(const struct mapping *m, void *walk)
{
    if (strstr(m->line, "[heap]") && m->high != stacks.heap_end) {
        stacks.heap_end = m->high;
        put_mapping(m);
    }
    if (!m->is_code || is_known(m->low) || !is_wanted(m, walk))
        return false;
    if (stacks.range_count == RANGES)
        stacks.range_count = 0; /* they are written again */
    stacks.ranges[stacks.range_count].low = m->low;
    stacks.ranges[stacks.range_count++].high = m->high;
    put_mapping(m);
    return false;
}

/// Writes in which files the frames are, unless that is known.
static void put_mappings(struct walk *w)
{
    static struct mapping m;
    bool are_known = true;
    for (unsigned i = 0; i < w->count; i++)
        are_known &= is_known(w->frames[i].at);
    if (!are_known)
        maps_each(&m, see, w);
}

static void put_stack(unsigned number, struct walk *w)
{
    static char text[32 + 20 * MOST_FRAMES];
    put_mappings(w);
    int length = snprintf(text, sizeof text, "s %u", number);
    for (unsigned i = 0; i < w->count; i++)
        length += snprintf(text + length, sizeof text - (size_t)length, " %lx", w->frames[i].at);
    text[length++] = '\n';
    put(text, length);
}

/// The name of this thread, by system calls that a recording needs in any case: a filter of the program's permits them.
static void read_name(char name[17])
{
    const int file = (int)syscall(SYS_openat, AT_FDCWD, "/proc/thread-self/comm", O_RDONLY | O_CLOEXEC, 0);
    const ssize_t length = file < 0 ? 0 : syscall(SYS_read, file, name, 16);
    if (file >= 0)
        syscall(SYS_close, file);
    name[length > 0 ? length : 0] = 0;
    name[strcspn(name, "\n")] = 0;
}

/// Writes the name of a thread and the memory of its stack, when it submits first.
static void note_thread(const struct submitter *s)
{
    static __thread pid_t noted;
    static struct mapping m;
    char text[96], name[17];
    const pid_t thread = process_thread();
    if (noted == thread)
        return;
    noted = thread;
    read_name(name);
    if (!maps_find(s->sp, &m))
        m.low = m.high = 0;
    put(text, snprintf(text, sizeof text, "t %d %lx-%lx %s\n", (int)thread, m.low, m.high, name));
}

/// The place in `by_hash` of a stack, or the free one for it.
static unsigned place_of(const uintptr_t at[MOST_FRAMES], unsigned count)
{
    uint64_t hash = count;
    for (unsigned i = 0; i < count; i++) {
        hash = (hash ^ at[i]) * 0x9e3779b97f4a7c15u;
        hash ^= hash >> 29;
    }
    unsigned place = hash % (2 * STACKS);
    for (; stacks.by_hash[place]; place = (place + 1) % (2 * STACKS)) {
        const unsigned last = stacks.by_hash[place] - 1;
        if (stacks.written[last].count == count && !memcmp(stacks.written[last].at, at, count * sizeof *at))
            break;
    }
    return place;
}

/// The number of a stack: that of an equal one, or the next. 0 if there are too many.
static unsigned number_of(struct walk *w)
{
    uintptr_t at[MOST_FRAMES];
    for (unsigned i = 0; i < w->count; i++)
        at[i] = w->frames[i].at;
    const unsigned place = place_of(at, w->count);
    if (stacks.by_hash[place])
        return stacks.by_hash[place];
    if (stacks.count == STACKS) {
        if (!stacks.is_full)
            say("this process submits from more than %d call stacks (each dlclose counts them anew); findings name no "
                "further ones; with fewer frames (--stacks 4) there are fewer",
                STACKS);
        stacks.is_full = true;
        return 0;
    }
    stacks.written[stacks.count].count = w->count;
    memcpy(stacks.written[stacks.count].at, at, w->count * sizeof *at);
    stacks.by_hash[place] = ++stacks.count;
    put_stack(stacks.count, w);
    return stacks.count;
}

/// What is known of code may be so no more.
static void forget_code(void)
{
    stacks.age++;
    memset(stacks.by_hash, 0, sizeof stacks.by_hash);
    stacks.range_count = 0;
}

/// The stack of a submission that is not like the one that is kept.
static unsigned walked(const struct submitter *s, struct kept *k)
{
    struct walk w;
    walk_stack(&w, s, settings.stacks < MOST_FRAMES ? (unsigned)settings.stacks : MOST_FRAMES);
    *k = (struct kept){.at = w.is_plain ? s->at : 0, .sp = s->sp, .bp = s->bp, .age = stacks.age,
                       .number = number_of(&w), .count = w.count};
    memcpy(k->frames, w.frames, sizeof *w.frames * w.count);
    return k->number;
}

/// Where a submission comes from.
struct origin stacks_origin(const struct submitter *s)
{
    struct timespec t;
    if (!record_is_on())
        return (struct origin){0};
    clock_gettime(CLOCK_MONOTONIC, &t);
    const int64_t now = t.tv_sec * 1000000000l + t.tv_nsec;
    stacks.start = stacks.start ? stacks.start : now;
    struct origin o = {.time = (uint64_t)(now - stacks.start)};
    if (!settings.stacks || stacks.is_off)
        return o;
    note_thread(s);
    if (stacks.is_old && atomic_exchange(&stacks.is_old, false))
        forget_code();
    struct kept *k = kept_of(s);
    const bool may_be = k->at == s->at && k->sp == s->sp && k->bp == s->bp && k->age == stacks.age;
    o.stack = may_be && walk_is_same(k->frames, k->count) ? k->number : walked(s, k);
    return o;
}

/// At the end of the process: the heap as it is then.
void stacks_finish(void)
{
    static struct mapping m;
    struct walk none = {0};
    if (stacks.count)
        maps_each(&m, see, &none);
}

/// In a child of fork, which has files of its own.
void stacks_forget(void)
{
    forget_code();
    stacks.count = 0;
    stacks.heap_end = 0;
    stacks.start = 0;
    stacks.is_full = stacks.is_off = false;
}

/// Closes a library: another one may come to its place.
int dlclose(void *library)
{
    REAL_OF(dlclose);
    const int fault = REAL(dlclose)(library);
    stacks.is_old = true; /* without the lock, which in a child of fork may be taken for ever */
    return fault;
}
