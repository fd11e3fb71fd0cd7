/* The recording: entries of 64 bytes for `dsa_text audit`, in files of at most 65,536, events as lines of text, and
 * errors as lines of another. All are shared mappings of files, so what is written stays when the process is killed.
 * Files grow by blocks that the disk has reserved, and are cut to their length at the end, by the launcher if the
 * process can't. A recording that can't go on is named on the launcher's board. Paths are static, since a thread or a
 * fiber that submits may have little stack; all is done under the lock of order.c. */
#include <errno.h>
#include <fcntl.h>
#include <stdio.h>
#include <stdlib.h>
#include <string.h>
#include <sys/mman.h>
#include <sys/syscall.h>
#include <unistd.h>

#include "trace.h"

enum { ENTRY = sizeof(descriptor), MOST_ENTRIES = 65536, BLOCK = 1 << 18, LONGEST_LINE = 160, NAME = 32 };

/* One growing file, of which `window` maps some bytes from `start` on. It is opened by its name for each growth: a
 * program that closes all its files closes those of others too, and the next file that it opens has their number. */
struct grown { char path[PATH_MAX]; uint8_t *window; uint64_t start, used, reserved; size_t window_size; };

static struct recording {
    bool is_open, is_off;
    char base[PATH_MAX - 64]; /* the names of the files without their ends */
    unsigned part;
    struct grown entries, events, errors;
} recording;

/// From here on nothing is recorded, for the reason that errno has.
void record_give_up(const char *what)
{
    char why[224];
    const char *name = strrchr(recording.base, '/');
    if (!settings.out[0] || recording.is_off)
        return;
    snprintf(why, sizeof why, "%.160s: %s", what, strerror(errno));
    say("%s; from here on this process is not recorded", why);
    board_lose(name ? name + 1 : "", why);
    recording.is_off = true;
}

static bool give_up(const char *what)
{
    record_give_up(what);
    return false;
}

static int open_plain(const char *path, int flags)
{
    return syscall(SYS_openat, AT_FDCWD, path, flags | O_CLOEXEC, 0666);
}

static void grown_unmap(struct grown *g)
{
    if (g->window)
        syscall(SYS_munmap, g->window, g->window_size);
    g->window = NULL;
}

/// Maps the window from `start` on.
static bool grown_map(struct grown *g, int fd)
{
    grown_unmap(g);
    g->window =
        (uint8_t *)syscall(SYS_mmap, NULL, g->window_size, PROT_READ | PROT_WRITE, MAP_SHARED, fd, (off_t)g->start);
    if (g->window != MAP_FAILED)
        return true;
    g->window = NULL;
    return false;
}

/// Makes the file; false, with errno, if it can't be made.
static bool grown_open(struct grown *g, const char *path, size_t window_size)
{
    *g = (struct grown){.window_size = window_size};
    snprintf(g->path, sizeof g->path, "%s", path);
    const int fd = open_plain(path, O_RDWR | O_CREAT | O_EXCL);
    const bool is_open = fd >= 0 && grown_map(g, fd);
    if (fd >= 0)
        syscall(SYS_close, fd);
    return is_open;
}

/// Cuts the file to its length. It can grow again.
static void grown_close(struct grown *g)
{
    if (g->window)
        syscall(SYS_truncate, g->path, g->used);
    grown_unmap(g);
    g->reserved = g->used;
}

/// Makes place for so many bytes more: the disk reserves them, and the window moves on in whole pages if they do not
/// fit.
static bool grow(struct grown *g, size_t size)
{
    enum { PAGE = 4096 };
    const uint64_t more = (size / BLOCK + 1) * BLOCK;
    const int fd = open_plain(g->path, O_RDWR);
    if (fd < 0)
        return false;
    int fault = g->used + size > g->reserved ? posix_fallocate(fd, g->reserved, more) : 0;
    if (!fault && g->used + size > g->reserved)
        g->reserved += more;
    if (!fault && (!g->window || g->used + size > g->start + g->window_size)) {
        g->start = g->used & -(uint64_t)PAGE;
        fault = grown_map(g, fd) ? 0 : errno;
    }
    syscall(SYS_close, fd);
    errno = fault;
    return !fault;
}

/// A place for so many bytes more, or NULL.
static uint8_t *grown_room(struct grown *g, size_t size)
{
    const bool fits = g->window && g->used + size <= g->reserved && g->used + size <= g->start + g->window_size;
    return fits || grow(g, size) ? g->window + (g->used - g->start) : NULL;
}

/// The name of this program, as Linux has it, of letters that a file's name may have.
static void own_name(char name[NAME])
{
    const int fd = open_plain("/proc/self/comm", O_RDONLY);
    const ssize_t length = fd < 0 ? 0 : syscall(SYS_read, fd, name, NAME - 1);
    if (fd >= 0)
        syscall(SYS_close, fd);
    name[length > 1 ? length - 1 : 0] = 0;
    for (char *c = name; *c; c++)
        if (*c <= ' ' || *c == '/')
            *c = '_';
    if (!name[0])
        strcpy(name, "program");
}

static bool open_part(void)
{
    static char path[PATH_MAX];
    if (recording.part++ == 0)
        snprintf(path, sizeof path, "%s.dsa", recording.base);
    else
        snprintf(path, sizeof path, "%s.part%u.dsa", recording.base, recording.part);
    return grown_open(&recording.entries, path, ENTRY * MOST_ENTRIES) || give_up(path);
}

/// A line of the index: the name of the recording, the process, its parent and its program.
static void add_to_index(const char *name)
{
    static char path[PATH_MAX];
    char line[LONGEST_LINE];
    snprintf(path, sizeof path, "%s/processes.txt", settings.out);
    const int length = snprintf(line, sizeof line, "%s.dsa\t%d\t%d\t%s\n", strrchr(recording.base, '/') + 1,
                                (int)getpid(), (int)getppid(), name);
    const int fd = open_plain(path, O_WRONLY | O_CREAT | O_APPEND);
    if (fd < 0 || syscall(SYS_write, fd, line, length) != length)
        give_up(path);
    syscall(SYS_close, fd);
}

static void add_line(struct grown *g, const char *line, size_t length)
{
    uint8_t *to = grown_room(g, length);
    if (!to) {
        give_up("the events can't grow");
        return;
    }
    memcpy(to, line, length);
    g->used += length;
}

/// A line of NAME.PID.errors. The first makes the file.
static void add_error(const char *line, size_t length)
{
    static char path[PATH_MAX];
    snprintf(path, sizeof path, "%s.errors", recording.base);
    if (recording.errors.path[0] || grown_open(&recording.errors, path, 2 * BLOCK))
        add_line(&recording.errors, line, length);
    else
        give_up(path);
}

/// Notes that each submission is done at once: then no audit sees that a wait is missing.
static void note_pace(void)
{
    if (settings.order < ORDER_DATA)
        add_error("A\n", 2);
}

/// Opens the files of this process. A process that has replaced its program gets another number after its own.
static bool open_files(void)
{
    static char path[PATH_MAX];
    char name[NAME];
    own_name(name);
    recording.is_open = true;
    for (unsigned image = 1; image < 1000; image++) {
        snprintf(recording.base, sizeof recording.base, image > 1 ? "%s/%s.%d-%u" : "%s/%s.%d", settings.out, name,
                 (int)getpid(), image);
        snprintf(path, sizeof path, "%s.events", recording.base);
        if (grown_open(&recording.events, path, 2 * BLOCK))
            break;
        if (errno != EEXIST)
            return give_up(path);
    }
    if (!open_part())
        return false;
    add_to_index(name);
    note_pace();
    return !recording.is_off;
}

bool record_is_on(void)
{
    return settings.out[0] && !recording.is_off && (recording.is_open || open_files());
}

static char *put_text(char *to, const char *text)
{
    const size_t length = strlen(text);
    memcpy(to, text, length);
    return to + length;
}

static char *put_number(char *to, uint64_t number)
{
    char digits[20];
    int count = 0;
    do
        digits[count++] = '0' + number % 10;
    while (number /= 10);
    while (count)
        *to++ = digits[--count];
    return to;
}

static char *put_pair(char *to, const char *text, uint64_t number) { return put_number(put_text(to, text), number); }

/// An event: a letter, the submission, and a member and a status where there are some.
void record_event(char letter, uint64_t number, int64_t member, int64_t status)
{
    char line[LONGEST_LINE], *to = line;
    if (!record_is_on())
        return;
    *to++ = letter;
    to = put_pair(to, " ", number);
    if (member >= 0)
        to = put_pair(to, " ", member);
    if (status >= 0)
        to = put_pair(to, " ", status);
    *to++ = '\n';
    add_line(&recording.events, line, to - line);
}

/// An error of the program that no later audit could see: a letter, the submission, a member or -1, and an address.
void record_error(char letter, uint64_t number, int64_t member, uint64_t address)
{
    char line[LONGEST_LINE], *to = line;
    if (!record_is_on())
        return;
    *to++ = letter;
    to = put_pair(to, " ", number);
    to = member < 0 ? put_text(to, " -") : put_pair(to, " ", member);
    to = put_pair(to, " ", address);
    *to++ = '\n';
    add_error(line, to - line);
}

/// A submission that no audit sees, since the full queue has dropped it.
void record_dropped(uint64_t number, const struct queue *q)
{
    char line[LONGEST_LINE], *to = line;
    if (!record_is_on())
        return;
    to = put_pair(put_pair(put_pair(to, "D ", number), " wq", q->device), ".", q->id);
    *to++ = '\n';
    add_error(line, to - line);
}

/// A line of NAME.PID.stacks. There are few, so each is written at once.
bool record_origin(const char *line, size_t length)
{
    static char path[PATH_MAX];
    snprintf(path, sizeof path, "%s.stacks", recording.base);
    const int fd = open_plain(path, O_WRONLY | O_CREAT | O_APPEND);
    const bool is_written = fd >= 0 && syscall(SYS_write, fd, line, length) == (long)length;
    if (fd >= 0)
        syscall(SYS_close, fd);
    return is_written;
}

/// The entries of a submission, and its event, which names the part and the entry at which it begins.
void record_submission(const struct submitted *s)
{
    char line[LONGEST_LINE], *to;
    if (!record_is_on())
        return;
    if (recording.entries.used / ENTRY + 1 + s->count > MOST_ENTRIES) {
        grown_close(&recording.entries);
        if (!open_part())
            return;
    }
    uint8_t *room = grown_room(&recording.entries, ENTRY * (1ul + s->count));
    if (!room) {
        give_up("the recording can't grow");
        return;
    }
    memcpy(room, s->entry, ENTRY);
    if (s->count)
        memcpy(room + ENTRY, s->members, ENTRY * (size_t)s->count);
    to = put_pair(put_pair(put_pair(line, "S ", s->number), " wq", s->queue->device), ".", s->queue->id);
    to = put_pair(put_pair(to, " op ", s->entry->opcode), " members ", s->count);
    to = put_pair(put_pair(to, " tid ", process_thread()), " part ", recording.part);
    to = put_pair(to, " entry ", recording.entries.used / ENTRY);
    to = put_pair(put_pair(to, " time ", s->origin.time), " stack ", s->origin.stack);
    *to++ = '\n';
    recording.entries.used += ENTRY * (1ul + s->count);
    add_line(&recording.events, line, to - line);
}

/// Cuts the files to their length. Threads that submit after this are recorded, and the launcher cuts the files.
void record_finish(void)
{
    if (!recording.is_open || recording.is_off)
        return;
    grown_close(&recording.entries);
    grown_close(&recording.events);
    grown_close(&recording.errors);
}

/// After fork: the files are the parent's, which goes on with them.
void record_forget(void)
{
    grown_unmap(&recording.entries);
    grown_unmap(&recording.events);
    grown_unmap(&recording.errors);
    memset(&recording, 0, sizeof recording);
}
