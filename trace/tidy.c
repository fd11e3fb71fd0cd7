/* Recordings of processes that could not cut their files to length, since they were killed or left by _exit: events and
 * errors end with the last line before the first zero byte, and the lines of events say how long the recordings are. */
#include <dirent.h>
#include <errno.h>
#include <fcntl.h>
#include <signal.h>
#include <stdio.h>
#include <stdlib.h>
#include <string.h>
#include <sys/mman.h>
#include <sys/stat.h>
#include <unistd.h>

#include "launcher.h"

enum { ENTRY = 64 };

/// Whether the process of this recording still runs: its number is the end of the name.
bool tidy_is_alive(const char *base)
{
    char name[NAME_MAX + 1];
    snprintf(name, sizeof name, "%s", base);
    char *image = strrchr(name, '-'), *dot = strrchr(name, '.');
    if (image && dot && image > dot)
        *image = 0;
    const long process = dot ? atol(dot + 1) : 0;
    return process > 0 && (kill((pid_t)process, 0) == 0 || errno == EPERM);
}

/// The path of a part of a recording.
static const char *part_path(char room[PATH_MAX], const char *records, const char *base, unsigned part)
{
    char name[NAME_MAX + 32];
    snprintf(name, sizeof name, part > 1 ? "%s.part%u.dsa" : "%s.dsa", base, part);
    return joined(room, records, name);
}

/// Cuts a part to a length; answers whether an entry comes after it, which is not zero.
static bool cut_part(const char *records, const char *base, unsigned part, off_t length)
{
    static const char zero[ENTRY];
    char path[PATH_MAX], next[ENTRY] = "";
    struct stat s;
    const int file = open(part_path(path, records, base, part), O_RDWR | O_CLOEXEC);
    if (file < 0 || fstat(file, &s) || s.st_size <= length) {
        if (file >= 0)
            close(file);
        return false;
    }
    const bool is_cut = pread(file, next, ENTRY, length) > 0 && memcmp(next, zero, ENTRY);
    if (ftruncate(file, length))
        fprintf(stderr, "dsa_trace: %s: %s\n", path, strerror(errno));
    close(file);
    return is_cut;
}

/// Cuts the parts to what the events name of them, and removes one that none names; answers whether a submission is
/// cut.
static bool cut_parts(const char *records, const char *base, const char *events, const char *end)
{
    char path[PATH_MAX], text[160]; /* a line alone, since sscanf looks for the end of all */
    unsigned last = 1;
    off_t length = 0;
    for (const char *line = events, *next; line < end; line = next) {
        unsigned members, part;
        unsigned long entry;
        next = (const char *)memchr(line, '\n', end - line) + 1; /* the events end with a line */
        snprintf(text, sizeof text, "%.*s", *line == 'S' ? (int)(next - line) : 0, line);
        if (sscanf(text, "S %*u %*s op %*u members %u tid %*u part %u entry %lu", &members, &part, &entry) != 3)
            continue;
        if (part != last)
            cut_part(records, base, last, length);
        last = part;
        length = (off_t)ENTRY * (entry + 1 + members);
    }
    const bool is_cut = cut_part(records, base, last, length), is_next = cut_part(records, base, last + 1, 0);
    unlink(part_path(path, records, base, last + 1));
    return is_cut || is_next;
}

/// Cuts a file of lines after its last whole line; of events the recording too. Answers whether a submission is cut.
static bool tidy_lines(int file, off_t size, const char *records, const char *base, bool is_events)
{
    bool is_cut = false;
    char *lines = mmap(NULL, size, PROT_READ, MAP_PRIVATE, file, 0);
    if (lines == MAP_FAILED)
        fail(base);
    const char *zero = memchr(lines, 0, size), *written = zero ? zero : lines + size;
    const char *newline = memrchr(lines, '\n', written - lines), *end = newline ? newline + 1 : lines;
    const off_t length = end - lines;
    if (is_events)
        is_cut = cut_parts(records, base, lines, end) || (end < written && *end == 'S');
    munmap(lines, size);
    if (length < size && ftruncate(file, length))
        fprintf(stderr, "dsa_trace: %s: %s\n", base, strerror(errno));
    return is_cut;
}

/// Says that a submission is cut, and notes it for audits, unless the process has said why it is.
static void note_cut(const char *records, const char *base, const struct board *board)
{
    if (seen_is_lost(board, base))
        return;
    fprintf(stderr, "dsa_trace: %s ends in the middle of a submission, which is left out (was it killed?)\n", base);
    if (!seen_mark(records, base, "it ends in the middle of a submission"))
        fprintf(stderr, "dsa_trace: %s/%s can't be marked so\n", records, base);
}

/// Tidies one file of a recording.
static void tidy_one(const char *records, const char *name, bool is_events, const struct board *board)
{
    char path[PATH_MAX], base[NAME_MAX + 1];
    struct stat s;
    bool is_cut = false;
    snprintf(base, sizeof base, "%.*s", (int)(strrchr(name, '.') - name), name);
    const int file = open(joined(path, records, name), O_RDWR | O_CLOEXEC);
    if (file >= 0 && fstat(file, &s) == 0 && s.st_size && !tidy_is_alive(base))
        is_cut = tidy_lines(file, s.st_size, records, base, is_events);
    if (file >= 0)
        close(file);
    if (is_cut)
        note_cut(records, base, board);
}

/// Tidies all files of a run that end so.
static void tidy_all(const char *records, const char *wanted, const struct board *board)
{
    struct index ours;
    DIR *list = opendir(records);
    if (!list)
        fail(records);
    index_read(&ours, records);
    for (struct dirent *e; (e = readdir(list));) {
        const char *end = strrchr(e->d_name, '.');
        if (end && strcmp(end, wanted) == 0 && index_has(&ours, e->d_name))
            tidy_one(records, e->d_name, strcmp(end, ".events") == 0, board);
    }
    index_forget(&ours);
    closedir(list);
}

/// Cuts what is left of all recordings of a run: the errors first, since a line may be added to them.
void tidy(const char *records, const struct board *board)
{
    tidy_all(records, ".errors", board);
    tidy_all(records, ".events", board);
}
