/* Whether what was recorded of a run is all that was submitted: the board of the run, what it says, and the marks of
 * recordings that break off. */
#include <errno.h>
#include <fcntl.h>
#include <stdio.h>
#include <string.h>
#include <sys/mman.h>
#include <sys/stat.h>
#include <unistd.h>

#include "board.h"
#include "launcher.h"

/// A new board for a run, whose memory the disk has reserved; processes of an earlier run keep theirs. Nobody else may
/// write there, since names on it are those of files that are changed.
const struct board *seen_begin(const char *folder, char path[PATH_MAX])
{
    joined(path, folder, "board");
    unlink(path);
    const int file = open(path, O_RDWR | O_CREAT | O_EXCL | O_CLOEXEC, 0600);
    if (file < 0)
        fail(path);
    errno = posix_fallocate(file, 0, sizeof(struct board));
    const void *at = errno ? MAP_FAILED : mmap(NULL, sizeof(struct board), PROT_READ, MAP_SHARED, file, 0);
    if (at == MAP_FAILED)
        fail(path);
    close(file);
    return at;
}

/// How many losses of the board have a place.
static unsigned places(const struct board *b) { return b->lost < MOST_LOSSES ? b->lost : MOST_LOSSES; }

/// Puts a byte after the last entry of a recording, so that no audit takes it as a whole one. Of one that never began
/// there is nothing to take.
static bool spoil(const char *records, const char *recording)
{
    char name[NAME_MAX + 1], path[PATH_MAX], last[PATH_MAX] = "";
    struct stat found;
    off_t length = 0;
    for (unsigned part = 1;; part++) {
        snprintf(name, sizeof name, part > 1 ? "%s.part%u.dsa" : "%s.dsa", recording, part);
        if (stat(joined(path, records, name), &found))
            break;
        strcpy(last, path);
        length = found.st_size;
    }
    return !*last || truncate(last, length + 1) == 0;
}

/// Whether the board says that a recording breaks off.
bool seen_is_lost(const struct board *b, const char *recording)
{
    for (unsigned i = 0; i < places(b); i++)
        if (strcmp(b->losses[i].recording, recording) == 0)
            return true;
    return false;
}

/// Marks a recording that breaks off by a line among its errors.
bool seen_mark(const char *records, const char *recording, const char *why)
{
    char name[NAME_MAX + 32], path[PATH_MAX];
    snprintf(name, sizeof name, "%s.errors", recording);
    FILE *errors = fopen(joined(path, records, name), "a");
    const bool is_written = errors && fprintf(errors, "B %s\n", why) > 0;
    return errors && fclose(errors) == 0 && is_written;
}

/// Says once in which processes not all records are watched, since then less is found, or too much.
static void say_unwatched(const struct board *b)
{
    static bool is_said, is_half_said;
    if (b->unwatched && !is_said)
        fprintf(stderr, "dsa_trace: no watchpoints in %u process%s (%s), so it is not seen when the program looks at "
                "records: a wait that is missing, as between threads, is found only if the later submission comes "
                "before the end of the earlier one; what helps is a kernel that gives them to you (perf_event_open: "
                "kernel.perf_event_paranoid of at most 2, no container that forbids it), or --delay 20000, so that "
                "ends come late\n", b->unwatched, b->unwatched > 1 ? "es" : "", b->why_unwatched);
    if (b->half_watched && !is_half_said)
        fprintf(stderr, "dsa_trace: %u process%s closed the files of watchpoints: completions that were watched then "
                "count as not looked at, so a wait that is there may be called missing, but not with --no-watch\n",
                b->half_watched, b->half_watched > 1 ? "es have" : " has");
    is_said |= b->unwatched;
    is_half_said |= b->half_watched;
}

/// Says which recordings break off, and marks them; true if there are none.
bool seen_whole(const struct run *run)
{
    const struct board *b = run->board;
    say_unwatched(b);
    for (unsigned i = 0; i < places(b); i++) {
        const struct loss *l = &b->losses[i];
        fprintf(stderr, "dsa_trace: the recording of process %d (%s) breaks off: %s\n", l->process, l->recording,
                l->is_written ? l->why : "the process ended meanwhile");
        const bool is_spoiled = !l->is_written || spoil(run->records, l->recording);
        if (!is_spoiled || (l->is_written && !seen_mark(run->records, l->recording, l->why)))
            fprintf(stderr, "dsa_trace: %s/%s can't be marked as one that breaks off\n", run->records, l->recording);
    }
    if (b->lost > MOST_LOSSES)
        fprintf(stderr, "dsa_trace: and those of %u more\n", b->lost - MOST_LOSSES);
    return b->lost == 0;
}

/// How many submissions the processes of the run have made.
uint64_t seen_submitted(const struct run *run) { return run->board->submitted; }

/// Forgets the board.
void seen_end(const struct board *b) { munmap((void *)b, sizeof *b); }
