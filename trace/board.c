/* The launcher's board, mapped when the library is loaded: later there may be no file number left for it, or no path to
 * it. Children of fork inherit it. */
#include "board.h"

#include <fcntl.h>
#include <stdio.h>
#include <string.h>
#include <sys/mman.h>
#include <sys/syscall.h>
#include <unistd.h>

#include "trace.h"

static struct board nobody; /* of a process without a launcher */
static struct board *board = &nobody;

/// Maps it; where that fails, board_is_there says so.
void board_begin(void)
{
    const int fd = settings.board[0] ? syscall(SYS_openat, AT_FDCWD, settings.board, O_RDWR | O_CLOEXEC, 0) : -1;
    void *at = MAP_FAILED;
    if (fd >= 0) {
        at = (void *)syscall(SYS_mmap, NULL, sizeof *board, PROT_READ | PROT_WRITE, MAP_SHARED, fd, 0l);
        syscall(SYS_close, fd);
    }
    if (at != MAP_FAILED)
        board = at;
}

/// Whether the launcher learns of what this process submits, if that is to be recorded; a sentence says the first time
/// that it does not.
bool board_is_there(void)
{
    static bool is_said;
    const bool is_there = board != &nobody || !settings.board[0] || !settings.out[0];
    if (!is_there && !is_said)
        say("%s can't be opened in this process, so dsa_trace could not know what it submits: it gets no portal",
            settings.board);
    is_said |= !is_there;
    return is_there;
}

/// A submission is taken, and recorded.
void board_submitted(void) { atomic_fetch_add_explicit(&board->submitted, 1, memory_order_relaxed); }

/// No record of this process is watched any more.
void board_unwatched(const char *why)
{
    if (atomic_fetch_add(&board->unwatched, 1) == 0)
        snprintf(board->why_unwatched, sizeof board->why_unwatched, "%s", why);
}

/// It is not known whether this process has looked at some records.
void board_half_watched(void) { atomic_fetch_add(&board->half_watched, 1); }

/// The recording of this process breaks off.
void board_lose(const char *recording, const char *why)
{
    const uint32_t place = atomic_fetch_add(&board->lost, 1);
    if (place >= MOST_LOSSES)
        return;
    struct loss *l = &board->losses[place];
    l->process = getpid();
    snprintf(l->recording, sizeof l->recording, "%s", recording);
    snprintf(l->why, sizeof l->why, "%s", why);
    atomic_store(&l->is_written, 1);
}
