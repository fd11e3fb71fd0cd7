/* What the processes of a run tell the launcher: in memory that it makes before the run, so that they can tell it when
 * no file can be written any more. */
#ifndef DSA_TRACE_BOARD_H
#define DSA_TRACE_BOARD_H

#include <stdatomic.h>
#include <stdint.h>

enum { MOST_LOSSES = 256 };

/* A recording that breaks off: its name without an end, and why. */
struct loss { _Atomic uint32_t is_written; int32_t process; char recording[64], why[224]; };

/* `submitted` counts what the queues took. A submission is counted after it is recorded, so a process that is killed
 * has none that is counted alone. `lost` counts the recordings that break off; the first of them are in `losses`.
 * `unwatched` counts the processes in which no record can be watched, and the first of them says why; `half_watched`
 * those that have closed the files of watchpoints, so that it is not known whether they have looked at some records. */
struct board {
    _Atomic uint64_t submitted;
    _Atomic uint32_t lost, unwatched, half_watched;
    char why_unwatched[96];
    struct loss losses[MOST_LOSSES];
};

#endif
