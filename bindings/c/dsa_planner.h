/*
 * dsa_planner.h: plans lists of descriptors of Intel's Data Streaming Accelerator, from C or C++.
 *
 * A list of operations goes in, 64 bytes for each (struct dsa_hw_desc of linux/idxd.h); out come the bytes that submit
 * it, as batches and lone descriptors with fences, at least cost.
 *
 * Barriers:  the flag 0x0001, fence, of an operation of a list is a barrier before it. The device starts no piece of
 *            it, nor of any operation after it, before all pieces before the barrier have ended with status 1; if one
 *            of them fails, nothing after the barrier is done, as long as the caller stops there, too. Of an operation
 *            that is split the first piece is after the barrier, and the flag on the first operation says nothing. A
 *            plan keeps each barrier, by a fence or a new group, and no legal plan that does costs less.
 *
 * Checksums: a list, and bytes to submit, may have CRC generation (0x10) and copy with CRC (0x11). Of a list with one
 *            no operation is split: one longer than greatest_transfer is refused (37); dsa_count_pieces counts as of
 *            other operations. A seed in memory is read by its operation: a checksum that reads it in the record of
 *            another comes after that one.
 *
 * Proved:    of each call but dsa_planner_version, for all inputs of a caller that does what is asked below: which
 *            number it returns, and what it has written then, as its comment here says. The contracts are at the
 *            functions of the same names in crates/dsa_c/src of the repository. Tested, not proved: that a call succeeds
 *            if there is memory, how much stack it takes, and that calls on several threads do not disturb each other.
 *            Neither proved nor tested: that a device does what docs/FORMATS.md says of it.
 *
 * Link:      cc app.c $(pkg-config --cflags --libs dsa_planner)            with the shared object libdsa_planner.so.1
 *            cc app.c $(pkg-config --cflags --libs dsa_planner_static)     with the archive libdsa_planner.a
 *            cc app.c $(pkg-config --cflags --libs dsa_planner_own_memory) with libdsa_planner_own_memory.a, for a
 *            program that defines the three functions of memory below. The first two take their memory from malloc.
 *            CMake: find_package(dsa_planner 1.0), and the targets dsa_planner::shared, dsa_planner::static and
 *            dsa_planner::own_memory.
 *
 * Versions:  DSA_PLANNER_MAJOR, _MINOR and _PATCH below are the version of this header, and dsa_planner_version() is that
 *            of the library. A new MINOR may add calls and numbers, and accept input that was refused; a new PATCH does
 *            neither. In all versions of one MAJOR, which is the number of libdsa_planner.so too,
 *              - calls, layouts of structs, and the numbers of refusals and their meaning stay as they are;
 *              - input that is accepted gets the same answer, byte for byte (or DSA_MEMORY, which may come at any time);
 *              - a program runs with a library of its own MINOR or a later one.
 *
 * Platform:  x86-64, System V calling convention, instructions up to x86-64-v2.
 *
 * Threads:   no call keeps state, takes a lock of its own, starts a thread or does input or output. Calls may run at the
 *            same time on different threads, each with outputs of its own; inputs may be shared. No call may be made
 *            from a signal handler, nor from the forked child of a process with threads.
 *
 * Memory:    the caller owns every array and struct; a call keeps no pointer after it returns. What a call allocates it
 *            frees before it returns.
 *
 * A caller has to ensure, since no C compiler checks it (otherwise the behaviour is undefined):
 *   - each pointer is aligned and not NULL, and points to as many items as its length says, which can be read (const) or
 *     written (not const). With length 0 it is not read, and any aligned non-null address will do.
 *   - no output of a call overlaps another output or an input of that call. Outputs need not be initialised.
 *   - the calling thread has 256 KiB of stack free for dsa_check, dsa_check_list and dsa_judge, and 64 KiB for the
 *     other calls (measured: 167,032 bytes for dsa_check_list). Main threads and those of glibc have 8 MiB if no limit
 *     is set lower. A thread of musl has 128 KiB, too little for these three, unless pthread_attr_setstacksize gives it
 *     more.
 *   - its rattle_alloc, rattle_realloc and rattle_dealloc, if it has its own, return, and may be called by several
 *     threads at once if calls are made so.
 *   - nothing else writes to inputs or outputs, or reads outputs, during the call.
 *
 * Units:     lengths of byte arrays and `_len` of results are bytes; lengths of prices, pairs, marks, reasons,
 *            warnings, tables, regions, bases, rows, spans and words are items. Addresses are the device's. Prices and
 *            costs are in one unit of the caller's choice, for example nanoseconds. Numbers in descriptors are
 *            little-endian; numbers in structs are the machine's.
 *
 * Words:     a range is the addresses that an operation reads or writes; a span (struct dsa_span) a range as a tracker
 *            takes it, by its first address and its length; a region (struct dsa_region) a buffer of the caller's, in
 *            which ranges of a prepared list lie. The row of records of an operation is the records of its pieces, one
 *            after another; the rows of a prepared list are structs; those of a tracker are a table of its own, of
 *            which a caller chooses the size alone.
 */
#ifndef DSA_PLANNER_H
#define DSA_PLANNER_H

#include <stddef.h>
#include <stdint.h>

#ifdef __cplusplus
extern "C" {
#endif

/* The version of this header. DSA_PLANNER_VERSION is 10000 for 1.0.0: a number that #if can compare. */
#define DSA_PLANNER_MAJOR 1
#define DSA_PLANNER_MINOR 0
#define DSA_PLANNER_PATCH 0
#define DSA_PLANNER_VERSION (DSA_PLANNER_MAJOR * 10000 + DSA_PLANNER_MINOR * 100 + DSA_PLANNER_PATCH)

/* The version of the library that runs, as DSA_PLANNER_VERSION is of this header. It takes no memory. */
uint32_t dsa_planner_version(void);

/* The most pieces of a planned list. An operation longer than greatest_transfer is several pieces. */
#define DSA_MOST_PIECES 65536u

/* For n pieces: the bytes that are always enough for portal and staging, and those to reserve at settings.staging. */
#ifdef __cplusplus
#define DSA_PORTAL_ROOM(n) (sizeof(uint8_t[64]) * static_cast<size_t>(n))
#define DSA_STAGING_ROOM(n) (sizeof(uint8_t[80]) * static_cast<size_t>(n))
#define DSA_STAGING_AREA(n) (sizeof(uint8_t[96]) * static_cast<size_t>(n))
#else
#define DSA_PORTAL_ROOM(n) ((size_t)64 * (size_t)(n))
#define DSA_STAGING_ROOM(n) ((size_t)80 * (size_t)(n))
#define DSA_STAGING_AREA(n) ((size_t)96 * (size_t)(n))
#endif

/*
 * The limits of the device and of its work queue, and what submissions cost.
 *
 * Beside it each call takes a table of prices by size. It is used only with version 2: table[s - 2] is the price of a
 * batch of s pieces, greatest_batch - 1 entries in all, each at most 1,000,000,000, and `batch` is not used. A table of
 * the wrong length, or with a greater price, is refused 83, and so is any other version. With version 1 the table is not
 * read: pass any valid address and 0, for example &settings.batch, 0.
 */
struct dsa_settings {
    uint64_t version;           /* 1, or 2 with a table of prices by size */
    uint64_t greatest_batch;    /* most pieces of a batch, 2 to 1,024 */
    uint64_t greatest_transfer; /* most bytes of a piece, 8 to 2^31, a multiple of 8 */
    uint64_t lone;              /* price of a descriptor by itself, at most 1,000,000,000 */
    uint64_t batch;             /* price of a batch, without its fences, at most 1,000,000,000 */
    uint64_t fence;             /* price of each fence, at most 1,000,000,000 */
    uint64_t staging;           /* the address of the staging area, a multiple of 64, at most 2^63 */
};

/* A planned list. */
struct dsa_planned {
    uint64_t cost;        /* what the plan costs; no legal plan of these pieces costs less */
    uint64_t pieces;      /* how many pieces */
    uint64_t portal_len;  /* bytes written to portal: 64 for each group */
    uint64_t staging_len; /* bytes written to staging */
};

/* Why a call refused. */
struct dsa_refusal {
    uint32_t number; /* a number of enum dsa_number */
    uint32_t inner;  /* of DSA_ENTRY the number of the piece's fault, of DSA_PLAN that of the plan's; else 0 */
    uint64_t first;  /* the first index that the cause names, from 0; of DSA_SETTINGS the setting that is outside its
                        limits: 1 to 7 for the members of struct dsa_settings in their order, 8 for the table; of
                        DSA_NO_ROOM the bytes that portal needs, of DSA_NO_ROOM_FOR_CERTIFICATE the number of pieces,
                        of DSA_NO_ROOM_FOR_ROWS the rows that are needed, of DSA_NO_ROOM_FOR_LIST the bytes, of
                        DSA_NO_ROOM_FOR_REASONS the reasons, of DSA_NO_ROOM_FOR_WARNINGS the warnings; else 0 */
    uint64_t second; /* the second index; of DSA_NO_ROOM the bytes that staging needs; else 0 */
};

/* A pair of conflicting pieces in a certificate; both numbers are DSA_NONE if a piece has none. */
#define DSA_NONE UINT32_C(0xffffffff)
struct dsa_pair {
    uint32_t first;
    uint32_t second;
};

/* The mark of a piece is a sum of these: it begins a group (a batch, or a descriptor by itself); it carries the fence. */
#define DSA_BEGINS 1u
#define DSA_FENCED 2u

/*
 * What a call returns: 0, or the number of the refusal. docs/FORMATS.md has the order in which causes are looked for.
 * `first`, `second` and `inner` are members of struct dsa_refusal; those that a comment does not name are 0.
 */
enum dsa_number {
    DSA_OK = 0,
    /* the list's length is no multiple of 64 */
    DSA_LENGTH = 1,
    /* descriptor `first`: the operation code is not one of a move, fill, compare, compare pattern, delta or
       dualcast, or of a checksum if there may be one */
    DSA_OPCODE = 2,
    /* descriptor `first`: flags 0x0004 and 0x0008 have to be set; 0x0010 (interrupt), 0x0040 and bits 16 to 23 (of
       a checksum 19 to 23) may not; 0x0001 (fence) only in lists with barriers; 0x0080 (check) only in compares */
    DSA_FLAG_BITS = 3,
    /* descriptor `first`: a reserved bit or byte is not zero */
    DSA_RESERVED = 4,
    /* descriptor `first`: the transfer size is 0 */
    DSA_SIZE_ZERO = 5,
    /* descriptor `first`: an address of its data or its record would be 2^64 or more */
    DSA_WRAP = 6,
    /* descriptor `first`: the record's address is no multiple of 32 */
    DSA_RECORD_ALIGN = 7,
    /* descriptor `first`: the low twelve bits of a dualcast's destinations differ */
    DSA_DUALCAST_BITS = 8,
    /* descriptor `first`: two of a dualcast's ranges meet, or a delta's record and its destination, or what a copy
       with CRC reads and its destination */
    DSA_OVERLAP = 9,
    /* descriptor `first`: a delta's size is no multiple of 8 or above 0x80000, its destination no multiple of 8, or
       its record's size no multiple of 10 */
    DSA_DELTA = 10,
    /* descriptor `first`: the expected result of a compare or a compare pattern is above 1 */
    DSA_EXPECTED = 11,
    /* descriptor `first`: its PASID or privilege is not the first operation's */
    DSA_MIXED_PASID = 12,
    /* descriptor `first`: the 32 bytes of the record meet a data range */
    DSA_RECORD_MEETS_DATA = 13,
    /* operation `first` is a delta longer than the greatest transfer */
    DSA_DELTA_TOO_LONG = 30,
    /* operation `first` checks for a difference and needs more than one piece */
    DSA_EXPECTED_SPLIT = 31,
    /* there are more than 65,536 pieces */
    DSA_TOO_MANY_PIECES = 32,
    /* the staging area, 96 bytes for each piece, meets a range of piece `first` */
    DSA_STAGING_MEETS = 33,
    /* the row of records of operation `first`'s pieces meets its own data */
    DSA_ROW_MEETS_DATA = 34,
    /* an address of the row of records of operation `first` would be 2^64 or more */
    DSA_ROW_WRAP = 35,
    /* descriptor `first` is longer than the greatest transfer: split it first */
    DSA_OVER_TRANSFER = 37,
    /* the sizes of the groups do not add up to the number of pieces */
    DSA_COUNT = 40,
    /* group `first` is empty or larger than the greatest batch */
    DSA_GROUP_SIZE = 41,
    /* the first of group `first` is fenced */
    DSA_FIRST_FENCE = 42,
    /* pieces `first` and `second` of one group conflict, or have a barrier between, but no fence */
    DSA_UNFENCED = 43,
    /* the portal's length is no multiple of 64 */
    DSA_PORTAL_LENGTH = 44,
    /* the number of descriptors in the batch entry of group `first` is outside 2 to the greatest batch, or a byte
       is not the one of its place */
    DSA_BATCH_FIELDS = 45,
    /* the staging's length is not 64 for each piece in a batch and 32 for each batch, or there are more than 65,536
       pieces */
    DSA_STAGING_LENGTH = 46,
    /* piece `first` is refused; `inner` is the cause */
    DSA_ENTRY = 47,
    /* the first piece of group `first` is fenced */
    DSA_ENTRY_FENCE = 48,
    /* the 32 record bytes of batch `first` are not all zero */
    DSA_RECORD_BYTES = 49,
    /* the plan is not legal; `inner` is the cause, and the places are its own */
    DSA_PLAN = 60,
    /* there are not n + 1 prices and n pairs for n pieces */
    DSA_LENGTHS = 61,
    /* the pair of piece `first` is not one of conflicting pieces from there on */
    DSA_PAIR = 62,
    /* one group from piece `first` on gives a lower price at `second` (0 and 0: the first price is not 0) */
    DSA_PRICE = 63,
    /* the last price is not the plan's cost */
    DSA_TOTAL = 64,
    /* the certificate is of another version than the settings */
    DSA_VERSION = 65,
    /* the submitted piece `first` is not the list's; only where the list is given too */
    DSA_OTHER_PIECE = 66,
    /* there was not enough memory */
    DSA_MEMORY = 73,
    /* a setting is outside its limits, the version is neither 1 nor 2, or the table of prices has a wrong length;
       `first` is the number of the setting, from 1 on in the order of the settings, and 8 for the table */
    DSA_SETTINGS = 83,
    /* a buffer is too small for the bytes to submit: portal needs `first` bytes and staging `second` */
    DSA_NO_ROOM = 90,
    /* an array is too small for the prices, the pairs or the marks of `first` pieces */
    DSA_NO_ROOM_FOR_CERTIFICATE = 91,
    /* the array of rows is too small: `first` rows are needed */
    DSA_NO_ROOM_FOR_ROWS = 92,
    /* the buffer is too small for the list of what is left: `first` bytes are needed */
    DSA_NO_ROOM_FOR_LIST = 93,
    /* the array of reasons is too small: `first` reasons are needed */
    DSA_NO_ROOM_FOR_REASONS = 94,
    /* the array of warnings is too small: `first` warnings are needed */
    DSA_NO_ROOM_FOR_WARNINGS = 95,
    /* region `first` goes past 2^64 */
    DSA_REGION_WRAP = 100,
    /* region `first` begins before the one before it has ended */
    DSA_REGION_ORDER = 101,
    /* a range of operation `first`, or the row of its records, lies in no one region */
    DSA_OUTSIDE = 102,
    /* there are not as many bases as regions */
    DSA_BASES = 103,
    /* a buffer is shorter than the bytes to submit */
    DSA_ROOM = 104,
    /* at its new base region `first` would go past 2^64 */
    DSA_BASE_WRAP = 105,
    /* a completion record in region `first` would be no multiple of 32, or a delta's destination there no multiple
       of 8 */
    DSA_MISALIGNED = 106,
    /* the two destinations of a dualcast, in regions `first` and `second`, would differ in their low 12 bits */
    DSA_BASE_DUALCAST_BITS = 107,
    /* at their new bases region `first` and the earlier region `second` share an address */
    DSA_REGIONS_MEET = 108,
    /* at its new base region `first` has an address in the staging area, 96 bytes for each piece */
    DSA_BASE_STAGING_MEETS = 109,
    /* the staging address is no multiple of 64, or above 2^63 */
    DSA_STAGING = 110,
    /* the rows do not have the form of a prepared list */
    DSA_NOT_PREPARED = 111,
    /* there are not 32 bytes of completion records for each piece */
    DSA_RECORDS = 112,
    /* one of pieces `first` and `second` writes into the other's record: resume from the failed entry on if only
       groups before it share records; else restore the memory, and run the whole list with a record for each */
    DSA_SHARED_RECORD = 113,
    /* piece `first` is given up, but the status in its record is not 3 or above, or there is no such piece */
    DSA_NOT_FAILED = 114,
    /* piece `second` has begun, piece `first` has not succeeded, a barrier is between: restore memory, run the
       whole list */
    DSA_PASSED_BARRIER = 115,
    /* no slot is free (a tracker has at most 64): complete a submission first */
    DSA_NO_SLOT = 120,
    /* the submission may read or write `first` spans, more than the tracker keeps of one */
    DSA_TOO_MANY_SPANS = 121,
    /* slot `first` has no outstanding submission */
    DSA_NOT_OUTSTANDING = 122,
    /* the submission of slot `first` still waits for another */
    DSA_HELD = 123,
    /* span `first` goes past 2^64 */
    DSA_SPAN_WRAP = 124,
    /* piece `first` has another PASID or privilege than the first piece that came */
    DSA_OTHER_OWNER = 125,
    /* the words do not have the form of a tracker, or are too few for one of these measures; of a new tracker
       `first` is the measure: 1 slots, 3 log2_rows, 4 log2_unit, 5 words */
    DSA_NOT_A_TRACKER = 126,
    /* the groups of the plan do not have as many pieces as there are; no call from C has it, since a portal tells
       its groups and their pieces */
    DSA_OTHER_PLAN = 127,
    /* the plan has `first` groups, more than slots are free (of at most 64) or have a place in the array */
    DSA_FEW_SLOTS = 128
};

/* The most bytes of the text of a refusal. */
#define DSA_REFUSAL_TEXT_ROOM 512u

/*
 * Writes what a refusal means, for people to read, to the front of text: a sentence with the numbers that it names, and
 * for DSA_ENTRY and DSA_PLAN the sentence of the inner number after it. There is no zero byte at its end. It is cut off
 * at text_capacity; the rest of text is unchanged. DSA_REFUSAL_TEXT_ROOM bytes are always enough. It allocates nothing.
 *
 * Returns how many bytes the whole text has; 0, and text is unchanged, for a number that no cause has, such as DSA_OK.
 *
 *   char text[DSA_REFUSAL_TEXT_ROOM];
 *   fprintf(stderr, "%.*s\n", (int)dsa_refusal_text(&refusal, text, sizeof text), text);
 */
uint64_t dsa_refusal_text(const struct dsa_refusal *refusal, char *text, size_t text_capacity);

/*
 * How many pieces a list has, to size buffers before planning it: with n the result, DSA_PORTAL_ROOM(n) and
 * DSA_STAGING_ROOM(n) bytes are enough. It looks at sizes only and allocates nothing. It returns 65,537 for more pieces
 * than may be planned. If each size is 1 to greatest_transfer and there are at most 65,536 operations, the result is
 * list_len / 64. With 0 the settings are refused, or no operation has a byte; dsa_plan_list says which.
 */
uint64_t dsa_count_pieces(const struct dsa_settings *settings,
                          const uint64_t *table, size_t table_len,
                          const uint8_t *list, size_t list_len);

/*
 * Plans a list: 64 bytes for each operation, in their order.
 *
 * If all operations succeed, the final memory is that of the list in order. Nothing is promised of what another
 * thread, an interrupt or the device's other queues see in between, nor that a later operation waits for an earlier
 * one to succeed, if no barrier is between them.
 *
 * Returns 0: portal and staging begin with the bytes that submit the plan of least cost, and planned has their lengths.
 * The rest of each buffer is unchanged; refusal is not written. To run the plan, clear the completion records of all
 * pieces (32 bytes for each piece of an operation, one after another from its record address on), and put the staging
 * bytes, which clear the records of the batches, at settings->staging, anew for each run; then for each 64 bytes of
 * portal: write them to the work queue's portal, wait until the completion record at the address in their bytes 8..16
 * has a status, and stop if the status is not 1. (If a lone piece has the record of an earlier piece, clear it again
 * before its entry is written: else the wait passes at once.) The staging area is 96 bytes for each piece from
 * settings->staging on; a list that meets it is refused (33).
 *
 * Returns another number: refusal has it, and nothing else was written. The flag 0x0001 changes no other refusal than
 * DSA_NO_ROOM, of which refusal.first and refusal.second are the bytes that portal and staging need.
 */
uint32_t dsa_plan_list(const struct dsa_settings *settings,
                       const uint64_t *table, size_t table_len,
                       const uint8_t *list, size_t list_len,
                       uint8_t *portal, size_t portal_capacity,
                       uint8_t *staging, size_t staging_capacity,
                       struct dsa_planned *planned,
                       struct dsa_refusal *refusal);

/*
 * The same as dsa_plan_list, and for n pieces it writes the plan's certificate, n + 1 prices and n pairs, and n marks
 * (DSA_BEGINS, DSA_FENCED), each to the front of its array. DSA_NO_ROOM_FOR_CERTIFICATE: one of these is too small,
 * and refusal.first is n. The certificate's version is that of the settings; it is for dsa_check_list, and without
 * barriers for dsa_check, too.
 */
uint32_t dsa_plan_list_certified(const struct dsa_settings *settings,
                                 const uint64_t *table, size_t table_len,
                                 const uint8_t *list, size_t list_len,
                                 uint8_t *portal, size_t portal_capacity,
                                 uint8_t *staging, size_t staging_capacity,
                                 uint64_t *prices, size_t prices_capacity,
                                 struct dsa_pair *pairs, size_t pairs_capacity,
                                 uint8_t *marks, size_t marks_capacity,
                                 struct dsa_planned *planned,
                                 struct dsa_refusal *refusal);

/* The hazard of a conflict: the later piece reads what the earlier writes; else it writes what that writes (3); else it
 * writes what that reads (2). */
#define DSA_READ_AFTER_WRITE 1u
#define DSA_WRITE_AFTER_READ 2u
#define DSA_WRITE_AFTER_WRITE 3u

/* Why a piece carries a fence, or begins a group. It separates what is before the piece, back to the fence or beginning
 * before it, from what is at the piece and after it, up to the next one; of the conflicts between these, which it alone
 * separates, the first is the one with the least later piece and for that the greatest earlier one. */
struct dsa_reason {
    uint64_t piece;     /* the piece, from 0 on */
    uint64_t group;     /* the number of its group, from 0 on */
    uint64_t earlier;   /* of the first conflict the earlier piece; 0 if there is none */
    uint64_t later;     /* the later piece, which waits */
    uint64_t address;   /* an address where the two conflict */
    uint64_t more;      /* how many more conflicts it alone separates */
    uint32_t mark;      /* DSA_FENCED, or DSA_BEGINS */
    uint32_t barrier;   /* 1 if a barrier is before the piece, else 0 */
    uint32_t hazard;    /* 0 if there is no such conflict: a barrier asks for a fence then, and for a beginning that or
                           the limit of a batch or the prices do */
    uint32_t in_record; /* 1 if the address is in the completion record of `earlier`, 2 if in that of `later`, else 0 */
};

/*
 * Says why the plan of a list, that of dsa_plan_list, has its fences and its groups: a reason for each fenced piece and
 * for each that a group after the first begins with, in the order of the pieces, so fewer than pieces.
 *
 * Returns 0: reasons begins with *count of them, and its rest is unchanged; refusal is not written. Returns another
 * number: refusal has it, and nothing else was written. What dsa_plan_list refuses comes first, but for DSA_NO_ROOM;
 * then DSA_NO_ROOM_FOR_REASONS: refusal.first is how many there are. It takes the time of planning and, for each
 * reason, of a look at each two pieces that it separates.
 */
uint32_t dsa_explain_list(const struct dsa_settings *settings,
                          const uint64_t *table, size_t table_len,
                          const uint8_t *list, size_t list_len,
                          struct dsa_reason *reasons, size_t reasons_capacity,
                          uint64_t *count,
                          struct dsa_refusal *refusal);

/* The most bytes of the text of a reason. */
#define DSA_REASON_TEXT_ROOM 256u

/*
 * Writes what a reason says, for people to read, to the front of text: the sentence that `dsa_text explain` has for the
 * fence, such as `2 after 1, read after write at 0x200038`, `a barrier`, or `no conflict needs it alone`. There is no
 * zero byte at its end. It is cut off at text_capacity; the rest of text is unchanged.
 *
 * Returns how many bytes the whole text has; 0, and text is unchanged, if there was not enough memory.
 */
uint64_t dsa_reason_text(const struct dsa_reason *reason, char *text, size_t text_capacity);

/* What is worth a warning about a piece: one of it and an earlier piece writes into the completion record of the other,
 * so that a record may not say how its piece has ended; it is a compare without check, and a barrier is after it, which
 * its result does not stop; it is a compare with check, and the next piece, of a compare that is split perhaps its own,
 * may begin before it has ended; it is a move whose source and destination overlap, which only devices with overlapping
 * copy support take (GENCAP bit 1). */
#define DSA_SHARED_RECORD_WARNING 1u
#define DSA_UNCHECKED_WARNING 2u
#define DSA_UNGUARDED_WARNING 3u
#define DSA_OVERLAP_WARNING 4u
struct dsa_warning {
    uint64_t kind;  /* one of these */
    uint64_t piece; /* the piece, from 0 on */
    uint64_t other; /* of a shared record the earlier piece, the last one if there are several; else 0 */
};

/*
 * Says what is worth a warning about the pieces of a list and their plan, that of dsa_plan_list: in the order of the
 * pieces, and of one piece in that of the kinds, so at most two for each.
 *
 * Returns 0: warnings begins with *count of them, and its rest is unchanged; refusal is not written. Returns another
 * number: refusal has it, and nothing else was written. What dsa_plan_list refuses comes first, but for DSA_NO_ROOM;
 * then DSA_NO_ROOM_FOR_WARNINGS: refusal.first is how many there are.
 */
uint32_t dsa_warn_list(const struct dsa_settings *settings,
                       const uint64_t *table, size_t table_len,
                       const uint8_t *list, size_t list_len,
                       struct dsa_warning *warnings, size_t warnings_capacity,
                       uint64_t *count,
                       struct dsa_refusal *refusal);

/*
 * Writes what a warning says, as dsa_reason_text does of a reason; 0 also for a kind that there is not. Room for a
 * reason is room for a warning.
 */
uint64_t dsa_warning_text(const struct dsa_warning *warning, char *text, size_t text_capacity);

/*
 * Checks bytes to submit, whoever made them, with a certificate of this version, whoever wrote it. The lengths are those
 * of the plan, not of buffers: portal_len and staging_len of struct dsa_planned, n + 1 prices and n pairs for n pieces.
 *
 * Returns 0: cost is what the plan costs that the bytes submit; each conflict within a batch has its fence, and no legal
 * plan of these pieces costs less. Returns another number: refusal has it, and nothing else was written.
 */
uint32_t dsa_check(const struct dsa_settings *settings,
                   const uint64_t *table, size_t table_len,
                   const uint8_t *portal, size_t portal_len,
                   const uint8_t *staging, size_t staging_len,
                   uint64_t version,
                   const uint64_t *prices, size_t prices_len,
                   const struct dsa_pair *pairs, size_t pairs_len,
                   uint64_t *cost,
                   struct dsa_refusal *refusal);

/*
 * The same for a list, which says where the barriers are: not each fence that is submitted is one. Returns 0 only if
 * the bytes submit the pieces of the list, the plan keeps each barrier, and the certificate proves that no legal plan
 * that does costs less. Else the first refusal, in this order: of the list and its pieces, as of dsa_plan_list; of the
 * bytes; DSA_OTHER_PIECE, the first submitted piece that is not the list's; of the plan and the certificate. A barrier
 * that is not kept is an inner DSA_UNFENCED, with the pieces just before and just after it.
 */
uint32_t dsa_check_list(const struct dsa_settings *settings,
                        const uint64_t *table, size_t table_len,
                        const uint8_t *list, size_t list_len,
                        const uint8_t *portal, size_t portal_len,
                        const uint8_t *staging, size_t staging_len,
                        uint64_t version,
                        const uint64_t *prices, size_t prices_len,
                        const struct dsa_pair *pairs, size_t pairs_len,
                        uint64_t *cost,
                        struct dsa_refusal *refusal);

/* what dsa_resume has written, and what may not be done any more */
struct dsa_resumed {
    uint64_t rest_len;   /* the bytes of the list that was written, 64 for each piece */
    uint64_t left_out;   /* how many pieces after a barrier are left out, because one before it will not succeed */
    uint64_t stopped_by; /* the first piece that stops them; 0 if none is left out */
};

/*
 * What is left to submit of a list that was planned with these settings, once a submission has stopped, as after a
 * page fault. records has the completion records of its pieces as the device has left them, 32 bytes for each in the
 * order of the pieces: byte 0 is 0, as the caller has cleared it, of a piece that waits, 1 or 2 of one that has
 * finished (2: a compare found another result than expected), and any other of one that failed. The pieces of a move
 * to a higher address within its own range run from the end, and so do their records: the one at its record address is
 * that of its last piece. given_up has a byte for each piece, not 0 if it has failed and is not to be done again; it
 * may be shorter, so with length 0 no piece is given up.
 *
 * What is after a barrier is done only if all pieces before it end with status 1. Those that wait or failed still can;
 * if one ended with status 2, or is given up, all pieces after the barrier are left out: resumed->left_out says how
 * many they are, and resumed->stopped_by the first piece that stops them. They are not in rest, so a later call does
 * not count them. A piece that reads what a given-up one should have written is done all the same, unless a barrier is
 * between.
 *
 * Returns 0: rest begins with the list of the other pieces that have not finished, 64 bytes each, with the flag 0x0001
 * after each barrier between them, and resumed->rest_len is its length (64 bytes for each piece are always enough).
 * They are as they were listed; if failed_first is not 0, those that failed come before those that wait, up to the
 * next barrier. Clear their completion records, and plan the list: planning does not refuse it. If no entry of the
 * portal was submitted after one that failed, doing it leaves what executing the list in order leaves, without the
 * pieces that are given up or left out, provided that what is left writes each byte that a failed piece or the clearing
 * of a record has changed before it reads it, and that no other piece reads or writes a byte that a given-up piece has
 * changed: those bytes, its record among them, stay as they are. So a move over its own source that has failed needs
 * that source restored.
 *
 * Returns another number: refusal has it, and nothing else was written: the first refusal of dsa_plan_list but for
 * DSA_NO_ROOM, then DSA_RECORDS, then DSA_SHARED_RECORD, DSA_NOT_FAILED, DSA_PASSED_BARRIER, then
 * DSA_NO_ROOM_FOR_LIST.
 * DSA_SHARED_RECORD: a record that another piece writes, with its data or its own record, does not say how its piece
 * has ended. Give each piece a record of its own before the next run, and let what reads a checksum in a record, as a
 * seed, read it in the new one. Now, if only pieces of groups that are known to have completed, by the records of
 * their batches, share records, give the pieces from the first entry on whose status is not 1, with their records, as
 * the list: they are the descriptors that were submitted, in the portal and in the staging area, with the flag 0x0001
 * exactly where the list has a barrier (clear it on all others, and set it on the first of a group before which there
 * is one). Else restore the memory and run the whole list.
 * DSA_PASSED_BARRIER: piece refusal.second has begun although piece refusal.first has not succeeded and a barrier is
 * between them: groups were submitted too early, or records were not cleared.
 */
uint32_t dsa_resume(const struct dsa_settings *settings,
                    const uint64_t *table, size_t table_len,
                    const uint8_t *list, size_t list_len,
                    const uint8_t *records, size_t records_len,
                    const uint8_t *given_up, size_t given_up_len,
                    uint32_t failed_first,
                    uint8_t *rest, size_t rest_capacity,
                    struct dsa_resumed *resumed,
                    struct dsa_refusal *refusal);

/*
 * Judges a plan of the caller's, a mark for each descriptor of the list. No descriptor is split. The first descriptor
 * begins a group, whatever its mark; bits of a mark beside DSA_BEGINS and DSA_FENCED do not count.
 *
 * Returns 0: cost is what the plan costs; it is within the limits, each conflict within a batch has its fence, and
 * each barrier is kept, by a fence of the descriptor after it, or by a group that begins there. Returns another
 * number: refusal has it, and nothing else was written. DSA_UNFENCED: the pieces refusal.first and refusal.second of
 * one batch conflict, or are just before and just after a barrier, and no fence is between them.
 */
uint32_t dsa_judge(const struct dsa_settings *settings,
                   const uint64_t *table, size_t table_len,
                   const uint8_t *list, size_t list_len,
                   const uint8_t *marks, size_t marks_len,
                   uint64_t *cost,
                   struct dsa_refusal *refusal);

/* A buffer with which a list was made: addresses first to first + len - 1. */
struct dsa_region {
    uint64_t first;
    uint64_t len;
};

/* A row of a prepared list. An array of them holds no pointer: it can be copied, read by several threads at once, and
 * kept in a file for programs with this MAJOR version. docs/FORMATS.md has their layout. */
struct dsa_prepared_row {
    uint64_t words[10];
};

/* A prepared list. */
struct dsa_prepared_info {
    uint64_t cost;        /* what the plan costs, wherever the buffers are */
    uint64_t pieces;      /* how many pieces; the staging area is 96 bytes for each */
    uint64_t rows;        /* rows written */
    uint64_t portal_len;  /* bytes that dsa_fill writes to portal */
    uint64_t staging_len; /* bytes that dsa_fill writes to staging */
};

/* Rows that are always enough for a list of n pieces over r regions: a number of struct dsa_prepared_row, not of bytes. */
#ifdef __cplusplus
#define DSA_PREPARED_ROOM(r, n) (1 + static_cast<size_t>(r) + 3 * static_cast<size_t>(n))
#else
#define DSA_PREPARED_ROOM(r, n) ((size_t)1 + (size_t)(r) + (size_t)3 * (size_t)(n))
#endif

/*
 * Plans a list once, for dsa_fill to write what submits it on any buffers. regions are the buffers at whose addresses
 * the list was made, in the order of their addresses and without overlap; each range of each operation, of which a seed
 * in memory is one, and the row of its pieces' records, lies in one of them. settings->staging counts for planning
 * alone: dsa_fill takes one of its own. What dsa_fill writes keeps each barrier.
 *
 * Returns 0: rows begins with the info->rows rows of the prepared list, and its rest is unchanged; refusal is not
 * written. Returns another number: refusal has it, and nothing else was written. What dsa_plan_list refuses comes
 * first, then 100 to 102, then DSA_NO_ROOM_FOR_ROWS: refusal.first is the number of rows that are needed.
 */
uint32_t dsa_prepare(const struct dsa_settings *settings,
                     const uint64_t *table, size_t table_len,
                     const uint8_t *list, size_t list_len,
                     const struct dsa_region *regions, size_t regions_len,
                     struct dsa_prepared_row *rows, size_t rows_capacity,
                     struct dsa_prepared_info *info,
                     struct dsa_refusal *refusal);

/*
 * Writes what submits a prepared list whose regions begin at these bases, one for each in their order, and whose staging
 * area is at staging_address. It allocates nothing, and rows_len is info->rows.
 *
 * Returns 0: portal and staging begin with info->portal_len and info->staging_len bytes, those that dsa_plan_list answers
 * for the list at its new addresses; the rest of each buffer is unchanged, and refusal is not written. Returns another
 * number: refusal has it, and nothing else was written. DSA_NOT_PREPARED comes first: the form of the rows is tested each
 * time, so that no rows, damaged or of another origin, make the call read or write out of its arrays. Damaged rows that
 * keep the form are filled like any others, and what is written may then name any address: if rows can be damaged, for
 * example in a file, keep a checksum beside them. Then come 103 to 110, in their order.
 */
uint32_t dsa_fill(const struct dsa_prepared_row *rows, size_t rows_len,
                  const uint64_t *bases, size_t bases_len,
                  uint64_t staging_address,
                  uint8_t *portal, size_t portal_capacity,
                  uint8_t *staging, size_t staging_capacity,
                  struct dsa_refusal *refusal);

/*
 * A tracker: which submissions in flight a further one has to wait for. A submission is what is rung at once: a
 * planned list, or any accesses. Two conflict if one writes what the other reads or writes. A submission has a slot
 * until it is taken off; sets of slots are words, bit s for slot s. It gets the first slot that is free: a caller that
 * keeps a word of those in use knows it before the call, and can have a staging area for each slot.
 *
 * All that a tracker knows is in an array of words of the caller's, which holds no pointer: it may be moved and
 * copied. No call keeps state; the calls on one array are made by one thread at a time. The form of the words is
 * tested by each call, so no words make one read or write out of its arrays. The answers are right if the array is
 * as dsa_track_begin and later calls left it.
 *
 * A caller owes besides: it rings each submission once, and only when it is ready (its waits are 0; they stay 0 once it
 * is rung), completes only what was rung and has ended, and withdraws only what was not rung. It fills a list's staging
 * area and clears its records when it is ready, too, and reads its records and results before it completes it: another
 * may be rung over them then. Then the submissions that it rings leave what they leave one after another, in the order
 * in which they were submitted.
 */
struct dsa_span {
    uint64_t first; /* the first address */
    uint64_t len;   /* how many */
};

/* The words of a tracker with these measures, and the spans that it has to keep of a list of n pieces. */
#ifdef __cplusplus
#define DSA_TRACKER_WORDS(slots, spans, log2_rows) \
    (16 + static_cast<size_t>(slots) * (3 + 4 * static_cast<size_t>(spans)) + (static_cast<size_t>(2) << (log2_rows)))
#define DSA_TRACKER_SPANS(n) (3 * static_cast<size_t>(n) + 1)
#else
#define DSA_TRACKER_WORDS(slots, spans, log2_rows) \
    ((size_t)16 + (size_t)(slots) * (3 + 4 * (size_t)(spans)) + ((size_t)2 << (log2_rows)))
#define DSA_TRACKER_SPANS(n) ((size_t)3 * (size_t)(n) + 1)
#endif

/*
 * Makes the words a tracker whose slots are free: at most 64 slots, for submissions that read at most `spans` spans
 * and write at most `spans` spans. log2_rows, 1 to 32, and log2_unit, 1 to 63, change no answer: there are
 * 2^log2_rows rows of bits for a first look (13 does for most, 14 for more than 4,096 units in flight), and addresses
 * are looked up in units of 2^log2_unit bytes, best near the length of an operation. Returns 0, or DSA_NOT_A_TRACKER: a
 * measure is outside its limits, which refusal.first names, or there are fewer than DSA_TRACKER_WORDS(slots, spans,
 * log2_rows) words; then they are unchanged. Of words beyond these nothing is promised. It allocates nothing.
 */
uint32_t dsa_track_begin(uint64_t *words, size_t words_len,
                         uint32_t slots, uint32_t spans, uint32_t log2_rows, uint32_t log2_unit,
                         struct dsa_refusal *refusal);

/*
 * Takes a list as a submission, 64 bytes for each operation: what the pieces into which these settings split it read
 * and write, records and seeds in memory included, and the staging_len bytes of the staging area at `staging`, which
 * count as written. settings->staging is not read. A barrier orders nothing between submissions. All pieces of a
 * tracker have one PASID and privilege. The submission gets the first free slot and waits for the outstanding ones that
 * conflict with it, and for those of `also` that are outstanding.
 *
 * Returns 0: slot and waits are written. Returns another number: refusal has it, and nothing else was written. What
 * planning refuses of the list with this staging address comes first, 83 (setting 7 is `staging`), 1 to 13, 30 to 35
 * and 37; then DSA_NOT_A_TRACKER, 120, 121, 124 and 125. It allocates as much as the pieces take.
 */
uint32_t dsa_track_list(uint64_t *words, size_t words_len,
                        const struct dsa_settings *settings,
                        const uint64_t *table, size_t table_len,
                        const uint8_t *list, size_t list_len,
                        uint64_t staging, uint64_t staging_len, uint64_t also,
                        uint32_t *slot, uint64_t *waits,
                        struct dsa_refusal *refusal);

/*
 * The same of a submission that reads and writes these spans, whoever owns them. DSA_NOT_A_TRACKER, 120, 121 and
 * 124. It allocates nothing.
 */
uint32_t dsa_track_spans(uint64_t *words, size_t words_len,
                         const struct dsa_span *reads, size_t reads_len,
                         const struct dsa_span *writes, size_t writes_len,
                         uint64_t also,
                         uint32_t *slot, uint64_t *waits,
                         struct dsa_refusal *refusal);

/*
 * Takes each entry of a portal as a submission of its own, in their order, so that groups of one plan which do not
 * conflict need not wait for each other. portal and staging are the bytes that dsa_plan_list or dsa_fill wrote with
 * these settings; with a filled list settings->staging is the staging address that dsa_fill had. The submission of an
 * entry has its pieces, and what the entry names of the staging area, its descriptors and its record, counts as
 * written. It waits for the outstanding submissions that conflict with it, those of earlier entries among them, and
 * for those of `also` that are outstanding by then. A group of n pieces takes DSA_TRACKER_SPANS(n) + 1 spans.
 *
 * A group that fails stops itself alone. With all slots in `also`, UINT64_MAX, each entry waits for all that are
 * outstanding, so for each earlier entry: then a caller that withdraws what waited for a failed group keeps the plan's
 * own stop point. Give it for each plan with barriers: a tracker sees addresses alone, and would lose a barrier between
 * groups.
 *
 * Returns 0: slots begins with the slot of each entry, portal_len / 64 of them, and its rest is unchanged; what each
 * waits for says dsa_track_waits. Returns another number: refusal has it, and nothing else was written, nor is any
 * entry taken. The settings come first, 83, then the bytes, 44 to 49, then DSA_NOT_A_TRACKER, DSA_FEW_SLOTS, 121, 124
 * and 125. It allocates as much as dsa_check does without a certificate.
 */
uint32_t dsa_track_groups(uint64_t *words, size_t words_len,
                          const struct dsa_settings *settings,
                          const uint64_t *table, size_t table_len,
                          const uint8_t *portal, size_t portal_len,
                          const uint8_t *staging, size_t staging_len,
                          uint64_t also,
                          uint32_t *slots, size_t slots_capacity,
                          struct dsa_refusal *refusal);

/*
 * The outstanding submissions that conflict with accesses to these spans: with none, the host may do them at once,
 * before any further submission is rung.
 * Returns 0 or DSA_NOT_A_TRACKER.
 */
uint32_t dsa_track_ask(const uint64_t *words, size_t words_len,
                       const struct dsa_span *reads, size_t reads_len,
                       const struct dsa_span *writes, size_t writes_len,
                       uint64_t *waits,
                       struct dsa_refusal *refusal);

/* The submissions that a slot's one still waits for: with none it is ready. Returns 0, DSA_NOT_A_TRACKER or 122. */
uint32_t dsa_track_waits(const uint64_t *words, size_t words_len, uint32_t slot, uint64_t *waits,
                         struct dsa_refusal *refusal);

/*
 * Takes a slot's submission off, which was ready and has ended. Its slot is free then, and no other waits for it:
 * waited has those that did, and ready those of them that are ready now. After a failure the caller may withdraw
 * those that waited. Returns 0, or DSA_NOT_A_TRACKER, 122 or 123, and then nothing but refusal was written.
 */
uint32_t dsa_track_complete(uint64_t *words, size_t words_len, uint32_t slot, uint64_t *waited, uint64_t *ready,
                            struct dsa_refusal *refusal);

/* The same of a submission that was not rung, ready or not: DSA_NOT_A_TRACKER or 122. */
uint32_t dsa_track_withdraw(uint64_t *words, size_t words_len, uint32_t slot, uint64_t *waited, uint64_t *ready,
                            struct dsa_refusal *refusal);

/*
 * What the library takes its memory with, for programs that bring their own (a pool of DPDK or SPDK, an arena) and
 * link libdsa_planner_own_memory.a; the other two libraries neither have nor use functions of these names. `ok` is 1
 * and `at` the block, or `ok` is 0 and `at` some address that is not NULL. A block of size bytes is aligned to align,
 * which is a power of two, at most 16. A size of 0 wants a block too. rattle_realloc gives a block of size bytes that
 * begins as the old one did, and takes the old one back; if it fails, the old one stays as it is. The three are
 * called on the thread of the call, which has given every block back when it returns. dsa_count_pieces, dsa_fill,
 * dsa_refusal_text, dsa_track_begin, dsa_track_spans, dsa_track_ask, dsa_track_waits, dsa_track_complete,
 * dsa_track_withdraw and dsa_planner_version call none of them.
 */
struct rattle_block {
    uint64_t ok;
    void *at;
};
struct rattle_block rattle_alloc(size_t size, size_t align);
struct rattle_block rattle_realloc(void *at, size_t old_size, size_t size, size_t align);
void rattle_dealloc(void *at);

#ifdef __cplusplus
}
#endif

#endif
