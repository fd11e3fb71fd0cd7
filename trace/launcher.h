/* The parts of the program dsa_trace, which puts the device's files in place and starts programs with the library. */
#ifndef DSA_TRACE_LAUNCHER_H
#define DSA_TRACE_LAUNCHER_H

#include <stdbool.h>
#include <stdio.h>

#include "settings.h"
#include "symbols.h"

/* Statuses as those of timeout and env: the program ran for too long; this program fails, the other can't be run, the
 * other is not found. */
enum { TIMED_OUT = 124, FAILED = 125, NOT_RUN = 126, NOT_FOUND = 127 };
enum { MOST_QUEUES = 8, LONGEST_KEY = 4096 };

/* What an audit takes of the options of dsa_text, NULL if they are not given. `is_there`: one of them is given. */
struct audit_options {
    const char *accept, *deny, *await;
    const char *greatest_batch, *greatest_transfer, *lone, *batch, *batches, *fence; /* for what it says of costs */
    FILE *accepted; /* what is read in place of the file `accept`, or NULL */
    bool is_resident, is_json, writes_keys, is_there;
};

struct options {
    struct settings settings;
    uint64_t seeds;     /* how many runs, from the seed of the settings on */
    uint64_t timeout;   /* seconds after which a run is ended; 0: it is not */
    const char *out;    /* the folder of the recordings, or NULL */
    const char *junit;  /* the file of test cases, or NULL */
    const char *report; /* a folder of --out that is audited in place of a program, or NULL */
    struct audit_options audit;
    const char *queues[MOST_QUEUES];
    int queue_count;
    bool has_namespace, audits, waits, watches;
    bool has_pace;      /* --delay or --watch is given, so no seed chooses one */
    char **program;     /* its name and arguments */
    char **words;       /* all words of the command line */
};

/* ---- options.c: what the command line says; it ends the program if that is wrong, and for --help ---- */
void options_read(char **words, struct options *o);
/* The command line with another seed and one run, on standard error. */
void options_repeat(const struct options *o, uint64_t seed);

/* ---- run.c: one run ---- */
/* A run with this seed: its recordings go to `records`, NULL for none. Then `status` is that of the program, 128 and
 * more if a signal ended it, or TIMED_OUT, and it took so many seconds. `is_over` is false if it was waited for
 * processes that still run. `board` is NULL of a run that is kept in a folder. */
struct run {
    uint64_t seed;
    const char *records;
    const struct board *board;
    int status;
    double seconds;
    bool is_over, is_timed_out;
};
void run_once(const struct options *o, const char *folder, struct run *run);
/* Removes a folder and what is in it, on its own file system. */
void run_remove(const char *folder);

/* ---- program.c: whether the library can be loaded into a program ---- */
/* 0, or the status with which to end; then a sentence says why. */
int program_check(const char *name);
/* A sentence, if programs end with this status that can't be traced. */
void program_explain(int status);

/* ---- tree.c: the device's files ---- */
void tree_make(const char *tree, const char *const *queues, int count);
/* Whether the text describes a queue. */
bool tree_is_queue(const char *text);

/* ---- namespace.c: mounts that only the program sees ---- */
bool namespace_enter(void);
void namespace_mount(const char *tree);

/* ---- background.c: processes that a program leaves ---- */
/* Before the first run. */
void background_begin(void);
/* Waits for them; false if some still run after a minute. Unless `waits`, it does not wait. A
 * sentence names those that still run. */
bool background_end(bool waits);
/* Sends a signal to all processes of the run. */
void background_signal(int number);

/* ---- tidy.c: recordings of processes that were killed ---- */
void tidy(const char *records, const struct board *board);
/* Whether the process of the recording with this name, without its end, still runs. */
bool tidy_is_alive(const char *base);

/* ---- seen.c: whether all that was submitted is recorded ---- */
const struct board *seen_begin(const char *folder, char path[PATH_MAX]);
void seen_end(const struct board *b);
/* False, after a sentence for each, if recordings break off. */
bool seen_whole(const struct run *run);
/* How many submissions the processes of the run have made. */
uint64_t seen_submitted(const struct run *run);
/* Whether the board says that a recording breaks off. */
bool seen_is_lost(const struct board *b, const char *recording);
/* Notes among the errors of a recording that it breaks off; false if that can't be written. */
bool seen_mark(const char *records, const char *recording, const char *why);

/* ---- index.c: which files are recordings ---- */
struct index { char **names; size_t count; };
/* The names of all recordings of a folder. */
void index_read(struct index *x, const char *records);
void index_forget(struct index *x);
/* Whether a file of the folder is one of theirs. */
bool index_has(const struct index *x, const char *file);
/* Removes them, and the errors of processes that could not begin one; no other file. */
void index_empty(const char *records);
/* False, after a sentence for each, if some have no events, or a process could not begin its recording. */
bool index_is_whole(const char *records);

/* ---- keys.c: what findings of one kind have in common ---- */
struct keys { char **all; size_t count, room; };
bool key_is_of_wait(const char *key);
bool keys_has(const struct keys *k, const char *key);
/* The place of a key, which is added if it is not there. */
size_t keys_place(struct keys *k, const char *key);
/* Adds each line of a file. */
void keys_read(struct keys *k, FILE *from);
void keys_forget(struct keys *k);

/* ---- stale.c: lines of the file of --accept that fit nothing ---- */
/* What a key of dsa_text has before a place. */
#define KEY_PLACE " @ "
struct accepted_line { char *text; bool is_named, is_used; };
/* `others` has the words of --deny but ours, or is NULL. If there are lines with places, `plain` has those without, and
 * dsa_text knows it as `passed`; else it is NULL. */
struct stale {
    const char *file;
    char *others, passed[32];
    FILE *plain;
    struct accepted_line *lines;
    size_t count;
    bool is_denied;
};
void stale_begin(struct stale *s, const struct audit_options *o);
void stale_read(struct stale *s, struct keys *accepted);
/* A file for dsa_text, to close: the lines without a place, and the keys of those with one of these, but for some keys,
 * NULL for none. */
FILE *stale_at(const struct stale *s, const struct keys *places, const struct keys *but);
/* Answers a report without what it says of these lines, and closes the other. It was made with the file `passed` of
 * stale_at, or NULL for that of all audits, and these places. */
FILE *stale_take(struct stale *s, const char *passed, const struct keys *places, FILE *report);
/* Adds the lines with these places that the report which was taken last does not name. */
void stale_fitting(const struct stale *s, const struct keys *places, struct keys *to);
FILE *stale_cut(FILE *report);
void stale_use(struct stale *s, const char *key);
/* Writes the lines that no recording has used, and answers whether they are errors. Those of missing waits are left out
 * if none was looked for. */
bool stale_end(const struct stale *s, bool seeks_waits, bool is_json, FILE *to);
void stale_forget(struct stale *s);

/* ---- findings.c: findings of our own, beside those of dsa_text ---- */
/* Those before NESTED_BATCH are errors, and have an address. */
enum finding_kind {
    RECORD_NOT_ZERO, RECORD_CHANGED, LIST_CHANGED, LIST_UNREADABLE, BATCH_COUNT, BATCH_MISALIGNED, BATCH_UNREADABLE,
    NESTED_BATCH, OTHER_OWNER
};
/* `member` is -1 for the descriptor that was submitted, `members` is -1 if that is no batch. */
struct finding {
    enum finding_kind kind;
    uint64_t submission, address;
    unsigned long entry;
    int member, members;
    uint8_t operation;
    uint32_t size;
    char *placed; /* its key with the place, once that is known */
};
struct findings { struct finding *at; size_t count, room; };
void findings_add(struct findings *all, const struct finding *it);
/* Finds the keys with places. */
struct places;
void findings_place(struct findings *all, struct places *p);
void findings_forget(struct findings *all);
/* As lines, of those with one key the first or `each`, or as an array of JSON; errors whose key is accepted are none.
 */
void findings_text(const struct findings *all, const struct keys *accepted, bool each, FILE *to);
void findings_json(const struct findings *all, const struct keys *accepted, FILE *to);
/* Marks the lines with keys of these errors as used. */
void findings_use(const struct findings *all, struct stale *s);
/* Adds the keys of the errors; answers whether there is one. */
bool findings_errors(const struct findings *all, const struct keys *accepted, struct keys *to);

/* ---- gather.c and errors.c: what is audited of a process ---- */
/* What dsa_text reads, and at which entry each submission begins. `why` is NULL, or says why these are not all that the
 * queues of the process have taken; `dropped` counts those that they have not. */
struct gathered {
    FILE *recording, *events;
    char marked[224];
    uint64_t submissions, dropped;
    uint32_t *first;
    const char *why;
    bool is_at_once;
};
void gather(const char *records, const char *base, struct gathered *g, struct findings *changed);
void gather_end(struct gathered *g);
/* Adds what the library has noted; false, after a sentence, if it can't be read. It sets `why` of a recording that
 * breaks off. */
bool errors_noted(const char *records, const char *base, struct gathered *g, struct findings *to);

/* ---- looks.c: whether it was seen when the program looked at records ---- */
/* A report in words, which is closed, with what is missed if that was not seen in place of dsa_text's line; *is_unseen
 * is set then. */
FILE *looks_explain(FILE *report, const struct gathered *g, bool *is_unseen);
/* Adds what helps if looks are not seen to a report that has a missing wait after this place. */
void looks_advise(FILE *report, long from);

/* ---- unproved.c: a dsa_text that is built without proofs ---- */
/* Builds it in the clone whose trace/out this folder is, if there is one, and the toolchain; NULL if not. */
const char *unproved_build(const char *folder, char path[PATH_MAX]);

/* ---- audit.c: the program dsa_text ---- */
/* Where it is; NULL, after a sentence, if there is none. *is_unproved: it was built without proofs. */
const char *audit_find(bool *is_unproved);
/* What it says in a form (an option, NULL for text) of a recording, NULL for an empty one: 0, 1 if it has errors, 2 if
 * it can't be audited. */
int audit_text(const char *dsa_text, const struct audit_options *o, const char *form, const struct gathered *g,
               FILE *to);

/* ---- audits.c: the audits of all runs ---- */
enum verdict { CLEAN, ERRORS, PART, EMPTY }; /* PART: a part of the run was seen; EMPTY: nothing was submitted */
/* `report` has the reports that are kept, `last` that of the last run; `seed` is the first with errors; `status` is 0,
 * 1 if there are errors, or 125 if a part of a run was seen. */
struct audits {
    const char *dsa_text;
    bool is_unproved;             /* nothing has proved it */
    struct audit_options options; /* without the word stale, since dsa_text sees one recording at a time */
    struct stale stale;
    struct keys accepted, keys;
    struct symbols symbols;
    bool shows_places, keeps; /* the recordings of runs are kept */
    unsigned long long runs, faulty, partial, empty, kept;
    /* Those that submit; of them those whose submissions are done at once, and those of which it was seen when they
     * looked at records. */
    unsigned long long processes, at_once, seen;
    uint64_t seed, shown_seed;
    int status;
    bool has_keyless; /* a report is kept whose errors have no keys, as what --deny names */
    FILE *report, *last;
    FILE *shown; /* what is shown if no run has errors: the last that looked for missing waits, else the last */
    bool shows_waits;
};
/* False, after a sentence, if dsa_text is not there or does not take the options. */
bool audits_begin(struct audits *a, const struct options *o);
enum verdict audit_run(struct audits *a, const struct run *run, bool is_one_of_many);
/* Prints the report and says of which run, after a program with this status; answers the status of the audits. */
struct junit;
int audits_end(struct audits *a, const struct options *o, struct junit *j, int program);

/* ---- junit.c: the runs as test cases; `to` is NULL without --junit ---- */
struct junit { FILE *to; const char *path, *program; int reason; /* for which it could not be written */ };
void junit_begin(struct junit *j, const char *path, const char *program, bool is_unproved);
void junit_add(struct junit *j, const struct run *run, enum verdict verdict, FILE *report);
void junit_add_stale(struct junit *j, FILE *lines);
void junit_end(struct junit *j);

/* ---- report.c: audits of runs that are kept ---- */
/* Audits each run of the folder; false, after a sentence, if it has none. */
bool report_runs(const struct options *o, struct audits *a, struct junit *j);
/* Ends dsa_trace, after a sentence, if the folder has a file of others with the name of the list of runs. */
void report_claim(const char *folder);
/* Notes a run in the folder of --out, the first one of a command in the place of those of earlier commands. */
void report_note(const struct options *o, uint64_t seed, bool is_first);

/* ---- escape.c ---- */
void escape_json(FILE *to, const char *text);
void escape_xml(FILE *to, char c);

/* ---- fail.c ---- */
void fail(const char *what) __attribute__((noreturn)); /* with the reason that errno has */
FILE *opened(const char *path, const char *how);
/* A file in memory, which has no name and goes when it is closed. */
FILE *in_memory(const char *what);
void make_folders(const char *path);
/* Joins a folder and a name; the path is too long only with a sentence and the end. */
const char *joined(char room[PATH_MAX], const char *folder, const char *name);

#endif
