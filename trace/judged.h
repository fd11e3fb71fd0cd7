/* Errors judged by their keys and places: the key of dsa_text, ` @ `, and the functions of each submission. */
#ifndef DSA_TRACE_JUDGED_H
#define DSA_TRACE_JUDGED_H

#include "launcher.h"
#include "places.h"

enum { MOST_NAMED = 4 };

/* The entries and the submissions that a finding names, each once. */
struct named { uint64_t entries[MOST_NAMED], submissions[MOST_NAMED]; unsigned entry_count, count; };

/* An error of dsa_text with its keys. `source` is 0, or that of a report that shows it if others are accepted. */
struct judged { struct named of; char *key, *placed; unsigned source; bool is_accepted; };

/* The errors of one process. `reports` are in words: the first has all findings, the others those that accepted ones
 * hide. `has_others`: there are errors without keys. `why`: NULL, or why not all that they hide was looked for. */
struct judgement {
    struct judged *at;
    size_t count, room;
    size_t *next; /* the place after the one that was found last */
    FILE **reports;
    unsigned report_count;
    bool has_others;
    const char *why;
};

/* ---- judged.c ---- */
/* Names an entry and its submission. */
void named_add(struct named *n, const struct gathered *g, uint64_t entry);
/* The submission that has an entry. */
uint64_t named_submission(const struct gathered *g, uint64_t entry);

/* Judges what dsa_text finds in a process. The first report of `j` is its answer in words with each finding, and `base`
 * has the keys that it writes for errors. Keys of errors that are left are added to `left`; answers whether there are
 * errors. */
bool judged_process(struct audits *all, const struct gathered *g, struct places *p, const struct keys *base,
                    struct judgement *j, struct keys *left);
/* Begins with this answer. */
void judged_begin(struct judgement *j, FILE *answer);
/* The error that a finding in words is, from a report of this number; NULL if it is none that has a key. */
const struct judged *judged_find(const struct judgement *j, unsigned source, const struct named *of, const char *text);
/* Writes the keys that are accepted by their places, each once, as an array of JSON. */
void judged_json(const struct judgement *j, FILE *to);
void judged_forget(struct judgement *j);
/* Adds the errors of a report in JSON: those whose keys are among these, or with NULL all. */
void judged_read(struct judgement *j, const struct gathered *g, const struct keys *base, unsigned source, FILE *from);
/* Gives the errors from one on their keys with places, and looks which of them are accepted. */
void judged_place(struct audits *all, struct places *p, struct judgement *j, size_t from);

/* ---- hidden.c: what accepted errors hide ---- */
/* Adds the errors that those hide that are accepted by their places. */
void hidden_add(struct audits *all, const struct gathered *g, struct places *p, struct judgement *j);
/* Writes those that are errors as an array of JSON. */
void hidden_json(const struct judgement *j, const struct gathered *g, FILE *to);

#endif
