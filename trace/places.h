/* Where in the source submissions come from, and what addresses of data are, for reports. */
#ifndef DSA_TRACE_PLACES_H
#define DSA_TRACE_PLACES_H

#include <stdbool.h>
#include <stdint.h>
#include <stdio.h>
#include <time.h>

#include "symbols.h"

/* A file of code, or the heap, of the program: where it was mapped, and from which offset on. `inode` is 0 if the file
 * has changed since. */
struct mapped { char *path; unsigned long inode; uint64_t low, high, offset; bool is_code; };

/* A frame of a stack. `mapped` is SIZE_MAX if its code is in none. `called` is what its call calls, or NULL. */
struct place { uint64_t at; size_t mapped; struct symbol *symbol, *called; };

/* A call stack. `text` has a line for each function, or is NULL before it is known. */
struct stack { unsigned count; struct place *places; char *text; bool is_wanted; };

struct origin { int thread; unsigned stack; uint64_t time; };
struct thread { int number; uint64_t low, high; char name[20]; };
/* What an address of data is. */
struct datum { uint64_t at; char *text; };

/* Of one recording with all its parts, whose last stack was written at the time `recorded`. `changed` is a file of code
 * that has changed since, or NULL. */
struct places {
    struct symbols *symbols;
    struct mapped *mapped;
    struct stack *stacks;    /* by number, from 1 on */
    struct origin *origins; /* by submission */
    struct thread *threads;
    struct datum *data;
    struct timespec recorded;
    const char *changed;
    size_t mapped_count, stack_count, origin_count, thread_count, datum_count;
};

/* ---- places.c ---- */
/* Reads what is beside a recording. Without stacks `stack_count` is 0. */
void places_read(struct places *p, const char *records, const char *base, struct symbols *symbols);
void places_forget(struct places *p);
/* Writes NAME.PID.places: the stacks that have names and the data whose text is known. False, after a sentence, if it
 * can't be. */
bool places_keep(const struct places *p, const char *records, const char *base);
/* The stack of a submission, or NULL. */
struct stack *places_stack(const struct places *p, uint64_t submission);
/* Has the text of a submission's stack found by places_find, with all others that are wanted. */
void places_want(struct places *p, uint64_t submission);
void places_find(struct places *p);
/* Writes from where some submissions come, each with a line before its stack. */
void places_show(const struct places *p, const uint64_t *submissions, unsigned count, FILE *to);
/* The text of what an address of data is, or NULL if it is not known; and adds one, which is freed later. */
const char *places_datum(const struct places *p, uint64_t at);
void places_add_datum(struct places *p, uint64_t at, char *text);
/* A key with the functions of these submissions, for free; `?` in place of those of a stack that is not known. */
char *places_key(const struct places *p, const char *key, const uint64_t *submissions, unsigned count);
/* Writes an object of JSON for a submission. */
void places_json(const struct places *p, uint64_t submission, FILE *to);

/* ---- frames.c: the text of a stack ---- */
/* Has its symbols found, of those frames that are shown. */
void frames_want(const struct places *p, const struct stack *s);
/* Writes a line for each function. */
void frames_write(const struct places *p, const struct stack *s, FILE *to);

/* ---- variables.c ---- */
/* Writes the line of an address of data: a variable, the heap or a stack; nothing if it is none of them. */
void variables_show(struct places *p, uint64_t at, FILE *to);

#endif
