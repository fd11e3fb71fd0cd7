/* The program that knows the lines of addresses. */
#ifndef DSA_TRACE_ADDR2LINE_H
#define DSA_TRACE_ADDR2LINE_H

#include "symbols.h"

enum { MOST_ASKED = 1024 };

/* Its path, for free; NULL, after a sentence, if there is none. */
char *addr2line_find(void);
/* Adds the lines of up to MOST_ASKED symbols of one file. */
void addr2line_ask(const char *program, const char *path, struct symbol *const *asked, size_t count);
/* Cuts what compilers add to a name: the end of a copy, and the hash that Rust's have. */
void addr2line_cut(char *name);

#endif
