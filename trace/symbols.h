/* What addresses in files of code are called. */
#ifndef DSA_TRACE_SYMBOLS_H
#define DSA_TRACE_SYMBOLS_H

#include <stdbool.h>
#include <stddef.h>
#include <stdint.h>

enum { MOST_INLINED = 8 };

/* A function, and FILE:LINE or NULL. */
struct line { char *function, *where; };

/* An offset in a file, the address that the file itself gives it, and its lines: the innermost function first, each
 * inlined into the next. */
struct symbol {
    uint64_t offset, at;
    bool is_in_file;
    unsigned count;
    struct line lines[MOST_INLINED];
};

/* All files that were asked for, each offset once. */
struct symbols { struct module *modules; size_t count; char *program; bool is_searched; };

/* The symbol of an offset in a file, which had this inode when it ran. It has no lines before symbols_find. */
struct symbol *symbols_at(struct symbols *s, const char *path, unsigned long inode, uint64_t offset);
/* Finds the lines of all symbols that have none yet, asking once for each file. A sentence names a file without lines,
 * unless another file has come to its place. */
void symbols_find(struct symbols *s);
/* The offset of what the call before this offset calls, if it is a direct call within the file; else 0. */
uint64_t symbols_called(const char *path, uint64_t after);
void symbols_forget(struct symbols *s);

#endif
