/* The device's files, for names.c. */
#ifndef DSA_TRACE_FILES_H
#define DSA_TRACE_FILES_H

#include <stdbool.h>
#include <stddef.h>

/* Takes the folder of the tree off a path, in place. */
char *files_unturned(char *path);
/* The path without links, by the C library's own realpath; false if there is none. */
bool files_real_path(const char *path, char *to, size_t room);

#endif
