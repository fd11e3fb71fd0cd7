/* Failures of the launcher, and paths. */
#include <errno.h>
#include <stdio.h>
#include <stdlib.h>
#include <string.h>
#include <sys/mman.h>
#include <sys/stat.h>

#include "launcher.h"

/// Says what failed and why, and ends.
void fail(const char *what)
{
    fprintf(stderr, "dsa_trace: %s: %s\n", what, strerror(errno));
    exit(FAILED);
}

/// Opens a file of our own.
FILE *opened(const char *path, const char *how)
{
    FILE *file = fopen(path, how);
    if (!file)
        fail(path);
    return file;
}

/// A file in memory, since a disk may be full.
FILE *in_memory(const char *what)
{
    const int fd = memfd_create(what, MFD_CLOEXEC); /* not for the program */
    FILE *file = fd < 0 ? NULL : fdopen(fd, "a+"); /* a child may write to it too */
    if (!file)
        fail(what);
    return file;
}

/// Joins a folder and a name.
const char *joined(char room[PATH_MAX], const char *folder, const char *name)
{
    if (snprintf(room, PATH_MAX, "%s/%s", folder, name) >= PATH_MAX) {
        errno = ENAMETOOLONG;
        fail(folder);
    }
    return room;
}

/// Makes a folder and those above it.
void make_folders(const char *path)
{
    char part[PATH_MAX];
    snprintf(part, sizeof part, "%s", path);
    for (char *s = part + 1; *s; s++)
        if (*s == '/') {
            *s = 0;
            mkdir(part, 0755);
            *s = '/';
        }
    if (mkdir(part, 0755) && errno != EEXIST)
        fail(part);
}
