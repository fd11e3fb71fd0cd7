/* Functions of the C library that take a path: the device's paths are turned to the tree's, if no namespace has put the
 * tree in their place. What is opened also applies what was written before (files_settle). */
#include <dirent.h>
#include <errno.h>
#include <fcntl.h>
#include <ftw.h>
#include <glob.h>
#include <stdarg.h>
#include <stdio.h>
#include <stdlib.h>
#include <string.h>
#include <sys/stat.h>
#include <unistd.h>

#include "files.h"
#include "trace.h"

static mode_t mode_of(int flags, va_list more)
{
    return flags & O_CREAT || (flags & O_TMPFILE) == O_TMPFILE ? va_arg(more, mode_t) : 0;
}

/* A function of a path: what comes first in it, and the arguments of the C library's own. */
#define TURNING(type, name, parameters, first, arguments)                                                              \
    type name parameters                                                                                               \
    {                                                                                                                  \
        REAL_OF(name);                                                                                                 \
        char room[PATH_MAX];                                                                                           \
        first files_settle(path);                                                                                      \
        return REAL(name) arguments;                                                                                   \
    }
#define TURNED files_turned(path, room)
#define TAKE_MODE                                                                                                      \
    va_list more;                                                                                                      \
    va_start(more, flags);                                                                                             \
    const mode_t mode = mode_of(flags, more);                                                                          \
    va_end(more);
#define OPENING(name, parameters, arguments) TURNING(int, name, parameters, TAKE_MODE, arguments)
#define ONE(type, name, parameters, arguments) TURNING(type, name, parameters, , arguments)

OPENING(open, (const char *path, int flags, ...), (TURNED, flags, mode))
OPENING(open64, (const char *path, int flags, ...), (TURNED, flags, mode))
OPENING(openat, (int at, const char *path, int flags, ...), (at, TURNED, flags, mode))
OPENING(openat64, (int at, const char *path, int flags, ...), (at, TURNED, flags, mode))
ONE(FILE *, fopen, (const char *path, const char *mode), (TURNED, mode))
ONE(FILE *, fopen64, (const char *path, const char *mode), (TURNED, mode))
ONE(FILE *, freopen, (const char *path, const char *mode, FILE *file), (TURNED, mode, file))
ONE(FILE *, freopen64, (const char *path, const char *mode, FILE *file), (TURNED, mode, file))
ONE(DIR *, opendir, (const char *path), (TURNED))
ONE(int, access, (const char *path, int mode), (TURNED, mode))
ONE(int, euidaccess, (const char *path, int mode), (TURNED, mode))
ONE(int, faccessat, (int at, const char *path, int mode, int flags), (at, TURNED, mode, flags))
ONE(int, stat, (const char *path, struct stat *s), (TURNED, s))
ONE(int, lstat, (const char *path, struct stat *s), (TURNED, s))
ONE(int, stat64, (const char *path, struct stat64 *s), (TURNED, s))
ONE(int, lstat64, (const char *path, struct stat64 *s), (TURNED, s))
ONE(int, fstatat, (int at, const char *path, struct stat *s, int flags), (at, TURNED, s, flags))
ONE(int, fstatat64, (int at, const char *path, struct stat64 *s, int flags), (at, TURNED, s, flags))
ONE(int, statx, (int at, const char *path, int flags, unsigned mask, struct statx *s), (at, TURNED, flags, mask, s))
ONE(ssize_t, readlink, (const char *path, char *to, size_t size), (TURNED, to, size))
ONE(ssize_t, readlinkat, (int at, const char *path, char *to, size_t size), (at, TURNED, to, size))
ONE(int, chdir, (const char *path), (TURNED))

typedef int filter(const struct dirent *);
typedef int compare(const struct dirent **, const struct dirent **);
ONE(int, scandir, (const char *path, struct dirent ***list, filter *f, compare *c), (TURNED, list, f, c))
typedef int filter64(const struct dirent64 *);
typedef int compare64(const struct dirent64 **, const struct dirent64 **);
ONE(int, scandir64, (const char *path, struct dirent64 ***list, filter64 *f, compare64 *c), (TURNED, list, f, c))

/* The names by which programs that were built with _FORTIFY_SOURCE open files. */
int __open_2(const char *path, int flags) { return open(path, flags); }
int __open64_2(const char *path, int flags) { return open64(path, flags); }
int __openat_2(int at, const char *path, int flags) { return openat(at, path, flags); }
int __openat64_2(int at, const char *path, int flags) { return openat64(at, path, flags); }

char *realpath(const char *path, char *to)
{
    REAL_OF(realpath);
    char room[PATH_MAX];
    return files_unturned(REAL(realpath)(files_turned(path, room), to));
}

char *__realpath_chk(const char *path, char *to, size_t size)
{
    (void)size;
    return realpath(path, to);
}

char *canonicalize_file_name(const char *path) { return realpath(path, NULL); }

/* The names by which programs for a C library before 2.33 ask for a file's status. */
int __xstat(int version, const char *path, struct stat *s) { return (void)version, stat(path, s); }
int __xstat64(int version, const char *path, struct stat64 *s) { return (void)version, stat64(path, s); }
int __lxstat(int version, const char *path, struct stat *s) { return (void)version, lstat(path, s); }
int __lxstat64(int version, const char *path, struct stat64 *s) { return (void)version, lstat64(path, s); }

/* Names that a pattern has, of which those of the tree are as the program knows them. */
#define GLOB(name, type)                                                                                               \
    int name(const char *path, int flags, int (*failed)(const char *, int), type *found)                               \
    {                                                                                                                  \
        REAL_OF(name);                                                                                                 \
        char room[PATH_MAX];                                                                                           \
        files_settle(path);                                                                                            \
        const int status = REAL(name)(TURNED, flags, failed, found);                                                   \
        for (size_t i = 0; status == 0 && i < found->gl_pathc; i++)                                                    \
            files_unturned(found->gl_pathv[i + (flags & GLOB_DOOFFS ? found->gl_offs : 0)]);                           \
        return status;                                                                                                 \
    }
GLOB(glob, glob_t)
GLOB(glob64, glob64_t)

/* A walk through folders calls the program for each file, with the path as it knows it. */
#define WALK(name, status)                                                                                             \
    static __thread int (*called_by_##name)(const char *, const struct status *, int, struct FTW *);                   \
    static int from_##name(const char *path, const struct status *s, int kind, struct FTW *at)                         \
    {                                                                                                                  \
        char room[PATH_MAX];                                                                                           \
        snprintf(room, sizeof room, "%s", path);                                                                       \
        files_unturned(room);                                                                                          \
        struct FTW there = {at->base - (int)(strlen(path) - strlen(room)), at->level};                                 \
        return called_by_##name(room, s, kind, &there);                                                                \
    }                                                                                                                  \
    int name(const char *path, __typeof__(called_by_##name) call, int files, int flags)                                \
    {                                                                                                                  \
        REAL_OF(name);                                                                                                 \
        char room[PATH_MAX];                                                                                           \
        __typeof__(call) const before = called_by_##name;                                                              \
        files_settle(path);                                                                                            \
        called_by_##name = call;                                                                                       \
        const int result = REAL(name)(TURNED, from_##name, files, flags);                                              \
        called_by_##name = before; /* of a walk in which this one is */                                                \
        return result;                                                                                                 \
    }
WALK(nftw, stat)
WALK(nftw64, stat64)

/// The path without links, of the tree's own files.
bool files_real_path(const char *path, char *to, size_t room)
{
    REAL_OF(realpath);
    char found[PATH_MAX];
    if (!REAL(realpath)(path, found) || strlen(found) >= room)
        return false;
    strcpy(to, found);
    return true;
}
