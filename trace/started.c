/* Programs that the program starts: each keeps our library and our settings, also in an environment that has neither,
 * as `env LD_PRELOAD=other` and `env -i` make one. Without them its submissions would end it by SIGILL. The environment
 * is copied to the stack, since after vfork the memory is the parent's. */
#include <alloca.h>
#include <dlfcn.h>
#include <spawn.h>
#include <stdarg.h>
#include <stdio.h>
#include <string.h>
#include <unistd.h>

#include "trace.h"

enum { VARIABLES = 32 };
static const char preload[] = "LD_PRELOAD=", ours[] = "DSA_TRACE_";

/* The path of our library, and our variables as they were when it was loaded. */
static struct started { char library[PATH_MAX], text[2 * PATH_MAX], *variables[VARIABLES]; unsigned count; } started;

/// Keeps what is in the environment now, since the program may overwrite its memory.
void started_begin(void)
{
    Dl_info found;
    size_t used = 0;
    if (dladdr(&started, &found) && found.dli_fname)
        snprintf(started.library, sizeof started.library, "%s", found.dli_fname);
    for (char **at = environ; at && *at && started.count < VARIABLES; at++) {
        const size_t size = strlen(*at) + 1;
        if (strncmp(*at, ours, sizeof ours - 1) || size > sizeof started.text - used)
            continue;
        started.variables[started.count++] = memcpy(started.text + used, *at, size);
        used += size;
    }
}

/// The place of a variable that begins so, or that of the end.
static char *const *find(char *const *environment, const char *name, size_t length)
{
    while (*environment && strncmp(*environment, name, length))
        environment++;
    return environment;
}

/// Whether a list of libraries, with a colon or a blank between them, has ours.
static bool has_library(const char *list)
{
    const size_t length = strlen(started.library);
    for (const char *at = list; (at = strstr(at, started.library)); at++)
        if ((at == list || strchr(": ", at[-1])) && strchr(": ", at[length]))
            return true;
    return false;
}

/// What is missing in an environment: our variables in `added`, and *lacks_library. Answers how many variables.
static unsigned missing(char *const *environment, char *added[VARIABLES], bool *lacks_library)
{
    unsigned count = 0;
    const char *libraries = *find(environment, preload, sizeof preload - 1);
    *lacks_library = started.library[0] && !(libraries && has_library(libraries + sizeof preload - 1));
    for (unsigned i = 0; i < started.count; i++) {
        char *const variable = started.variables[i];
        if (!*find(environment, variable, strcspn(variable, "=") + 1))
            added[count++] = variable;
    }
    return count;
}

static char *const nothing[] = {NULL};

/// How many bytes `completed` needs; 0 if nothing is missing.
static size_t room_for(char *const *environment)
{
    char *added[VARIABLES];
    bool lacks_library;
    const unsigned more = missing(environment, added, &lacks_library);
    const char *libraries = *find(environment, preload, sizeof preload - 1);
    size_t count = 0;
    while (environment[count])
        count++;
    if (!more && !lacks_library)
        return 0;
    return (count + more + 2) * sizeof(char *) + sizeof preload + strlen(libraries ? libraries : "") +
           strlen(started.library) + 2;
}

/// The environment with what is missing, in this room; itself if that is NULL. Our library comes after those that are
/// asked for, such as a sanitizer's.
static char *const *completed(char *const *environment, char **room)
{
    char *added[VARIABLES], **to = room;
    bool lacks_library;
    if (!room)
        return environment;
    const unsigned more = missing(environment, added, &lacks_library);
    char *const *libraries = find(environment, preload, sizeof preload - 1);
    for (char *const *at = environment; *at; at++)
        if (!lacks_library || at != libraries)
            *to++ = *at;
    memcpy(to, added, more * sizeof *added);
    to += more;
    to[lacks_library] = NULL;
    if (!lacks_library)
        return room;
    char *text = (char *)(to + 2);
    const char *before = *libraries ? *libraries + sizeof preload - 1 : "";
    *to = text;
    sprintf(text, "%s%s%s%s", preload, before, *before ? ":" : "", started.library);
    return room;
}

/* The environment that a program gets in place of this one. */
#define KEPT(environment) completed(environment, room_for(environment) ? alloca(room_for(environment)) : NULL)
#define GIVEN(environment) ((environment) ? (environment) : nothing)

int execve(const char *path, char *const words[], char *const environment[])
{
    REAL_OF(execve);
    return REAL(execve)(path, words, KEPT(GIVEN(environment)));
}

int execvpe(const char *name, char *const words[], char *const environment[])
{
    REAL_OF(execvpe);
    return REAL(execvpe)(name, words, KEPT(GIVEN(environment)));
}

int fexecve(int file, char *const words[], char *const environment[])
{
    REAL_OF(fexecve);
    return REAL(fexecve)(file, words, KEPT(GIVEN(environment)));
}

int execv(const char *path, char *const words[]) { return execve(path, words, environ); }
int execvp(const char *name, char *const words[]) { return execvpe(name, words, environ); }

int posix_spawn(pid_t *child, const char *path, const posix_spawn_file_actions_t *files,
                const posix_spawnattr_t *attributes, char *const words[], char *const environment[])
{
    REAL_OF(posix_spawn);
    return REAL(posix_spawn)(child, path, files, attributes, words, KEPT(GIVEN(environment)));
}

int posix_spawnp(pid_t *child, const char *name, const posix_spawn_file_actions_t *files,
                 const posix_spawnattr_t *attributes, char *const words[], char *const environment[])
{
    REAL_OF(posix_spawnp);
    return REAL(posix_spawnp)(child, name, files, attributes, words, KEPT(GIVEN(environment)));
}

/* The words of a call that lists them, in `words`, and what comes after them in `more`. */
#define TAKE_WORDS(first)                                                                                              \
    va_list more;                                                                                                      \
    size_t count = 1;                                                                                                  \
    va_start(more, first);                                                                                             \
    while (va_arg(more, char *))                                                                                       \
        count++;                                                                                                       \
    va_end(more);                                                                                                      \
    char *words[count + 1];                                                                                            \
    words[0] = (char *)first;                                                                                          \
    va_start(more, first);                                                                                             \
    for (size_t i = 1; i <= count; i++)                                                                                \
        words[i] = va_arg(more, char *);

int execl(const char *path, const char *first, ...)
{
    TAKE_WORDS(first)
    va_end(more);
    return execv(path, words);
}

int execlp(const char *name, const char *first, ...)
{
    TAKE_WORDS(first)
    va_end(more);
    return execvp(name, words);
}

int execle(const char *path, const char *first, ...)
{
    TAKE_WORDS(first)
    char *const *environment = va_arg(more, char *const *);
    va_end(more);
    return execve(path, words, environment);
}
