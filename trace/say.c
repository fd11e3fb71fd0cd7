/* Sentences on standard error, and the functions of the C library that ours come before. */
#include <dlfcn.h>
#include <stdarg.h>
#include <stdio.h>
#include <stdlib.h>
#include <sys/syscall.h>
#include <unistd.h>

#include "trace.h"

enum { LONGEST = 512 };

/// Writes a line in one call, so that lines of several threads and processes do not mix.
void say(const char *format, ...)
{
    static const char name[] = "dsa_trace: ";
    const int start = sizeof name - 1;
    char text[LONGEST] = "dsa_trace: ";
    va_list values;
    va_start(values, format);
    int length = vsnprintf(text + start, sizeof text - start - 1, format, values);
    va_end(values);
    length = length < LONGEST - start - 2 ? length + start : LONGEST - 2;
    text[length++] = '\n';
    (void)!syscall(SYS_write, STDERR_FILENO, text, length);
}

/// The function of this name that comes after this library's.
void *real(const char *name, void **found)
{
    if (!*found)
        *found = dlsym(RTLD_NEXT, name);
    if (!*found) {
        say("the C library has no %s", name);
        abort();
    }
    return *found;
}
