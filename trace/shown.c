/* What goes to a terminal. Names of files and programs, and keys of a file, may have bytes that command it: they are
 * shown as \x1b. */
#include <stdbool.h>
#include <stdio.h>
#include <unistd.h>

#include "shown.h"

/* A stream in place of one of the C library's, and the byte that it had last. */
struct shown { int file; unsigned char last; };

/// Whether a byte commands a terminal: a control of ASCII, or the second byte of one of the others in UTF-8.
static bool is_command(unsigned char last, unsigned char c)
{
    return (c < ' ' && c != '\n' && c != '\t') || c == 0x7f || (last == 0xc2 && c >= 0x80 && c < 0xa0);
}

static bool put_all(int file, const char *text, size_t length)
{
    for (ssize_t done; length > 0; text += done, length -= done)
        if ((done = write(file, text, length)) < 0)
            return false;
    return true;
}

static ssize_t put_shown(void *cookie, const char *text, size_t length)
{
    struct shown *to = cookie;
    char part[1024];
    size_t used = 0;
    for (size_t i = 0; i < length; i++) {
        const unsigned char c = text[i];
        used += snprintf(part + used, sizeof part - used, is_command(to->last, c) ? "\\x%02x" : "%c", c);
        to->last = c;
        if (used > sizeof part - sizeof "\\x1b" || i + 1 == length) {
            if (!put_all(to->file, part, used))
                return 0;
            used = 0;
        }
    }
    return length;
}

/// Has what this process writes to a terminal be shown so; without memory it is written as it is.
void shown_begin(void)
{
    static struct shown shown[] = {{STDOUT_FILENO, 0}, {STDERR_FILENO, 0}};
    FILE **const streams[] = {&stdout, &stderr};
    for (int i = 0; i < 2; i++) {
        const cookie_io_functions_t how = {.write = put_shown};
        FILE *stream = isatty(shown[i].file) ? fopencookie(&shown[i], "w", how) : NULL;
        if (!stream)
            continue;
        setvbuf(stream, NULL, _IOLBF, 0);
        *streams[i] = stream;
    }
}
