/* What is mapped where, as /proc/self/maps has it. */
#include "maps.h"

#include <fcntl.h>
#include <stdlib.h>
#include <sys/syscall.h>
#include <unistd.h>

/// Reads the line of a mapping.
static void read_line(struct mapping *m)
{
    char *end;
    m->low = strtoul(m->line, &end, 16);
    m->high = *end == '-' ? strtoul(end + 1, &end, 16) : 0;
    m->is_code = end[0] == ' ' && end[3] == 'x';
    m->is_private_code = m->is_code && end[4] == 'p';
}

static bool has(const struct mapping *m, void *at)
{
    return m->low <= *(const uintptr_t *)at && *(const uintptr_t *)at < m->high;
}

/// Shows all mappings. It reads the file in small parts, since there may be little stack.
bool maps_each(struct mapping *m, bool (*see)(const struct mapping *m, void *context), void *context)
{
    char text[256];
    size_t length = 0;
    bool is_found = false;
    ssize_t count = 0;
    const int file = (int)syscall(SYS_openat, AT_FDCWD, "/proc/self/maps", O_RDONLY | O_CLOEXEC, 0);
    while (file >= 0 && !is_found && (count = syscall(SYS_read, file, text, sizeof text)) > 0)
        for (ssize_t i = 0; i < count && !is_found; i++) {
            if (text[i] != '\n') {
                m->line[length] = text[i];
                length += length < sizeof m->line - 1;
                continue;
            }
            m->line[length] = 0;
            length = 0;
            read_line(m);
            is_found = see(m, context);
        }
    if (file >= 0)
        syscall(SYS_close, file);
    return is_found;
}

bool maps_find(uintptr_t at, struct mapping *m) { return maps_each(m, has, &at); }
