/* Sets of keys: what findings of one kind have in common, a line each in the file of --accept. */
#include <errno.h>
#include <stdlib.h>
#include <string.h>

#include "launcher.h"

static size_t find(const struct keys *k, const char *key)
{
    size_t at = 0;
    while (at < k->count && strcmp(k->all[at], key))
        at++;
    return at;
}

/// Whether a key is one of a missing wait.
bool key_is_of_wait(const char *key)
{
    static const char before[] = "missing wait";
    return strncmp(key, before, sizeof before - 1) == 0;
}

/// Whether the set has the key.
bool keys_has(const struct keys *k, const char *key) { return find(k, key) < k->count; }

/// The place of a key, which is added at the end if the set does not have it.
size_t keys_place(struct keys *k, const char *key)
{
    const size_t at = find(k, key);
    if (at < k->count)
        return at;
    if (k->count == k->room) {
        char **more = realloc(k->all, sizeof *more * (k->room = 2 * k->room + 16));
        if (!more)
            fail("the keys of the audit");
        k->all = more;
    }
    k->all[at] = strdup(key);
    if (!k->all[at])
        fail("the keys of the audit");
    k->count++;
    return at;
}

/// Adds each line of a file.
void keys_read(struct keys *k, FILE *from)
{
    char *line = NULL;
    size_t room = 0;
    for (ssize_t length; (length = getline(&line, &room, from)) > 0;) {
        line[length - (line[length - 1] == '\n')] = 0;
        if (*line)
            keys_place(k, line);
    }
    free(line);
    if (ferror(from))
        fail("the keys of the audit");
}

/// Empties the set.
void keys_forget(struct keys *k)
{
    for (size_t i = 0; i < k->count; i++)
        free(k->all[i]);
    free(k->all);
    *k = (struct keys){0};
}
