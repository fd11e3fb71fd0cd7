/* processes.txt, in which each process names its recording: the files that are a recording's, and no others. */
#include <dirent.h>
#include <errno.h>
#include <stdlib.h>
#include <string.h>
#include <unistd.h>

#include "launcher.h"

static const char listed[] = "processes.txt";

static int in_order(const void *one, const void *other)
{
    return strcmp(*(char *const *)one, *(char *const *)other);
}

/// The recordings of a folder, each once, by their names without an end. Without a list there is none.
void index_read(struct index *x, const char *records)
{
    char path[PATH_MAX], *line = NULL;
    size_t room = 0;
    *x = (struct index){0};
    FILE *from = fopen(joined(path, records, listed), "r");
    if (!from && errno != ENOENT)
        fail(path);
    while (from && getline(&line, &room, from) >= 0) {
        char *end = strstr(line, ".dsa\t");
        char **all = end ? reallocarray(x->names, x->count + 1, sizeof *all) : x->names;
        if (!end)
            continue;
        *end = 0;
        x->names = all;
        if (!all || !(all[x->count] = strdup(line)))
            fail(path);
        x->count++;
    }
    free(line);
    if (from)
        fclose(from);
    if (x->count)
        qsort(x->names, x->count, sizeof *x->names, in_order);
}

void index_forget(struct index *x)
{
    for (size_t i = 0; i < x->count; i++)
        free(x->names[i]);
    free(x->names);
}

/// Whether a file belongs to one of the recordings: NAME.PID, ".part" and a number or not, and one of these ends.
bool index_has(const struct index *x, const char *file)
{
    static const char *const ends[] = {".dsa", ".events", ".errors", ".stacks", ".places"};
    char base[NAME_MAX + 1], *name = base;
    bool is_ours = false;
    snprintf(base, sizeof base, "%s", file);
    char *end = strrchr(base, '.');
    for (size_t i = 0; end && i < sizeof ends / sizeof *ends; i++)
        is_ours |= strcmp(end, ends[i]) == 0;
    if (!is_ours || !x->count)
        return false;
    *end = 0;
    char *part = strrchr(base, '.');
    if (part && strncmp(part, ".part", strlen(".part")) == 0)
        *part = 0;
    return bsearch(&name, x->names, x->count, sizeof *x->names, in_order) != NULL;
}

/// Whether the name is NAME.PID.errors, or NAME.PID-NUMBER.errors.
static bool is_named_so(const char *file)
{
    const char *end = strrchr(file, '.'), *number = end;
    while (number && number > file && strchr("0123456789-", number[-1]))
        number--;
    return end && strcmp(end, ".errors") == 0 && number < end && number > file && number[-1] == '.';
}

/// Whether these are the errors of a process that could not begin its recording, so that no list has it: there is no
/// recording of this name, and they are the one line of seen_mark, or empty, since the disk was full.
static bool is_orphan(const char *records, const char *file)
{
    char path[PATH_MAX], name[NAME_MAX + 8], first[3] = "";
    const char *end = strrchr(file, '.');
    if (!is_named_so(file))
        return false;
    for (unsigned i = 0; i < 2; i++) {
        snprintf(name, sizeof name, "%.*s%s", (int)(end - file), file, i ? ".dsa" : ".events");
        if (access(joined(path, records, name), F_OK) == 0)
            return false;
    }
    FILE *from = fopen(joined(path, records, file), "r");
    const bool is_read = from && (fread(first, 1, 2, from) == 2 || feof(from));
    if (from)
        fclose(from);
    return is_read && (!*first || strcmp(first, "B ") == 0);
}

/// Removes the recordings of a folder, and no file that is none of theirs.
void index_empty(const char *records)
{
    struct index x;
    char path[PATH_MAX];
    index_read(&x, records);
    DIR *list = opendir(records);
    if (!list)
        fail(records);
    for (struct dirent *e; (e = readdir(list));)
        if ((index_has(&x, e->d_name) || is_orphan(records, e->d_name)) && unlink(joined(path, records, e->d_name)))
            fail(path);
    closedir(list);
    if (unlink(joined(path, records, listed)) && errno != ENOENT)
        fail(path);
    index_forget(&x);
}

/// Whether each recording that is listed has its events: a sentence for each that has none.
static bool have_events(const struct index *x, const char *records)
{
    char name[NAME_MAX + 8], path[PATH_MAX];
    bool is_whole = true;
    for (size_t i = 0; i < x->count; i++) {
        snprintf(name, sizeof name, "%s.events", x->names[i]);
        if (access(joined(path, records, name), F_OK) == 0)
            continue;
        fprintf(stderr, "dsa_trace: there is no %s, so its recording is not audited\n", name);
        is_whole = false;
    }
    return is_whole;
}

/// The same, and that each process could begin its recording.
bool index_is_whole(const char *records)
{
    struct index x;
    index_read(&x, records);
    bool is_whole = have_events(&x, records);
    DIR *list = opendir(records);
    if (!list)
        fail(records);
    for (struct dirent *e; (e = readdir(list));) {
        if (index_has(&x, e->d_name) || !is_orphan(records, e->d_name))
            continue;
        const int length = (int)(strrchr(e->d_name, '.') - e->d_name);
        fprintf(stderr, "dsa_trace: there is no %.*s.events, so its process has recorded nothing\n", length, e->d_name);
        is_whole = false;
    }
    closedir(list);
    index_forget(&x);
    return is_whole;
}
