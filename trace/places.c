/* What the library writes beside a recording on where submissions come from: the lines of NAME.PID.stacks (stacks.c),
 * and the ends of the lines S of the events. NAME.PID.places has texts of stacks that an earlier audit has found: the
 * number of the stack, and a line of its text; and of data `v`, the address and what it is. */
#include "places.h"

#include <inttypes.h>
#include <limits.h>
#include <stdlib.h>
#include <string.h>
#include <sys/stat.h>
#include <unistd.h>

#include "launcher.h"

/// Room for one more in an array whose length doubles.
static void *grown(void *at, size_t count, size_t size)
{
    if (count & (count - 1) || (count == 0 && at))
        return at;
    at = realloc(at, (count ? 2 * count : 1) * size);
    if (!at)
        fail("places");
    return at;
}

/// Whether a file has changed after a time.
static bool is_newer(const char *path, struct timespec than)
{
    struct stat s;
    if (*path != '/' || stat(path, &s))
        return false;
    const struct timespec t = s.st_ctim;
    return t.tv_sec > than.tv_sec || (t.tv_sec == than.tv_sec && t.tv_nsec > than.tv_nsec);
}

static void add_mapped(struct places *p, const char *line)
{
    struct mapped m = {0};
    char rights[5] = "";
    int at = 0;
    if (sscanf(line, "m %" SCNx64 "-%" SCNx64 " %4s %" SCNx64 " %*s %lu %n", &m.low, &m.high, rights, &m.offset,
               &m.inode, &at) < 5 || !at)
        return;
    m.is_code = rights[2] == 'x';
    m.path = strdup(line + at);
    if (m.path && is_newer(m.path, p->recorded)) {
        m.inode = 0; /* a file that was built anew may have the number of the one that ran */
        p->changed = m.is_code ? m.path : p->changed;
    }
    p->mapped = grown(p->mapped, p->mapped_count, sizeof m);
    p->mapped[p->mapped_count++] = m;
}

/// The last mapping of code that has an address, or SIZE_MAX.
static size_t mapped_at(const struct places *p, uint64_t at)
{
    size_t i = p->mapped_count;
    while (i > 0 && !(p->mapped[i - 1].is_code && p->mapped[i - 1].low <= at && at < p->mapped[i - 1].high))
        i--;
    return i - 1;
}

static void add_stack(struct places *p, const char *line)
{
    char *at;
    const unsigned long number = strtoul(line + 2, &at, 10);
    if (number != p->stack_count + 1)
        return;
    struct stack s = {.places = calloc(MOST_FRAMES, sizeof *s.places)};
    if (!s.places)
        fail("places");
    while (*at == ' ' && s.count < MOST_FRAMES) {
        struct place *f = &s.places[s.count];
        f->at = strtoull(at, &at, 16) - (s.count > 0); /* of a return address, the call */
        f->mapped = mapped_at(p, f->at);
        if (f->mapped == SIZE_MAX && s.count) /* no code: what was there is no stack */
            break;
        s.count++;
    }
    p->stacks = grown(p->stacks, p->stack_count, sizeof s);
    p->stacks[p->stack_count++] = s;
}

static void add_thread(struct places *p, const char *line)
{
    struct thread t = {0};
    if (sscanf(line, "t %d %" SCNx64 "-%" SCNx64 " %19[^\n]", &t.number, &t.low, &t.high, t.name) < 3)
        return;
    p->threads = grown(p->threads, p->thread_count, sizeof t);
    p->threads[p->thread_count++] = t;
}

static void add_origin(struct places *p, const char *line)
{
    struct origin o = {0};
    if (sscanf(line, "S %*u %*s op %*u members %*u tid %d part %*u entry %*u time %" SCNu64 " stack %u", &o.thread,
               &o.time, &o.stack) < 1)
        return;
    p->origins = grown(p->origins, p->origin_count, sizeof o);
    p->origins[p->origin_count++] = o;
}

const char *places_datum(const struct places *p, uint64_t at)
{
    for (size_t i = 0; i < p->datum_count; i++)
        if (p->data[i].at == at)
            return p->data[i].text;
    return NULL;
}

void places_add_datum(struct places *p, uint64_t at, char *text)
{
    p->data = grown(p->data, p->datum_count, sizeof *p->data);
    p->data[p->datum_count++] = (struct datum){at, text};
}

/// A line on data that an earlier audit has found.
static void add_datum(struct places *p, const char *line)
{
    uint64_t number;
    int at = 0;
    if (sscanf(line, "v %" SCNx64 " %n", &number, &at) == 1 && at)
        places_add_datum(p, number, strdup(line + at));
}

/// A line of the texts that an earlier audit has found.
static void add_text(struct places *p, const char *line)
{
    unsigned long number;
    int at = 0;
    char *longer;
    if (sscanf(line, "%lu %n", &number, &at) < 1 || !at || number < 1 || number > p->stack_count)
        return;
    if (strncmp(line + at, "at ", 3) && strncmp(line + at, "by ", 3))
        return; /* it has no function, which all that reads a text looks for */
    struct stack *s = &p->stacks[number - 1];
    if (asprintf(&longer, "%s    %s\n", s->text ? s->text : "", line + at) < 0)
        fail("places");
    free(s->text);
    s->text = longer;
}

static void add(struct places *p, const char *line)
{
    if (*line == 'm')
        add_mapped(p, line);
    else if (*line == 's')
        add_stack(p, line);
    else if (*line == 't')
        add_thread(p, line);
    else if (*line == 'S')
        add_origin(p, line);
    else if (*line == 'v')
        add_datum(p, line);
    else
        add_text(p, line);
}

/// Reads each line of a file that may be there.
static void read_lines(struct places *p, const char *records, const char *base, const char *end)
{
    char name[NAME_MAX + 32], path[PATH_MAX], *line = NULL;
    size_t room = 0;
    snprintf(name, sizeof name, "%s.%s", base, end);
    FILE *from = fopen(joined(path, records, name), "r");
    struct stat s;
    if (from && !p->stack_count && fstat(fileno(from), &s) == 0)
        p->recorded = s.st_mtim;
    for (ssize_t length; from && (length = getline(&line, &room, from)) > 0;) {
        line[length - (line[length - 1] == '\n')] = 0;
        add(p, line);
    }
    free(line);
    if (from)
        fclose(from);
}

/// Says that a file of code has changed, if no earlier audit has kept what the stacks were.
static void say_changed(const struct places *p)
{
    for (size_t i = 0; i < p->stack_count; i++)
        if (p->stacks[i].text)
            return;
    if (p->changed)
        fprintf(stderr, "dsa_trace: %s has changed since it was recorded, so places in it are addresses, and keys with "
                "places fit nothing; --audit with --out keeps the places\n", p->changed);
}

void places_read(struct places *p, const char *records, const char *base, struct symbols *symbols)
{
    *p = (struct places){.symbols = symbols};
    read_lines(p, records, base, "stacks");
    if (!p->stack_count)
        return;
    read_lines(p, records, base, "events");
    read_lines(p, records, base, "places");
    say_changed(p);
}

void places_forget(struct places *p)
{
    for (size_t i = 0; i < p->stack_count; i++) {
        free(p->stacks[i].places);
        free(p->stacks[i].text);
    }
    for (size_t i = 0; i < p->mapped_count; i++)
        free(p->mapped[i].path);
    for (size_t i = 0; i < p->datum_count; i++)
        free(p->data[i].text);
    free(p->data);
    free(p->mapped);
    free(p->stacks);
    free(p->origins);
    free(p->threads);
    *p = (struct places){0};
}

/// Writes a stack, unless it has no names: a later audit may find them, when there is addr2line.
static void keep_stack(const struct stack *s, size_t number, FILE *to)
{
    const bool has_names = s->text && strstr(s->text, " (");
    for (const char *line = s->text; has_names && *line; line = strchr(line, '\n') + 1)
        fprintf(to, "%zu %.*s\n", number, (int)strcspn(line + 4, "\n"), line + 4);
}

/// Writes what is known to a file; false if it can't be.
static bool keep(const struct places *p, const char *path)
{
    FILE *to = fopen(path, "w");
    if (!to)
        return false;
    for (size_t i = 0; i < p->stack_count; i++)
        keep_stack(&p->stacks[i], i + 1, to);
    for (size_t i = 0; i < p->datum_count; i++)
        fprintf(to, "v %" PRIx64 " %s\n", p->data[i].at, p->data[i].text);
    const bool is_written = !ferror(to);
    return fclose(to) == 0 && is_written;
}

bool places_keep(const struct places *p, const char *records, const char *base)
{
    char name[NAME_MAX + 32], path[PATH_MAX], new[PATH_MAX];
    snprintf(name, sizeof name, "%s.places", base);
    joined(path, records, name);
    snprintf(name, sizeof name, "%s.new%d.places", base, (int)getpid());
    joined(new, records, name);
    if (keep(p, new) && rename(new, path) == 0) /* so it is never half there */
        return true;
    unlink(new);
    fprintf(stderr, "dsa_trace: %s can't be written, so a later audit may name no places\n", path);
    return false;
}

struct stack *places_stack(const struct places *p, uint64_t submission)
{
    const unsigned number = submission < p->origin_count ? p->origins[submission].stack : 0;
    return number && number <= p->stack_count ? &p->stacks[number - 1] : NULL;
}

void places_want(struct places *p, uint64_t submission)
{
    struct stack *s = places_stack(p, submission);
    if (!s || s->text || s->is_wanted)
        return;
    s->is_wanted = true;
    frames_want(p, s);
}

void places_find(struct places *p)
{
    size_t size;
    symbols_find(p->symbols);
    for (size_t i = 0; i < p->stack_count; i++) {
        struct stack *s = &p->stacks[i];
        FILE *to = s->is_wanted ? open_memstream(&s->text, &size) : NULL;
        if (!s->is_wanted)
            continue;
        if (!to)
            fail("places");
        frames_write(p, s, to);
        fclose(to);
        s->is_wanted = false;
    }
}

static const char *name_of(const struct places *p, int thread)
{
    for (size_t i = 0; i < p->thread_count; i++)
        if (p->threads[i].number == thread)
            return p->threads[i].name;
    return "";
}

void places_show(const struct places *p, const uint64_t *submissions, unsigned count, FILE *to)
{
    const struct stack *before = NULL;
    for (unsigned i = 0; i < count; i++) {
        const struct stack *s = places_stack(p, submissions[i]);
        if (!s || !s->text)
            continue;
        const struct origin *o = &p->origins[submissions[i]];
        const char *name = name_of(p, o->thread);
        const bool is_same = before && strcmp(before->text, s->text) == 0;
        fprintf(to, "  submission %" PRIu64 ", by thread %d%s%s%s at %" PRIu64 ".%03" PRIu64 " ms%s\n", submissions[i],
                o->thread, *name ? " (" : "", name, *name ? ")" : "", o->time / 1000000, o->time / 1000 % 1000,
                is_same ? ", from the same place" : ":");
        fputs(is_same ? "" : s->text, to);
        before = s;
    }
}

/// How long the name of a function is in a line; of code without names its file, since addresses change.
static int name_length(const char *line)
{
    const int length = (int)strcspn(line, "\n");
    for (int i = length; i-- > 0;) /* of a name in C++ parts may be in parentheses, too */
        if (strncmp(line + i, " (", 2) == 0)
            return i;
    for (int i = 0; i < length; i++)
        if (strncmp(line + i, "+0x", 3) == 0)
            return i;
    return length;
}

/// Writes the functions of a stack.
static void put_functions(const char *text, FILE *to)
{
    for (const char *at = text; *at; at = strchr(at, '\n') + 1) {
        const char *name = at + strlen("    at ");
        const bool is_address = strncmp(name, "0x", 2) == 0; /* another one in each run */
        fprintf(to, "%s%.*s", at == text ? "" : " < ", is_address ? INT_MAX : name_length(name),
                is_address ? "code in no file" : name);
    }
}

char *places_key(const struct places *p, const char *key, const uint64_t *submissions, unsigned count)
{
    char *text;
    size_t size;
    const char *between = KEY_PLACE;
    FILE *to = open_memstream(&text, &size);
    if (!to)
        fail("the keys of the audit");
    fputs(key, to);
    for (unsigned i = 0; i < count; i++) {
        const struct stack *s = places_stack(p, submissions[i]);
        fputs(between, to);
        if (s && s->text && *s->text)
            put_functions(s->text, to);
        else
            fputc('?', to); /* else it would accept the error at other places */
        between = " | ";
    }
    fclose(to);
    return text;
}

void places_json(const struct places *p, uint64_t submission, FILE *to)
{
    const struct stack *s = places_stack(p, submission);
    const struct origin *o = &p->origins[submission];
    char line[1024];
    fprintf(to, "{\"nanoseconds\":%" PRIu64 ",\"stack\":[", o->time);
    for (const char *at = s ? s->text : NULL; at && *at; at = strchr(at, '\n') + 1) {
        snprintf(line, sizeof line, "%.*s", (int)strcspn(at + 4, "\n"), at + 4);
        fputs(at == s->text ? "" : ",", to);
        escape_json(to, line);
    }
    fprintf(to, "],\"submission\":%" PRIu64 ",\"thread\":%d,\"thread_name\":", submission, o->thread);
    escape_json(to, name_of(p, o->thread));
    fputc('}', to);
}
