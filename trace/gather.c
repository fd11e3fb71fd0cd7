/* One recording of a process for dsa_text, with its events: its parts in one file, in the order of the events. dsa_text
 * takes a batch, or another PASID or privilege, among the members of a batch as a sign that members are missing. Here
 * none are, so the first becomes what it comes to, and the other a member of its batch. */
#include <errno.h>
#include <inttypes.h>
#include <linux/idxd.h>
#include <stdlib.h>
#include <string.h>

#include "launcher.h"

enum { ENTRY = sizeof(struct dsa_hw_desc), MOST_BYTES = 1 << 26, LONGEST_LINE = 256 };

typedef struct dsa_hw_desc descriptor;

/* What is read and written. `entries` and `bytes` count what was written to the recording and to the events, `at` the
 * entries that were read of the part. */
struct gathering {
    const char *records, *base;
    FILE *part, *to, *events;
    unsigned number;
    unsigned long at, entries;
    uint64_t bytes;
    size_t room;
    struct gathered *g;
    struct findings *changed;
};

/* A line of the events that names a submission. */
struct named { unsigned members, part; unsigned long entry; int length; };

/// Notes that a member is audited as another descriptor.
static void note(const struct gathering *c, enum finding_kind kind, const descriptor *batch, unsigned member,
                 const descriptor *d)
{
    const struct finding f = {.kind = kind, .submission = c->g->submissions, .entry = c->entries, .member = member,
                              .members = batch->desc_count, .operation = d->opcode, .size = d->xfer_size};
    findings_add(c->changed, &f);
}

/// Makes a member one that dsa_text reads.
static void change(const struct gathering *c, const descriptor *batch, unsigned member, descriptor *d)
{
    if (d->opcode == DSA_OPCODE_BATCH) {
        note(c, NESTED_BATCH, batch, member, d);
        *d = (descriptor){.pasid = d->pasid, .priv = d->priv, .flags = d->flags, .opcode = DSA_OPCODE_NOOP,
                          .completion_addr = d->completion_addr, .int_handle = d->int_handle};
    }
    if (d->pasid == batch->pasid && d->priv == batch->priv)
        return;
    note(c, OTHER_OWNER, batch, member, d);
    d->pasid = batch->pasid;
    d->priv = batch->priv;
}

/// Goes to the entries of a submission, in its part of the recording.
static bool seek(struct gathering *c, const struct named *s)
{
    char name[NAME_MAX + 32], path[PATH_MAX];
    if (s->part != c->number) {
        if (c->part)
            fclose(c->part);
        snprintf(name, sizeof name, s->part > 1 ? "%s.part%u.dsa" : "%s.dsa", c->base, s->part);
        c->part = fopen(joined(path, c->records, name), "rb");
        c->number = s->part;
        c->at = 0;
    }
    if (!c->part || (s->entry != c->at && fseek(c->part, (long)s->entry * ENTRY, SEEK_SET)))
        return false;
    c->at = s->entry;
    return true;
}

/// Whether the part has all entries of a submission.
static bool has_all(struct gathering *c, const struct named *s, descriptor *all)
{
    const size_t count = s->members + 1ul;
    if (!seek(c, s) || fread(all, ENTRY, count, c->part) != count)
        return false;
    c->at += count;
    return true;
}

static void put(FILE *to, const void *bytes, size_t length)
{
    if (fwrite(bytes, 1, length, to) != length)
        fail("the recording to audit");
}

/// Whether dsa_text reads so much more.
static bool fits(const struct gathering *c, size_t entries, size_t length)
{
    return (c->entries + entries) * ENTRY <= MOST_BYTES && c->bytes + length <= MOST_BYTES;
}

static void put_line(struct gathering *c, const char *line, size_t length)
{
    put(c->events, line, length);
    c->bytes += length;
}

/// Notes at which entry a submission begins.
static void note_first(struct gathering *c)
{
    struct gathered *g = c->g;
    if (g->submissions == c->room) {
        uint32_t *more = realloc(g->first, sizeof *more * (c->room = 2 * c->room + 1024));
        if (!more)
            fail("the recording to audit");
        g->first = more;
    }
    g->first[g->submissions] = c->entries;
}

/// Copies a submission; false if it is the first that can't be audited, and why.
static bool put_submission(struct gathering *c, const char *line, const struct named *s)
{
    enum { MOST_MEMBERS = 1024 };
    static descriptor all[MOST_MEMBERS + 1];
    if (s->members > MOST_MEMBERS || !has_all(c, s, all)) {
        c->g->why = "the events name more than is recorded";
        return false;
    }
    if (!fits(c, s->members + 1ul, s->length + 1ul)) {
        c->g->why = "dsa_text reads at most 67,108,864 bytes of entries, and of events";
        return false;
    }
    note_first(c);
    for (unsigned i = 0; i <= s->members; i++) {
        if (i)
            change(c, all, i - 1, &all[i]);
        put(c->to, &all[i], ENTRY);
        c->entries++;
    }
    put_line(c, line, s->length);
    put_line(c, "\n", 1);
    c->g->submissions++;
    return true;
}

/// Copies an event; false if the copy ends before it.
static bool put_event(struct gathering *c, const char *line)
{
    struct named s;
    const size_t length = strlen(line);
    if (length == 0) { /* a zero byte: nobody has cut the file */
        c->g->why = "its process was still running, or dsa_trace was killed";
        return false;
    }
    if (*line != 'S') {
        if (fits(c, 0, length))
            put_line(c, line, length);
        else
            c->g->why = "dsa_text reads at most 67,108,864 bytes of events";
        return !c->g->why;
    }
    if (sscanf(line, "S %*u %*s op %*u members %u%n tid %*u part %u entry %lu", &s.members, &s.length, &s.part,
               &s.entry) == 3)
        return put_submission(c, line, &s);
    c->g->why = "its events can't be read";
    return false;
}

/// Whether entries come after those that the events name, in their part or in the next.
static bool has_more(struct gathering *c)
{
    const struct named next = {.part = c->number + 1};
    return (c->part && fgetc(c->part) != EOF) || (seek(c, &next) && fgetc(c->part) != EOF);
}

/// Gathers the recording of a process in memory, up to the first submission that can't be audited. `changed` gets what
/// is changed.
void gather(const char *records, const char *base, struct gathered *g, struct findings *changed)
{
    struct gathering c = {.records = records, .base = base, .g = g, .changed = changed};
    char path[PATH_MAX], name[NAME_MAX + 32], line[LONGEST_LINE];
    *g = (struct gathered){.recording = in_memory("recording"), .events = in_memory("events")};
    snprintf(name, sizeof name, "%s.events", base);
    FILE *from = opened(joined(path, records, name), "r");
    c.to = g->recording;
    c.events = g->events;
    while (fgets(line, sizeof line, from) && put_event(&c, line))
        ;
    if (ferror(from))
        fail(path);
    fclose(from);
    if (!g->why && has_more(&c))
        g->why = "its events name less than is recorded";
    if (c.part)
        fclose(c.part);
    if (fflush(c.to) || fflush(c.events))
        fail("the recording to audit");
}

/// Frees what was gathered.
void gather_end(struct gathered *g)
{
    fclose(g->recording);
    fclose(g->events);
    free(g->first);
}
