/* What the library has noted while the program ran, since no recording shows it: completion records that were not zero
 * or were changed, lists of batches that were, why batches were refused, and that each submission was done at once.
 * Each line of NAME.errors is one (bindings/package/dsa_trace.1). */
#include <errno.h>
#include <inttypes.h>
#include <linux/idxd.h>
#include <string.h>

#include "launcher.h"

enum { ENTRY = sizeof(struct dsa_hw_desc) };

/// The kind of a letter; false if it is none of these.
static bool kind_of(char letter, enum finding_kind *kind)
{
    static const char letters[] = {[RECORD_NOT_ZERO] = 'Z', [RECORD_CHANGED] = 'X', [LIST_CHANGED] = 'L',
                                   [LIST_UNREADABLE] = 'U',  [BATCH_COUNT] = 'C',
                                   [BATCH_MISALIGNED] = 'M', [BATCH_UNREADABLE] = 'R'};
    const char *at = memchr(letters, letter, sizeof letters);
    *kind = at ? (enum finding_kind)(at - letters) : RECORD_NOT_ZERO;
    return at;
}

static bool read_entry(FILE *recording, unsigned long entry, struct dsa_hw_desc *d)
{
    return fseek(recording, (long)entry * ENTRY, SEEK_SET) == 0 && fread(d, sizeof *d, 1, recording) == 1;
}

/// Says of a finding what its entry is; false if the recording does not have it.
static bool describe(struct finding *f, const struct gathered *g)
{
    struct dsa_hw_desc d;
    f->entry = g->first[f->submission];
    if (!read_entry(g->recording, f->entry, &d))
        return false;
    f->members = d.opcode == DSA_OPCODE_BATCH ? (int)d.desc_count : -1;
    if (f->member >= f->members && f->member >= 0)
        return false;
    f->entry += f->member + 1;
    if (f->member >= 0 && !read_entry(g->recording, f->entry, &d))
        return false;
    f->operation = d.opcode;
    f->size = d.xfer_size;
    return true;
}

/// Adds the finding of a line; false if it is none.
static bool add(const char *line, const struct gathered *g, struct findings *to)
{
    struct finding f;
    char letter, member[16];
    if (sscanf(line, "%c %" SCNu64 " %15s %" SCNu64, &letter, &f.submission, member, &f.address) != 4 ||
        !kind_of(letter, &f.kind))
        return false;
    if (strcmp(member, "-") == 0)
        f.member = -1;
    else if (sscanf(member, "%d", &f.member) != 1 || f.member < 0)
        return false;
    if (f.submission >= g->submissions)
        return g->why; /* of one that is not audited nothing is said */
    if (!describe(&f, g))
        return false;
    findings_add(to, &f);
    return true;
}

/// Whether a line names a submission that was dropped.
static bool is_dropped(const char *line)
{
    unsigned device, id;
    uint64_t number;
    return sscanf(line, "D %" SCNu64 " wq%u.%u", &number, &device, &id) == 3;
}

/// A line: that each submission was done at once, that one was dropped, that the recording breaks off, or an error.
static bool take(const char *line, struct gathered *g, struct findings *to)
{
    if (strcmp(line, "A\n") == 0)
        return g->is_at_once = true;
    if (is_dropped(line))
        return ++g->dropped;
    if (strncmp(line, "B ", 2))
        return add(line, g, to);
    snprintf(g->marked, sizeof g->marked, "%.*s", (int)strcspn(line + 2, "\n"), line + 2);
    g->why = g->why ? g->why : g->marked;
    return true;
}

/// Adds the errors of one recording; false, after a sentence, if they can't be read.
bool errors_noted(const char *records, const char *base, struct gathered *g, struct findings *to)
{
    char path[PATH_MAX], name[NAME_MAX + 32], line[256];
    bool is_read = true;
    snprintf(name, sizeof name, "%s.errors", base);
    FILE *errors = fopen(joined(path, records, name), "r");
    if (!errors && errno == ENOENT)
        return true;
    while (errors && is_read && fgets(line, sizeof line, errors))
        is_read = take(line, g, to);
    if (!is_read)
        fprintf(stderr, "dsa_trace: %s has a line that is no error of the recording: %s", path, line);
    else if (!errors || ferror(errors))
        fprintf(stderr, "dsa_trace: %s can't be read\n", path);
    is_read &= errors && !ferror(errors);
    if (errors)
        fclose(errors);
    return is_read;
}
