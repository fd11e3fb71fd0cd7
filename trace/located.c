/* The report on one process with the places of the submissions that its findings name. Findings that read alike but for
 * addresses and numbers, and come from the same places, are written once, with how many there are. */
#include "located.h"

#include <inttypes.h>
#include <search.h>
#include <stdlib.h>
#include <string.h>

#include "launcher.h"

/* A finding with what its lines name, or other lines between findings, which are no finding. */
struct item {
    char *text, *alike;
    struct named of;
    uint64_t address;
    unsigned source;
    unsigned long more; /* that read alike */
    bool is_finding, is_hidden;
};
struct items { struct item **at; size_t count, room; };

/* What a report is read into. `tree` has the findings that were read, by the numbers of their stacks. */
struct reading {
    struct items items;
    const struct places *places;
    const struct judgement *j;
    const struct gathered *g;
    void *tree;
    unsigned source;
};

static struct item *add(struct items *all)
{
    if (all->count == all->room) {
        struct item **more = realloc(all->at, sizeof *more * (all->room = 2 * all->room + 16));
        if (!more)
            fail("the report");
        all->at = more;
    }
    struct item *new = calloc(1, sizeof *new);
    if (!new)
        fail("the report");
    return all->at[all->count++] = new;
}

static void free_item(struct item *it)
{
    free(it->text);
    free(it->alike);
    free(it);
}

static void append(char **text, const char *more)
{
    char *longer;
    if (asprintf(&longer, "%s%s", *text ? *text : "", more) < 0)
        fail("the report");
    free(*text);
    *text = longer;
}

/// What findings that read alike have in common: the text without addresses and without the numbers of entries,
/// submissions and bytes; and of each stack its number, or its text if that is known.
static char *alike_of(const struct item *it, const struct places *p, const struct judgement *j, bool is_known)
{
    static const char *const numbered[] = {"entry ", "submission ", "byte "};
    char *alike = NULL;
    size_t size;
    FILE *to = open_memstream(&alike, &size);
    if (!to)
        fail("the report");
    for (const char *at = it->text; *at;) {
        size_t skipped = strncmp(at, "0x", 2) ? 0 : 2 + strspn(at + 2, "0123456789abcdef");
        for (size_t i = 0; !skipped && i < sizeof numbered / sizeof *numbered; i++)
            if (strncmp(at, numbered[i], strlen(numbered[i])) == 0)
                skipped = strlen(numbered[i]) + strspn(at + strlen(numbered[i]), "0123456789");
        if (skipped)
            at += skipped;
        else
            fputc(*at++, to);
    }
    const struct judged *found = judged_find(j, it->source, &it->of, it->text);
    fprintf(to, "%u%s", it->source, found ? found->placed : ""); /* the key has what the text has not: of how many */
    for (unsigned i = 0; i < it->of.count; i++) {
        const struct stack *s = places_stack(p, it->of.submissions[i]);
        if (is_known)
            fprintf(to, "\n%s", s && s->text ? s->text : "");
        else
            fprintf(to, "\n%td", s ? s - p->stacks : -1);
    }
    fclose(to);
    return alike;
}

static int by_alike(const void *a, const void *b)
{
    return strcmp(((const struct item *)a)->alike, ((const struct item *)b)->alike);
}

static void keep(void *item) { (void)item; }

/// Counts a finding with an earlier one that is like it; false if there is none.
static bool is_counted(struct item *it, const struct places *p, const struct judgement *j, bool is_known, void **tree)
{
    free(it->alike);
    it->alike = alike_of(it, p, j, is_known);
    struct item **found = tsearch(it, tree, by_alike);
    if (!found)
        fail("the report");
    (*found)->more += *found != it ? it->more + 1 : 0;
    return *found != it;
}

/// Ends the finding that was read last. One that is like an earlier one is kept no longer.
static void end(struct reading *r)
{
    struct item *last = r->items.count ? r->items.at[r->items.count - 1] : NULL;
    if (!last || !last->is_finding || !is_counted(last, r->places, r->j, false, &r->tree))
        return;
    free_item(last);
    r->items.count--;
}

/// Takes a line: one of a finding, or another.
static void take(struct reading *r, const char *line)
{
    uint64_t entry, submission;
    const bool is_first = sscanf(line, "entry %" SCNu64 " (submission %" SCNu64, &entry, &submission) == 2;
    const char *address = strstr(line, " at 0x");
    if (is_first || strncmp(line, "  ", 2)) {
        end(r);
        add(&r->items)->source = r->source;
    }
    if (r->items.count == 0)
        add(&r->items)->source = r->source;
    struct item *it = r->items.at[r->items.count - 1];
    if (is_first) {
        it->is_finding = true;
        it->address = address ? strtoull(address + strlen(" at "), NULL, 16) : 0;
        named_add(&it->of, r->g, entry);
    }
    if (it->is_finding && sscanf(line, "  entry %" SCNu64 ", byte", &entry) == 1)
        named_add(&it->of, r->g, entry);
    append(&it->text, line);
}

/// Counts the findings whose places read alike, though their stacks are others; they are shown no more.
static void group(struct items *all, const struct places *p, const struct judgement *j)
{
    void *tree = NULL;
    for (size_t i = 0; i < all->count; i++)
        all->at[i]->is_hidden |= all->at[i]->is_finding && !all->at[i]->is_hidden &&
                                 is_counted(all->at[i], p, j, true, &tree);
    tdestroy(tree, keep);
}

static void write_item(const struct item *it, struct places *p, FILE *to)
{
    fputs(it->text, to);
    if (!it->is_finding)
        return;
    if (it->address)
        variables_show(p, it->address, to);
    places_show(p, it->of.submissions, it->of.count, to);
    if (it->more)
        fprintf(to, "  and %lu more like it from the same place%s\n", it->more, it->of.count > 1 ? "s" : "");
}

/// Reads a report.
static void read_report(struct reading *r, FILE *from)
{
    char *line = NULL;
    size_t room = 0;
    rewind(from);
    while (getline(&line, &room, from) > 0)
        take(r, line);
    free(line);
    end(r);
}

/// Says that an error is accepted.
static void accept(struct item *it)
{
    static const char before[] = "): error:", after[] = "): accepted:";
    char *text, *at = strstr(it->text, before);
    if (!at)
        return;
    if (asprintf(&text, "%.*s%s%s", (int)(at - it->text), it->text, after, at + strlen(before)) < 0)
        fail("the report");
    free(it->text);
    it->text = text;
}

/// Judges what was read. Of a report that shows what is hidden in the first, what that adds is kept alone.
static void judge(struct items *all, const struct judgement *j)
{
    for (size_t i = 0; i < all->count; i++) {
        struct item *it = all->at[i];
        const struct judged *found = it->is_finding ? judged_find(j, it->source, &it->of, it->text) : NULL;
        if (found && found->is_accepted && it->source == 0)
            accept(it);
        it->is_hidden |= it->source && (!found || found->is_accepted);
    }
}

/// Writes the reports with places.
void located_text(FILE *own, const struct judgement *j, struct places *p, const struct gathered *g, FILE *to)
{
    struct reading r = {.places = p, .j = j, .g = g};
    struct items *all = &r.items;
    read_report(&r, own);
    for (; r.source < j->report_count; r.source++)
        read_report(&r, j->reports[r.source]);
    tdestroy(r.tree, keep);
    for (size_t i = 0; i < all->count; i++)
        for (unsigned k = 0; k < all->at[i]->of.count; k++)
            places_want(p, all->at[i]->of.submissions[k]);
    places_find(p);
    judge(all, j);
    group(all, p, j);
    for (size_t i = 0; i < all->count; i++) {
        if (!all->at[i]->is_hidden)
            write_item(all->at[i], p, to);
        free_item(all->at[i]);
    }
    free(all->at);
}

/// Marks the submissions that a report in JSON names.
static void mark(FILE *from, const struct gathered *g, bool *is_named)
{
    static const char before[] = "\"entry\":"; /* in a string its quotes would be escaped */
    char *text = NULL;
    size_t room = 0;
    rewind(from);
    while (getline(&text, &room, from) > 0)
        for (const char *at = text; (at = strstr(at, before)); at++)
            is_named[named_submission(g, strtoull(at + strlen(before), NULL, 10))] = true;
    free(text);
}

/// Writes the places of all submissions that a report in JSON names, as an array.
void located_json(FILE *from, struct places *p, const struct gathered *g, FILE *to)
{
    const char *between = "";
    bool *is_named = calloc(g->submissions + 1, sizeof *is_named);
    if (!is_named)
        fail("the report");
    mark(from, g, is_named);
    for (uint64_t i = 0; i < g->submissions; i++)
        if (is_named[i])
            places_want(p, i);
    places_find(p);
    fputc('[', to);
    for (uint64_t i = 0; i < g->submissions; i++) {
        if (!is_named[i] || i >= p->origin_count)
            continue;
        fputs(between, to);
        places_json(p, i, to);
        between = ",";
    }
    fputc(']', to);
    free(is_named);
}
