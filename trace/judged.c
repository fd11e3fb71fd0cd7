/* Errors of dsa_text that --accept knows by their places. dsa_text knows keys alone, so it gets those without a place,
 * and its errors are compared with the others here; hidden.c adds those that accepted ones hide. */
#include "judged.h"

#include <stdlib.h>
#include <string.h>

void judged_forget(struct judgement *j)
{
    for (size_t i = 0; i < j->count; i++) {
        free(j->at[i].key);
        free(j->at[i].placed);
    }
    for (unsigned i = 1; i < j->report_count; i++)
        fclose(j->reports[i]);
    free(j->reports);
    free(j->next);
    free(j->at);
    *j = (struct judgement){0};
}

uint64_t named_submission(const struct gathered *g, uint64_t entry)
{
    uint64_t low = 0, high = g->submissions;
    while (low + 1 < high) {
        const uint64_t middle = low + (high - low) / 2;
        if (g->first[middle] <= entry)
            low = middle;
        else
            high = middle;
    }
    return low;
}

/// Adds a number to those that are there, unless it is there or there are too many.
static void add_number(uint64_t *all, unsigned *count, uint64_t number)
{
    for (unsigned i = 0; i < *count; i++)
        if (all[i] == number)
            return;
    if (*count < MOST_NAMED)
        all[(*count)++] = number;
}

void named_add(struct named *n, const struct gathered *g, uint64_t entry)
{
    add_number(n->entries, &n->entry_count, entry);
    if (g->submissions)
        add_number(n->submissions, &n->count, named_submission(g, entry));
}

/// What a finding is, as a text and a key begin with it: up to the first mark.
static size_t kind_length(const char *text) { return strcspn(text, ",:;\n"); }

static bool is_of(const struct judged *it, const struct named *of, const char *kind)
{
    if (it->of.entry_count != of->entry_count ||
        memcmp(it->of.entries, of->entries, of->entry_count * sizeof *of->entries)) /* first, since it takes no time */
        return false;
    if (strncmp(kind, "batch of ", strlen("batch of ")) == 0) /* the text has the number, and the key the kind */
        kind = "small batch";
    const size_t length = kind_length(it->key);
    return kind_length(kind) == length && strncmp(it->key, kind, length) == 0;
}

/// What a finding of an error is, accepted or not; NULL if it is a warning or a note.
static const char *kind_of(const char *text)
{
    const char *severity = strstr(text, "): "), *kind = severity ? strchr(severity + 3, ':') : NULL;
    const bool is_error = kind && (strncmp(severity, "): error", strlen("): error")) == 0 ||
                                   strncmp(severity, "): accepted", strlen("): accepted")) == 0);
    return is_error ? kind + strlen(": ") : NULL;
}

const struct judged *judged_find(const struct judgement *j, unsigned source, const struct named *of, const char *text)
{
    const char *kind = kind_of(text);
    for (size_t i = 0; kind && i < j->count; i++) { /* most are asked for one after another */
        const size_t at = (*j->next + i) % j->count;
        if (j->at[at].source != source || !is_of(&j->at[at], of, kind))
            continue;
        *j->next = at + 1;
        return &j->at[at];
    }
    return NULL;
}

/// Adds an error; one that another report shows only if it is new.
static void add(struct judgement *j, const struct judged *it)
{
    for (size_t i = 0; it->source && i < j->count; i++)
        if (is_of(&j->at[i], &it->of, it->key)) {
            free(it->key);
            return;
        }
    if (j->count == j->room) {
        struct judged *more = realloc(j->at, sizeof *more * (j->room = 2 * j->room + 16));
        if (!more)
            fail("the errors of the audit");
        j->at = more;
    }
    j->at[j->count++] = *it;
}

/// Takes what is at a place of a report in JSON, whose strings have no quotes: an entry, a key, or a severity, which
/// comes last.
static void take(struct judgement *j, const struct gathered *g, const struct keys *base, const char *at,
                 struct judged *it)
{
    static const char entries[] = "\"entries\":[", entry[] = "\"entry\":", key[] = "\"key\":\"";
    static const char error[] = "\"severity\":\"error\"";
    if (strncmp(at, entries, sizeof entries - 1) == 0)
        it->of = (struct named){0};
    else if (strncmp(at, entry, sizeof entry - 1) == 0)
        named_add(&it->of, g, strtoull(at + sizeof entry - 1, NULL, 10));
    else if (strncmp(at, key, sizeof key - 1) == 0) {
        free(it->key);
        it->key = strndup(at + sizeof key - 1, strcspn(at + sizeof key - 1, "\""));
    } else if (strncmp(at, error, sizeof error - 1) == 0 && it->key && (!base || keys_has(base, it->key))) {
        add(j, it);
        it->key = NULL;
    } else
        j->has_others |= it->source == 0 && strncmp(at, error, sizeof error - 1) == 0;
}

/// Adds the errors of a report in JSON whose keys are among these, if some are given.
void judged_read(struct judgement *j, const struct gathered *g, const struct keys *base, unsigned source, FILE *from)
{
    struct judged it = {.source = source};
    char *text = NULL;
    size_t room = 0;
    rewind(from);
    while (getline(&text, &room, from) > 0)
        for (const char *at = text; (at = strchr(at, '"')); at++)
            take(j, g, base, at, &it);
    free(text);
    free(it.key);
}

/// Whether each key is that of an error that was read. The others are left as they are, since no place is known.
static bool are_read(const struct judgement *j, const struct keys *base, struct keys *left)
{
    bool are_read = true;
    for (size_t i = 0; i < base->count; i++) {
        size_t at = 0;
        while (at < j->count && strcmp(j->at[at].key, base->all[i]))
            at++;
        if (at < j->count)
            continue;
        keys_place(left, base->all[i]);
        are_read = false;
    }
    return are_read;
}

/// Gives the errors from one on their keys with places, and looks which of them are accepted.
void judged_place(struct audits *all, struct places *p, struct judgement *j, size_t from)
{
    for (size_t i = from; i < j->count; i++)
        for (unsigned k = 0; k < j->at[i].of.count; k++)
            places_want(p, j->at[i].of.submissions[k]);
    places_find(p);
    for (size_t i = from; i < j->count; i++) {
        struct judged *it = &j->at[i];
        it->placed = places_key(p, it->key, it->of.submissions, it->of.count);
        it->is_accepted = keys_has(&all->accepted, it->placed);
        if (it->is_accepted)
            stale_use(&all->stale, it->placed);
    }
}

void judged_json(const struct judgement *j, FILE *to)
{
    struct keys all = {0};
    for (size_t i = 0; i < j->count; i++)
        if (j->at[i].is_accepted && j->at[i].source == 0)
            keys_place(&all, j->at[i].placed);
    fputc('[', to);
    for (size_t i = 0; i < all.count; i++) {
        fputs(i ? "," : "", to);
        escape_json(to, all.all[i]);
    }
    fputc(']', to);
    keys_forget(&all);
}

void judged_begin(struct judgement *j, FILE *answer)
{
    *j = (struct judgement){.reports = malloc(sizeof *j->reports), .report_count = 1,
                            .next = calloc(1, sizeof *j->next)};
    if (!j->reports || !j->next)
        fail("the errors of the audit");
    j->reports[0] = answer;
}

bool judged_process(struct audits *all, const struct gathered *g, struct places *p, const struct keys *base,
                    struct judgement *j, struct keys *left)
{
    FILE *json = in_memory("a report");
    j->has_others = audit_text(all->dsa_text, &all->options, "--json", g, json) != 1 || base->count == 0;
    judged_read(j, g, base, 0, json);
    fclose(json);
    judged_place(all, p, j, 0);
    hidden_add(all, g, p, j);
    bool has_errors = !are_read(j, base, left) || j->has_others;
    for (size_t i = 0; i < j->count; i++) {
        if (j->at[i].is_accepted)
            continue;
        keys_place(left, j->at[i].placed);
        has_errors = true;
    }
    return has_errors;
}
