/* What accepted errors hide. An accepted pair hides no other from dsa_text (but one of shared records), which knows
 * keys alone, and here a key is accepted at places. So it judges the process again with the keys of all places that
 * have accepted errors, until there are no more such places, and then without each of these keys once, since an error
 * elsewhere may have it. What it finds is judged by its own place, and counts too. */
#include <inttypes.h>
#include <stdlib.h>
#include <string.h>

#include "judged.h"

enum { MOST_AUDITS = 100 };
static const char too_few[] = "that takes more than 100 audits; accept some of its keys without their places";

/* A process whose hidden errors are looked for: the places that have accepted errors, the keys that were left out, each
 * with how many were alike then, and how many audits were made. */
struct search {
    struct audits *all;
    const struct gathered *g;
    struct places *p;
    struct judgement *j;
    struct keys places, left_out;
    unsigned audits;
};

/// How long a key is without its place.
static size_t key_length(const char *key)
{
    const char *at = strstr(key, KEY_PLACE);
    return at ? (size_t)(at - key) : strlen(key);
}

static const char *place_of(const char *key) { return key + key_length(key); }

/// Notes the places of accepted errors; answers whether there are more than before.
static bool note_places(struct search *s)
{
    const size_t before = s->places.count;
    for (size_t i = 0; i < s->j->count; i++)
        if (s->j->at[i].is_accepted)
            keys_place(&s->places, place_of(s->j->at[i].placed));
    return s->places.count > before;
}

/// Whether an error is at one of the places, or of an entry that has an accepted one of the first: else it is judged as
/// it was.
static bool is_hidden(const struct search *s, size_t count, const struct judged *it)
{
    const struct judged *at = s->j->at;
    bool is_hidden = keys_has(&s->places, place_of(it->placed));
    for (size_t i = 0; i < count && it->of.entry_count && !is_hidden; i++)
        is_hidden = at[i].is_accepted && at[i].of.entry_count && at[i].of.entries[0] == it->of.entries[0];
    return is_hidden;
}

/// Keeps the errors from one on that are hidden; answers whether one of them is not accepted.
static bool keep_hidden(struct search *s, size_t before)
{
    struct judgement *j = s->j;
    size_t kept = before;
    bool has_error = false;
    for (size_t i = before; i < j->count; i++)
        if (is_hidden(s, before, &j->at[i])) {
            has_error |= !j->at[i].is_accepted;
            j->at[kept++] = j->at[i];
        } else {
            free(j->at[i].key);
            free(j->at[i].placed);
        }
    j->count = kept;
    return has_error;
}

/// Adds the report in words, which notes the lines of all places that it uses; false if there is none.
static bool add_words(struct search *s, const struct audit_options *o, bool is_of_all)
{
    const struct keys none = {0};
    struct judgement *j = s->j;
    char path[32];
    FILE *words = in_memory("a report");
    snprintf(path, sizeof path, "/proc/self/fd/%d", fileno(o->accepted));
    const bool is_read = audit_text(s->all->dsa_text, o, "--all", s->g, words) < 2;
    j->reports = realloc(j->reports, (j->report_count + 1) * sizeof *j->reports);
    if (!j->reports)
        fail("the errors of the audit");
    j->reports[j->report_count++] = stale_take(&s->all->stale, path, is_of_all ? &s->places : &none, words);
    return is_read;
}

/// Has dsa_text judge the process with the keys of all places but for some, NULL for none, and adds what is hidden.
static void audit_again(struct search *s, const struct keys *but)
{
    struct judgement *j = s->j;
    const size_t before = j->count;
    if (j->why || s->audits++ == MOST_AUDITS) {
        j->why = j->why ? j->why : too_few;
        return;
    }
    struct audit_options o = s->all->options;
    FILE *json = in_memory("a report");
    o.accepted = stale_at(&s->all->stale, &s->places, but);
    bool is_read = audit_text(s->all->dsa_text, &o, "--json", s->g, json) < 2;
    judged_read(j, s->g, NULL, j->report_count, json);
    judged_place(s->all, s->p, j, before);
    if (keep_hidden(s, before) || !but)
        is_read &= add_words(s, &o, !but);
    if (!is_read)
        j->why = "dsa_text does not audit with the keys of places";
    fclose(o.accepted);
    fclose(json);
}

/// What a key has of the entry, or the batch, that lacks something; it may have a place.
static size_t family_of(const char *key, const char **family)
{
    const size_t length = key_length(key), before = strcspn(key, ";");
    *family = key + (before < length ? before : length);
    const size_t after = before < length ? 1 + strcspn(*family + 1, ";") : 0;
    return before + after < length ? after : length - (*family - key);
}

static bool is_alike(const char *key, const char *other)
{
    const char *family, *of_other;
    const size_t length = family_of(key, &family);
    return family_of(other, &of_other) == length && strncmp(family, of_other, length) == 0;
}

/// Whether an accepted error with this line may hide one that has a key, and where that is not accepted: of the same
/// batch, whose place is that of the line, or a missing wait of the same entry, for one of any place.
static bool may_hide(const struct search *s, const char *line, const char *key)
{
    char *placed;
    const size_t length = key_length(line);
    if (key_is_of_wait(line) != key_is_of_wait(key) || !is_alike(line, key) ||
        (strlen(key) == length && strncmp(line, key, length) == 0))
        return false;
    if (asprintf(&placed, "%s%s", key, place_of(line)) < 0)
        fail("the keys of the audit");
    const bool is_accepted = keys_has(&s->all->accepted, placed);
    free(placed);
    return key_is_of_wait(key) || !is_accepted;
}

/// How many of the first keys are alike with one.
static size_t count_alike(const struct keys *keys, size_t count, const char *key)
{
    size_t alike = 0;
    for (size_t i = 0; i < count; i++)
        alike += is_alike(keys->all[i], key);
    return alike;
}

/// Adds a key of lines, if an error that one of them hides may have it; not if it is accepted anywhere, or was left out
/// before of as many that are alike.
static void add_doubtful(struct search *s, const struct keys *lines, const struct keys *of_lines, const char *key,
                         struct keys *to)
{
    bool is_doubtful = false;
    char *numbered;
    const size_t before = s->left_out.count;
    for (size_t i = 0; i < lines->count && !is_doubtful; i++)
        is_doubtful = may_hide(s, lines->all[i], key);
    if (!is_doubtful || keys_has(&s->all->accepted, key))
        return;
    if (asprintf(&numbered, "%zu %s", count_alike(of_lines, of_lines->count, key), key) < 0)
        fail("the keys of the audit");
    keys_place(&s->left_out, numbered);
    if (s->left_out.count > before)
        keys_place(to, key);
    free(numbered);
}

/// Adds the keys of lines without their places.
static void add_keys(const struct keys *lines, struct keys *to)
{
    for (size_t i = 0; i < lines->count; i++) {
        char *key = strndup(lines->all[i], key_length(lines->all[i]));
        if (!key)
            fail("the keys of the audit");
        keys_place(to, key);
        free(key);
    }
}

/// Audits without the keys that have so many alike before them; answers whether there are some. No two are alike, so
/// what one of them is needed for is seen without the others too.
static bool audit_without(struct search *s, const struct keys *keys, size_t before)
{
    struct keys but = {0};
    for (size_t i = 0; i < keys->count; i++)
        if (count_alike(keys, i, keys->all[i]) == before)
            keys_place(&but, keys->all[i]);
    const bool has_some = but.count;
    if (has_some)
        audit_again(s, &but);
    keys_forget(&but);
    return has_some && !s->j->why;
}

/// Audits without each key once that an error may have which it would hide.
static void audit_without_each(struct search *s)
{
    struct keys lines = {0}, of_lines = {0}, keys = {0};
    size_t before = 0;
    stale_fitting(&s->all->stale, &s->places, &lines);
    add_keys(&lines, &of_lines);
    for (size_t i = 0; i < of_lines.count; i++)
        add_doubtful(s, &lines, &of_lines, of_lines.all[i], &keys);
    while (audit_without(s, &keys, before))
        before++;
    keys_forget(&lines);
    keys_forget(&of_lines);
    keys_forget(&keys);
}

void hidden_add(struct audits *all, const struct gathered *g, struct places *p, struct judgement *j)
{
    struct search s = {.all = all, .g = g, .p = p, .j = j};
    while (note_places(&s)) {
        do
            audit_again(&s, NULL);
        while (note_places(&s));
        audit_without_each(&s);
    }
    keys_forget(&s.places);
    keys_forget(&s.left_out);
}

static void write_json(const struct judged *it, const struct gathered *g, FILE *to)
{
    fputs("{\"entries\":[", to);
    for (unsigned i = 0; i < it->of.entry_count; i++)
        fprintf(to, "%s{\"entry\":%" PRIu64 ",\"submission\":%" PRIu64 "}", i ? "," : "", it->of.entries[i],
                named_submission(g, it->of.entries[i]));
    fputs("],\"key\":", to);
    escape_json(to, it->key);
    fputs(",\"place\":", to);
    escape_json(to, place_of(it->placed) + strlen(KEY_PLACE));
    fputs(",\"severity\":\"error\"}", to);
}

void hidden_json(const struct judgement *j, const struct gathered *g, FILE *to)
{
    const char *between = "";
    fputc('[', to);
    for (size_t i = 0; i < j->count; i++) {
        if (!j->at[i].source || j->at[i].is_accepted)
            continue;
        fputs(between, to);
        write_json(&j->at[i], g, to);
        between = ",";
    }
    fputc(']', to);
}
