/* Lines of the file of --accept that fit nothing. dsa_text names those that one recording has not used, as
 * `FILE: line 3: note: this fits nothing: ..`, after its report; here a line is stale if no recording of all runs has
 * used it, and no finding of our own. */
#include <stdlib.h>
#include <string.h>

#include "launcher.h"

static const char word[] = "stale", after[] = ": note: this fits nothing: ";

/// The start of the words after a comma, or of the end.
static const char *next_of(const char *words) { return words + strcspn(words, ",") + (strchr(words, ',') != NULL); }

/// Whether the first of the words is ours.
static bool is_word(const char *words)
{
    return strcspn(words, ",") == sizeof word - 1 && strncmp(words, word, sizeof word - 1) == 0;
}

/// The words of --deny without ours, since dsa_text sees one recording at a time; NULL if none is left.
static char *others_of(const char *words)
{
    char *others = words ? calloc(1, strlen(words) + 1) : NULL;
    if (words && !others)
        fail("the options of the audit");
    for (const char *at = words; at && *at; at = next_of(at))
        if (!is_word(at)) {
            strcat(others, *others ? "," : "");
            strncat(others, at, strcspn(at, ","));
        }
    if (others && !*others) {
        free(others);
        return NULL;
    }
    return others;
}

/// Takes our word out of those of --deny.
void stale_begin(struct stale *s, const struct audit_options *o)
{
    *s = (struct stale){.file = o->accept, .others = others_of(o->deny)};
    for (const char *at = o->deny; at && *at; at = next_of(at))
        s->is_denied |= is_word(at);
}

/// Whether a line is a key with a place, which dsa_text does not know; then `at` is that.
static bool has_place(const char *line, const char **at)
{
    *at = *line >= 'a' && *line <= 'z' ? strstr(line, KEY_PLACE) : NULL;
    return *at;
}

/// Whether dsa_text gets the key of a line, which has one of these places, but for some keys.
static bool is_given(const struct accepted_line *line, const char *at, const struct keys *places,
                     const struct keys *but)
{
    char *key = strndup(line->text, at - line->text);
    if (!key)
        fail("the accepted keys");
    const bool is_given = places && keys_has(places, at) && !(but && keys_has(but, key));
    free(key);
    return is_given;
}

/// A file of the lines without a place, and of the keys with one of these, NULL for none, but for some; each has the
/// number of its line.
FILE *stale_at(const struct stale *s, const struct keys *places, const struct keys *but)
{
    const char *at;
    FILE *file = in_memory("the accepted keys");
    for (size_t i = 0; i < s->count; i++) {
        const char *line = s->lines[i].text;
        if (!has_place(line, &at))
            fprintf(file, "%s\n", line);
        else if (is_given(&s->lines[i], at, places, but))
            fprintf(file, "%.*s\n", (int)(at - line), line);
        else
            fputs("#\n", file);
    }
    if (fflush(file))
        fail("the accepted keys");
    return file;
}

/// Takes off what a line has after its words, as what another system ends lines with, and a byte order mark.
static void trim(char *line)
{
    static const char mark[] = "\xef\xbb\xbf";
    size_t length = strlen(line);
    while (length && strchr(" \t\r\n", line[length - 1]))
        length--;
    line[length] = 0;
    if (strncmp(line, mark, sizeof mark - 1) == 0)
        memmove(line, line + sizeof mark - 1, length - (sizeof mark - 1) + 1);
}

/// Takes the lines of the file, as keys too.
void stale_read(struct stale *s, struct keys *accepted)
{
    const char *at;
    char *line = NULL;
    size_t room = 0;
    if (!s->file)
        return;
    FILE *from = opened(s->file, "r");
    for (; getline(&line, &room, from) >= 0; s->count++) {
        trim(line);
        struct accepted_line *more = realloc(s->lines, sizeof *more * (s->count + 1));
        if (!more || !(more[s->count].text = strdup(line)))
            fail(s->file);
        s->lines = more;
        s->lines[s->count].is_named = false;
        s->lines[s->count].is_used = *line < 'a' || *line > 'z'; /* no key, but a comment */
        if (*line)
            keys_place(accepted, line);
    }
    free(line);
    fclose(from);
    for (size_t i = 0; i < s->count; i++)
        if (!s->plain && has_place(s->lines[i].text, &at))
            s->plain = stale_at(s, NULL, NULL);
    if (s->plain)
        snprintf(s->passed, sizeof s->passed, "/proc/self/fd/%d", fileno(s->plain));
}

/// Whether a line of a report names a line that fits nothing there; it is then marked.
static bool is_named(struct stale *s, const char *passed, const char *line)
{
    const size_t length = strlen(passed);
    size_t number;
    int end = 0;
    if (strncmp(line, passed, length) || sscanf(line + length, ": line %zu%n", &number, &end) != 1 ||
        strncmp(line + length + end, after, sizeof after - 1) || number < 1 || number > s->count)
        return false;
    return s->lines[number - 1].is_named = true;
}

/// Takes these lines out of a report in words. Those with these places that it does not name are used.
FILE *stale_take(struct stale *s, const char *passed, const struct keys *places, FILE *report)
{
    const char *at;
    char *line = NULL;
    size_t room = 0;
    if (!s->file)
        return report;
    FILE *left = in_memory("the answer of dsa_text");
    for (size_t i = 0; i < s->count; i++)
        s->lines[i].is_named = false;
    rewind(report);
    while (getline(&line, &room, report) >= 0)
        if (!is_named(s, passed ? passed : s->plain ? s->passed : s->file, line))
            fputs(line, left);
    free(line);
    if (ferror(report) || ferror(left))
        fail("the answer of dsa_text");
    for (size_t i = 0; i < s->count; i++) {
        const bool has_one = has_place(s->lines[i].text, &at);
        s->lines[i].is_used |= !s->lines[i].is_named && has_one == !!places && (!places || keys_has(places, at));
    }
    fclose(report);
    return left;
}

/// Adds the lines with these places that fit something in the report that was taken last.
void stale_fitting(const struct stale *s, const struct keys *places, struct keys *to)
{
    const char *at;
    for (size_t i = 0; i < s->count; i++)
        if (has_place(s->lines[i].text, &at) && keys_has(places, at) && !s->lines[i].is_named)
            keys_place(to, s->lines[i].text);
}

/// Takes the array of these lines off a report in JSON, which is one line and ends with it.
FILE *stale_cut(FILE *report)
{
    char *line = NULL;
    size_t room = 0;
    FILE *left = in_memory("the answer of dsa_text");
    rewind(report);
    if (getline(&line, &room, report) > 0) {
        char *array = strstr(line, ",\"stale\":["); /* in a string its quotes would be escaped */
        fprintf(left, array ? "%.*s}\n" : "%.*s", array ? (int)(array - line) : (int)strlen(line), line);
    }
    free(line);
    if (ferror(report) || ferror(left))
        fail("the answer of dsa_text");
    fclose(report);
    return left;
}

/// A finding of our own has used a key.
void stale_use(struct stale *s, const char *key)
{
    for (size_t i = 0; i < s->count; i++)
        s->lines[i].is_used |= strcmp(s->lines[i].text, key) == 0;
}

/// Writes the lines that are left, those of missing waits only if these were looked for: in words, or as an array of
/// JSON. Answers whether they are errors.
bool stale_end(const struct stale *s, bool seeks_waits, bool is_json, FILE *to)
{
    bool has_some = false;
    fputs(is_json ? "[" : "", to);
    for (size_t i = 0; i < s->count; i++) {
        const struct accepted_line *line = &s->lines[i];
        if (line->is_used || (!seeks_waits && key_is_of_wait(line->text)))
            continue;
        if (is_json) {
            fputs(has_some ? "," : "", to);
            escape_json(to, line->text);
        } else
            fprintf(to, "%s: line %zu: %s: this fits nothing: %s\n", s->file, i + 1, s->is_denied ? "error" : "note",
                    line->text);
        has_some = true;
    }
    fputs(is_json ? "]" : "", to);
    return has_some && s->is_denied;
}

/// Gives back the memory.
void stale_forget(struct stale *s)
{
    for (size_t i = 0; i < s->count; i++)
        free(s->lines[i].text);
    free(s->lines);
    free(s->others);
    if (s->plain)
        fclose(s->plain);
    *s = (struct stale){0};
}
