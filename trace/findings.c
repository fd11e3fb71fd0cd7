/* Findings of our own beside those of dsa_text, in the same form: what the library has noted, and members that are
 * audited as another descriptor. */
#include <inttypes.h>
#include <linux/idxd.h>
#include <stdlib.h>
#include <string.h>

#include "launcher.h"
#include "places.h"

/* What each kind is called, and what a text says before the address and after it. */
static const struct kind { const char *severity, *name, *before, *after; } kinds[] = {
    [RECORD_NOT_ZERO] = {"error", "record not zero", "its completion record, at ",
                         ", was not zero when it was submitted, so it says at once that the operation has ended"},
    [RECORD_CHANGED] = {"error", "record changed", "its completion record, at ",
                        ", was changed in flight, so its end can be lost: clear it before the submission, and use it "
                        "after the end"},
    [LIST_CHANGED] = {"error", "descriptor list changed",
                      "when the device came to it after the submission, another descriptor was at ", ""},
    [LIST_UNREADABLE] = {"error", "descriptor list gone",
                         "when the device came to it after the submission, nothing could be read at ", ""},
    [BATCH_COUNT] = {"error", "batch count", "fewer than two descriptors, or more than its queue takes, were to be at ",
                     ", so the device has refused it"},
    [BATCH_MISALIGNED] = {"error", "batch list misaligned", "its list of descriptors begins at no multiple of 64, at ",
                          ", so the device has refused it"},
    [BATCH_UNREADABLE] = {"error", "batch list unreadable", "the device could not read its list of descriptors, at ",
                          ""},
    [NESTED_BATCH] = {"warning", "nested batch", "the device refuses a batch in a batch: audited as a no-op", ""},
    [OTHER_OWNER] = {"warning", "another owner",
                     "it has another PASID or privilege than its batch: audited with that of the batch", ""},
};

static bool has_address(const struct finding *f) { return f->kind < NESTED_BATCH; }

/// Adds a finding.
void findings_add(struct findings *all, const struct finding *it)
{
    if (all->count == all->room) {
        struct finding *more = realloc(all->at, sizeof *more * (all->room = 2 * all->room + 16));
        if (!more)
            fail("the findings");
        all->at = more;
    }
    all->at[all->count] = *it;
    all->at[all->count++].placed = NULL; /* findings_place sets it */
}

/// The name that dsa_text gives an operation in keys.
static const char *operation_name(uint8_t operation, char room[32])
{
    enum { TRANSLATION_FETCH = 0x0a, DIX_GENERATE = 0x17 };
    static const char *const names[] = {
        [DSA_OPCODE_NOOP] = "no-op", [DSA_OPCODE_BATCH] = "batch", [DSA_OPCODE_DRAIN] = "drain",
        [DSA_OPCODE_MEMMOVE] = "move", [DSA_OPCODE_MEMFILL] = "fill", [DSA_OPCODE_COMPARE] = "compare",
        [DSA_OPCODE_COMPVAL] = "compare pattern", [DSA_OPCODE_CR_DELTA] = "create delta",
        [DSA_OPCODE_AP_DELTA] = "delta", [DSA_OPCODE_DUALCAST] = "dualcast",
        [TRANSLATION_FETCH] = "translation fetch", [DSA_OPCODE_CRCGEN] = "CRC",
        [DSA_OPCODE_COPY_CRC] = "copy with CRC", [DSA_OPCODE_DIF_CHECK] = "DIF check",
        [DSA_OPCODE_DIF_INS] = "DIF insert", [DSA_OPCODE_DIF_STRP] = "DIF strip",
        [DSA_OPCODE_DIF_UPDT] = "DIF update", [DIX_GENERATE] = "DIX generate", [DSA_OPCODE_CFLUSH] = "cache flush",
    };
    if (operation < sizeof names / sizeof *names && names[operation])
        return names[operation];
    snprintf(room, 32, "operation 0x%x", operation);
    return room;
}

/// The key of a finding, as dsa_text has those of others: what is found, and its entry without addresses.
static void key_of(const struct finding *f, char key[LONGEST_KEY])
{
    char room[32];
    const char *operation = operation_name(f->operation, room);
    const char *name = kinds[f->kind].name;
    if (f->members < 0)
        snprintf(key, LONGEST_KEY, "%s; lone: %s, %" PRIu32 " bytes", name, operation, f->size);
    else if (f->member < 0)
        snprintf(key, LONGEST_KEY, "%s; batch of %d", name, f->members);
    else
        snprintf(key, LONGEST_KEY, "%s; batch of %d; member %d: %s, %" PRIu32 " bytes", name, f->members, f->member,
                 operation, f->size);
}

/// Finds the key of each error with its place.
void findings_place(struct findings *all, struct places *p)
{
    char key[LONGEST_KEY];
    for (size_t i = 0; i < all->count; i++)
        places_want(p, all->at[i].submission);
    places_find(p);
    for (size_t i = 0; i < all->count; i++) {
        key_of(&all->at[i], key);
        all->at[i].placed = places_key(p, key, &all->at[i].submission, 1);
    }
}

/// Gives back the memory.
void findings_forget(struct findings *all)
{
    for (size_t i = 0; i < all->count; i++)
        free(all->at[i].placed);
    free(all->at);
}

/// How severe a finding is, and its key, with the place if that is known. `room` has the key without a place, which
/// accepts it too.
static const char *judge(const struct finding *f, const struct keys *accepted, char room[LONGEST_KEY],
                         const char **key)
{
    const char *severity = kinds[f->kind].severity;
    key_of(f, room);
    *key = f->placed ? f->placed : room; /* of any length */
    const bool is_accepted = keys_has(accepted, room) || keys_has(accepted, *key);
    return strcmp(severity, "error") == 0 && is_accepted ? "accepted" : severity;
}

static void write_text(const struct finding *f, const char *severity, size_t alike, FILE *to)
{
    const struct kind *kind = &kinds[f->kind];
    fprintf(to, "entry %lu (submission %" PRIu64, f->entry, f->submission);
    if (f->member >= 0)
        fprintf(to, ", member %d", f->member);
    else if (f->members >= 0)
        fputs(", its descriptor", to);
    fprintf(to, "): %s: %s: %s", severity, kind->name, kind->before);
    if (has_address(f))
        fprintf(to, "%#" PRIx64, f->address);
    fprintf(to, "%s\n", kind->after);
    if (alike > 1)
        fprintf(to, "  and %zu more like it\n", alike - 1);
}

/// Writes the findings as lines, all or of those with one key the first.
void findings_text(const struct findings *all, const struct keys *accepted, bool each, FILE *to)
{
    struct keys seen = {0};
    char room[LONGEST_KEY];
    const char *key;
    size_t *alike = calloc(all->count + 1, sizeof *alike);
    if (!alike)
        fail("the findings");
    for (size_t i = 0; i < all->count; i++) {
        key_of(&all->at[i], room);
        alike[keys_place(&seen, room)]++;
    }
    for (size_t i = 0, first = 0; i < all->count && first < seen.count; i++) {
        const char *severity = judge(&all->at[i], accepted, room, &key);
        if (each)
            write_text(&all->at[i], severity, 1, to);
        else if (strcmp(key, seen.all[first]) == 0)
            write_text(&all->at[i], severity, alike[first++], to);
    }
    keys_forget(&seen);
    free(alike);
}

static void write_json(const struct finding *f, const char *severity, const char *key, FILE *to)
{
    fputc('{', to);
    if (has_address(f))
        fprintf(to, "\"address\":\"%#" PRIx64 "\",", f->address);
    fprintf(to, "\"entry\":%lu,\"finding\":\"%s\",\"key\":\"%s\",", f->entry, kinds[f->kind].name, key);
    if (f->member < 0)
        fputs("\"member\":null", to);
    else
        fprintf(to, "\"member\":%d", f->member);
    fprintf(to, ",\"severity\":\"%s\",\"submission\":%" PRIu64 "}", severity, f->submission);
}

/// Writes the findings as an array.
void findings_json(const struct findings *all, const struct keys *accepted, FILE *to)
{
    char plain[LONGEST_KEY];
    const char *key;
    fputc('[', to);
    for (size_t i = 0; i < all->count; i++) {
        const char *severity = judge(&all->at[i], accepted, plain, &key);
        fputs(i ? "," : "", to);
        write_json(&all->at[i], severity, plain, to); /* `places` has the place */
    }
    fputc(']', to);
}

/// Adds the keys of the errors to a set; answers whether there is an error.
bool findings_errors(const struct findings *all, const struct keys *accepted, struct keys *to)
{
    char room[LONGEST_KEY];
    const char *key;
    bool is_one = false;
    for (size_t i = 0; i < all->count; i++)
        if (strcmp(judge(&all->at[i], accepted, room, &key), "error") == 0) {
            keys_place(to, key);
            is_one = true;
        }
    return is_one;
}

/// Marks the lines that have keys of these findings, if they are errors, as used.
void findings_use(const struct findings *all, struct stale *s)
{
    const struct keys none = {0};
    char plain[LONGEST_KEY];
    const char *key;
    for (size_t i = 0; i < all->count && s->file; i++) {
        if (strcmp(judge(&all->at[i], &none, plain, &key), "error"))
            continue;
        stale_use(s, key);
        stale_use(s, plain);
    }
}
