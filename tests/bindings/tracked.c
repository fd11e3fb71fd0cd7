/* Calls of a tracker on words that nobody began: random words, trackers of which some words were changed, and arrays
 * that are too short. Each array has its own allocation of just its length, so that valgrind sees what is read or
 * written outside. All calls agree on which words have the form of a tracker; a refusal leaves everything as it was,
 * and an answer leaves the form. The words: how many arrays, and the seed. */
#include "dsa_planner.h"

#include <stdio.h>
#include <stdlib.h>
#include <string.h>

#define MOST_WORDS 4096u

static uint64_t state;

static uint64_t chance(void) {
    state ^= state << 13;
    state ^= state >> 7;
    state ^= state << 17;
    return state * UINT64_C(0x2545f4914f6cdd1d);
}

static uint64_t below(uint64_t most) { return chance() % most; }

/* A number as it may be in such words: small, a few bits, near the greatest, or any. */
static uint64_t number(void) {
    switch (below(5)) {
    case 0: return below(70);
    case 1: return (UINT64_C(1) << below(64)) | (UINT64_C(1) << below(64));
    case 2: return UINT64_MAX - below(70);
    case 3: return 4096 * below(64);
    default: return chance();
    }
}

struct array {
    uint64_t *words, *before;
    size_t len;
};

static void *block(size_t size) {
    void *at = malloc(size ? size : 1);
    if (!at)
        exit(2);
    return at;
}

/* Words of a tracker of which some words are changed, or random words after a head like one. */
static struct array some_words(void) {
    uint32_t slots = (uint32_t)below(65), spans = (uint32_t)below(6), rows = 1 + (uint32_t)below(6);
    struct array a = {NULL, NULL, DSA_TRACKER_WORDS(slots, spans, rows)};
    struct dsa_refusal refusal;
    a.len = a.len > MOST_WORDS ? MOST_WORDS : a.len;
    a.words = block(a.len * sizeof *a.words);
    for (size_t k = 0; k < a.len; k++)
        a.words[k] = number();
    if (dsa_track_begin(a.words, a.len, slots, spans, rows, 1 + (uint32_t)below(63), &refusal) == 0 && below(2))
        for (size_t k = 16; k < a.len; k++)
            a.words[k] = number();
    uint64_t all = slots < 64 ? (UINT64_C(1) << slots) - 1 : UINT64_MAX;
    if (below(2)) {
        a.words[5] = chance() & all;
        a.words[6] = chance() & a.words[5];
        a.words[7] = chance();
    }
    for (uint64_t k = below(4); k > 1; k--)
        a.words[below(a.len < 16 ? a.len : below(2) ? 16 : a.len)] = number();
    if (below(8) == 0)
        a.len = below(a.len + 1);
    a.before = block(a.len * sizeof *a.before);
    uint64_t *exact = block(a.len * sizeof *exact);
    memcpy(exact, a.words, a.len * sizeof *exact);
    free(a.words);
    a.words = exact;
    return a;
}

static struct dsa_span *some_spans(size_t *len) {
    *len = below(4);
    struct dsa_span *spans = block(*len * sizeof *spans);
    for (size_t k = 0; k < *len; k++)
        spans[k] = (struct dsa_span){number(), below(8) ? 4096 * below(3) : number()};
    return spans;
}

/* Moves, some of which are copies with CRC, or bytes of no descriptor. */
static uint8_t *some_list(size_t *len) {
    *len = below(8) ? 64 * below(3) : below(130);
    uint8_t *list = block(*len);
    memset(list, 0, *len);
    for (size_t at = 0; at + 64 <= *len; at += 64) {
        uint64_t places[3] = {32 * below(4096), 4096 * below(64), 4096 * below(64)};
        uint32_t size = 1 + (uint32_t)below(4096);
        list[at] = below(8) == 0;
        list[at + 4] = 0x0c;
        list[at + 7] = below(4) ? 0x03 : 0x11;
        memcpy(list + at + 8, places, sizeof places);
        memcpy(list + at + 32, &size, sizeof size);
    }
    return list;
}

/* What submits a list, or other bytes. */
struct submission {
    uint8_t *portal, *staging;
    size_t portal_len, staging_len;
};

static const struct dsa_settings settings = {1, 4, 4096, 10, 14, 3, UINT64_C(1) << 30};

static struct submission some_submission(const uint8_t *list, size_t len) {
    size_t n = len / 64 + 1;
    uint8_t *portal = block(DSA_PORTAL_ROOM(n)), *staging = block(DSA_STAGING_ROOM(n));
    struct dsa_planned planned = {0, 0, len, 0};
    struct dsa_refusal refusal;
    memcpy(portal, list, len < DSA_PORTAL_ROOM(n) ? len : DSA_PORTAL_ROOM(n));
    dsa_plan_list(&settings, &settings.batch, 0, list, len, portal, DSA_PORTAL_ROOM(n), staging, DSA_STAGING_ROOM(n),
                  &planned, &refusal);
    struct submission s = {block(planned.portal_len), block(planned.staging_len), planned.portal_len,
                           planned.staging_len};
    memcpy(s.portal, portal, s.portal_len);
    memcpy(s.staging, staging, s.staging_len);
    if (s.portal_len > 0 && below(8) == 0)
        s.portal[below(s.portal_len)] = (uint8_t)chance();
    free(portal);
    free(staging);
    return s;
}

/* What a call may write beside the words. */
struct outputs {
    uint32_t slot, slots[3];
    uint64_t waits, waited, ready;
    struct dsa_refusal refusal;
};

static uint32_t call(unsigned which, struct array *a, struct outputs *o) {
    size_t reads_len, writes_len, list_len;
    struct dsa_span *reads = some_spans(&reads_len), *writes = some_spans(&writes_len);
    uint8_t *list = some_list(&list_len);
    uint32_t slot = below(16) ? (uint32_t)below(65) : (uint32_t)chance(), code = 0;
    struct submission s = some_submission(list, list_len);
    switch (which) {
    case 0: code = dsa_track_spans(a->words, a->len, reads, reads_len, writes, writes_len, number(), &o->slot,
                                   &o->waits, &o->refusal); break;
    case 1: code = dsa_track_list(a->words, a->len, &settings, &settings.batch, 0, list, list_len,
                                  below(4) ? number() & ~UINT64_C(63) : number(), number(), number(), &o->slot,
                                  &o->waits, &o->refusal); break;
    case 2: code = dsa_track_ask(a->words, a->len, reads, reads_len, writes, writes_len, &o->waits, &o->refusal); break;
    case 3: code = dsa_track_waits(a->words, a->len, slot, &o->waits, &o->refusal); break;
    case 4: code = dsa_track_groups(a->words, a->len, &settings, &settings.batch, 0, s.portal, s.portal_len, s.staging,
                                    s.staging_len, number(), o->slots, below(4), &o->refusal); break;
    case 5: code = dsa_track_complete(a->words, a->len, slot, &o->waited, &o->ready, &o->refusal); break;
    default: code = dsa_track_withdraw(a->words, a->len, slot, &o->waited, &o->ready, &o->refusal); break;
    }
    free(reads);
    free(writes);
    free(list);
    free(s.portal);
    free(s.staging);
    return code;
}

/* Whether the words have the form of a tracker. */
static int has_form(const struct array *a) {
    uint64_t waits;
    struct dsa_refusal refusal;
    return dsa_track_waits(a->words, a->len, 0, &waits, &refusal) != DSA_NOT_A_TRACKER;
}

static unsigned counts[7][2];

static int is_right(struct array *a) {
    unsigned which = (unsigned)below(7);
    struct outputs o;
    memset(&o, 0xa5, sizeof o);
    struct outputs old = o;
    int form = has_form(a);
    memcpy(a->before, a->words, a->len * sizeof *a->words);
    uint32_t code = call(which, a, &o);
    counts[which][code == 0]++;
    if (code == 0)
        return form && has_form(a) && !memcmp(&o.refusal, &old.refusal, sizeof o.refusal);
    if (memcmp(a->words, a->before, a->len * sizeof *a->words) || o.slot != old.slot || o.waits != old.waits ||
        o.waited != old.waited || o.ready != old.ready || memcmp(o.slots, old.slots, sizeof o.slots))
        return 0;
    int is_of_list = (which == 1 && (code < 40 || code == DSA_SETTINGS)) || (which == 4 && code >= 44 && code < 50);
    return o.refusal.number == code && (is_of_list || (code == DSA_NOT_A_TRACKER) == !form);
}

int main(int argc, char **argv) {
    unsigned long count = argc > 1 ? strtoul(argv[1], NULL, 10) : 1000;
    state = argc > 2 ? strtoull(argv[2], NULL, 10) : 1;
    for (unsigned long n = 0; n < count; n++) {
        struct array a = some_words();
        for (unsigned k = 0; k < 8; k++)
            if (!is_right(&a)) {
                printf("array %lu, call %u goes wrong\n", n, k);
                return 1;
            }
        free(a.words);
        free(a.before);
    }
    for (unsigned which = 0; which < 7; which++)
        if (count >= 1000 && (counts[which][0] < 20 || counts[which][1] < 20)) {
            printf("call %u was refused %u times and answered %u times\n", which, counts[which][0], counts[which][1]);
            return 1;
        }
    return 0;
}
