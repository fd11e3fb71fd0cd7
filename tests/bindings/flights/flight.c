/* A thread does what is ready, in steps of a few bytes, and then completes it, which makes others ready. */
#include "flight.h"

#include <sched.h>
#include <string.h>
#include <unistd.h>

/* The device's address of the first byte of memory. */
#define BASE UINT64_C(0x10000)

struct engine {
    pthread_t thread;
    struct flight *flight;
    uint64_t state;
};

/* ---- engines */

/* Does at most STEP bytes, `done` bytes from the end of an operation that the steps go through. */
static void do_step(struct flight *f, const struct operation *o, size_t done, size_t len)
{
    const size_t at = o->target > o->source ? o->size - done - len : done;
    uint8_t bytes[STEP];
    for (size_t b = 0; b < len; b++)
        bytes[b] = o->code == FILL ? o->pattern[(at + b) % 8]
                                   : atomic_load_explicit(&f->memory[o->source + at + b], memory_order_relaxed);
    for (size_t b = 0; b < len; b++)
        atomic_store_explicit(&f->memory[o->target + at + b], bytes[b], memory_order_relaxed);
}

static void put(struct flight *f, size_t at, size_t len, size_t value)
{
    for (size_t b = 0; b < len; b++)
        atomic_store_explicit(&f->memory[at + b], (uint8_t)value, memory_order_relaxed);
}

static void do_list(struct engine *e, const struct list *l)
{
    put(e->flight, staging_of(l), 96 * l->count, l->number + 1);
    for (size_t k = 0; k < l->count; k++) {
        const struct operation *o = &l->operations[k];
        for (size_t done = 0, len; done < o->size; done += len) {
            len = 1 + below(&e->state, STEP);
            len = len < o->size - done ? len : o->size - done;
            do_step(e->flight, o, done, len);
            if (below(&e->state, 4) == 0)
                sched_yield();
        }
        put(e->flight, record_of(l, k), 32, l->number + 1);
        put(e->flight, record_of(l, k), 1, 1);
    }
}

static uint64_t bit_of(const struct flight *f, size_t list)
{
    return f->slot_of[list] == NOWHERE ? 0 : UINT64_C(1) << f->slot_of[list];
}

static uint64_t waits_of(const struct flight *f, size_t list)
{
    uint64_t waits;
    struct dsa_refusal r;
    need(dsa_track_waits(f->words, WORDS, (uint32_t)f->slot_of[list], &waits, &r) == DSA_OK, "waits are refused");
    return waits;
}

/* Makes the freed list ready if it waits for nothing but the one whose wait is left out. */
static void free_early(struct flight *f)
{
    const struct drop *d = &f->drop;
    const uint64_t freed = bit_of(f, d->freed);
    if (d->is_dropped && freed && !(freed & (f->ready | f->rung)) && !(waits_of(f, d->freed) & ~bit_of(f, d->first)))
        f->ready |= freed;
}

/* Takes a list off: one that has ended if it was rung, else one that is withdrawn. */
static void take_off(struct flight *f, size_t list)
{
    const uint64_t bit = bit_of(f, list);
    const uint32_t slot = (uint32_t)f->slot_of[list];
    uint64_t waited, ready;
    struct dsa_refusal r;
    const uint32_t code = f->rung & bit ? dsa_track_complete(f->words, WORDS, slot, &waited, &ready, &r)
                                        : dsa_track_withdraw(f->words, WORDS, slot, &waited, &ready, &r);
    need(code == DSA_OK, "an end is refused");
    f->outstanding &= ~bit;
    f->ready &= ~bit;
    f->rung &= ~bit;
    f->slot_of[list] = NOWHERE;
    need(!(ready & ~waited) && !(waited & ~f->outstanding), "others wait than are outstanding");
    need(f->drop.is_dropped || !(waited & (f->ready | f->rung)), "what waited was ready before");
    f->ready |= ready & ~f->rung;
    free_early(f);
    pthread_cond_broadcast(&f->changed);
}

/* The tracker holds a freed list until the one that it should have waited for has ended, and hears of it then. */
static void end(struct flight *f, size_t list)
{
    const struct drop *d = &f->drop;
    const bool is_freed = d->is_dropped && list == d->freed;
    if (is_freed)
        f->is_freed_ended = true;
    if (is_freed && waits_of(f, list))
        return;
    take_off(f, list);
    if (d->is_dropped && list == d->first && f->is_freed_ended && bit_of(f, d->freed))
        take_off(f, d->freed);
}

/* Rings one of what is ready, a freed list first; LISTS if all is done. */
static size_t ring(struct engine *e)
{
    struct flight *f = e->flight;
    while (!f->ready && !(f->is_submitted_all && !f->outstanding))
        pthread_cond_wait(&f->changed, &f->mutex);
    if (!f->ready)
        return LISTS;
    const uint64_t freed = f->drop.is_dropped ? bit_of(f, f->drop.freed) & f->ready : 0;
    size_t slot = below(&e->state, SLOTS);
    while (!((freed ? freed : f->ready) >> slot & 1))
        slot = (slot + 1) % SLOTS;
    f->ready &= ~(UINT64_C(1) << slot);
    f->rung |= UINT64_C(1) << slot;
    const size_t together = (size_t)__builtin_popcountll(f->rung);
    f->together = together > f->together ? together : f->together;
    return f->list_at[slot];
}

static void *run_engine(void *of)
{
    struct engine *e = of;
    struct flight *f = e->flight;
    pthread_mutex_lock(&f->mutex);
    for (size_t list; (list = ring(e)) < LISTS;) {
        pthread_mutex_unlock(&f->mutex);
        for (size_t k = 0; list == f->drop.first && k < f->drop.delay && !f->is_freed_ended; k++)
            sched_yield();
        do_list(e, &f->lists[list]);
        pthread_mutex_lock(&f->mutex);
        end(f, list);
    }
    pthread_mutex_unlock(&f->mutex);
    return NULL;
}

/* ---- submission */

static uint32_t track_bytes(struct flight *f, const struct list *l, uint64_t also, uint32_t *slot, uint64_t *waits)
{
    uint8_t bytes[64 * OPERATIONS] = {0};
    struct dsa_refusal r;
    for (size_t k = 0; k < l->count; k++) {
        const struct operation *o = &l->operations[k];
        const uint64_t fields[3] = {BASE + record_of(l, k), BASE + o->source, BASE + o->target};
        const uint32_t size = (uint32_t)o->size;
        bytes[64 * k + 4] = 0x0c; /* a completion record is wanted, and its address is valid */
        bytes[64 * k + 7] = o->code;
        memcpy(bytes + 64 * k + 8, fields, sizeof fields);
        memcpy(bytes + 64 * k + 32, &size, sizeof size);
        if (o->code == FILL)
            memcpy(bytes + 64 * k + 16, o->pattern, 8);
    }
    const uint64_t staging = BASE + staging_of(l);
    const struct dsa_settings settings = {1, 1024, UINT64_C(1) << 31, 10, 14, 3, 0};
    return dsa_track_list(f->words, WORDS, &settings, &settings.batch, 0, bytes, 64 * l->count, staging, 96 * l->count,
                          also, slot, waits, &r);
}

static uint32_t track_spans(struct flight *f, const struct list *l, uint64_t also, uint32_t *slot, uint64_t *waits)
{
    struct dsa_span reads[OPERATIONS], writes[SPANS];
    struct dsa_refusal r;
    size_t read = 0, written = 0;
    writes[written++] = (struct dsa_span){BASE + staging_of(l), 96 * l->count};
    for (size_t k = 0; k < l->count; k++) {
        const struct operation *o = &l->operations[k];
        if (o->code == MOVE)
            reads[read++] = (struct dsa_span){BASE + o->source, o->size};
        writes[written++] = (struct dsa_span){BASE + o->target, o->size};
        writes[written++] = (struct dsa_span){BASE + record_of(l, k), 32};
    }
    return dsa_track_spans(f->words, WORDS, reads, read, writes, written, also, slot, waits, &r);
}

static void submit(struct flight *f, const struct list *l, uint64_t also)
{
    uint32_t slot, code;
    uint64_t waits;
    while ((code = (l->is_of_spans ? track_spans : track_bytes)(f, l, also, &slot, &waits)) == DSA_NO_SLOT)
        pthread_cond_wait(&f->changed, &f->mutex);
    need(code == DSA_OK && slot < SLOTS && !(f->outstanding >> slot & 1), "a submission is refused");
    need(!(waits & ~f->outstanding), "a submission waits for none that is outstanding");
    f->outstanding |= UINT64_C(1) << slot;
    f->list_at[slot] = l->number;
    f->slot_of[l->number] = slot;
    f->waited += waits != 0;
    if (!waits)
        f->ready |= UINT64_C(1) << slot;
    free_early(f);
    pthread_cond_broadcast(&f->changed);
}

/* Withdraws a random submission, unless it was rung. */
static void withdraw(struct flight *f, uint64_t *state)
{
    const size_t list = below(state, LISTS);
    if (!bit_of(f, list) || bit_of(f, list) & f->rung)
        return;
    f->is_withdrawn[list] = true;
    f->withdrawn++;
    take_off(f, list);
}

static void submit_all(struct flight *f, uint64_t *state, bool may_withdraw)
{
    for (size_t i = 0; i < LISTS; i++) {
        pthread_mutex_lock(&f->mutex);
        submit(f, &f->lists[i], may_withdraw && below(state, 8) == 0 ? below(state, UINT64_MAX) : 0);
        if (may_withdraw && below(state, 4) == 0)
            withdraw(f, state);
        pthread_mutex_unlock(&f->mutex);
        if (below(state, 3) == 0)
            sched_yield();
    }
    pthread_mutex_lock(&f->mutex);
    f->is_submitted_all = true;
    pthread_cond_broadcast(&f->changed);
    pthread_mutex_unlock(&f->mutex);
}

/* ---- a flight */

void begin(struct flight *f, const struct list *lists, const uint8_t *memory, uint32_t slots, uint32_t log2_unit)
{
    struct dsa_refusal r;
    alarm(60); /* ends the program if what waits never becomes ready */
    memset(f, 0, sizeof *f);
    f->lists = lists;
    need(!pthread_mutex_init(&f->mutex, NULL) && !pthread_cond_init(&f->changed, NULL), "there is no mutex");
    need(dsa_track_begin(f->words, WORDS, slots, SPANS, LOG2_ROWS, log2_unit, &r) == DSA_OK, "a tracker is refused");
    for (size_t i = 0; i < LISTS; i++)
        f->slot_of[i] = NOWHERE;
    for (size_t b = 0; b < BYTES; b++)
        f->memory[b] = memory[b];
}

bool is_run_right(struct flight *f, const uint8_t *before, size_t engines, uint64_t *state)
{
    static uint8_t wanted[BYTES];
    struct engine all[MOST_ENGINES];
    for (size_t i = 0; i < engines; i++) {
        all[i] = (struct engine){.flight = f, .state = below(state, UINT64_MAX)};
        need(!pthread_create(&all[i].thread, NULL, run_engine, &all[i]), "a thread does not begin");
    }
    submit_all(f, state, !f->drop.delay);
    for (size_t i = 0; i < engines; i++)
        pthread_join(all[i].thread, NULL);
    pthread_cond_destroy(&f->changed);
    pthread_mutex_destroy(&f->mutex);
    memcpy(wanted, before, BYTES);
    for (size_t i = 0; i < LISTS; i++)
        if (!f->is_withdrawn[i])
            do_in_order(wanted, &f->lists[i]);
    size_t same = 0;
    while (same < BYTES && f->memory[same] == wanted[same])
        same++;
    return same == BYTES;
}
