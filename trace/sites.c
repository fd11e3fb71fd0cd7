/* Which places in the program's code are rewritten, and the rewriting. Other threads may execute the instruction
 * meanwhile, so it is done in steps, after each of which all processors fetch the code anew: its first byte becomes an
 * undefined instruction, then the others are changed, then the first. A thread that comes to the undefined one has a
 * signal, whose handler asks here for the code. So it waits for the lock, and never sees a part of a change. */
#include <pthread.h>
#include <string.h>

#include "sites.h"
#include "trace.h"

enum { SITES = 1024, ENOUGH = 2 /* signals at a site */ };

/* A table by address, of which no entry is removed. A full one takes no more sites, which then keep their signals. The
 * lock is taken with all signals blocked. */
static struct sites {
    pthread_mutex_t lock;
    bool is_on;
    struct site table[SITES];
} sites = {.lock = PTHREAD_MUTEX_INITIALIZER};

/// Whether sites can be rewritten here, and may be.
void sites_begin(void) { sites.is_on = !settings.signals && stub_begin() && patch_begin(); }

/// The entry of an address, or a free one, or NULL if there is neither.
static struct site *find(uintptr_t at)
{
    const unsigned first = (unsigned)((at * 0x9e3779b97f4a7c15u) >> 48) % SITES;
    for (unsigned i = 0; i < SITES; i++) {
        struct site *s = &sites.table[(first + i) % SITES];
        if (s->at == at || !s->at)
            return s;
    }
    return NULL;
}

/// Whether the program's memory has these bytes. It may have lost the page since.
static bool has(uintptr_t at, const uint8_t *bytes, size_t size)
{
    uint8_t there[LONGEST_CODE];
    return memory_copy(there, (const void *)at, size, NULL) && memcmp(there, bytes, size) == 0;
}

/// Copies what is at an address, up to the end of its page if no more can be read. Code that may be executed alone is
/// read by a file.
static void copy_code(uintptr_t at, uint8_t code[LONGEST_CODE])
{
    memset(code, 0, LONGEST_CODE);
    if (memory_copy(code, (const void *)at, LONGEST_CODE, NULL))
        return;
    const int file = patch_open();
    if (file >= 0)
        patch_read(file, at, code, LONGEST_CODE);
    patch_close(file);
}

/// The program's own code, as sites.h says. An entry may be of code that was unmapped, so the bytes decide.
bool sites_code(uintptr_t *at, uint8_t code[LONGEST_CODE])
{
    const struct site *s = stub_site(*at);
    if (s) {
        *at = s->at;
        memcpy(code, s->code, LONGEST_CODE);
        return true;
    }
    pthread_mutex_lock(&sites.lock);
    s = sites.is_on ? find(*at) : NULL;
    const bool is_ours = s && s->state == JUMPS && has(*at, s->jump, JUMP);
    if (is_ours)
        memcpy(code, s->code, LONGEST_CODE);
    else
        copy_code(*at, code);
    pthread_mutex_unlock(&sites.lock);
    return is_ours;
}

/// Puts other bytes in place of the first ones of a site, in steps.
static bool change(int file, uintptr_t at, const uint8_t bytes[JUMP])
{
    const uint8_t undefined = UNDEFINED;
    return patch_bytes(file, at, &undefined, 1) && patch_sync() && patch_bytes(file, at + 1, bytes + 1, JUMP - 1) &&
           patch_sync() && patch_bytes(file, at, bytes, 1) && patch_sync();
}

/// Puts the jump in place; false if it stays as it was.
static bool rewrite(struct site *s)
{
    if (!patch_is_private(s->at, s->length) || (!s->stub && !stub_make(s)))
        return false;
    const int file = patch_open();
    if (file < 0)
        return false;
    s->state = CHANGES;
    bool is_changed = has(s->at, s->code, s->length) && change(file, s->at, s->jump);
    if (!is_changed && !has(s->at, s->code, s->length) && !change(file, s->at, s->code))
        say("the code at %#lx is changed in part and can't be mended: use --signals", (unsigned long)s->at);
    patch_close(file);
    return is_changed;
}

/// Begins anew with an entry if other code is there than it has, or its jump is gone. The stub stays with the code.
static void begin_anew(struct site *s, uintptr_t at, const uint8_t *code, unsigned length)
{
    if (s->at != at || s->length != length || memcmp(s->code, code, length)) {
        *s = (struct site){.at = at, .length = (uint8_t)length};
        memcpy(s->code, code, length);
    } else if (s->state == JUMPS) {
        s->state = TRAPS;
        s->traps = 0;
    }
}

/// Counts a signal at a site, and rewrites it after a few.
void sites_note(uintptr_t at, const uint8_t *code, unsigned length)
{
    if (!sites.is_on)
        return;
    pthread_mutex_lock(&sites.lock);
    struct site *s = find(at);
    const bool is_done = s && s->state == JUMPS && has(at, s->jump, JUMP); /* by another thread, just now */
    if (s && !is_done) {
        begin_anew(s, at, code, length);
        if (s->state == TRAPS && ++s->traps >= ENOUGH)
            s->state = rewrite(s) ? JUMPS : STAYS;
    }
    pthread_mutex_unlock(&sites.lock);
}

/// In a child of fork, which has one thread: the lock may be taken, and code may be changed in part.
void sites_forget(void)
{
    pthread_mutex_init(&sites.lock, NULL);
    for (unsigned i = 0; i < SITES; i++) {
        struct site *s = &sites.table[i];
        const int file = s->state == CHANGES ? patch_open() : -1;
        if (s->state != CHANGES)
            continue;
        s->state = STAYS;
        if (file < 0 || !change(file, s->at, s->code))
            say("the code at %#lx is changed in part and can't be mended: use --signals", (unsigned long)s->at);
        patch_close(file);
    }
}
