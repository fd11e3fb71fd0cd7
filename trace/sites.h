/* Places in the program's code at which it submits: after a few signals at one, a jump to a stub of ours takes the
 * place of the instruction, since a signal costs far more than what is to be done. */
#ifndef DSA_TRACE_SITES_H
#define DSA_TRACE_SITES_H

#include <stdbool.h>
#include <stddef.h>
#include <stdint.h>

#include "decode.h"

/* Both instructions have at least the bytes of a jump. UNDEFINED is an instruction of one byte that raises SIGILL. */
enum { LONGEST_CODE = 15, JUMP = 5, UNDEFINED = 0xd6 };

struct stub;

/* TRAPS: the instruction is there, and raises a signal. CHANGES: a part of it is. JUMPS: the jump is there. STAYS: it
 * can't be put there. */
enum site_state { TRAPS, CHANGES, JUMPS, STAYS };

/* `code` is that of the program, `jump` ours. */
struct site {
    uintptr_t at;
    enum site_state state;
    unsigned traps;
    uint8_t length, code[LONGEST_CODE], jump[JUMP];
    struct stub *stub;
};

/* ---- sites.c ---- */
void sites_begin(void);
/* The program's own code at this address; true if a jump has taken its place. The address of a stub becomes that of its
 * site. */
bool sites_code(uintptr_t *at, uint8_t code[LONGEST_CODE]);
/* The instruction of this code has raised a signal, and was a submission. */
void sites_note(uintptr_t at, const uint8_t *code, unsigned length);
/* In a child of fork: mends what another thread of the parent was changing. */
void sites_forget(void);

/* ---- stub.c: the way from a site into this library, and out of it ---- */
/* Whether this processor can save all registers. */
bool stub_begin(void);
/* The stub of a site, made if it has none, and the jump to it; false if none can be made. */
bool stub_make(struct site *s);
/* The site of the stub that raises a signal at this address, since it can't do the instruction; NULL if it is none. */
const struct site *stub_site(uintptr_t at);

/* ---- patch.c: changing code that runs ---- */
/* Whether the kernel has what it takes. */
bool patch_begin(void);
/* Whether the range is code of one private mapping. */
bool patch_is_private(uintptr_t at, size_t size);
/* A file for the following; -1 if there is none. */
int patch_open(void);
bool patch_bytes(int file, uintptr_t at, const void *bytes, size_t size);
void patch_read(int file, uintptr_t at, void *bytes, size_t size);
/* After this no thread executes what was there before the last change. */
bool patch_sync(void);
void patch_close(int file);

#endif
