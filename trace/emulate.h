/* Doing an instruction on saved registers. */
#ifndef DSA_TRACE_EMULATE_H
#define DSA_TRACE_EMULATE_H

#include "decode.h"
#include "trace.h"

/* The program's registers, numbered as decode.h numbers them. stub.c knows this layout. */
struct registers { uint64_t general[16], flags; };

/* What an instruction came to: a submission, done otherwise, none of ours, or a fault of the program. Only the first
 * two have changed anything. */
enum outcome { SUBMITTED, DONE, NOT_OURS, FAULTED, UNREADABLE, NO_PORTAL };

/* The instruction, the value of its register operand, and the fault, without an address for one of general
 * protection. */
struct emulated { struct instruction in; uint64_t to; struct fault fault; };

/* Does the instruction that `code` has and that runs at address `at`, and sets the flags; the caller goes on after it.
 */
enum outcome emulate(const uint8_t *code, uint64_t at, struct registers *r, struct emulated *e);

#endif
