/* The call stack of a submission: how it is walked. */
#ifndef DSA_TRACE_WALK_H
#define DSA_TRACE_WALK_H

#include "trace.h"

/* Frame 0 is the instruction that submits; `at` of any other is a return address, which lies at `place`. `at` of a
 * frame that a signal has interrupted is one more than its instruction, so that a call ends before each. */
struct frame { uintptr_t at; const uintptr_t *place; };

/* `is_plain`: while each place has its return address, the stack is the same. */
struct walk { unsigned count; bool is_plain; struct frame frames[MOST_FRAMES]; };

/* Walks the stack up to so many frames, at least one. Its memory may be anything: what can't be read ends the walk. */
void walk_stack(struct walk *w, const struct submitter *s, unsigned most);
/* Whether the return addresses are where they were. */
bool walk_is_same(const struct frame *frames, unsigned count);

#endif
